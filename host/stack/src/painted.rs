//! A stack that is painted before a call, so that what the call wrote is seen.

use std::arch::asm;

/// Far more than any call uses; see `BOUND` in `main.rs`.
const WORDS: usize = 32_768;

/// How many words at the low end must stay painted, or the stack was too short.
const SPARE: usize = 512;

/// How many arguments stand in registers, and how many have room on the stack.
const IN_REGISTERS: usize = 6;
const STACKED: usize = 6;

/// The length of a word of the stack.
const WORD: usize = size_of::<u64>();

/// A call of the engine: a function of C, and its arguments.
pub struct Call {
    pub function: *const (),
    pub arguments: Vec<usize>,
}

/// The stack. It is kept at one place, so that two calls with the same
/// arguments write the same addresses to it.
pub struct Painted {
    words: Vec<u64>,
    /// How many arguments of the last call stood on the stack.
    stacked: usize,
}

impl Painted {
    pub fn new() -> Painted {
        Painted { words: (0..WORDS).map(paint).collect(), stacked: 0 }
    }

    /// Paints the stack and makes a call on it. Answers what the call answers.
    ///
    /// # Safety
    ///
    /// The function must take its arguments by the C convention, as integers
    /// and pointers, answer a number, and be right to call with these.
    pub unsafe fn call(&mut self, call: &Call) -> u64 {
        let lowest = self.lowest();
        self.words.iter_mut().enumerate().skip(lowest).for_each(|(place, word)| *word = paint(place));
        // The convention: six arguments in registers, the others at the top of the stack, aligned to 16.
        let top = self.top();
        let mut arguments = [0; IN_REGISTERS + STACKED];
        arguments[..call.arguments.len()].copy_from_slice(&call.arguments);
        self.stacked = call.arguments.len().saturating_sub(IN_REGISTERS);
        for (place, argument) in arguments[IN_REGISTERS..].iter().enumerate() {
            self.words[top + place] = *argument as u64;
        }
        let [a, b, c, d, e, f, ..] = arguments;
        let answer;
        // SAFETY: the stack pointer is kept above the arguments during the call; it and the registers that a
        // function saves are as before afterwards. The words are this value's alone, and the caller vouches for
        // the function. What it saves on the painted stack is 0, so that what it leaves there is its own.
        unsafe {
            asm!(
                "push rbx", "push rbp", "push r12", "push r13", "push r14", "push r15",
                "mov [r10 + 48], rsp",
                "mov rsp, r10",
                "xor ebx, ebx", "xor ebp, ebp", "xor r12, r12", "xor r13, r13", "xor r14, r14", "xor r15, r15",
                "call r11",
                "mov rsp, [rsp + 48]",
                "pop r15", "pop r14", "pop r13", "pop r12", "pop rbp", "pop rbx",
                in("r10") self.words.as_mut_ptr().add(top), in("r11") call.function,
                in("rdi") a, in("rsi") b, in("rdx") c, in("rcx") d, in("r8") e, in("r9") f,
                lateout("rax") answer,
                clobber_abi("C"),
            );
        }
        answer
    }

    /// Where the stack ends: below the one or two words that keep the stack
    /// pointer, so that it is aligned.
    fn end(&self) -> usize {
        let odd = (self.words.as_ptr_range().end as usize / WORD) % 2;
        self.words.len() - 2 + odd
    }

    /// Where the arguments begin that stand on the stack.
    fn top(&self) -> usize {
        self.end() - STACKED
    }

    /// The lowest word that is not painted.
    fn lowest(&self) -> usize {
        let lowest = self.words.iter().enumerate().position(|(place, word)| *word != paint(place));
        let lowest = lowest.unwrap_or(self.end());
        assert!(lowest >= SPARE, "the painted stack is too short");
        lowest
    }

    /// How many bytes of the stack the last call used, from the arguments that
    /// it found there to the lowest byte that it wrote, in whole words.
    pub fn used(&self) -> usize {
        self.left().len()
    }

    /// What the last call left on the stack, from the lowest byte that it wrote.
    pub fn left(&self) -> &[u8] {
        let words = &self.words[self.lowest()..self.top() + self.stacked];
        // SAFETY: words are bytes, as many as said.
        unsafe { std::slice::from_raw_parts(words.as_ptr().cast(), words.len() * WORD) }
    }
}

/// The paint of a word: another one at each place, and no likely value.
fn paint(place: usize) -> u64 {
    (place as u64 + 1).wrapping_mul(0x9E37_79B9_7F4A_7C15)
}

#[cfg(test)]
mod tests {
    use super::*;

    macro_rules! sum {
        ($($name:ident)*) => {
            /// The sum of its arguments, each times its place.
            extern "C" fn sum($($name: u64),*) -> u64 {
                [$($name),*].iter().zip(1..).map(|(argument, place)| argument * place).sum()
            }
        };
    }

    sum!(a b c d e f g h i j k l);

    /// Writes to so many bytes of its stack at least.
    extern "C" fn deep(bytes: usize) -> u64 {
        let mut kept = [0u8; 64];
        kept[bytes % 64] = 1;
        std::hint::black_box(&mut kept);
        let below = if bytes > 64 { deep(bytes - 64) } else { 0 };
        below + u64::from(std::hint::black_box(kept)[bytes % 64])
    }

    #[test]
    fn a_call_has_its_arguments() {
        let mut stack = Painted::new();
        for count in [2, 10, 12] {
            let call = Call { function: sum as *const (), arguments: (1..=count).collect() };
            // SAFETY: the function takes twelve numbers; those that are missing are 0.
            let answer = unsafe { stack.call(&call) };
            assert_eq!(answer, (1..=count as u64).map(|n| n * n).sum());
        }
    }

    #[test]
    fn a_call_is_measured() {
        let mut stack = Painted::new();
        let mut use_of = |bytes: usize| {
            // SAFETY: the function takes a number.
            unsafe { stack.call(&Call { function: deep as *const (), arguments: vec![bytes] }) };
            stack.used()
        };
        let (more, less) = (use_of(6_400), use_of(640));
        assert!(more >= 6_400 && less >= 640 && less < more / 5);
    }
}
