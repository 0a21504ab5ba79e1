//! Tracers' messages: one pass over the bytes, and then the values of the seven names are written.
//!
//! Nothing is written before all lines are checked, since a message that is out of form leaves the result area as it
//! was. Kinds of bytes are looked up in tables, a byte a step: eight a step gained nothing on the typical message of the
//! benchmark, and lost on its short lines.

use super::Refused;

const MESSAGE: usize = 4096;
const NAME: usize = 8;
const VALUE: usize = 80;

/// Whether a byte may stand in a name, by byte.
const NAMES: [bool; 256] = {
    let mut table = [false; 256];
    let mut byte = 0;
    while byte < 256 {
        table[byte] = (byte as u8).is_ascii_uppercase() || (byte as u8).is_ascii_digit();
        byte += 1;
    }
    table
};

/// Whether a byte may stand in a value, by byte.
const VALUES: [bool; 256] = {
    let mut table = [false; 256];
    let mut byte = 0x20;
    while byte < 0x7f {
        table[byte] = byte as u8 != b';';
        byte += 1;
    }
    table
};

/// The values of one of the seven lines: the first, and the second if there is one.
#[derive(Clone, Copy)]
struct Values<'m> {
    first: &'m [u8],
    second: Option<&'m [u8]>,
}

/// The values by label, from 1.
type Seven<'m> = [Option<Values<'m>>; 7];

/// Makes the array of a message: its length, or the number of the refusal.
pub fn trace(message: &[u8], result: &mut [u8]) -> Result<usize, Refused> {
    if message.len() > MESSAGE {
        return Err(13);
    }
    let seven = read(message).ok_or(13u32)?;
    let mut out = Out { area: result, at: 0 };
    if out.array(&seven).is_none() {
        result.fill(0);
        return Err(10);
    }
    Ok(out.at)
}

/// All lines, or nothing if one is out of form or one of the seven comes twice.
fn read(message: &[u8]) -> Option<Seven<'_>> {
    let mut seven = [None; 7];
    let mut at = 0;
    while at < message.len() {
        let (word, name) = name_at(message, at)?;
        let (values, end) = values_at(message, name + 1)?;
        if message[end] != b'\r' || *message.get(end + 1)? != b'\n' {
            return None;
        }
        let label = label(word);
        if label != 0 && seven[label - 1].replace(values).is_some() {
            return None;
        }
        at = end + 2;
    }
    Some(seven)
}

/// The bytes of the name that begins at `from` as one number, and where its equals sign stands.
#[inline]
fn name_at(message: &[u8], from: usize) -> Option<(u64, usize)> {
    let (mut word, mut at) = (0, from);
    while NAMES[usize::from(*message.get(at)?)] {
        word = word << 8 | u64::from(message[at]);
        at += 1;
    }
    let good = (1..=NAME).contains(&(at - from)) && message[from] >= b'A' && message[at] == b'=';
    good.then_some((word, at))
}

/// The values that begin at `from`, and where they end: some byte stands there.
#[inline]
fn values_at(message: &[u8], from: usize) -> Option<(Values<'_>, usize)> {
    let mut end = value_end(message, from)?;
    let mut values = Values { first: &message[from..end], second: None };
    if message[end] == b';' {
        let begin = end + 1;
        end = value_end(message, begin)?;
        values.second = Some(&message[begin..end]);
    }
    Some((values, end))
}

/// Where the value that begins at `from` ends: some byte stands there.
#[inline]
fn value_end(message: &[u8], from: usize) -> Option<usize> {
    let mut at = from;
    while VALUES[usize::from(*message.get(at)?)] {
        at += 1;
    }
    (at - from <= VALUE).then_some(at)
}

fn label(word: u64) -> usize {
    const fn word_of(name: &[u8]) -> u64 {
        match name {
            [] => 0,
            [before @ .., last] => word_of(before) << 8 | *last as u64,
        }
    }
    const JOB: u64 = word_of(b"JOB");
    const DBL: u64 = word_of(b"DBL");
    const HBOX: u64 = word_of(b"HBOX");
    const VBOX: u64 = word_of(b"VBOX");
    const FED: u64 = word_of(b"FED");
    const IPD: u64 = word_of(b"IPD");
    const DO: u64 = word_of(b"DO");
    match word {
        JOB => 1,
        DBL => 2,
        HBOX => 3,
        VBOX => 4,
        FED => 5,
        IPD => 6,
        DO => 7,
        _ => 0,
    }
}

/// The number that a value is, in hundredths, if it is one.
fn hundredths(value: &[u8]) -> Option<i64> {
    let (minus, digits) = match value {
        [b'-', digits @ ..] => (true, digits),
        _ => (false, value),
    };
    // at most six digits, a point, two digits
    if digits.len() > 9 {
        return None;
    }
    let point = digits.iter().position(|byte| *byte == b'.').unwrap_or(digits.len());
    let whole = decimal(&digits[..point]).filter(|_| point <= 6)?;
    let part = match digits[point..] {
        [] => 0,
        [_, tenths] => 10 * decimal(&[tenths])?,
        [_, tenths, hundredths] => decimal(&[tenths, hundredths])?,
        _ => return None,
    };
    let number = 100 * whole + part;
    Some(if minus { -number } else { number })
}

/// The number that one or more digits write.
#[inline]
fn decimal(digits: &[u8]) -> Option<i64> {
    let add = |number: i64, byte: &u8| byte.is_ascii_digit().then(|| 10 * number + i64::from(byte - b'0'));
    (!digits.is_empty()).then(|| digits.iter().try_fold(0, add))?
}

/// The area, and how much of it is written. What has no room is nothing.
struct Out<'a> {
    area: &'a mut [u8],
    at: usize,
}

impl Out<'_> {
    /// The array of one tree.
    fn array(&mut self, seven: &Seven<'_>) -> Option<()> {
        // the heads of array and tree, whose lengths follow, and the void root
        self.put(&[1, 0, 0, 2, 0, 0, 3, 0, 0])?;
        for (at, values) in seven.iter().enumerate() {
            if let Some(values) = values {
                self.label(at as u8 + 1, values)?;
            }
        }
        self.close(0);
        self.close(3);
        Some(())
    }

    fn label(&mut self, label: u8, values: &Values<'_>) -> Option<()> {
        let from = self.at;
        self.put(&[7, 0, 0, label, 1, 0, 0])?;
        self.value(label, values.first)?;
        if let Some(second) = values.second {
            self.value(label, second)?;
        }
        self.close(from);
        self.close(from + 4);
        Some(())
    }

    /// The tree of a value.
    fn value(&mut self, label: u8, value: &[u8]) -> Option<()> {
        if value.is_empty() {
            return self.put(&[2, 0, 3, 3, 0, 0]);
        }
        if let Some(number) = hundredths(value).filter(|_| label != 1) {
            self.put(&[2, 0, 11, 5, 0, 8])?;
            return self.put(&number.to_be_bytes());
        }
        let length = value.len() as u8;
        self.put(&[2, 0, length + 3, 6, 0, length])?;
        self.put(value)
    }

    #[inline]
    fn put(&mut self, bytes: &[u8]) -> Option<()> {
        let end = self.at + bytes.len();
        self.area.get_mut(self.at..end)?.copy_from_slice(bytes);
        self.at = end;
        Some(())
    }

    /// Writes the length of the field that begins there and ends here.
    fn close(&mut self, from: usize) {
        let length = (self.at - from - 3) as u16;
        self.area[from + 1..from + 3].copy_from_slice(&length.to_be_bytes());
    }
}

#[cfg(test)]
mod tests {
    use super::*;
    use reference::generate::Random;

    fn value(random: &mut Random) -> Vec<u8> {
        let (most, bytes) =
            random.pick(&[(0, &b"0"[..]), (4, b"0189.-"), (10, b"0123456789.-"), (81, b"xyz =0")]);
        let length = random.between(0, most);
        (0..length).map(|_| random.pick(bytes)).collect()
    }

    /// Lines of the seven names and of others, most of them in form.
    fn message(random: &mut Random) -> Vec<u8> {
        let mut message = Vec::new();
        for name in [&b"IPD"[..], b"JOB", b"X", b"DBL", b"DO", b"DOX", b"HBOX", b"A1B2C3D4", b"FED", b"VBOX"]
        {
            for _ in 0..random.pick(&[0, 1, 1, 1, 1, 1, 1, 1, 1, 1, 1, 1, 1, 2]) {
                let values = if random.chance(50) {
                    value(random)
                } else {
                    [value(random), value(random)].join(&b';')
                };
                message.extend([name, b"=", &values, b"\r\n"].concat());
            }
        }
        if random.chance(30) {
            let at = random.below(message.len() + 1);
            message.insert(at, random.pick(b"\r\n;=.-0A\x1f\x20\x7e\x7f\x80\xff"));
        }
        message
    }

    /// Number, length and every byte of the result area.
    #[test]
    fn answers_as_the_engine() {
        let mut random = Random::new(13);
        let mut seen = [0; 14];
        for _ in 0..20_000 {
            let message = message(&mut random);
            let mut given = vec![7; random.pick(&[0, 8, 9, 60, 200, 1262, 2000])];
            let mut expected = given.clone();
            let number = tquery::trace(&message, &mut expected).map_err(|r| r.number());
            assert_eq!(trace(&message, &mut given), number, "{:?}", String::from_utf8_lossy(&message));
            assert!(given == expected, "{:?}", String::from_utf8_lossy(&message));
            seen[number.err().unwrap_or(0) as usize] += 1;
        }
        assert!([0, 10, 13].iter().all(|number| seen[*number] > 1_000), "{seen:?}");
    }

    #[test]
    fn a_message_has_at_most_4096_bytes() {
        let of =
            |length: usize| [&b"A=1234\r\n".repeat(511)[..], b"A=", &vec![b'x'; length], b"\r\n"].concat();
        assert_eq!([4, 5].map(|more| of(more).len()), [4096, 4097]);
        assert_eq!([4, 5].map(|more| trace(&of(more), &mut [7; 9])), [Ok(9), Err(13)]);
    }
}
