//! An area that is lent to the engine, with guard bytes around it.

/// How many guard entries stand before and behind an area.
const GUARD: usize = 64;

/// What a guard entry is at a place: no one value, so that a guard overwritten
/// with any one value is seen.
fn guard<T: From<u8>>(place: usize) -> T {
    T::from((place as u8).wrapping_mul(37) ^ 0x5A)
}

/// An area inside a longer buffer: of bytes, or of the numbers of 16 bits that
/// positions are.
pub struct Area<T> {
    buffer: Vec<T>,
    begin: usize,
    length: usize,
}

impl<T: Copy + From<u8> + PartialEq> Area<T> {
    /// A buffer for areas of up to a length.
    pub fn new(longest: usize) -> Area<T> {
        Area { buffer: vec![T::from(0); longest + 3 * GUARD], begin: GUARD, length: 0 }
    }

    /// Lays a content into the area and sets its guards. The area is moved
    /// within its buffer by less than a guard, so that it has every alignment.
    pub fn lay(&mut self, content: &[T], shift: usize) {
        self.begin = GUARD + shift % GUARD;
        self.length = content.len();
        let (begin, end) = (self.begin, self.begin + self.length);
        self.buffer[begin..end].copy_from_slice(content);
        for place in (begin - GUARD..begin).chain(end..end + GUARD) {
            self.buffer[place] = guard(place);
        }
    }

    pub fn content(&self) -> &[T] {
        &self.buffer[self.begin..self.begin + self.length]
    }

    pub fn content_mut(&mut self) -> &mut [T] {
        &mut self.buffer[self.begin..self.begin + self.length]
    }

    /// Whether the guards are as they were set.
    pub fn guarded(&self) -> bool {
        let (begin, end) = (self.begin, self.begin + self.length);
        (begin - GUARD..begin).chain(end..end + GUARD).all(|place| self.buffer[place] == guard(place))
    }
}

#[cfg(test)]
mod tests {
    use super::*;

    #[test]
    fn a_changed_guard_is_seen_on_both_sides() {
        let mut area = Area::<u8>::new(10);
        for (length, shift) in [(0, 0), (10, 63), (3, 7)] {
            area.lay(&vec![1; length], shift);
            assert!(area.guarded());
            for place in
                [area.begin - GUARD, area.begin - 1, area.begin + length, area.begin + length + GUARD - 1]
            {
                area.buffer[place] ^= 1;
                assert!(!area.guarded());
                area.buffer[place] ^= 1;
            }
        }
    }

    #[test]
    fn writing_an_area_leaves_its_guards() {
        let mut area = Area::<u16>::new(10);
        area.lay(&[1_000; 10], 5);
        area.content_mut().fill(0);
        assert!(area.guarded());
        assert_eq!(area.content(), [0; 10]);
    }
}
