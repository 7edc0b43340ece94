//! A buffer to lend to the library, with canaries on both sides.

/// Elements that guard each side.
const GUARD: usize = 64;

/// An element of a lent buffer.
pub(crate) trait Element: Copy + PartialEq {
    fn of(bits: u32) -> Self;
}

impl Element for u8 {
    fn of(bits: u32) -> Self {
        (bits >> 24) as u8
    }
}

impl Element for u32 {
    fn of(bits: u32) -> Self {
        bits
    }
}

/// A canary is a whole number; what is lent may be any float.
impl Element for f64 {
    fn of(bits: u32) -> Self {
        Self::from(bits)
    }
}

/// Bits that look random and are the same on every run.
pub(crate) fn mixed(seed: u32, at: usize) -> u32 {
    let bits = (at as u32).wrapping_mul(0x9e37_79b9) ^ seed;
    (bits ^ (bits >> 15)).wrapping_mul(0x85eb_ca6b)
}

/// The canary at a place of the whole buffer.
fn canary<T: Element>(at: usize) -> T {
    T::of(mixed(0xc0ff_ee11, at))
}

pub(crate) struct Lent<T> {
    all: Vec<T>,
    start: usize,
    len: usize,
}

impl<T: Element> Lent<T> {
    pub(crate) fn new() -> Self {
        Self {
            all: Vec::new(),
            start: 0,
            len: 0,
        }
    }

    /// Fills the buffer anew, in the same allocation where it fits; `shift` elements more stand before it.
    pub(crate) fn fill(&mut self, shift: usize, contents: impl ExactSizeIterator<Item = T>) {
        (self.start, self.len) = (GUARD + shift, contents.len());
        self.all.clear();
        self.all.extend((0..self.start).map(canary::<T>));
        self.all.extend(contents);
        let end = self.start + self.len;
        self.all.extend((end..end + GUARD).map(canary::<T>));
    }

    pub(crate) fn slice(&self) -> &[T] {
        &self.all[self.start..self.start + self.len]
    }

    pub(crate) fn slice_mut(&mut self) -> &mut [T] {
        &mut self.all[self.start..self.start + self.len]
    }

    /// Whether no canary has changed.
    pub(crate) fn intact(&self) -> bool {
        let end = self.start + self.len;
        let stands = |at: usize| self.all[at] == canary(at);
        (0..self.start).all(stands) && (end..end + GUARD).all(stands)
    }

    /// A changed canary, told with the buffer's name.
    pub(crate) fn broken(&self, name: &str) -> Option<String> {
        (!self.intact()).then(|| format!("a write outside the {name}"))
    }
}

/// Scratch floats, for inside and fill.
pub(crate) type Floats = Lent<f64>;

impl Floats {
    /// The bits of a float before the call: zeros, NaNs, those of crossings, or any.
    fn before(junk: u32, at: usize) -> u64 {
        let any = u64::from(mixed(junk, at)) << 32 | u64::from(mixed(!junk, at));
        match junk & 3 {
            0 => 0,
            1 => u64::MAX,
            2 => (1.0 + at as f64).to_bits(),
            _ => any,
        }
    }

    /// Lays out so many floats.
    pub(crate) fn lay(&mut self, junk: u32, floats: usize) {
        let before = |at| f64::from_bits(Self::before(junk, at));
        self.fill(0, (0..floats).map(before));
    }

    /// A float that is not as it was, though the call did not pass 8.
    pub(crate) fn scratched(&self, answer: u64, junk: u32) -> Option<String> {
        if !matches!(answer, 3 | 8 | 17) {
            return None;
        }
        let changed = |(at, float): (usize, &f64)| float.to_bits() != Self::before(junk, at);
        let at = self.slice().iter().enumerate().position(changed)?;
        Some(format!("scratch float {at} changed"))
    }
}

/// What open and build are both lent.
pub(crate) struct Buffers {
    pub(crate) file: Lent<u8>,
    pub(crate) scratch: Lent<u32>,
    pub(crate) out: Lent<u8>,
}

impl Buffers {
    pub(crate) fn new() -> Self {
        Self {
            file: Lent::new(),
            scratch: Lent::new(),
            out: Lent::new(),
        }
    }

    /// A buffer with a changed canary.
    pub(crate) fn broken(&self) -> Option<String> {
        self.file
            .broken("file")
            .or_else(|| self.scratch.broken("scratch"))
            .or_else(|| self.out.broken("output"))
    }

    /// A word of scratch that is not as it was `before`, though the call did not pass 8.
    pub(crate) fn scratched(&self, answer: u64, before: impl Fn(usize) -> u32) -> Option<String> {
        let changed = |(at, &word): (usize, &u32)| word != before(at);
        let at = match answer {
            1..=8 => self.scratch.slice().iter().enumerate().position(changed)?,
            _ => return None,
        };
        Some(format!("scratch word {at} changed"))
    }
}

#[cfg(test)]
mod tests {
    use super::*;

    fn lent<T: Element>(shift: usize, contents: &[T]) -> Lent<T> {
        let mut lent = Lent::new();
        lent.fill(shift, contents.iter().copied());
        lent
    }

    #[test]
    fn contents_are_free_and_canaries_are_not() {
        let mut bytes = lent(3, &[1u8, 2, 3]);
        assert_eq!(bytes.slice(), [1, 2, 3]);
        bytes.slice_mut().fill(9);
        assert_eq!(bytes.slice(), [9, 9, 9]);
        assert!(bytes.intact());
        for at in (0..67).chain(70..134) {
            bytes.all[at] ^= 1;
            assert!(!bytes.intact(), "{at}");
            bytes.all[at] ^= 1;
        }
        assert!(bytes.intact());
    }

    #[test]
    fn empty_buffers_have_canaries() {
        let mut words = lent::<u32>(0, &[]);
        assert!(words.slice().is_empty() && words.intact());
        words.all[64] = 0;
        assert!(!words.intact());
        words.fill(0, [7].into_iter());
        assert!(words.intact());
        assert_eq!(words.slice(), [7]);
    }
}
