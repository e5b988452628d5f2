//! A set of small numbers, by bits: so many words of them.

const WIDTH: u32 = u64::BITS;

pub struct Numbers<const WORDS: usize> {
    words: [u64; WORDS],
    /// Which words have a bit.
    filled: u32,
}

impl<const WORDS: usize> Default for Numbers<WORDS> {
    fn default() -> Self {
        Numbers {
            words: [0; WORDS],
            filled: 0,
        }
    }
}

impl<const WORDS: usize> Numbers<WORDS> {
    pub fn below(end: u32) -> Self {
        let mut all = Numbers::default();
        for (at, word) in (0..end.div_ceil(WIDTH)).zip(&mut all.words) {
            *word = u64::MAX >> (WIDTH - WIDTH.min(end - at * WIDTH));
            all.filled |= 1 << at;
        }
        all
    }

    #[inline]
    pub fn insert(&mut self, number: u32) {
        self.words[(number / WIDTH) as usize] |= 1 << (number % WIDTH);
        self.filled |= 1 << (number / WIDTH);
    }

    #[inline]
    pub fn remove(&mut self, number: u32) {
        let word = &mut self.words[(number / WIDTH) as usize];
        *word &= !(1 << (number % WIDTH));
        if *word == 0 {
            self.filled &= !(1 << (number / WIDTH));
        }
    }

    #[inline]
    pub fn least(&self) -> Option<u32> {
        let first = self.filled.trailing_zeros();
        let word = self.words.get(first as usize)?;
        Some(first * WIDTH + word.trailing_zeros())
    }

    /// The least number behind another one.
    pub fn next(&self, number: u32) -> Option<u32> {
        let at = number / WIDTH;
        let left = self.words[at as usize] & (u64::MAX << 1 << (number % WIDTH));
        if left != 0 {
            return Some(at * WIDTH + left.trailing_zeros());
        }
        let first = (self.filled & (u32::MAX << 1 << at)).trailing_zeros();
        let word = self.words.get(first as usize)?;
        Some(first * WIDTH + word.trailing_zeros())
    }
}
