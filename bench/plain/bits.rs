//! Sets of small numbers.

/// A set of numbers below a bound, as bits.
pub struct Bits {
    words: Vec<u64>,
}

impl Bits {
    pub fn new(bound: usize) -> Bits {
        Bits { words: vec![0; bound.div_ceil(64)] }
    }

    pub fn set(&mut self, number: usize, is_in: bool) {
        let bit = 1 << (number % 64);
        let word = &mut self.words[number / 64];
        *word = if is_in { *word | bit } else { *word & !bit };
    }

    /// The least number.
    pub fn first(&self) -> Option<usize> {
        let place = self.words.iter().position(|bits| *bits != 0)?;
        Some(place * 64 + self.words[place].trailing_zeros() as usize)
    }

    /// The least number from this one on, and if there is none, the least of all.
    pub fn next_from(&self, number: usize) -> Option<usize> {
        let place = number / 64;
        let here = self.words[place] & (u64::MAX << (number % 64));
        if here != 0 {
            return Some(place * 64 + here.trailing_zeros() as usize);
        }
        let later = self.words[place + 1..].iter().position(|bits| *bits != 0).map(|more| place + 1 + more);
        match later {
            Some(place) => Some(place * 64 + self.words[place].trailing_zeros() as usize),
            None => self.first(),
        }
    }
}
