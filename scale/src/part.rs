//! Lent words with a red zone on both sides.

const ZONE: usize = 16;
pub const RED: u64 = 0x5eed_5eed_5eed_5eed;

pub struct Part {
    words: Vec<u64>,
    length: usize,
}

impl Part {
    pub fn new(length: usize) -> Part {
        Part { words: vec![RED; length + 2 * ZONE], length }
    }

    pub fn lent(&mut self) -> &mut [u64] {
        self.longer(0)
    }

    /// With the first words of the zone behind it.
    pub fn longer(&mut self, more: usize) -> &mut [u64] {
        &mut self.words[ZONE..ZONE + self.length + more]
    }

    pub fn zones_whole(&self) -> bool {
        self.words[..ZONE].iter().chain(&self.words[ZONE + self.length..]).all(|w| *w == RED)
    }
}
