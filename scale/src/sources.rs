//! Which texts are read: all sequences of a few short lines, then texts by seed. See ../README.md.
use crate::work::{self, cut, Unit};

/// Texts of a mode: by seed, or all sequences of so many short lines.
#[derive(Clone)]
pub enum Source {
    Seeded(&'static str, u64),
    Sequence(u32),
}

impl work::Source for Source {
    fn name(&self) -> String {
        match self {
            Source::Seeded(mode, seed) => format!("{mode} seed {seed}"),
            Source::Sequence(length) => format!("sequences length {length}"),
        }
    }

    fn one(&self, i: u64) -> Vec<u8> {
        match *self {
            Source::Seeded(mode, seed) => texts::one(mode, seed, i),
            Source::Sequence(length) => texts::sequence(length, i),
        }
    }
}

/// In a hundred texts by seed: answers of scripts, other legal records, damaged ones, frames at random, foreign ones; and wide ones, of megabytes.
const SHARES: [(&str, u64); 6] = [("answers", 15), ("records", 20), ("damaged", 45), ("frames", 12), ("foreign", 7), ("wide", 1)];
/// Wide texts take long: at most this many.
const WIDE_MOST: u64 = 2_000;

pub fn units(texts: u64, length: u32, seed: u64) -> Vec<Unit<Source>> {
    let mut all = Vec::new();
    let mut left = texts;
    for length in 0..=length {
        let count = texts::sequences(length).min(left);
        left -= count;
        cut(&mut all, Source::Sequence(length), count, 20_000);
    }
    for (mode, share) in SHARES {
        let count = left * share / 100;
        let (count, size) = if mode == "wide" { (count.min(WIDE_MOST), 50) } else { (count, 5_000) };
        cut(&mut all, Source::Seeded(mode, seed), count, size);
    }
    all
}
