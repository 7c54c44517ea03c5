//! Compares the library with the Rust, script by script, word by word. See ../README.md.
#[path = "../../bindings/dinqosa.rs"]
mod dinqosa;
mod part;
mod work;
use dinqosa::{ANSWER_WORDS, PROGRAM_WORDS, STATE_WORDS};
use part::{Part, RED};
use work::{cut, Tool, Unit};

const TOOL: Tool = Tool {
    name: "scale",
    things: "scripts",
    counted: "answered",
    usage: "usage: scale [--scripts N] [--sequences LENGTH] [--seed N] [--threads N] [--ledger FILE]",
};

/// Scripts of a mode: by seed, or all sequences of a length in a frame.
#[derive(Clone)]
enum Source {
    Seeded(&'static str, u64),
    Sequence(usize, u32),
}

impl work::Source for Source {
    fn name(&self) -> String {
        match self {
            Source::Seeded(mode, seed) => format!("{mode} seed {seed}"),
            Source::Sequence(frame, length) => format!("sequences frame {frame} length {length}"),
        }
    }

    fn one(&self, i: u64) -> Vec<u8> {
        match *self {
            Source::Seeded(mode, seed) => generate::one(mode, seed, i, None),
            Source::Sequence(frame, length) => generate::sequence(frame, length, i),
        }
    }
}

/// In a hundred scripts by seed: grammar-aware ones (good, limits, lists), damaged ones, words at random.
const SHARES: [(&str, u64); 5] = [("good", 52), ("damaged", 8), ("words", 38), ("limits", 1), ("lists", 1)];
/// Full waiting lists take the Rust long: at most this many.
const LISTS_MOST: u64 = 2_000;

fn units(scripts: u64, length: u32, seed: u64) -> Vec<Unit<Source>> {
    let mut all = Vec::new();
    let mut left = scripts;
    for length in 0..=length {
        for frame in 0..generate::frames() {
            let count = generate::sequences(length).min(left);
            left -= count;
            cut(&mut all, Source::Sequence(frame, length), count, 100_000);
        }
    }
    for (mode, share) in SHARES {
        let count = left * share / 100;
        let (count, size) = match mode {
            "lists" => (count.min(LISTS_MOST), 50),
            "limits" => (count, 1_000),
            _ => (count, 20_000),
        };
        cut(&mut all, Source::Seeded(mode, seed), count, size);
    }
    all
}

struct Bench {
    expected: Vec<u64>,
    answer: Part,
    program: Part,
    state: Part,
}

impl Bench {
    fn new() -> Bench {
        Bench { expected: vec![0; ANSWER_WORDS], answer: Part::new(ANSWER_WORDS), program: Part::new(PROGRAM_WORDS), state: Part::new(STATE_WORDS) }
    }

    /// What differs; with `whole` also work memory, red zones, and memory that was dirty before.
    fn differs(&mut self, script: &[u8], whole: bool) -> Option<&'static str> {
        if whole {
            self.answer.lent().fill(RED);
            self.program.lent().fill(RED);
            self.state.lent().fill(RED);
        }
        let wanted = limited::image::image(script, &mut self.expected);
        let got = match dinqosa::analyze(script, self.answer.lent(), self.program.lent(), self.state.lent()) {
            Ok(()) => 0,
            Err(refusal) => refusal.number(),
        };
        if wanted != got {
            return Some("the result");
        }
        let (expected, untouched) = (&self.expected, got == 1 || got == 2);
        if !untouched && self.answer.lent() != &expected[..] {
            return Some("the answer part");
        }
        if whole {
            if !self.answer.zones_whole() || !self.program.zones_whole() || !self.state.zones_whole() {
                return Some("a red zone");
            }
            let work = if untouched { RED } else { 0 };
            if self.program.lent().iter().chain(self.state.lent().iter()).any(|w| *w != work) {
                return Some("work memory");
            }
            if untouched && self.answer.lent().iter().any(|w| *w != RED) {
                return Some("an answer part that should be untouched");
            }
        }
        None
    }
}

fn main() {
    let ([scripts, length, seed, threads], ledger) = TOOL.words([("scripts", 100_400_000), ("sequences", 5), ("seed", 1), ("threads", 2)]);
    limited::driver::set_up();
    let about = format!("seed {seed}, sequences up to {length} words");
    TOOL.run(units(scripts, length as u32, seed), &about, threads, &ledger, || {
        let mut bench = Bench::new();
        move |i, script: &[u8]| match bench.differs(script, i % 64 == 0) {
            None => Ok(bench.expected[1] != 0),
            Some(what) => Err(what),
        }
    });
}
