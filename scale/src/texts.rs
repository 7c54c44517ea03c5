//! Compares the library's reader of stored answers with the reference's, text by text, word by word. See ../README.md.
#[path = "../../bindings/dinqosa.rs"]
mod dinqosa;
mod part;
mod sources;
mod work;
use dinqosa::{Loaded, Unread, ANSWER_WORDS};
use part::{Part, RED};
use stored::Stored;
use work::Tool;

const TOOL: Tool = Tool {
    name: "texts",
    things: "texts",
    counted: "read",
    usage: "usage: texts [--texts N] [--sequences LENGTH] [--seed N] [--threads N] [--ledger FILE]",
};

/// What the library says, in the reference's words; none if its memory was too short.
fn told(result: Result<Loaded, Unread>) -> Option<Stored> {
    match result {
        Ok(Loaded::Answer) => Some(Stored::Answer),
        Ok(Loaded::Refusal(refusal)) => Some(Stored::Refusal(refusal.number())),
        Err(Unread::IllegalLine) => Some(Stored::Refused(21)),
        Err(Unread::Misplaced) => Some(Stored::Refused(22)),
        Err(Unread::MemoryTooShort) => None,
    }
}

/// The words behind the published length in a longer part.
const MORE: usize = 5;

struct Bench {
    expected: Vec<u64>,
    answer: Part,
    short: Part,
}

impl Bench {
    fn new() -> Bench {
        Bench { expected: vec![0; ANSWER_WORDS], answer: Part::new(ANSWER_WORDS), short: Part::new(ANSWER_WORDS - 1) }
    }

    /// Whether the text is a record's, or what differs; with `whole` also red zones, memory that was dirty before, a part that is longer, and one that is a word short.
    fn read(&mut self, text: &[u8], whole: bool) -> Result<bool, &'static str> {
        if whole {
            self.answer.lent().fill(RED);
        }
        let wanted = stored::read(text, &mut self.expected);
        let more = if whole { MORE } else { 0 };
        if told(dinqosa::read(text, self.answer.longer(more))) != Some(wanted) {
            return Err("the result");
        }
        if self.answer.lent() != &self.expected[..] {
            return Err("the answer part");
        }
        if whole {
            if told(dinqosa::read(text, self.short.lent())).is_some() {
                return Err("the result with a part one word short");
            }
            if self.short.lent().iter().any(|w| *w != RED) || !self.short.zones_whole() {
                return Err("a part one word short, which should be untouched");
            }
            if !self.answer.zones_whole() {
                return Err("a red zone");
            }
        }
        Ok(!matches!(wanted, Stored::Refused(_)))
    }
}

fn main() {
    let ([texts, length, seed, threads], ledger) = TOOL.words([("texts", 1_010_000), ("sequences", 4), ("seed", 1), ("threads", 2)]);
    limited::driver::set_up();
    let about = format!("seed {seed}, sequences up to {length} lines");
    TOOL.run(sources::units(texts, length as u32, seed), &about, threads, &ledger, || {
        let mut bench = Bench::new();
        move |i, text: &[u8]| bench.read(text, i % 16 == 0)
    });
}
