//! Reads the texts of scale/texts with wrong readers, beside the right one: for each the first text that tells it. Built by ../wrong.
mod part;
mod sources;
mod work;
use part::RED;
use readers::{Reader, RIGHT, WORDS, WRONG};
use std::panic::{catch_unwind, AssertUnwindSafe};
use std::sync::atomic::{AtomicU64, AtomicUsize, Ordering::Relaxed};
use work::{Source, Tool};

const TOOL: Tool =
    Tool { name: "wrong", things: "texts", counted: "read", usage: "usage: wrong [--texts N] [--sequences LENGTH] [--seed N] [--threads N]" };

/// What a reader tells of a text, none if it panics; the words, dirty before, hold what it leaves.
fn read(reader: Reader, text: &[u8], words: &mut [u64]) -> Option<String> {
    words.fill(RED);
    catch_unwind(AssertUnwindSafe(|| reader(text, words))).ok()
}

fn main() {
    let ([texts, length, seed, threads], _) = TOOL.words([("texts", 20_000), ("sequences", 3), ("seed", 1), ("threads", 2)]);
    limited::driver::set_up();
    std::panic::set_hook(Box::new(|_| {}));
    let units = sources::units(texts, length as u32, seed);
    let (next, first) = (AtomicUsize::new(0), WRONG.map(|_| AtomicU64::new(u64::MAX)));
    // a text's place: its unit's, then its number; once a reader is told, only texts before are asked
    let work = || {
        let (mut wanted, mut words) = (vec![0; WORDS], vec![0; WORDS]);
        loop {
            let at = next.fetch_add(1, Relaxed);
            let Some(unit) = units.get(at) else { return };
            for i in unit.from..unit.to {
                let place = (at as u64) << 32 | i;
                let left: Vec<usize> = (0..WRONG.len()).filter(|k| first[*k].load(Relaxed) > place).collect();
                if left.is_empty() {
                    break;
                }
                let text = unit.source.one(i);
                let told = read(RIGHT, &text, &mut wanted).expect("the right reader doesn't panic");
                for k in left {
                    if read(WRONG[k], &text, &mut words).as_ref() != Some(&told) || words != wanted {
                        first[k].fetch_min(place, Relaxed);
                    }
                }
            }
        }
    };
    std::thread::scope(|scope| {
        for _ in 0..threads {
            std::thread::Builder::new().stack_size(1 << 28).spawn_scoped(scope, work).expect("a thread");
        }
    });
    println!("{}", units.iter().map(|unit| unit.to - unit.from).sum::<u64>());
    for place in first.map(AtomicU64::into_inner) {
        match units.get((place >> 32) as usize) {
            Some(unit) => println!("{} number {}", unit.source.name(), place as u32),
            None => println!("none"),
        }
    }
}
