//! Runs wrong rules, each behind `wrong(NUMBER)` in the text above, over scripts; written behind the compared Rust by vectors/wrong.
use super::*;
use std::io::{Read, Write};
use std::sync::atomic::{AtomicU32, AtomicU64, Ordering::Relaxed};

static RULE: AtomicU32 = AtomicU32::new(0);
static STEPS: AtomicU64 = AtomicU64::new(0);
/// More entries than any script takes off by the right rules; a wrong rule may never end.
const MOST: u64 = 40_000_000;

/// Is this the rule that is broken in this run? Rules count from 1; 0 breaks none.
#[inline(always)]
pub fn wrong(rule: u32) -> bool {
    RULE.load(Relaxed) == rule
}

pub fn step() {
    if STEPS.fetch_add(1, Relaxed) > MOST {
        driver::refuse(254);
    }
}

fn answer(rule: u32, script: &[u8]) -> String {
    RULE.store(rule, Relaxed);
    STEPS.store(0, Relaxed);
    driver::answer(script)
}

fn parts(data: &[u8]) -> Vec<&[u8]> {
    let (mut all, mut at) = (vec![], 0);
    while at < data.len() {
        let length = u32::from_be_bytes(data[at..at + 4].try_into().unwrap()) as usize;
        all.push(&data[at + 4..at + 4 + length]);
        at += 4 + length;
    }
    all
}

/// RULE SCRIPTS FRAMES: the place of the first script whose frames differ, or `none`.
/// RULE,RULE,..: of the scripts on standard input, `RULE PLACE` for each that this rule answers otherwise than the right ones.
fn run(words: Vec<String>) {
    let out = std::io::stdout();
    if words.len() == 3 {
        let (scripts, frames) = (std::fs::read(&words[1]).unwrap(), std::fs::read(&words[2]).unwrap());
        let rule = words[0].parse().unwrap();
        let differs = |(script, frames): (&&[u8], &&[u8])| answer(rule, script).as_bytes() != *frames;
        match parts(&scripts).iter().zip(parts(&frames).iter()).position(differs) {
            Some(place) => println!("{place}"),
            None => println!("none"),
        }
        return;
    }
    let rules: Vec<u32> = words[0].split(',').map(|rule| rule.parse().unwrap()).collect();
    let mut data = vec![];
    std::io::stdin().read_to_end(&mut data).unwrap();
    for (place, script) in parts(&data).iter().enumerate() {
        let right = answer(0, script);
        for rule in &rules {
            if answer(*rule, script) != right {
                writeln!(out.lock(), "{rule} {place}").unwrap();
            }
        }
    }
}

pub fn main() {
    std::panic::set_hook(Box::new(|_| {}));
    driver::set_up();
    let words: Vec<String> = std::env::args().skip(1).collect();
    std::thread::Builder::new().stack_size(1 << 30).spawn(|| run(words)).expect("a thread").join().expect("no panic out of a script");
}
