//! Links libdinqosa.a from Rust, through the wrapper: every stored vector, its frames read back, dirty memory, red zones, memory
//! too short, the published stack.
#[path = "dinqosa.rs"]
mod dinqosa;
use dinqosa::*;

const ZONE: usize = 16;
const RED: u64 = 0x5eed_5eed_5eed_5eed;

struct Part {
    words: Vec<u64>,
    length: usize,
}

impl Part {
    fn new(length: usize) -> Part {
        Part { words: vec![RED; length + 2 * ZONE], length }
    }

    fn lent(&mut self) -> &mut [u64] {
        &mut self.words[ZONE..ZONE + self.length]
    }

    fn zones_whole(&self) -> bool {
        self.words[..ZONE].iter().chain(&self.words[ZONE + self.length..]).all(|w| *w == RED)
    }
}

/// The frames of document 01 from the wrapper's readers.
fn frames(answer: Answer) -> String {
    use std::fmt::Write;
    let mut out = String::new();
    writeln!(out, "01{:02x}{:02x}{:04x}{:016x}", answer.functions(), answer.blocks(), answer.instructions(), answer.count()).unwrap();
    for b in 0..answer.blocks() {
        writeln!(out, "02{b:02x}{:02x}", answer.live(b) as u8).unwrap();
    }
    for i in 0..answer.instructions() {
        let (tag, payload) = answer.kind(i);
        writeln!(out, "03{i:04x}{tag:02x}{payload:016x}").unwrap();
    }
    for i in 0..answer.instructions() {
        for user in answer.users(i) {
            writeln!(out, "04{i:04x}{user:04x}").unwrap();
        }
    }
    for f in 0..answer.functions() {
        for i in (0..answer.instructions()).filter(|i| answer.calls(f, *i)) {
            writeln!(out, "05{f:02x}{i:04x}").unwrap();
        }
    }
    out
}

fn batch(path: &str) -> Vec<Vec<u8>> {
    let data = std::fs::read(path).unwrap_or_else(|e| panic!("{path}: {e}"));
    let (mut all, mut at) = (vec![], 0);
    while at < data.len() {
        let n = u32::from_be_bytes(data[at..at + 4].try_into().unwrap()) as usize;
        all.push(data[at + 4..at + 4 + n].to_vec());
        at += 4 + n;
    }
    all
}

fn main() {
    let words: Vec<String> = std::env::args().skip(1).collect();
    let [scripts, expected] = words.as_slice() else {
        eprintln!("usage: test SCRIPTS FRAMES");
        std::process::exit(2)
    };
    let (scripts, expected) = (batch(scripts), batch(expected));
    assert_eq!(scripts.len(), expected.len(), "as many answers as scripts");
    let mut failed = 0;
    let mut check = |good: bool, what: String| {
        if !good {
            failed += 1;
            println!("failed: {what}");
        }
    };
    for extra in [0, 5] {
        // parts as long as published, then longer ones, whose further words must stay
        let mut parts = [Part::new(ANSWER_WORDS), Part::new(PROGRAM_WORDS), Part::new(STATE_WORDS)];
        for (k, script) in scripts.iter().enumerate() {
            for part in &mut parts {
                part.words.fill(RED);
            }
            let [a, p, s] = &mut parts;
            let lent = |part: &mut Part| -> *mut [u64] { let n = part.length + extra; &mut part.words[ZONE..ZONE + n] };
            let result = unsafe { analyze(script, &mut *lent(a), &mut *lent(p), &mut *lent(s)) };
            let text = match result {
                Ok(()) => frames(Answer(a.lent())),
                Err(refusal) => format!("7f{:02x}\n", refusal.number()),
            };
            check(text.as_bytes() == &expected[k][..], format!("script {k}: other frames"));
            check(a.zones_whole() && p.zones_whole() && s.zones_whole(), format!("script {k}: words beyond the published lengths changed"));
            // read back
            let mut again = Part::new(ANSWER_WORDS);
            match read(&expected[k], unsafe { &mut *lent(&mut again) }) {
                Ok(Loaded::Answer) => check(result.is_ok(), format!("script {k}: an answer was read of a refusal")),
                Ok(Loaded::Refusal(refusal)) => check(result == Err(refusal), format!("script {k}: another refusal was read")),
                Err(e) => check(false, format!("script {k}: its frames aren't read: {e:?}")),
            }
            check(again.zones_whole(), format!("script {k}: words beyond the published length changed by reading"));
            if result != Err(Refusal::ScriptTooLong) {
                check(again.lent() == a.lent(), format!("script {k}: another answer part was read"));
            }
            let cut = &expected[k][..expected[k].len() - 1];
            check(read(cut, again.lent()) == Err(Unread::IllegalLine), format!("script {k}: cut frames"));
            check(again.lent().iter().all(|w| *w == 0), format!("script {k}: the answer part after cut frames"));
            let twice = [&expected[k][..], &expected[k][..]].concat();
            again.words.fill(RED);
            check(read(&twice, again.lent()) == Err(Unread::Misplaced), format!("script {k}: frames twice"));
            check(again.lent().iter().all(|w| *w == 0) && again.zones_whole(), format!("script {k}: the answer part after frames twice"));
            let left = if result == Err(Refusal::ScriptTooLong) { RED } else { 0 };
            check(p.lent().iter().chain(s.lent().iter()).all(|w| *w == left), format!("script {k}: work memory"));
            if result.is_err() {
                check(a.lent().iter().all(|w| *w == left), format!("script {k}: the answer part after a refusal"));
            }
        }
    }
    for short in 0..3 {
        let mut parts = [Part::new(ANSWER_WORDS), Part::new(PROGRAM_WORDS), Part::new(STATE_WORDS)];
        parts[short].length -= 1;
        let [a, p, s] = &mut parts;
        check(analyze(b"def main() 1 end", a.lent(), p.lent(), s.lent()) == Err(Refusal::MemoryTooShort), format!("part {short} one short"));
        check(parts.iter().all(|part| part.words.iter().all(|w| *w == RED)), format!("part {short} one short: memory changed"));
    }
    let mut short = Part::new(ANSWER_WORDS);
    short.length -= 1;
    check(read(b"7f02\n", short.lent()) == Err(Unread::MemoryTooShort), "reading with memory one short".to_string());
    check(short.words.iter().all(|w| *w == RED), "reading with memory one short: memory changed".to_string());
    // 128 nested calls, the deepest script known; a stack that is too small ends the test by a signal
    let deep = format!("def f(a) a end def main() {}1{} end", "f(".repeat(128), ")".repeat(128));
    let call = move || analyze(deep.as_bytes(), &mut vec![RED; ANSWER_WORDS], &mut vec![RED; PROGRAM_WORDS], &mut vec![RED; STATE_WORDS]);
    let thread = std::thread::Builder::new().stack_size(STACK_BYTES).spawn(call).expect("a thread");
    check(thread.join().expect("the thread ends") == Err(Refusal::Limit), "the deepest script in the published stack".to_string());
    println!("Rust: {} scripts, {failed} failed", scripts.len());
    std::process::exit((failed != 0) as i32)
}
