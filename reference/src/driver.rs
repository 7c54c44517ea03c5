//! Reads scripts, runs the reader and the analysis, writes frames. Each refusal is a panic that carries its number.
use super::*;
use std::any::Any;
use std::cell::Cell;
use std::io::{Read, Write};
use std::panic::{catch_unwind, AssertUnwindSafe};
use std::sync::OnceLock;

pub struct Refusal(pub u8);

pub fn refuse(number: u8) -> ! {
    std::panic::panic_any(Refusal(number))
}

// ---- limits (asked in `limited` alone) ----

#[derive(Clone, Debug)]
pub struct Limits {
    pub bytes: usize,
    pub depth: usize,
    pub funs: usize,
    pub classes: usize,
    pub blocks: usize,
    pub insns: usize,
    pub operands: usize,
    pub ivars: usize,
    pub list: usize,
}

static LIMITS: OnceLock<Limits> = OnceLock::new();

pub fn limits() -> &'static Limits {
    LIMITS.get().expect("the limits are set at the start")
}

/// `name=number` parted by commas, over the built-in limits.
fn read_limits(words: &[String]) -> Result<Limits, String> {
    let mut all = Limits {
        bytes: 16_384, depth: 128, funs: 128, classes: 64, blocks: 255,
        insns: 2_048, operands: 8_192, ivars: 64, list: 16_384,
    };
    for word in words.iter().flat_map(|w| w.split(',')).filter(|w| !w.is_empty()) {
        let (name, number) = word.split_once('=').ok_or(format!("limit '{word}': name=number expected"))?;
        let number: usize = number.parse().map_err(|_| format!("limit '{word}': no number"))?;
        let place = match name {
            "bytes" => &mut all.bytes,
            "depth" => &mut all.depth,
            "funs" => &mut all.funs,
            "classes" => &mut all.classes,
            "blocks" => &mut all.blocks,
            "insns" => &mut all.insns,
            "operands" => &mut all.operands,
            "ivars" => &mut all.ivars,
            "list" => &mut all.list,
            _ => return Err(format!("unknown limit '{name}'")),
        };
        *place = number;
    }
    if all.classes < 4 || all.funs < 1 || all.blocks < 1 {
        return Err("limits: at least 4 classes, 1 function and 1 block".into());
    }
    Ok(all)
}

/// Question 11.
pub fn within(count: usize, limit: usize) {
    if count > limit {
        refuse(11);
    }
}

thread_local! {
    static DEPTH: Cell<usize> = const { Cell::new(0) };
    static OPERANDS: Cell<usize> = const { Cell::new(0) };
}

pub fn depth() -> usize {
    DEPTH.get()
}

pub fn set_depth(depth: usize) {
    DEPTH.set(depth)
}

pub fn enter() {
    set_depth(depth() + 1);
    within(depth(), limits().depth);
}

pub fn leave() {
    set_depth(depth() - 1)
}

/// Call arguments and join operands of all instructions; receivers aren't counted.
pub fn count_operands(op: &Op) {
    let more = match op {
        Op::Phi { ins } => ins.len(),
        Op::SendStatic { args, .. } | Op::SendDynamic { args, .. } => args.len(),
        _ => 0,
    };
    OPERANDS.set(OPERANDS.get() + more);
    within(OPERANDS.get(), limits().operands);
}

/// What waits: which of the two greatest lengths it counts for.
pub trait Entry: Copy {
    const LIST: usize;
}

impl Entry for InsnId {
    const LIST: usize = 0;
}

impl Entry for BlockId {
    const LIST: usize = 1;
}

thread_local! {
    pub static PEAKS: Cell<[usize; 2]> = const { Cell::new([0; 2]) };
}

/// A waiting list that asks question 20 of each entry put in.
pub struct Waiting<T>(std::collections::VecDeque<T>);

impl<T: Entry> Waiting<T> {
    pub fn new() -> Waiting<T> {
        Waiting(std::collections::VecDeque::new())
    }

    pub fn is_empty(&self) -> bool {
        self.0.is_empty()
    }

    pub fn push_back(&mut self, entry: T) {
        self.0.push_back(entry);
        let mut peaks = PEAKS.get();
        peaks[T::LIST] = peaks[T::LIST].max(self.0.len());
        PEAKS.set(peaks);
        if self.0.len() > limits().list {
            refuse(20);
        }
    }

    pub fn pop_front(&mut self) -> Option<T> {
        self.0.pop_front()
    }

    pub fn extend(&mut self, entries: &[T]) {
        for entry in entries {
            self.push_back(*entry);
        }
    }
}

impl<T: Entry> From<Vec<T>> for Waiting<T> {
    fn from(entries: Vec<T>) -> Waiting<T> {
        let mut list = Waiting::new();
        list.extend(&entries);
        list
    }
}

// ---- one script ----

/// The Rust's own panics, by their text (`hashed`: nothing is edited there).
#[cfg(hashed)]
const MESSAGES: &[(&str, u8)] = &[
    ("unhandled char", 3),
    ("attempt to multiply with overflow", 4),
    ("attempt to add with overflow", 4),
    ("Unexpected token", 5),
    ("Unexpected EOF", 5),
    ("Unbound name", 6),
    ("Can't assign", 7),
    ("assertion failed: !self.classes[class.0].ivars", 7),
    ("assertion failed: !k.methods", 7),
    ("assertion failed: self.prog.classes[class_id.0].ctor", 7),
    ("assertion failed: !self.classes.contains_key", 7),
    ("Only static calls", 8),
    ("Can only call method", 8),
    ("Cannot use @", 9),
    ("Cannot push terminator", 10),
    ("TODO: support more ivars", 11),
    ("attempt to shift left", 11),
    ("index out of bounds: the len is 0", 12),
    ("Unknown ivar", 13),
    ("getivar on non-Object", 14),
    ("setivar on non-Object", 14),
    ("send to non-Object", 14),
    ("no entry found for key", 15),
    ("called `Option::unwrap()`", 15),
    ("Invalid send", 15),
    ("assertion failed: idx < args.len()", 16),
    ("no self parameter", 17),
    ("not yet implemented: op not yet supported", 18),
    ("can't get single class_id", 19),
];
#[cfg(not(hashed))]
const MESSAGES: &[(&str, u8)] = &[];

/// The number of a panic; 255 if it has none, which would be a fault of the edits.
fn number_of(panic: Box<dyn Any + Send>) -> u8 {
    if let Some(Refusal(number)) = panic.downcast_ref::<Refusal>() {
        return *number;
    }
    let text = match panic.downcast_ref::<String>() {
        Some(text) => text.as_str(),
        None => panic.downcast_ref::<&str>().copied().unwrap_or("?"),
    };
    match MESSAGES.iter().find(|(start, _)| text.starts_with(start)) {
        Some((_, number)) => *number,
        None => {
            eprintln!("a panic without a number: {text}");
            255
        }
    }
}

pub fn asked<T>(work: impl FnOnce() -> T) -> Result<T, u8> {
    catch_unwind(AssertUnwindSafe(work)).map_err(number_of)
}

/// The text that the reader sees. In `limited` one byte is one character, and a byte above 127 starts nothing and
/// belongs to no word; elsewhere the bytes are taken for UTF-8.
pub fn text_of(script: &[u8]) -> Result<String, u8> {
    if cfg!(limited) {
        if script.len() > limits().bytes {
            return Err(1);
        }
        Ok(script.iter().map(|b| if b.is_ascii() { *b as char } else { '\u{fffd}' }).collect())
    } else {
        Ok(String::from_utf8_lossy(script).into_owned())
    }
}

pub fn read(script: &[u8]) -> Result<Program, u8> {
    let text = text_of(script)?;
    DEPTH.set(0);
    OPERANDS.set(0);
    PEAKS.set([0; 2]);
    asked(|| {
        let mut parser = Parser::from_lexer(Lexer::new(&text));
        parser.parse_program();
        parser.prog
    })
}

pub fn analyse(prog: &Program) -> Result<AnalysisResult, u8> {
    asked(|| sctp(prog))
}

// ---- frames ----

/// Kind byte and payload.
pub fn kind_of(kind: &Type) -> (u8, u64) {
    match kind {
        Type::Empty => (0, 0),
        Type::Const(Value::Nil) => (1, 0),
        Type::Const(Value::Int(n)) => (2, *n as u64),
        Type::Const(Value::Bool(b)) => (3, *b as u64),
        Type::Const(Value::Fun(f)) => (4, f.0 as u64),
        Type::Const(Value::Class(c)) => (5, c.0 as u64),
        Type::Int => (6, 0),
        Type::Bool => (7, 0),
        Type::Object(set) => (8, set.iter().filter(|c| *c < 64).map(|c| 1u64 << c).sum()),
        Type::Any => (9, 0),
    }
}

pub fn frames(prog: &Program, result: &AnalysisResult) -> String {
    use std::fmt::Write;
    let mut out = String::new();
    let counts = (prog.funs.len(), prog.blocks.len(), prog.insns.len(), result.itr_count);
    writeln!(out, "01{:02x}{:02x}{:04x}{:016x}", counts.0, counts.1, counts.2, counts.3).unwrap();
    for (block, live) in result.block_executable.iter().enumerate() {
        writeln!(out, "02{:02x}{:02x}", block, *live as u8).unwrap();
    }
    for (insn, kind) in result.insn_type.iter().enumerate() {
        let (tag, payload) = kind_of(kind);
        writeln!(out, "03{:04x}{:02x}{:016x}", insn, tag, payload).unwrap();
    }
    for (used, users) in result.insn_uses.iter().enumerate() {
        let mut users: Vec<usize> = users.iter().map(|user| user.0).collect();
        users.sort();
        for user in users {
            writeln!(out, "04{:04x}{:04x}", used, user).unwrap();
        }
    }
    for (fun, callers) in result.called_by.iter().enumerate() {
        let mut callers: Vec<usize> = callers.iter().map(|caller| caller.0).collect();
        callers.sort();
        for caller in callers {
            writeln!(out, "05{:02x}{:04x}", fun, caller).unwrap();
        }
    }
    out
}

pub fn answer(script: &[u8]) -> String {
    let refused = |number: u8| format!("7f{:02x}\n", number);
    match read(script) {
        Err(number) => refused(number),
        Ok(prog) => match analyse(&prog) {
            Err(number) => refused(number),
            Ok(result) => frames(&prog, &result),
        },
    }
}

// ---- the program ----

pub const USAGE: &str = "usage: [--batch] [--frames | --dump | --program | --words | --first | --peaks | --check] [--limits name=number,..]";

/// The next script of a batch: 4-byte big-endian length, bytes.
pub fn next_of_batch(input: &mut impl Read, done: usize) -> Result<Option<Vec<u8>>, String> {
    let cut = || format!("the batch is cut in script {done} (numbered from 0)");
    let mut length = [0u8; 4];
    let mut have = 0;
    while have < 4 {
        match input.read(&mut length[have..]) {
            Ok(0) if have == 0 => return Ok(None),
            Ok(0) => return Err(cut()),
            Ok(n) => have += n,
            Err(e) => return Err(format!("can't read: {e}")),
        }
    }
    let length = u32::from_be_bytes(length) as usize;
    let mut script = Vec::new();
    let got = input.take(length as u64).read_to_end(&mut script).map_err(|e| format!("can't read: {e}"))?;
    if got < length { Err(cut()) } else { Ok(Some(script)) }
}

fn run(words: Vec<String>) -> Result<bool, String> {
    let mut batch = false;
    let mut mode: fn(&[u8]) -> String = answer;
    let mut checking = false;
    let mut chosen = false;
    let mut limit_words: Vec<String> = std::env::var("LIMITS").into_iter().collect();
    let mut words = words.into_iter();
    while let Some(word) = words.next() {
        let mut choose = |m: fn(&[u8]) -> String| {
            if chosen {
                return Err(format!("two modes given; {USAGE}"));
            }
            chosen = true;
            mode = m;
            Ok(())
        };
        match word.as_str() {
            "--batch" => batch = true,
            "--frames" => choose(answer)?,
            "--dump" => choose(text::dump)?,
            "--program" => choose(text::program)?,
            "--words" => choose(text::words)?,
            "--first" => choose(text::first)?,
            "--peaks" if cfg!(limited) => choose(text::peaks)?,
            "--check" => {
                choose(answer)?;
                checking = true
            }
            "--limits" => limit_words.push(words.next().ok_or(format!("--limits: nothing after it; {USAGE}"))?),
            _ => return Err(format!("unknown word '{word}'; {USAGE}")),
        }
    }
    if !cfg!(limited) && !limit_words.is_empty() {
        return Err("limits are asked in the limited build alone".into());
    }
    LIMITS.set(read_limits(&limit_words)?).unwrap();
    let mut input = std::io::BufReader::with_capacity(1 << 16, std::io::stdin().lock());
    let mut output = std::io::BufWriter::with_capacity(1 << 16, std::io::stdout().lock());
    let gone = |e: std::io::Error| format!("can't write: {e}");
    let mut tally = check::Tally::default();
    if batch {
        let mut done = 0;
        while let Some(script) = next_of_batch(&mut input, done)? {
            if checking {
                tally.add(&script);
            } else {
                let text = mode(&script);
                output.write_all(&(text.len() as u32).to_be_bytes()).map_err(gone)?;
                output.write_all(text.as_bytes()).map_err(gone)?;
            }
            done += 1;
        }
    } else {
        let mut script = Vec::new();
        input.read_to_end(&mut script).map_err(|e| format!("can't read: {e}"))?;
        if checking {
            tally.add(&script);
        } else {
            output.write_all(mode(&script).as_bytes()).map_err(gone)?;
        }
    }
    if checking {
        output.write_all(tally.text().as_bytes()).map_err(gone)?;
    }
    output.flush().map_err(gone)?;
    Ok(tally.violations == 0)
}

/// For a program that calls this build as a library: the built-in limits, and panics that print nothing.
pub fn set_up() {
    std::panic::set_hook(Box::new(|_| {}));
    LIMITS.get_or_init(|| read_limits(&[]).expect("the built-in limits"));
}

pub fn main() {
    std::panic::set_hook(Box::new(|_| {}));
    let words: Vec<String> = std::env::args().skip(1).collect();
    // Nested scripts nest the readers: a large stack.
    let work = std::thread::Builder::new().stack_size(1 << 30).spawn(|| run(words)).expect("a thread");
    match work.join().expect("no panic out of a script") {
        Ok(true) => {}
        Ok(false) => std::process::exit(3),
        Err(line) => {
            eprintln!("{line}");
            std::process::exit(2);
        }
    }
}
