//! Stored answers read back: document 01's "Frames" and order 3 of document 02, written from the papers. What the library's
//! reader is compared with. First each line for itself (21), then all together (22), then the answer memory of docs/MEMORY.md.

pub const WORDS: usize = 22_788;
const LIVE: usize = 4;
const TAGS: usize = 259;
const PAYLOADS: usize = 2_307;
const STARTS: usize = 4_355;
const USERS: usize = 6_404;
const CALLERS: usize = 18_692;

const FUNCTIONS: u64 = 128;
const BLOCKS: u64 = 255;
const INSTRUCTIONS: u64 = 2_048;
const CLASSES: u64 = 64;
const USES: usize = 12_288;

#[derive(Clone, Copy, PartialEq, Eq, Debug)]
pub enum Stored {
    /// the record of an answer was read
    Answer,
    /// the record of a refusal was read
    Refusal(u8),
    /// the text is no record's: 21 or 22
    Refused(u8),
}

#[derive(Clone, Copy, PartialEq, Eq, PartialOrd, Ord, Debug)]
enum Frame {
    Totals { functions: u64, blocks: u64, instructions: u64, count: u64 },
    Block { block: u64, live: u64 },
    Kind { instruction: u64, kind: u64, payload: u64 },
    Use { used: u64, user: u64 },
    Caller { function: u64, caller: u64 },
    Refusal { number: u64 },
}

/// The numbers of a line of lower-case hexadecimal, by their widths in bytes.
fn numbers(line: &[u8], widths: &[usize]) -> Option<Vec<u64>> {
    if line.len() != 2 * widths.iter().sum::<usize>() {
        return None;
    }
    let mut at = 0;
    let mut read = Vec::new();
    for width in widths {
        let mut number = 0u64;
        for byte in &line[at..at + 2 * width] {
            let digit = b"0123456789abcdef".iter().position(|d| d == byte)?;
            number = number << 4 | digit as u64;
        }
        at += 2 * width;
        read.push(number);
    }
    Some(read)
}

fn payload_fits(kind: u64, payload: u64) -> bool {
    match kind {
        2 => true,
        3 => payload <= 1,
        4 => payload < FUNCTIONS,
        5 => payload < CLASSES,
        8 => payload > 0,
        0 | 1 | 6 | 7 | 9 => payload == 0,
        _ => false,
    }
}

/// The legal frame that a line without its end is, if it is one.
fn frame(line: &[u8]) -> Option<Frame> {
    let sort = line.get(..2)?;
    let (made, legal) = match sort {
        b"01" => {
            let n = numbers(line, &[1, 1, 1, 2, 8])?;
            let made = Frame::Totals { functions: n[1], blocks: n[2], instructions: n[3], count: n[4] };
            (made, n[1] <= FUNCTIONS && n[2] <= BLOCKS && n[3] <= INSTRUCTIONS)
        }
        b"02" => {
            let n = numbers(line, &[1, 1, 1])?;
            (Frame::Block { block: n[1], live: n[2] }, n[1] < BLOCKS && n[2] <= 1)
        }
        b"03" => {
            let n = numbers(line, &[1, 2, 1, 8])?;
            (Frame::Kind { instruction: n[1], kind: n[2], payload: n[3] }, n[1] < INSTRUCTIONS && payload_fits(n[2], n[3]))
        }
        b"04" => {
            let n = numbers(line, &[1, 2, 2])?;
            (Frame::Use { used: n[1], user: n[2] }, n[1] < INSTRUCTIONS && n[2] < INSTRUCTIONS)
        }
        b"05" => {
            let n = numbers(line, &[1, 1, 2])?;
            (Frame::Caller { function: n[1], caller: n[2] }, n[1] < FUNCTIONS && n[2] < INSTRUCTIONS)
        }
        b"7f" => {
            let n = numbers(line, &[1, 1])?;
            (Frame::Refusal { number: n[1] }, (1..=20).contains(&n[1]))
        }
        _ => return None,
    };
    legal.then_some(made)
}

/// The frames of a text, or none if a line is no legal frame ended by byte 10.
fn frames(text: &[u8]) -> Option<Vec<Frame>> {
    let mut lines: Vec<&[u8]> = text.split(|byte| *byte == b'\n').collect();
    let rest = lines.pop().expect("a part behind the last line end");
    if !rest.is_empty() {
        return None;
    }
    lines.into_iter().map(frame).collect()
}

/// The frames of a sort that stand together from place `from` on, and the place behind them.
fn run(all: &[Frame], from: usize, of_sort: impl Fn(&Frame) -> bool) -> (&[Frame], usize) {
    let length = all[from..].iter().take_while(|f| of_sort(f)).count();
    (&all[from..from + length], from + length)
}

fn rises(part: &[Frame]) -> bool {
    part.windows(2).all(|pair| pair[0] < pair[1])
}

/// Writes the record of an answer into the words; false if the frames are none's.
fn write(all: &[Frame], words: &mut [u64]) -> bool {
    let Some(Frame::Totals { functions, blocks, instructions, count }) = all.first().copied() else { return false };
    let (live, at) = run(all, 1, |f| matches!(f, Frame::Block { .. }));
    let (kinds, at) = run(all, at, |f| matches!(f, Frame::Kind { .. }));
    let (uses, at) = run(all, at, |f| matches!(f, Frame::Use { .. }));
    let (callers, at) = run(all, at, |f| matches!(f, Frame::Caller { .. }));
    if at != all.len() || !rises(uses) || !rises(callers) || uses.len() > USES {
        return false;
    }
    if live.len() as u64 != blocks || kinds.len() as u64 != instructions {
        return false;
    }
    words[..LIVE].copy_from_slice(&[functions, blocks, instructions, count]);
    for (place, f) in live.iter().enumerate() {
        let Frame::Block { block, live } = f else { unreachable!() };
        if *block != place as u64 {
            return false;
        }
        words[LIVE + place] = *live;
    }
    for (place, f) in kinds.iter().enumerate() {
        let Frame::Kind { instruction, kind, payload } = f else { unreachable!() };
        if *instruction != place as u64 || (*kind == 4 && *payload >= functions) {
            return false;
        }
        words[TAGS + place] = *kind;
        words[PAYLOADS + place] = *payload;
    }
    for (place, f) in uses.iter().enumerate() {
        let Frame::Use { used, user } = f else { unreachable!() };
        if *used >= instructions || *user >= instructions {
            return false;
        }
        words[USERS + place] = *user;
        for start in &mut words[STARTS + *used as usize + 1..=STARTS + instructions as usize] {
            *start = place as u64 + 1;
        }
    }
    for f in callers {
        let Frame::Caller { function, caller } = f else { unreachable!() };
        if *function >= functions || *caller >= instructions {
            return false;
        }
        words[CALLERS + *function as usize * 32 + *caller as usize / 64] |= 1 << (*caller % 64);
    }
    true
}

/// Reads a text; the words then hold the answer's record, or are clear.
pub fn read(text: &[u8], words: &mut [u64]) -> Stored {
    words.fill(0);
    let Some(all) = frames(text) else { return Stored::Refused(21) };
    if let [Frame::Refusal { number }] = all[..] {
        return Stored::Refusal(number as u8);
    }
    if write(&all, words) {
        return Stored::Answer;
    }
    words.fill(0);
    Stored::Refused(22)
}
