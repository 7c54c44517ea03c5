//! Texts for the reader of stored answers: good ones (answers of scripts, and legal records that no script gives), damaged
//! ones, foreign ones, wide ones (most of what there can be, up to 2.5 megabytes, some twice), and all sequences of a few short lines. Each is named by its mode, seed and number.
use generate::Rng;

pub const MODES: [&str; 6] = ["answers", "records", "damaged", "frames", "foreign", "wide"];

const FUNCTIONS: usize = 128;
const BLOCKS: usize = 255;
const INSTRUCTIONS: usize = 2_048;
const CLASSES: usize = 64;
const USES: usize = 12_288;

// ---- lines ----

fn totals(functions: usize, blocks: usize, instructions: usize, count: u64) -> String {
    format!("01{functions:02x}{blocks:02x}{instructions:04x}{count:016x}")
}

fn block(block: usize, live: usize) -> String {
    format!("02{block:02x}{live:02x}")
}

fn kind(instruction: usize, tag: usize, payload: u64) -> String {
    format!("03{instruction:04x}{tag:02x}{payload:016x}")
}

fn a_use(used: usize, user: usize) -> String {
    format!("04{used:04x}{user:04x}")
}

fn caller(function: usize, caller: usize) -> String {
    format!("05{function:02x}{caller:04x}")
}

fn refusal(number: usize) -> String {
    format!("7f{number:02x}")
}

// ---- good texts ----

/// What `live` writes for a script of the grammar, now and then for another.
fn of_script(rng: &mut Rng, size: usize) -> Vec<String> {
    let mode = *rng.pick(&["good", "good", "good", "good", "damaged", "words"]);
    let script = generate::one(mode, rng.next(), 0, Some(size));
    limited::driver::answer(&script).lines().map(String::from).collect()
}

fn number(rng: &mut Rng) -> u64 {
    match rng.below(6) {
        0 => rng.next(),
        1 => u64::MAX - rng.below(3) as u64,
        2 => (1 << 63) - rng.below(2) as u64,
        _ => rng.below(300) as u64,
    }
}

/// Up to `most`, more often little.
fn total(rng: &mut Rng, most: usize) -> usize {
    match rng.below(8) {
        0 => most - rng.below(2),
        1 => rng.below(most + 1),
        2 => 0,
        _ => rng.below(most.min(6) + 1),
    }
}

fn payload(rng: &mut Rng, functions: usize) -> (usize, u64) {
    match rng.below(10) {
        2 => (2, number(rng)),
        3 => (3, rng.below(2) as u64),
        4 if functions > 0 => (4, rng.below(functions) as u64),
        5 => (5, rng.below(CLASSES) as u64),
        8 => (8, if rng.percent(50) { 1 << rng.below(CLASSES) } else { number(rng).max(1) }),
        other @ (0 | 1 | 6 | 7 | 9) => (other, 0),
        _ => (0, 0),
    }
}

/// A legal record, whether a script could give it or not: a refusal, or an answer with any values.
fn of_record(rng: &mut Rng) -> Vec<String> {
    if rng.percent(5) {
        return vec![refusal(1 + rng.below(20))];
    }
    let large = rng.percent(2);
    let (functions, blocks, instructions) = if large {
        (total(rng, FUNCTIONS), total(rng, BLOCKS), total(rng, INSTRUCTIONS))
    } else {
        (total(rng, 5), total(rng, 6), total(rng, 8))
    };
    let mut out = vec![totals(functions, blocks, instructions, number(rng))];
    for b in 0..blocks {
        out.push(block(b, rng.below(2)));
    }
    for i in 0..instructions {
        let (tag, payload) = payload(rng, functions);
        out.push(kind(i, tag, payload));
    }
    // as many uses as the limit lets through, one more only in damaged texts
    let pairs = instructions * instructions;
    let uses = if pairs == 0 { 0 } else { pairs.min(*rng.pick(&[0, 1, 3, instructions, USES - 1, USES])) };
    let mut left = uses;
    for used in 0..instructions {
        let here = if used + 1 == instructions { left.min(instructions) } else { rng.below(left.min(instructions) + 1) };
        left -= here;
        for user in chosen(rng, instructions, here) {
            out.push(a_use(used, user));
        }
    }
    let share = *rng.pick(&[0, 1, 5, 50, 100]);
    for f in 0..functions {
        if large && share > 5 && !rng.percent(4) {
            continue;
        }
        for c in 0..instructions {
            if rng.percent(share) {
                out.push(caller(f, c));
            }
        }
    }
    out
}

/// So many of the numbers below n, rising.
fn chosen(rng: &mut Rng, n: usize, count: usize) -> Vec<usize> {
    let mut wanted = count;
    let mut out = Vec::new();
    for i in 0..n {
        if rng.below(n - i) < wanted {
            wanted -= 1;
            out.push(i);
        }
    }
    out
}

/// A legal record with most of what there can be: all blocks and instructions, or nearly, uses to the limit, all callers of all functions or of most.
fn of_wide(rng: &mut Rng) -> Vec<String> {
    let (functions, blocks, instructions) = (FUNCTIONS - rng.below(2), BLOCKS - rng.below(2), INSTRUCTIONS - rng.below(2));
    let mut out = vec![totals(functions, blocks, instructions, number(rng))];
    out.extend((0..blocks).map(|b| block(b, rng.below(2))));
    for i in 0..instructions {
        let (tag, payload) = payload(rng, functions);
        out.push(kind(i, tag, payload));
    }
    let mut left = USES - rng.below(2);
    for used in 0..instructions {
        let here = left.min(*rng.pick(&[0, 0, 1, 10, 20]));
        left -= here;
        out.extend((instructions - here..instructions).map(|user| a_use(used, user)));
    }
    let share = *rng.pick(&[100, 100, 99, 50]);
    for f in 0..functions {
        out.extend((0..instructions).filter(|_| rng.percent(share)).map(|c| caller(f, c)));
    }
    out
}

/// An answer in which each instruction calls each of 128 functions: its length rises with the instructions, up to 2.4 megabytes.
pub fn all_callers(instructions: usize) -> Vec<u8> {
    let mut lines = vec![totals(FUNCTIONS, 0, instructions, 0)];
    lines.extend((0..instructions).map(|i| kind(i, 0, 0)));
    lines.extend((0..FUNCTIONS).flat_map(|f| (0..instructions).map(move |i| caller(f, i))));
    joined(&lines)
}

fn good(rng: &mut Rng) -> Vec<String> {
    if rng.percent(40) {
        let size = 1 + rng.below(6);
        of_script(rng, size)
    } else {
        of_record(rng)
    }
}

/// A line of the writer's form: a legal frame, or one with a single number at or past a limit.
fn any_frame(rng: &mut Rng, most: usize) -> String {
    let (f, b, i, j) = (rng.below(most), rng.below(most), rng.below(most), rng.below(most));
    match rng.below(16) {
        0..=1 => totals(f, b, i, number(rng)),
        2..=4 => block(b, rng.below(2)),
        5..=7 => {
            let (tag, payload) = payload(rng, most);
            kind(i, tag, payload)
        }
        8..=10 => a_use(i, j),
        11..=13 => caller(f, i),
        14 => refusal(1 + rng.below(20)),
        _ => at_limit(rng),
    }
}

/// A frame at the last number that is legal, or at the first that isn't.
fn at_limit(rng: &mut Rng) -> String {
    let over = rng.below(2);
    match rng.below(18) {
        0 => totals(FUNCTIONS + over, 1, 1, 0),
        1 => totals(1, BLOCKS, INSTRUCTIONS + over, 0),
        2 => totals(1, 1, INSTRUCTIONS + over, u64::MAX),
        3 => block(BLOCKS - 1 + over, 1),
        4 => block(0, 1 + over),
        5 => kind(INSTRUCTIONS - 1 + over, 0, 0),
        6 => kind(0, 9 + over, 0),
        7 => kind(0, *rng.pick(&[0, 1, 6, 7, 9]), over as u64),
        8 => kind(0, 3, 1 + over as u64),
        9 => kind(0, 4, (FUNCTIONS - 1 + over) as u64),
        10 => kind(0, 5, (CLASSES - 1 + over) as u64),
        11 => kind(0, 8, 1 - over as u64),
        12 => a_use(INSTRUCTIONS - 1 + over, 0),
        13 => a_use(0, INSTRUCTIONS - 1 + over),
        14 => caller(FUNCTIONS - 1 + over, 0),
        15 => caller(0, INSTRUCTIONS - 1 + over),
        16 => refusal(20 + over),
        _ => refusal(1 - over),
    }
}

fn joined(lines: &[String]) -> Vec<u8> {
    let mut out = Vec::new();
    for line in lines {
        out.extend_from_slice(line.as_bytes());
        out.push(b'\n');
    }
    out
}

// ---- damage ----

/// One thing wrong with the lines, as a rule.
fn damage_lines(rng: &mut Rng, lines: &mut Vec<String>) {
    if lines.is_empty() {
        lines.push(any_frame(rng, 4));
        return;
    }
    let at = rng.below(lines.len());
    match rng.below(21) {
        0 => {
            lines.remove(at);
        }
        1 => lines.insert(at, lines[at].clone()),
        2 => {
            let line = lines.remove(at);
            let to = rng.below(lines.len() + 1);
            lines.insert(to, line);
        }
        3 => {
            let other = rng.below(lines.len());
            lines.swap(at, other);
        }
        4 => lines.truncate(at),
        5 => lines.insert(at, refusal(1 + rng.below(20))),
        6 => lines.push(refusal(1 + rng.below(20))),
        7 => *lines = vec![refusal(1 + rng.below(20)), refusal(1 + rng.below(20))],
        8 => lines.insert(at, String::new()),
        9 => {
            let more = good(rng);
            lines.extend(more);
        }
        10 => {
            let most = lines.len();
            lines.insert(at, any_frame(rng, 1 + most.min(9)));
        }
        11 => lines[at] = at_limit(rng),
        // one of the totals one lower or one higher
        12 => {
            let first = &mut lines[0];
            let place = *rng.pick(&[2, 4, 6]);
            let width = if place == 6 { 4 } else { 2 };
            if let Some(Ok(n)) = first.get(place..place + width).map(|digits| usize::from_str_radix(digits, 16)) {
                let changed = if rng.percent(50) { n.wrapping_sub(1) } else { n + 1 };
                let digits = format!("{changed:016x}");
                first.replace_range(place..place + width, &digits[16 - width..]);
            }
        }
        13 if rng.percent(20) => *lines = uses_to_the_limit(rng),
        14 => sort_moved(rng, lines),
        // another sort, of order 10 or of none
        15 => {
            if lines[at].len() >= 2 {
                let byte = *rng.pick(&["00", "06", "11", "12", "7e", "81", "82", "83", "ff"]);
                lines[at].replace_range(..2, byte);
            }
        }
        16 => {
            let place = *rng.pick(&[0, lines[at].len()]);
            lines[at].insert_str(place, *rng.pick(&[" ", "\t", "\r"]));
        }
        // a payload that needn't be one of its kind
        17 if lines[at].starts_with("03") && lines[at].len() == 24 => lines[at].replace_range(8.., &format!("{:016x}", number(rng))),
        // a sign in place of a digit
        18 if lines[at].len() > 2 => lines[at].replace_range(2..3, *rng.pick(&["+", "-"])),
        _ => at_total(rng, lines),
    }
}

/// A number at frame 01's totals: of the last use or caller, so that they still rise, or a function's name as the last kind.
fn at_total(rng: &mut Rng, lines: &mut [String]) {
    let total = |from: usize, to: usize| lines[0].get(from..to).and_then(|digits| usize::from_str_radix(digits, 16).ok());
    let (Some(functions), Some(instructions)) = (total(2, 4), total(6, 10)) else { return };
    let sort = *rng.pick(&["03", "04", "05"]);
    let Some(at) = lines.iter().rposition(|line| line.starts_with(sort)) else { return };
    let first = rng.percent(50);
    match (sort, first) {
        ("03", _) => lines[at].replace_range(6.., &format!("04{functions:016x}")),
        ("04", true) => lines[at].replace_range(2..6, &format!("{instructions:04x}")),
        ("04", false) => lines[at].replace_range(6.., &format!("{instructions:04x}")),
        (_, true) => lines[at].replace_range(2..4, &format!("{functions:02x}")),
        (_, false) => lines[at].replace_range(4.., &format!("{instructions:04x}")),
    }
}

/// An answer with as many uses as the limit, or with one more.
fn uses_to_the_limit(rng: &mut Rng) -> Vec<String> {
    // 112 x 112 pairs are enough for both
    let instructions = 112;
    let mut lines = vec![totals(1, 0, instructions, 0)];
    lines.extend((0..instructions).map(|i| kind(i, 0, 0)));
    let pairs = (0..instructions).flat_map(|i| (0..instructions).map(move |j| (i, j)));
    lines.extend(pairs.take(USES + rng.below(2)).map(|(i, j)| a_use(i, j)));
    lines
}

/// All lines of a sort, moved before those of another, behind them or in among them.
fn sort_moved(rng: &mut Rng, lines: &mut Vec<String>) {
    const SORTS: [&str; 4] = ["02", "03", "04", "05"];
    let (sort, other) = (*rng.pick(&SORTS), *rng.pick(&SORTS));
    let (moved, mut rest): (Vec<String>, Vec<String>) = lines.drain(..).partition(|line| line.starts_with(sort));
    let first = rest.iter().position(|line| line.starts_with(other)).unwrap_or(rest.len());
    let count = rest.iter().filter(|line| line.starts_with(other)).count();
    let among = rng.below(count + 1);
    let to = first + *rng.pick(&[0, count, among]);
    rest.splice(to..to, moved);
    *lines = rest;
}

/// One thing wrong with the bytes.
fn damage_bytes(rng: &mut Rng, text: &mut Vec<u8>) {
    if text.is_empty() {
        text.push(*rng.pick(b"\n\r01f"));
        return;
    }
    let at = rng.below(text.len());
    match rng.below(11) {
        0 => {
            text.pop();
        }
        1 => text.truncate(at),
        2 => {
            text.remove(at);
        }
        3 => text.insert(at, *rng.pick(b"0123456789abcdef\n\r ")),
        4 => text[at] = *rng.pick(b"0123456789abcdef"),
        5 => text[at] = *rng.pick(b"ABCDEFGghxz/:`@ \n\r\t\0\x7f\x80\xb0\xff"),
        6 => {
            let end: &[u8] = *rng.pick(&[&b"\r\n"[..], b"\r"]);
            *text = text.iter().flat_map(|b| if *b == b'\n' { end.to_vec() } else { vec![*b] }).collect();
        }
        7 => *text = text.to_ascii_uppercase(),
        8 => text.push(b'\n'),
        9 => text[at] |= 0x80,
        _ => text.extend_from_slice(*rng.pick(&[&b"0"[..], b"7f", b"\r", b" ", b"\0", b"7f01", b"\n\n"])),
    }
}

// ---- texts ----

fn foreign(rng: &mut Rng) -> Vec<u8> {
    match rng.below(6) {
        0 => Vec::new(),
        1 => (0..rng.below(40)).map(|_| rng.next() as u8).collect(),
        2 => (0..rng.below(60)).map(|_| *rng.pick(b"0123456789abcdef\n")).collect(),
        3 => generate::one("good", rng.next(), 0, Some(1)),
        4 => (0..1 + rng.below(3)).map(|_| *rng.pick(b"\n\r 07f")).collect(),
        _ => {
            let mut text: Vec<u8> = rng.pick(&[&b"01"[..], b"02", b"03", b"04", b"05", b"7f", b"11", b"12", b"00", b"06"]).to_vec();
            let length = rng.below(27);
            text.extend((0..length).map(|_| *rng.pick(b"0000000123f")));
            text.push(b'\n');
            text
        }
    }
}

/// Text number i of a mode and seed.
pub fn one(mode: &str, seed: u64, i: u64) -> Vec<u8> {
    let place = MODES.iter().position(|m| *m == mode).expect("a mode") as u64;
    let mut rng = Rng(seed.wrapping_mul(0x5851_f42d_4c95_7f2d) ^ i.wrapping_mul(0x2545_f491_4f6c_dd1d) ^ place << 56);
    rng.next();
    match mode {
        "answers" => {
            let size = 1 + rng.below(14);
            joined(&of_script(&mut rng, size))
        }
        "records" => joined(&of_record(&mut rng)),
        "damaged" => {
            let mut lines = good(&mut rng);
            let times = *rng.pick(&[1, 1, 1, 2, 3]);
            let of_lines = if rng.percent(60) { times } else { rng.below(times + 1) };
            for _ in 0..of_lines {
                damage_lines(&mut rng, &mut lines);
            }
            let mut text = joined(&lines);
            for _ in of_lines..times {
                damage_bytes(&mut rng, &mut text);
            }
            text
        }
        // a third of them whole, a third damaged by lines or by bytes, a third with another behind, as a rule longer than any legal text
        "wide" => {
            let mut lines = of_wide(&mut rng);
            let how = rng.below(6);
            match how {
                2 => damage_lines(&mut rng, &mut lines),
                4 | 5 => lines.extend(of_wide(&mut rng)),
                _ => {}
            }
            let mut text = joined(&lines);
            if how == 3 || how == 5 {
                damage_bytes(&mut rng, &mut text);
            }
            text
        }
        "frames" => {
            let (count, most) = (rng.below(7), 1 + rng.below(3));
            let lines: Vec<String> = (0..count).map(|_| any_frame(&mut rng, most)).collect();
            joined(&lines)
        }
        _ => foreign(&mut rng),
    }
}

/// The short lines whose sequences are all tried.
fn short_lines() -> Vec<String> {
    vec![
        totals(1, 1, 1, 3), totals(0, 0, 0, 0), totals(1, 0, 1, 0), block(0, 1), block(1, 0), kind(0, 0, 0), kind(0, 4, 0), kind(1, 4, 1),
        kind(1, 0, 1), a_use(0, 0), a_use(0, 1), caller(0, 0), caller(0, 1), refusal(2), refusal(0), String::new(),
    ]
}

/// How many sequences of so many lines there are.
pub fn sequences(length: u32) -> u64 {
    (short_lines().len() as u64).pow(length)
}

/// Sequence i of so many lines.
pub fn sequence(length: u32, i: u64) -> Vec<u8> {
    let lines = short_lines();
    let n = lines.len() as u64;
    let picked: Vec<String> = (0..length).rev().map(|place| lines[(i / n.pow(place) % n) as usize].clone()).collect();
    joined(&picked)
}
