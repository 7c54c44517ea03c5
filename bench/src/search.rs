//! Looks for the scripts that take the library the longest, or that have the largest count. See ../README.md.
#[path = "../../bindings/dinqosa.rs"]
mod dinqosa;
mod clock;
mod shapes;
use dinqosa::{Answer, ANSWER_WORDS, PROGRAM_WORDS, SCRIPT_MOST, STATE_WORDS};
use std::time::Duration;

// ---- families: a name, the bounds of each number, where a climb starts, the script ----

struct Family {
    name: &'static str,
    /// A number's name, and the least and most of it.
    numbers: &'static [(&'static str, usize, usize)],
    start: &'static [usize],
    make: fn(&[usize]) -> String,
}

const FAMILIES: &[Family] = &[
    Family {
        name: "ring",
        numbers: &[("params", 1, 600), ("classes", 1, 60), ("calls", 1, 400), ("sums", 0, 1_500), ("step", 0, 600), ("other", 0, 1)],
        start: &[83, 11, 62, 0, 27, 1],
        make: |n| shapes::ring(shapes::short, n[0], n[1].min(n[0]), n[2], n[3], n[4], ["nil", "1"][n[5]]),
    },
    Family {
        name: "wide-ring",
        numbers: &[("params", 1, 1_900), ("values", 1, 65), ("calls", 1, 40), ("step", 0, 1_900), ("gap", 1, 60)],
        start: &[543, 59, 8, 1_786, 17],
        make: |n| shapes::wide_ring(n[0], n[1], n[2], n[3], n[4]),
    },
    Family {
        name: "chain",
        numbers: &[("functions", 1, 120), ("width", 1, 150), ("calls", 1, 1_900), ("values", 1, 65), ("back", 0, 100), ("pause", 0, 60)],
        start: &[20, 73, 3, 65, 0, 20],
        make: |n| shapes::chain(n[0], n[1], n[2], n[3], n[4], n[5]),
    },
    Family {
        name: "callers",
        numbers: &[("values", 1, 65), ("params", 1, 60), ("calls", 1, 1_900), ("back", 0, 100), ("idle", 0, 125)],
        start: &[65, 3, 1_600, 0, 0],
        make: |n| shapes::callers(n[0], n[1], n[2], n[3], n[4]),
    },
    Family {
        name: "sends",
        numbers: &[("classes", 1, 60), ("groups", 1, 60), ("sends", 1, 1_900), ("args", 1, 8), ("back", 0, 20), ("idle", 0, 125), ("length", 0, 60)],
        start: &[60, 1, 272, 1, 0, 66, 0],
        make: |n| shapes::sends(n[0], n[1], n[2], n[3], n[4], n[5], n[6]),
    },
    Family {
        name: "reads",
        numbers: &[("classes", 1, 60), ("reads", 1, 1_900), ("before", 0, 25), ("length", 0, 60), ("links", 1, 60), ("idle", 0, 60)],
        start: &[60, 1_190, 5, 0, 9, 0],
        make: |n| shapes::reads(n[0], n[1], n[2], n[3], n[4], n[5]),
    },
    Family {
        name: "returns",
        numbers: &[("values", 1, 65), ("groups", 1, 60), ("back", 0, 120), ("calls", 1, 1_900), ("users", 0, 1_900)],
        start: &[65, 1, 41, 269, 115],
        make: |n| shapes::returns(n[0], n[1], n[2], n[3], n[4]),
    },
    Family {
        name: "joins",
        numbers: &[("names", 1, 2_500), ("bindings", 1, 5_000), ("depth", 1, 125)],
        start: &[1_520, 2_545, 120],
        make: |n| shapes::joins(n[0], n[1], n[2]),
    },
    Family {
        name: "mixed",
        numbers: &[
            ("classes", 1, 60), ("params", 1, 60), ("attributes", 0, 20), ("back", 0, 20), ("sends", 0, 1_900), ("reads", 0, 1_900), ("calls", 0, 1_900), ("selves", 0, 400),
            ("step", 0, 60), ("sums", 0, 1_900), ("returns", 0, 100), ("idle", 0, 60),
        ],
        start: &[50, 3, 0, 0, 20, 20, 100, 0, 0, 0, 0, 0],
        make: |n| shapes::mixed(n),
    },
];

// ---- the library, timed ----

struct Library {
    answer: Vec<u64>,
    program: Vec<u64>,
    state: Vec<u64>,
}

/// What a call gave: the count, 0 on a refusal; the refusal's number, 0 on an answer; nanoseconds.
#[derive(Clone, Copy, Default)]
struct Called {
    count: u64,
    refusal: u8,
    nanos: u64,
}

impl Library {
    fn call(&mut self, script: &[u8]) -> Called {
        let (given, taken) = clock::timed(|| dinqosa::analyze(script, &mut self.answer, &mut self.program, &mut self.state));
        let nanos = taken.as_nanos() as u64;
        match given {
            Ok(()) => Called { count: Answer(&self.answer).count(), refusal: 0, nanos },
            Err(e) => Called { count: 0, refusal: e.number(), nanos },
        }
    }

    /// The least time of some calls.
    fn least(&mut self, script: &[u8], calls: usize) -> Called {
        (0..calls).map(|_| self.call(script)).min_by_key(|c| c.nanos).unwrap_or_default()
    }
}

// ---- the climb ----

#[derive(Clone, Copy, PartialEq)]
enum Aim {
    Time,
    Count,
}

/// Numbers from a seed (xorshift).
struct Numbers(u64);

impl Numbers {
    fn below(&mut self, n: usize) -> usize {
        self.0 ^= self.0 << 13;
        self.0 ^= self.0 >> 7;
        self.0 ^= self.0 << 17;
        ((self.0 >> 11) % n.max(1) as u64) as usize
    }

    /// One to three numbers are moved: by a little, by a part of them, or anywhere; at times another then grows as far as the script's
    /// length lets it.
    fn moved(&mut self, family: &Family, from: &[usize]) -> Vec<usize> {
        let mut to = self.shifted(family, from);
        if self.below(3) == 0 {
            let at = self.below(to.len());
            let (mut low, mut high) = (family.numbers[at].1, family.numbers[at].2);
            while low < high {
                to[at] = (low + high + 1) / 2;
                if (family.make)(&to).len() <= SCRIPT_MOST { low = to[at] } else { high = to[at] - 1 }
            }
            to[at] = low;
        }
        to
    }

    fn shifted(&mut self, family: &Family, from: &[usize]) -> Vec<usize> {
        let mut to = from.to_vec();
        for _ in 0..1 + self.below(3) {
            let at = self.below(to.len());
            let (_, least, most) = family.numbers[at];
            let v = to[at];
            let by = match self.below(4) {
                0 => 1 + self.below(2),
                1 => 1 + v / 20,
                2 => 1 + self.below(1 + v / 3),
                _ => {
                    to[at] = least + self.below(most - least + 1);
                    continue;
                }
            };
            to[at] = if self.below(2) == 0 { v + by } else { v.saturating_sub(by) }.clamp(least, most);
        }
        to
    }
}

struct Best {
    numbers: Vec<usize>,
    script: Vec<u8>,
    called: Called,
}

fn score(aim: Aim, c: Called) -> u64 {
    match aim {
        Aim::Time => c.nanos,
        Aim::Count => c.count,
    }
}

/// A script of the family within the length, and what the library gives for it; a refusal counts for the time alone.
fn tried(lib: &mut Library, family: &Family, numbers: &[usize]) -> Option<(Vec<u8>, Called)> {
    let script = (family.make)(numbers).into_bytes();
    if SCRIPT_MOST < script.len() {
        return None;
    }
    let called = lib.call(&script);
    Some((script, called))
}

/// Climbs for some processor time, or a number of scripts: a step is kept that scores no less. After `patience` steps in vain the climb goes on
/// from numbers moved further; the best is kept.
fn climb(lib: &mut Library, family: &Family, aim: Aim, rng: &mut Numbers, most: Duration, scripts: usize, best: &mut Best) -> usize {
    let start = clock::spent();
    let patience = 40;
    let (mut at, mut here, mut vain, mut tries) = (best.numbers.clone(), score(aim, best.called), 0, 0);
    while clock::spent() - start < most && tries < scripts {
        let next = rng.moved(family, &at);
        tries += 1;
        vain += 1;
        if let Some((script, mut called)) = tried(lib, family, &next) {
            let mut s = score(aim, called);
            if s > score(aim, best.called) && aim == Aim::Time {
                // a time that was bad luck is not kept
                let again = lib.call(&script);
                if again.nanos < called.nanos {
                    called = again;
                    s = score(aim, called);
                }
            }
            if s >= here {
                if s > here {
                    vain = 0;
                }
                (at, here) = (next.clone(), s);
            }
            if s > score(aim, best.called) {
                *best = Best { numbers: next, script, called };
            }
        }
        if vain == patience {
            at = best.numbers.clone();
            for _ in 0..3 {
                at = rng.moved(family, &at);
            }
            here = match tried(lib, family, &at) {
                Some((_, called)) => score(aim, called),
                None => 0,
            };
            if here == 0 {
                (at, here) = (best.numbers.clone(), score(aim, best.called));
            }
            vain = 0;
        }
    }
    tries
}

// ---- what is kept ----

fn file(folder: &str, family: &Family, ending: &str) -> String {
    format!("{folder}/{}.{ending}", family.name)
}

fn stored(folder: &str, family: &Family) -> Option<Vec<usize>> {
    let text = std::fs::read_to_string(file(folder, family, "numbers")).ok()?;
    let numbers: Vec<usize> = text.split_whitespace().map(|w| w.parse().ok()).collect::<Option<_>>()?;
    let fits = numbers.len() == family.numbers.len() && numbers.iter().zip(family.numbers).all(|(n, (_, least, most))| (least..=most).contains(&n));
    fits.then_some(numbers)
}

fn keep(folder: &str, family: &Family, best: &Best) {
    let numbers: Vec<String> = best.numbers.iter().map(|n| n.to_string()).collect();
    for (ending, text) in [("farm", best.script.clone()), ("numbers", format!("{}\n", numbers.join(" ")).into_bytes())] {
        let path = file(folder, family, ending);
        std::fs::write(&path, text).unwrap_or_else(|e| panic!("{path}: {e}"));
    }
}

struct Asked {
    aim: Aim,
    seconds: u64,
    scripts: usize,
    seed: u64,
    afresh: bool,
    only: Option<String>,
}

fn run(asked: Asked) {
    let folder = format!("target/search/{}", match asked.aim { Aim::Time => "time", Aim::Count => "count" });
    std::fs::create_dir_all(&folder).unwrap_or_else(|e| panic!("{folder}: {e}"));
    let mut lib = Library { answer: vec![0; ANSWER_WORDS], program: vec![0; PROGRAM_WORDS], state: vec![0; STATE_WORDS] };
    let families: Vec<&Family> = FAMILIES.iter().filter(|f| asked.only.as_deref().map_or(true, |n| n == f.name)).collect();
    println!("{:<10} {:>8} {:>6} {:>10} {:>12} {:>7}  numbers", "family", "tried", "bytes", "count", "us", "refusal");
    for (k, family) in families.iter().enumerate() {
        let mut rng = Numbers(asked.seed.wrapping_mul(0x9e37_79b9_7f4a_7c15).wrapping_add(k as u64 + 1) | 1);
        let start = match stored(&folder, family) {
            Some(numbers) if !asked.afresh => numbers,
            _ => family.start.to_vec(),
        };
        let script = (family.make)(&start).into_bytes();
        let called = lib.call(&script);
        let mut best = Best { numbers: start, script, called };
        let share = Duration::from_millis(1_000 * asked.seconds / families.len() as u64);
        let tries = climb(&mut lib, family, asked.aim, &mut rng, share, asked.scripts, &mut best);
        best.called = lib.least(&best.script, 3);
        keep(&folder, family, &best);
        let numbers: Vec<String> = best.numbers.iter().zip(family.numbers).map(|(n, (name, _, _))| format!("{name} {n}")).collect();
        println!("{:<10} {tries:>8} {:>6} {:>10} {:>12.0} {:>7}  {}", family.name, best.script.len(), best.called.count, best.called.nanos as f64 / 1e3, best.called.refusal, numbers.join(", "));
    }
}

const USAGE: &str = "usage: bench/search [--aim time|count] [--seconds N] [--scripts N] [--seed N] [--family NAME] [--afresh]";

fn asked() -> Option<Asked> {
    let mut asked = Asked { aim: Aim::Time, seconds: 300, scripts: usize::MAX, seed: 1, afresh: false, only: None };
    let mut words = std::env::args().skip(1);
    while let Some(word) = words.next() {
        match word.as_str() {
            "--afresh" => asked.afresh = true,
            "--aim" => asked.aim = match words.next()?.as_str() { "time" => Aim::Time, "count" => Aim::Count, _ => return None },
            "--seconds" => asked.seconds = words.next()?.parse().ok()?,
            "--scripts" => asked.scripts = words.next()?.parse().ok()?,
            "--seed" => asked.seed = words.next()?.parse().ok()?,
            "--family" => asked.only = Some(words.next().filter(|n| FAMILIES.iter().any(|f| f.name == n))?),
            _ => return None,
        }
    }
    Some(asked)
}

fn main() {
    let Some(asked) = asked() else {
        eprintln!("{USAGE}");
        std::process::exit(2)
    };
    std::thread::Builder::new().stack_size(1 << 26).spawn(|| run(asked)).expect("a thread").join().expect("a run that ends");
}
