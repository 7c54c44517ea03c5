//! Work in units, on several threads, with a ledger of what is done: a run that was stopped goes on where it was.
use std::collections::HashSet;
use std::fs::OpenOptions;
use std::io::Write;
use std::sync::atomic::{AtomicBool, AtomicU64, AtomicUsize, Ordering};
use std::sync::Mutex;
use std::time::{Duration, Instant};

/// Where scripts or texts come from, each by its number.
pub trait Source: Clone + Sync {
    fn name(&self) -> String;
    fn one(&self, i: u64) -> Vec<u8>;
}

/// Numbers from..to of a source.
pub struct Unit<S> {
    pub source: S,
    pub from: u64,
    pub to: u64,
}

impl<S: Source> Unit<S> {
    fn name(&self) -> String {
        format!("{} {}..{}", self.source.name(), self.from, self.to)
    }
}

/// The first `count` of a source, in units of at most `size`.
pub fn cut<S: Source>(all: &mut Vec<Unit<S>>, source: S, count: u64, size: u64) {
    let mut from = 0;
    while from < count {
        let to = (from + size).min(count);
        all.push(Unit { source: source.clone(), from, to });
        from = to;
    }
}

/// A program: its name, what it compares, and what it counts besides.
pub struct Tool {
    pub name: &'static str,
    pub things: &'static str,
    pub counted: &'static str,
    pub usage: &'static str,
}

/// Of a text that differs so many bytes are shown.
const SHOWN: usize = 4_000;

impl Tool {
    fn stop(&self, text: &str) -> ! {
        eprintln!("{}: {text}", self.name);
        std::process::exit(2)
    }

    /// The numbers of `--NAME N`, each with its default, and the file of `--ledger`.
    pub fn words<const N: usize>(&self, known: [(&str, u64); N]) -> ([u64; N], String) {
        let (mut numbers, mut ledger) = (known.map(|(_, n)| n), format!("{}.ledger", self.name));
        let mut words = std::env::args().skip(1);
        while let Some(word) = words.next() {
            let Some(value) = words.next() else { self.stop(&format!("{word}: nothing after it; {}", self.usage)) };
            match known.iter().position(|(name, _)| word.strip_prefix("--") == Some(name)) {
                Some(k) => numbers[k] = value.parse().unwrap_or_else(|_| self.stop(&format!("{word}: a number expected, not '{value}'"))),
                None if word == "--ledger" => ledger = value,
                None => self.stop(&format!("unknown word '{word}'; {}", self.usage)),
            }
        }
        (numbers, ledger)
    }

    /// A line of the ledger: unit, then how many, how many of these are counted, how many differ.
    fn read_ledger(&self, path: &str) -> (HashSet<String>, [u64; 3]) {
        let (mut done, mut sums) = (HashSet::new(), [0u64; 3]);
        let Ok(text) = std::fs::read_to_string(path) else { return (done, sums) };
        for line in text.lines() {
            let Some((name, numbers)) = line.split_once(" | ") else { self.stop(&format!("{path}: a line that is none of mine: {line}")) };
            let numbers: Vec<u64> = numbers.split(' ').filter_map(|n| n.parse().ok()).collect();
            if numbers.len() != 3 {
                self.stop(&format!("{path}: a line that is none of mine: {line}"));
            }
            done.insert(name.to_string());
            for (sum, n) in sums.iter_mut().zip(numbers) {
                *sum += n;
            }
        }
        (done, sums)
    }

    /// Judges what the ledger hasn't got yet: each thread with a judge of its own, which says whether one is counted or what differs. Status 1 if any differs.
    pub fn run<S, J>(&self, units: Vec<Unit<S>>, about: &str, threads: u64, ledger: &str, judge: impl Fn() -> J + Sync)
    where
        S: Source,
        J: FnMut(u64, &[u8]) -> Result<bool, &'static str>,
    {
        let total: u64 = units.iter().map(|u| u.to - u.from).sum();
        let (old, [s, a, d]) = self.read_ledger(ledger);
        let todo: Vec<Unit<S>> = units.into_iter().filter(|u| !old.contains(&u.name())).collect();
        let file = OpenOptions::new().create(true).append(true).open(ledger).unwrap_or_else(|e| self.stop(&format!("{ledger}: {e}")));
        let file = Mutex::new(file);
        let (done, counted, different) = (AtomicU64::new(s), AtomicU64::new(a), AtomicU64::new(d));
        let (next, shortest) = (AtomicUsize::new(0), Mutex::new(None::<(Vec<u8>, &'static str, String)>));
        let (begun, finished) = (Instant::now(), AtomicBool::new(false));
        let work = || {
            let mut judge = judge();
            while let Some(unit) = todo.get(next.fetch_add(1, Ordering::Relaxed)) {
                let (mut yes, mut no) = (0, 0);
                for i in unit.from..unit.to {
                    let one = unit.source.one(i);
                    match judge(i, &one) {
                        Ok(one) => yes += one as u64,
                        Err(what) => {
                            no += 1;
                            let mut least = shortest.lock().unwrap();
                            if least.as_ref().is_none_or(|(s, _, _)| one.len() < s.len()) {
                                *least = Some((one, what, format!("{} number {i}", unit.name())));
                            }
                        }
                    }
                }
                let count = unit.to - unit.from;
                done.fetch_add(count, Ordering::Relaxed);
                counted.fetch_add(yes, Ordering::Relaxed);
                different.fetch_add(no, Ordering::Relaxed);
                let line = format!("{} | {count} {yes} {no}\n", unit.name());
                file.lock().unwrap().write_all(line.as_bytes()).expect("the ledger takes a line");
            }
        };
        std::thread::scope(|scope| {
            let workers: Vec<_> = (0..threads)
                .map(|_| std::thread::Builder::new().stack_size(1 << 28).spawn_scoped(scope, work).expect("a thread"))
                .collect();
            scope.spawn(|| {
                while !finished.load(Ordering::Relaxed) {
                    std::thread::sleep(Duration::from_millis(500));
                    let now = done.load(Ordering::Relaxed);
                    let rate = (now - s) as f64 / begun.elapsed().as_secs_f64();
                    eprint!("\r{now} of {total} {}, {rate:.0} a second, {} differences ", self.things, different.load(Ordering::Relaxed));
                }
                eprintln!();
            });
            for worker in workers {
                worker.join().expect("a worker that ends");
            }
            finished.store(true, Ordering::Relaxed);
        });
        println!(
            "{} {} ({about}), {} {}, {} differences, {:.0} s",
            done.load(Ordering::Relaxed), self.things, counted.load(Ordering::Relaxed), self.counted, different.load(Ordering::Relaxed), begun.elapsed().as_secs_f64()
        );
        if let Some((one, what, place)) = shortest.into_inner().unwrap() {
            println!("shortest: {what} differs, {place}, {} bytes:\n{}", one.len(), String::from_utf8_lossy(&one[..one.len().min(SHOWN)]));
        }
        if different.into_inner() != 0 {
            std::process::exit(1);
        }
    }
}
