//! Times the library beside the Rust, in one run on the same scripts. See ../README.md.
#[path = "../../bindings/dinqosa.rs"]
mod dinqosa;
mod clock;
mod shapes;
use dinqosa::{ANSWER_WORDS, PROGRAM_WORDS, STATE_WORDS};
use shapes::{each, joins, name, pair, ring};
use std::alloc::{GlobalAlloc, Layout, System};
use std::sync::atomic::{AtomicBool, AtomicUsize, Ordering};
use std::time::Duration;

// ---- the Rust's memory: the most bytes of heap at once, while asked for ----

struct Counting;

static ASKED: AtomicBool = AtomicBool::new(false);
static HELD: AtomicUsize = AtomicUsize::new(0);
static MOST: AtomicUsize = AtomicUsize::new(0);

unsafe impl GlobalAlloc for Counting {
    unsafe fn alloc(&self, layout: Layout) -> *mut u8 {
        if ASKED.load(Ordering::Relaxed) {
            let held = HELD.fetch_add(layout.size(), Ordering::Relaxed) + layout.size();
            MOST.fetch_max(held, Ordering::Relaxed);
        }
        System.alloc(layout)
    }

    unsafe fn dealloc(&self, at: *mut u8, layout: Layout) {
        if ASKED.load(Ordering::Relaxed) {
            HELD.fetch_sub(layout.size(), Ordering::Relaxed);
        }
        System.dealloc(at, layout)
    }
}

#[global_allocator]
static HEAP: Counting = Counting;

/// The most bytes of heap in a call, and its time.
fn heap_of(call: impl FnOnce()) -> (usize, Duration) {
    HELD.store(0, Ordering::Relaxed);
    MOST.store(0, Ordering::Relaxed);
    ASKED.store(true, Ordering::Relaxed);
    let ((), taken) = clock::timed(call);
    ASKED.store(false, Ordering::Relaxed);
    (MOST.load(Ordering::Relaxed), taken)
}

// ---- scripts ----

/// Pads a script with line ends to a length; they mean nothing.
fn padded(text: String, length: usize) -> Vec<u8> {
    let mut script = text.into_bytes();
    script.resize(script.len().max(length), b'\n');
    script
}

/// One long line of sums.
fn straight(n: usize) -> String {
    format!("def main() ration=1 {} end", each(n, |_| "ration=ration+1 ".into()))
}

/// Functions that call the next one, twice.
fn functions(n: usize) -> String {
    let one = |i: usize| {
        let next = name('f', n - i);
        format!("def {}(cow,days) ration=cow+days if days<cow {next}(ration,days) else {next}(days,ration) end end ", name('f', n - i - 1))
    };
    format!("def {}(cow,days) cow end {}def main() {}(1,2) end", name('f', n), each(n, one), name('f', 0))
}

/// Choices that set a variable in both arms.
fn choices(n: usize) -> String {
    format!("def feed(cow) ration=1 {} ration end def main() feed(1) feed(2) end", each(n, |i| format!("if cow<{i} ration=ration+{i} cow=ration else ration=cow+1 end ")))
}

/// Classes with a constructor, attributes and methods, and sends to all of them.
fn objects(n: usize) -> String {
    let class = |i: usize| {
        format!(
            "class {} attr_accessor :days attr_accessor :milk def initialize(days) @days=days @milk=days+1 end def ration(more) @milk=more+@days @milk end end ",
            name('C', i)
        )
    };
    let made = |i: usize| format!("{}.new({i})", name('C', i));
    format!("{}def feed(cow,next) cow.ration(1) if cow.days<2 feed(next,cow) end end def main() {} end", each(n, class),
            each(n, |i| format!("feed({},{}) ", made(i), made((i + 1) % n))))
}

/// Many variables, in force under nested choices.
fn variables(n: usize, depth: usize) -> String {
    let some = 26 * 26 * 26;
    let var = |i: usize| { let i = i % some; format!("{}{}", (b'a' + (i / 676) as u8) as char, &name('v', i % 676)[1..]) };
    format!("def feed(cow) {}{}{}{} end def main() feed(1) feed(2) end", each(n, |i| format!("x{}=1 ", var(i))), each(depth, |i| format!("if cow x{}=cow ", var(i * 7))), "end ".repeat(depth),
            each(n, |i| format!("x{} ", var(i))))
}

fn fitting(make: impl Fn(usize) -> String, most: usize) -> Vec<u8> {
    let (mut low, mut high) = (1, 4_096);
    // the largest that is answered within the bytes
    while low < high {
        let middle = (low + high + 1) / 2;
        let script = make(middle).into_bytes();
        if script.len() <= most && limited::image::timed(&script).is_ok() { low = middle } else { high = middle - 1 }
    }
    make(low).into_bytes()
}

fn scripts() -> Vec<(String, Vec<u8>)> {
    let mut all: Vec<(String, Vec<u8>)> = vec![];
    for (label, most) in [("1 KB", 1_024), ("2 KB", 2_048), ("4 KB", 4_096), ("8 KB", 8_192), ("16 KB", 16_384)] {
        let mut add = |shape: &str, script: Vec<u8>| all.push((format!("{label} {shape}"), padded(String::from_utf8(script).unwrap(), most)));
        add("straight", fitting(straight, most));
        add("functions", fitting(|n| functions(n), most));
        add("choices", fitting(choices, most));
        add("objects", fitting(|n| objects(n), most));
        add("variables", fitting(|n| variables(n, (n / 8).clamp(1, 60)), most));
        add("ring", fitting(|n| ring(|i| name('p', i), n.min(66), n.min(60), 1 + n / 60, 0, 1, "nil"), most));
    }
    let mut made = 0;
    for i in 0.. {
        let script = generate::one("good", 7, i, None);
        if (900..=1_024).contains(&script.len()) && limited::image::timed(&script).is_ok() {
            all.push((format!("1 KB generated {made}"), script));
            made += 1;
            if made == 8 {
                break;
            }
        }
    }
    let mut best = (0, vec![]);
    for i in 0..40 {
        let script = generate::one("lists", 7, i, None);
        if let Ok(count) = limited::image::timed(&script) {
            if count > best.0 {
                best = (count, script);
            }
        }
    }
    if best.0 > 0 {
        all.push(("full waiting lists".into(), best.1));
    }
    all.push(("16 KB joins".into(), joins(1_520, 2_545, 120).into_bytes()));
    all.push(("ring with sums".into(), ring(pair, 48, 19, 28, 1_184, 13, "nil").into_bytes()));
    all.push(("ring of 96".into(), ring(pair, 96, 11, 48, 2, 7, "nil").into_bytes()));
    all.push(("ring of 83".into(), ring(pair, 83, 11, 62, 0, 27, "1").into_bytes()));
    // what bench/search came to, family by family
    all.extend(shapes::worst().into_iter().map(|(name, script)| (name.into(), script.into_bytes())));
    all
}

// ---- time ----

/// The middle of several turns, in nanoseconds of processor time a call. A first call was made, for what else it gives; where it took above a second
/// there is no other.
fn time(first: Duration, mut call: impl FnMut()) -> f64 {
    if Duration::from_secs(1) < first {
        return first.as_nanos() as f64;
    }
    let once = clock::timed(&mut call).1.max(Duration::from_nanos(50));
    let calls = (Duration::from_millis(40).as_nanos() / once.as_nanos()).clamp(1, 100_000) as u32;
    let mut turns: Vec<f64> = (0..5).map(|_| clock::timed(|| (0..calls).for_each(|_| call())).1.as_nanos() as f64 / calls as f64).collect();
    turns.sort_by(f64::total_cmp);
    turns[2]
}

struct Row {
    name: String,
    bytes: usize,
    count: u64,
    ours: f64,
    rust: f64,
}

// ---- plots ----

fn plot(path: &str, title: &str, axis: &str, points: &[(f64, f64, f64)]) {
    let (w, h, left, low) = (640.0, 420.0, 70.0, 50.0);
    let bounds = |values: Vec<f64>| {
        let (a, b) = values.iter().fold((f64::MAX, f64::MIN), |(a, b), v| (a.min(*v), b.max(*v)));
        (a.log10().floor(), b.log10().ceil().max(a.log10().floor() + 1.0))
    };
    let (x0, x1) = bounds(points.iter().map(|p| p.0).collect());
    let (y0, y1) = bounds(points.iter().flat_map(|p| [p.1, p.2]).collect());
    let x = |v: f64| left + (v.log10() - x0) / (x1 - x0) * (w - left - 20.0);
    let y = |v: f64| h - low - (v.log10() - y0) / (y1 - y0) * (h - low - 40.0);
    let mut out = format!("<svg xmlns=\"http://www.w3.org/2000/svg\" width=\"{w}\" height=\"{h}\" font-family=\"sans-serif\" font-size=\"12\">\n<rect width=\"{w}\" height=\"{h}\" fill=\"white\"/>\n<text x=\"{left}\" y=\"20\" font-size=\"14\">{title}</text>\n");
    for e in x0 as i32..=x1 as i32 {
        let at = x(10f64.powi(e));
        out += &format!("<line x1=\"{at:.1}\" y1=\"40\" x2=\"{at:.1}\" y2=\"{:.1}\" stroke=\"#ddd\"/><text x=\"{at:.1}\" y=\"{:.1}\" text-anchor=\"middle\">10^{e}</text>\n", h - low, h - low + 18.0);
    }
    for e in y0 as i32..=y1 as i32 {
        let at = y(10f64.powi(e));
        out += &format!("<line x1=\"{left}\" y1=\"{at:.1}\" x2=\"{:.1}\" y2=\"{at:.1}\" stroke=\"#ddd\"/><text x=\"{:.1}\" y=\"{:.1}\" text-anchor=\"end\">10^{e}</text>\n", w - 20.0, left - 6.0, at + 4.0);
    }
    for (at, ours, rust) in points {
        out += &format!("<circle cx=\"{:.1}\" cy=\"{:.1}\" r=\"3\" fill=\"#1f6fb4\"/><rect x=\"{:.1}\" y=\"{:.1}\" width=\"6\" height=\"6\" fill=\"none\" stroke=\"#b4421f\"/>\n", x(*at), y(*ours), x(*at) - 3.0, y(*rust) - 3.0);
    }
    out += &format!("<text x=\"{:.1}\" y=\"{:.1}\" text-anchor=\"middle\">{axis}</text>\n<text x=\"14\" y=\"{:.1}\" transform=\"rotate(-90 14 {:.1})\" text-anchor=\"middle\">microseconds a call</text>\n", (left + w) / 2.0, h - 10.0, h / 2.0, h / 2.0);
    out += &format!("<circle cx=\"{:.1}\" cy=\"30\" r=\"3\" fill=\"#1f6fb4\"/><text x=\"{:.1}\" y=\"34\">library</text><rect x=\"{:.1}\" y=\"27\" width=\"6\" height=\"6\" fill=\"none\" stroke=\"#b4421f\"/><text x=\"{:.1}\" y=\"34\">the Rust</text>\n</svg>\n", w - 170.0, w - 160.0, w - 100.0, w - 90.0);
    std::fs::write(path, out).unwrap_or_else(|e| panic!("{path}: {e}"));
}

// ---- reading back ----

/// Times the reader of stored answers beside the reference's, on texts whose length doubles.
fn read_back(answer: &mut [u64]) {
    println!("{:<24} {:>9} {:>11} {:>11} {:>7} {:>9}", "stored answer", "bytes", "library us", "stored us", "ratio", "ns/byte");
    let mut words = vec![0u64; ANSWER_WORDS];
    for instructions in [128, 256, 512, 1_024, 2_048] {
        let text = texts::all_callers(instructions);
        let (given, first) = clock::timed(|| dinqosa::read(&text, answer));
        assert_eq!(given, Ok(dinqosa::Loaded::Answer));
        let ours = time(first, || { let _ = dinqosa::read(&text, answer); });
        let (_, first) = clock::timed(|| stored::read(&text, &mut words));
        let theirs = time(first, || { let _ = stored::read(&text, &mut words); });
        let name = format!("{instructions} instructions");
        println!("{name:<24} {:>9} {:>11.1} {:>11.1} {:>7.2} {:>9.2}", text.len(), ours / 1_000.0, theirs / 1_000.0, theirs / ours, ours / text.len() as f64);
    }
}

fn run(plots: Option<String>) {
    for setup in [limited::driver::set_up, current::driver::set_up] {
        setup();
    }
    let (mut answer, mut program, mut state) = (vec![0u64; ANSWER_WORDS], vec![0u64; PROGRAM_WORDS], vec![0u64; STATE_WORDS]);
    let mut call = |script: &[u8]| {
        let (given, taken) = clock::timed(|| dinqosa::analyze(script, &mut answer, &mut program, &mut state));
        (given.map_or(0, |()| dinqosa::Answer(&answer).count()), taken)
    };
    let clearing = time(Duration::ZERO, || { let _ = call(b"$"); });
    println!("a call that reads one byte and clears: {:.1} us", clearing / 1_000.0);
    println!("lent memory: {} bytes", 8 * (ANSWER_WORDS + PROGRAM_WORDS + STATE_WORDS));
    println!("{:<24} {:>6} {:>9} {:>11} {:>11} {:>7} {:>9} {:>10}", "script", "bytes", "count", "library us", "Rust us", "ratio", "ns/entry", "Rust heap");
    let mut rows = vec![];
    for (name, script) in scripts() {
        let (count, first) = call(&script);
        let ours = time(first, || { let _ = call(&script); });
        let (heap, first) = heap_of(|| { let _ = current::image::timed(&script); });
        let rust = time(first, || { let _ = current::image::timed(&script); });
        println!(
            "{name:<24} {:>6} {count:>9} {:>11.1} {:>11.1} {:>7.2} {:>9.1} {:>10}",
            script.len(), ours / 1_000.0, rust / 1_000.0, rust / ours, (ours - clearing).max(0.0) / count.max(1) as f64, heap
        );
        rows.push(Row { name, bytes: script.len(), count, ours, rust });
    }
    let least = |label: &str| rows.iter().filter(|r| r.name.starts_with(label)).map(|r| r.rust / r.ours).fold(f64::MAX, f64::min);
    println!("least ratio: 1 KB {:.2}, 16 KB {:.2}", least("1 KB"), least("16 KB"));
    read_back(&mut answer);
    if let Some(folder) = plots {
        let rows: Vec<&Row> = rows.iter().filter(|r| r.count > 0).collect();
        plot(&format!("{folder}/time-count.svg"), "Time against count", "entries taken off", &rows.iter().map(|r| (r.count as f64, r.ours / 1e3, r.rust / 1e3)).collect::<Vec<_>>());
        plot(&format!("{folder}/time-length.svg"), "Time against script length", "bytes", &rows.iter().map(|r| (r.bytes as f64, r.ours / 1e3, r.rust / 1e3)).collect::<Vec<_>>());
    }
}

fn main() {
    let words: Vec<String> = std::env::args().skip(1).collect();
    let plots = match words.as_slice() {
        [] => None,
        [word, folder] if word == "--plots" => Some(folder.clone()),
        _ => {
            eprintln!("usage: bench [--plots FOLDER]");
            std::process::exit(2)
        }
    };
    std::thread::Builder::new().stack_size(1 << 28).spawn(|| run(plots)).expect("a thread").join().expect("a run that ends");
}
