//! Scripts by shape: each function writes one family, by its numbers. bench/run times some, bench/search looks for the worst.

/// Names of small letters that are no kept words: faa, fab, ..
pub fn name(first: char, i: usize) -> String {
    format!("{first}{}{}", (b'a' + (i / 26 % 26) as u8) as char, (b'a' + (i % 26) as u8) as char)
}

pub fn each(n: usize, text: impl Fn(usize) -> String) -> String {
    (0..n).map(text).collect()
}

/// Two letters.
pub fn pair(i: usize) -> String {
    let letter = |i: usize| if i < 26 { (b'a' + i as u8) as char } else { (b'A' + (i - 26) as u8) as char };
    [letter(i / 52 % 52), letter(i % 52)].iter().collect()
}

/// Short names of parameters: one letter, then two. None is a kept word, a class or one of the functions f, g, k, m and r.
pub fn short(i: usize) -> String {
    let ones = "abcdehijlnopqstuvwxyzABCDEFGHIJKLMNOPQRSTUVWXYZ";
    match ones.chars().nth(i) {
        Some(c) => c.into(),
        None => { let i = i - ones.len(); format!("{}{}", (b'a' + (i / 26 % 26) as u8) as char, (b'A' + (i % 26) as u8) as char) }
    }
}

fn class(i: usize) -> String {
    format!("{}{}", (b'A' + (i / 26) as u8) as char, (b'a' + (i % 26) as u8) as char)
}

fn function(i: usize) -> String {
    format!("{}{}", (b'f' + (i / 26) as u8) as char, (b'a' + (i % 26) as u8) as char)
}

/// Values whose kinds rise, one by one: a number, Int, the other built-in classes, then objects.
fn value(i: usize) -> String {
    match i {
        0..=4 => ["1", "2", "nil", "true", "false"][i].into(),
        _ => format!("{}.new()", class(i - 5)),
    }
}

/// The classes of that many values.
fn classes_of(values: usize) -> String {
    each(values.saturating_sub(5), |i| format!("class {} end ", class(i)))
}

fn list(n: usize, text: impl Fn(usize) -> String) -> String {
    (0..n).map(text).collect::<Vec<_>>().join(",")
}

/// Nested choices, each in force only when all before it has come to rest.
fn stages(n: usize, text: impl Fn(usize) -> String) -> String {
    format!("{}{}", each(n, |i| format!("if 1 {}", text(i))), "end ".repeat(n))
}

/// The same with a pause behind the first: choices that only pass the time in which functions go live one by one.
fn paused(n: usize, pause: usize, text: impl Fn(usize) -> String) -> String {
    stages(n + pause, |i| match i {
        0 => text(0),
        _ if i <= pause => String::new(),
        _ => text(i - pause),
    })
}

/// Functions that are never called.
fn uncalled(n: usize) -> String {
    each(n, |i| format!("def {}()end ", name('u', i)))
}

/// Names that are set under nested choices and nowhere else, over many bindings: each is looked up in vain at each join.
pub fn joins(names: usize, bindings: usize, depth: usize) -> String {
    let set: Vec<String> = (0..).map(pair).filter(|n| n != "if").take(names).map(|n| format!("{n}=a")).collect();
    format!("def feed(c)a=nil {} {}{}{} end def main() feed(1)feed(2)end", "b=1".repeat(bindings), "if c ".repeat(depth), set.join(" "), " end".repeat(depth))
}

/// A ring of parameters, handed on from `step` on, whose kinds widen one class at a time: many entries for few bytes. At the
/// start the first hold an object each, the rest the `other` value.
pub fn ring(param: fn(usize) -> String, params: usize, classes: usize, calls: usize, sums: usize, step: usize, other: &str) -> String {
    let list = |from: usize| (0..params).map(|i| param((from + i) % params)).collect::<Vec<_>>().join(",");
    let objects: Vec<String> = (0..params).map(|i| if i < classes { format!("{}.new()", name('C', i)) } else { other.into() }).collect();
    format!("{}def k({}) {}{} end def main() k({}) end", each(classes, |i| format!("class {} end ", name('C', i))), list(0),
            each(calls, |_| format!("k({}) ", list(step))), each(sums, |i| format!("{}+1 ", param(i % params))), objects.join(","))
}

/// The same for thousands of parameters and few calls: the objects stand `gap` places apart.
pub fn wide_ring(params: usize, values: usize, calls: usize, step: usize, gap: usize) -> String {
    let handed = |from: usize| list(params, |i| short((from + i) % params));
    let held = |i: usize| if i % gap == 0 && i / gap < values { value(i / gap) } else { "1".into() };
    format!("{}def k({}){}end def main()k({})end", classes_of(values), handed(0), each(calls, |_| format!("k({})", handed(step))), list(params, held))
}

/// A chain of functions that hand all their parameters on, `calls` times each. One class more comes down it at each stage: all
/// parameters of a function rise, each wakes all calls, and each of these puts all parameters of the next function in the list.
/// `back` returns in each function wake its callers.
pub fn chain(functions: usize, width: usize, calls: usize, values: usize, back: usize, pause: usize) -> String {
    let params = list(width, short);
    let link = |i: usize| {
        let next = if i == 0 { String::new() } else { format!("{}({params})", function(i - 1)).repeat(calls) };
        format!("def {}({params}){}{next}end ", function(i), "if a return a end ".repeat(back))
    };
    format!("{}{}def g(o){}({})end def main(){}end", classes_of(values), each(functions, link), function(functions - 1), list(width, |_| "o".into()),
            paused(values, pause, |i| format!("g({})", value(i))))
}

/// Sends of one name, in several groups, to objects of all classes: one class more at each stage. A class has a method for each
/// group; it has `args` parameters and returns the first, `back` times besides.
pub fn sends(classes: usize, groups: usize, sends: usize, args: usize, back: usize, idle: usize, length: usize) -> String {
    let method = |k: usize| format!("{}{}", "m".repeat(length), name('m', k));
    let methods = |k: usize| format!("def {}({}){}a end ", method(k), list(args, short), "if a return a end ".repeat(back));
    let to_all = |k: usize| format!("def {}(o){}end ", name('f', k), format!("o.{}({})", method(k), list(args, |_| "o".into())).repeat(sends));
    format!("{}{}{}def main(){}end", each(classes, |i| format!("class {} {}end ", class(i), each(groups, methods))), each(groups, to_all), uncalled(idle),
            stages(classes * groups, |i| format!("{}({}.new())", name('f', i % groups), class(i / groups))))
}

/// Attribute reads of objects of all classes, and a setting in each class: one class more is set at each stage, in `links` classes
/// at once and then, along a chain of sends, in the others. `before` attributes stand before the one that is read.
pub fn reads(classes: usize, reads: usize, before: usize, length: usize, links: usize, idle: usize) -> String {
    let attribute = |j: usize| format!("{}{}", "x".repeat(length), (b'a' + (j % 26) as u8) as char);
    let last = attribute(before);
    let one = |i: usize| {
        let i = classes - 1 - i;
        let next = if i + links < classes { format!("{}.new().m(v)", class(i + links)) } else { String::new() };
        format!("class {} {}def m(v)@{last}=v {next}end end ", class(i), each(before + 1, |j| format!("attr_accessor :{} ", attribute(j))))
    };
    let heads = each(links.min(classes), |i| format!("{}.new().m(o)", class(i)));
    format!("{}def r(o)o.m(nil){}end {}def g(o){heads}end def main(){}{}end", each(classes, one), format!("o.{last} ").repeat(reads), uncalled(idle),
            each(classes, |i| format!("r({}.new())", class(i))), stages(classes + 1, |i| if i == 0 { String::new() } else { format!("g({}.new())", class(i - 1)) }))
}

/// Calls of one function from one place, whose arguments rise together: one class more at each stage. Each call puts all outdated
/// parameters in the list, and each of these looks at all callers.
pub fn callers(values: usize, params: usize, calls: usize, back: usize, idle: usize) -> String {
    let all = list(params, short);
    format!("{}def f({all}){}end {}def g({all}){}end def main(){}end", classes_of(values), "if a return a end ".repeat(back), uncalled(idle),
            format!("f({all})").repeat(calls), stages(values, |i| format!("o={} g({})", value(i), list(params, |_| "o".into()))))
}

/// A function with many returns and many callers: one class more at each stage; `groups` of them, one after the other.
pub fn returns(values: usize, groups: usize, back: usize, calls: usize, users: usize) -> String {
    let one = |k: usize| format!("def {}(a){}a end ", function(k), "if a return a end ".repeat(back));
    let all = |k: usize| {
        let call = format!("{}(a)", function(k));
        format!("def {}(a){}{}end ", name('h', k), call.repeat(calls), format!("{call}+1 ").repeat(users))
    };
    format!("{}{}{}def main(){}end", classes_of(values), each(groups, one), each(groups, all),
            stages(values * groups, |i| format!("{}({})", name('h', i % groups), value(i / groups))))
}

/// The parts of all these in one script: classes with a setting method; a function with returns and sums; another with sends, reads,
/// calls of the first, calls of itself with its parameters moved on, and sums.
pub fn mixed(n: &[usize]) -> String {
    let [classes, params, attributes, back, sends, reads, calls, selves, step, sums, returns, idle] = n[..12] else { panic!("twelve numbers") };
    let handed = |from: usize| list(params, |i| short((from + i) % params));
    let last = short(attributes);
    let one = |i: usize| {
        format!("class {} {}def m(a)@{last}=a {}a end end ", class(i), each(attributes + 1, |j| format!("attr_accessor :{} ", short(j))), "if a return a end ".repeat(back))
    };
    let by = |n: usize, text: &dyn Fn(String) -> String| each(n, |i| text(short(i % params)));
    format!("{}def f({}){}{}end {}def g({}){}{}{}{}{}end def main(){}end", each(classes, one), handed(0), "if a return a end ".repeat(returns), by(sums, &|p| format!("{p}+1 ")), uncalled(idle),
            handed(0), by(sends, &|p| format!("{p}.m({p})")), by(reads, &|p| format!("{p}.{last} ")), format!("f({})", handed(0)).repeat(calls),
            format!("g({})", handed(step)).repeat(selves), by(sums, &|p| format!("{p}+1 ")),
            stages(classes, |i| format!("o={}.new()g({})", class(i), list(params, |j| if j % (1 + step) == 0 { "o".into() } else { format!("{}.new()", class(0)) }))))
}

/// The worst that were found by time or by count: the first two by hand, the others by bench/search or from its families.
pub fn worst() -> Vec<(&'static str, String)> {
    vec![
        ("60 classes, 272 sends", sends(60, 1, 272, 1, 0, 66, 0)),
        ("the same, long names", sends(60, 1, 272, 1, 0, 66, 20)),
        ("attribute reads", reads(60, 1_190, 5, 0, 9, 0)),
        ("many returns", returns(65, 1, 41, 269, 115)),
        ("many callers", callers(65, 3, 1_600, 0, 0)),
        ("ring of 543", wide_ring(543, 59, 8, 1_786, 17)),
        ("reads and settings mixed", mixed(&[60, 4, 6, 0, 24, 480, 17, 99, 18, 11, 34, 0])),
        ("largest count found", chain(20, 73, 3, 65, 0, 50)),
    ]
}
