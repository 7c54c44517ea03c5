//! Scripts for comparing, as a batch. Words: see USAGE. The same words give the same batch.
use std::io::Write;

const USAGE: &str = "usage: generate good|damaged|words|limits|lists --seed N --count N [--size N], or generate all --words N [--frame NAME]";

// ---- numbers by chance ----

pub struct Rng(pub u64);

impl Rng {
    pub fn next(&mut self) -> u64 {
        // splitmix64
        self.0 = self.0.wrapping_add(0x9e3779b97f4a7c15);
        let mut z = self.0;
        z = (z ^ (z >> 30)).wrapping_mul(0xbf58476d1ce4e5b9);
        z = (z ^ (z >> 27)).wrapping_mul(0x94d049bb133111eb);
        z ^ (z >> 31)
    }

    pub fn below(&mut self, n: usize) -> usize {
        (self.next() >> 11) as usize % n
    }

    pub fn percent(&mut self, n: usize) -> bool {
        self.below(100) < n
    }

    pub fn pick<'a, T>(&mut self, from: &'a [T]) -> &'a T {
        &from[self.below(from.len())]
    }
}

// ---- scripts that know the grammar ----

/// What the writer believes of a value, to be accepted more often.
#[derive(Clone, Copy, PartialEq, Debug)]
enum Sort {
    Number,
    /// nil, a truth or a number
    Plain,
    /// an object of any class known so far: all classes share some methods and attributes
    Object,
    /// anything; not sent to
    Mixed,
}

#[derive(Clone)]
struct Fun {
    name: String,
    params: Vec<Sort>,
    gives: Sort,
    method: bool,
}

#[derive(Clone)]
struct Class {
    name: String,
    constructor: Option<Vec<Sort>>,
    /// attributes with the sort that settings keep
    attributes: Vec<(String, Sort)>,
    methods: Vec<Fun>,
}

struct Writer<'a> {
    rng: &'a mut Rng,
    words: Vec<String>,
    funs: Vec<Fun>,
    classes: Vec<Class>,
    /// methods that every class has
    shared: Vec<Fun>,
    shared_attributes: Vec<(String, Sort)>,
    vars: Vec<(String, Sort)>,
    /// the class whose method is being written
    inside: Option<Class>,
    /// instructions may still be added here
    budget: usize,
    nesting: usize,
    fuel: usize,
}

const VARS: &[&str] = &["x", "y", "z", "w", "u", "v", "t_", "xx", "Y", "x1", "x10", "x2", "x_1", "xB", "x1_", "x1y", "end1", "nil2"];
const FUNS: &[&str] = &["f", "g", "h", "k", "p", "ff", "g_", "f1", "f2", "return1", "main2"];
const CLASSES: &[&str] = &["A", "B", "C", "D", "E", "Bb", "Integer", "NilClass", "A1", "B2"];
const ATTRS: &[&str] = &["a", "b", "c", "m", "x", "a1", "pen2"];
const METHODS: &[&str] = &["m", "n", "o", "a", "new", "m1", "new1", "initialize1"];

impl Writer<'_> {
    fn put(&mut self, word: &str) {
        self.words.push(word.to_string());
    }

    fn put_all(&mut self, words: &[&str]) {
        for word in words {
            self.put(word);
        }
    }

    fn sort(&mut self) -> Sort {
        *self.rng.pick(&[Sort::Number, Sort::Number, Sort::Plain, Sort::Object])
    }

    fn objects_known(&self) -> bool {
        !self.classes.is_empty()
    }

    fn name(&mut self, from: &[&str]) -> String {
        if self.rng.percent(1) {
            return self.rng.pick(&["true", "nil", "main", "initialize", "new", "A", "f", "x"]).to_string();
        }
        self.rng.pick(from).to_string()
    }

    fn bind(&mut self, name: &str, sort: Sort) {
        self.vars.retain(|(n, _)| n != name);
        self.vars.push((name.to_string(), sort));
    }

    fn var_of(&mut self, sort: Sort) -> Option<String> {
        let fits = |s: &Sort| *s == sort || (sort == Sort::Plain && *s == Sort::Number) || sort == Sort::Mixed;
        let known: Vec<String> = self.vars.iter().filter(|(_, s)| fits(s)).map(|(n, _)| n.clone()).collect();
        if known.is_empty() { None } else { Some(self.rng.pick(&known).clone()) }
    }

    fn literal(&mut self) {
        let text = match self.rng.below(20) {
            0 => "9223372036854775807".to_string(),
            1 => "9223372036854775806".to_string(),
            2 => "4611686018427387904".to_string(),
            3 => "3037000500".to_string(),
            4 => "3037000499".to_string(),
            5 => "007".to_string(),
            6 if self.rng.percent(3) => "9223372036854775808".to_string(),
            n if n < 14 => self.rng.below(4).to_string(),
            _ => self.rng.below(1000).to_string(),
        };
        self.put(&text);
    }

    /// Arguments for these parameters, with spare ones, a trailing comma or, seldom, one too few.
    fn arguments(&mut self, params: &[Sort]) {
        self.put("(");
        let mut sorts = params.to_vec();
        if self.rng.percent(8) {
            sorts.push(Sort::Plain);
        }
        if self.rng.percent(1) {
            sorts.pop();
        }
        let n = sorts.len();
        for (i, sort) in sorts.into_iter().enumerate() {
            self.expression(sort);
            if i + 1 < n || self.rng.percent(8) {
                self.put(",");
            }
        }
        self.put(")");
    }

    fn new_object(&mut self) {
        // the first class's constructor takes no objects, so this ends
        let class = if self.nesting > 4 { self.classes[0].clone() } else { self.rng.pick(&self.classes).clone() };
        self.put_all(&[&class.name, ".", "new"]);
        self.arguments(&class.constructor.unwrap_or_default());
    }

    /// A call of a known function that gives this sort; false if there is none.
    fn call(&mut self, sort: Sort) -> bool {
        let fits: Vec<Fun> = self.latest().into_iter()
            .filter(|f| !f.method && (f.gives == sort || sort == Sort::Mixed || (sort == Sort::Plain && f.gives == Sort::Number)))
            .filter(|f| self.objects_known() || !f.params.contains(&Sort::Object))
            .collect();
        if fits.is_empty() {
            return false;
        }
        let fun = self.rng.pick(&fits).clone();
        if self.rng.percent(4) {
            self.put_all(&["(", &fun.name, ")"]);
        } else {
            self.put(&fun.name);
        }
        self.arguments(&fun.params);
        true
    }

    /// The functions that names mean now.
    fn latest(&self) -> Vec<Fun> {
        let mut seen = vec![];
        let mut out = vec![];
        for fun in self.funs.iter().rev() {
            if !seen.contains(&&fun.name) {
                seen.push(&fun.name);
                out.push(fun.clone());
            }
        }
        out
    }

    /// A receiver, then a send or an attribute read.
    fn send(&mut self, sort: Sort) -> bool {
        if !self.objects_known() {
            return false;
        }
        let methods: Vec<Fun> = self.shared.iter().filter(|m| m.gives == sort || sort == Sort::Mixed).cloned().collect();
        let attributes: Vec<String> = self.shared_attributes.iter().filter(|(_, s)| *s == sort || sort == Sort::Mixed).map(|(n, _)| n.clone()).collect();
        if methods.is_empty() && attributes.is_empty() {
            return false;
        }
        match self.var_of(Sort::Object) {
            Some(name) if self.rng.percent(80) => self.put(&name),
            _ => self.new_object(),
        }
        self.put(".");
        if attributes.is_empty() || (!methods.is_empty() && self.rng.percent(60)) {
            let method = self.rng.pick(&methods).clone();
            self.put(&method.name);
            self.arguments(&method.params);
        } else {
            let name = self.rng.pick(&attributes).clone();
            self.put(&name);
        }
        true
    }

    fn own_attribute(&mut self, sort: Sort) -> Option<String> {
        let class = self.inside.as_ref()?;
        let fits: Vec<String> = class.attributes.iter().filter(|(_, s)| *s == sort || sort == Sort::Mixed).map(|(n, _)| n.clone()).collect();
        if fits.is_empty() { None } else { Some(self.rng.pick(&fits).clone()) }
    }

    fn setting(&mut self) -> bool {
        let Some(class) = self.inside.clone() else { return false };
        if class.attributes.is_empty() {
            return false;
        }
        let (name, sort) = self.rng.pick(&class.attributes).clone();
        self.put_all(&["@", &name, "="]);
        self.expression(sort);
        true
    }

    fn expression(&mut self, sort: Sort) {
        self.fuel = self.fuel.saturating_sub(1);
        self.nesting += 1;
        self.expression_at(sort);
        self.nesting -= 1;
    }

    fn leaf(&mut self, sort: Sort) {
        match sort {
            Sort::Number => match self.var_of(sort) {
                Some(name) if self.rng.percent(60) => self.put(&name),
                _ => self.literal(),
            },
            Sort::Plain | Sort::Mixed => match self.var_of(sort) {
                Some(name) if self.rng.percent(50) => self.put(&name),
                _ => match self.rng.below(4) {
                    0 => self.put("nil"),
                    1 => self.put("true"),
                    2 => self.put("false"),
                    _ => self.literal(),
                },
            },
            Sort::Object => match self.var_of(sort) {
                Some(name) if self.rng.percent(70) => self.put(&name),
                _ if self.objects_known() => self.new_object(),
                _ => self.literal(),
            },
        }
    }

    fn expression_at(&mut self, sort: Sort) {
        if self.nesting > 6 || self.fuel == 0 || self.rng.percent(35) {
            return self.leaf(sort);
        }
        match (sort, self.rng.below(24)) {
            (Sort::Object, _) => self.leaf(sort),
            (_, 0..=4) if sort != Sort::Plain => {
                self.expression(Sort::Number);
                let sign = *self.rng.pick(&["+", "*", "-", "+", "*", "-", "<"]);
                self.put(sign);
                self.expression(Sort::Number);
            }
            (_, 5..=6) => {
                self.expression(Sort::Number);
                self.put("<");
                self.expression(Sort::Number);
            }
            (_, 7) => {
                self.put("(");
                self.expression(sort);
                self.put(")");
            }
            (_, 8..=13) if self.call(sort) => {}
            (_, 14..=18) if self.send(sort) => {}
            (_, 19..=20) => match self.own_attribute(sort) {
                Some(name) => self.put_all(&["@", &name]),
                None => self.leaf(sort),
            },
            (_, 21) => {
                let name = self.name(VARS);
                self.put_all(&[&name, "="]);
                self.expression(sort);
                self.bind(&name, sort);
            }
            (_, 22) if sort == Sort::Mixed && self.rng.percent(40) && self.setting() => {}
            (_, 23) if sort == Sort::Mixed && self.rng.percent(10) && !self.funs.is_empty() => {
                let name = self.rng.pick(&self.funs).name.clone();
                self.put(&name);
            }
            _ => self.leaf(sort),
        }
    }

    /// Statements; true if the last one ends the block. `gives` is what a return here should give.
    fn statements(&mut self, count: usize, gives: Sort, last: Option<Sort>) -> bool {
        for _ in 0..count {
            if self.statement(gives) {
                return true;
            }
        }
        if let Some(sort) = last {
            self.fresh_line();
            if self.rng.percent(25) {
                self.put("return");
                self.expression(sort);
                return true;
            }
            self.expression(sort);
        }
        false
    }

    /// Seldom a line end, which means nothing.
    fn fresh_line(&mut self) {
        if self.rng.percent(2) {
            self.put("\n");
        }
    }

    fn statement(&mut self, gives: Sort) -> bool {
        if self.fuel == 0 {
            return false;
        }
        self.fuel -= 1;
        match self.rng.below(20) {
            0..=6 => {
                let name = self.name(VARS);
                let sort = self.sort();
                if sort == Sort::Object && !self.objects_known() {
                    self.put_all(&[&name, "="]);
                    self.expression(Sort::Number);
                    self.bind(&name, Sort::Number);
                } else {
                    self.put_all(&[&name, "="]);
                    self.expression(sort);
                    self.bind(&name, sort);
                }
                false
            }
            7..=11 if self.budget > 0 => {
                self.budget -= 1;
                self.choice(gives)
            }
            12 if self.rng.percent(25) => {
                self.put("return");
                self.expression(gives);
                if self.rng.percent(10) {
                    self.literal();
                }
                true
            }
            13..=14 => {
                if !self.setting() {
                    self.unbracketed(Sort::Mixed);
                }
                false
            }
            15 if self.rng.percent(30) && !self.latest().is_empty() => {
                // a name as a value, then called
                let name = self.name(VARS);
                let fun = self.rng.pick(&self.latest()).clone();
                if fun.method || (fun.params.contains(&Sort::Object) && !self.objects_known()) {
                    return false;
                }
                if self.rng.percent(70) {
                    self.put_all(&[&name, "=", &fun.name]);
                } else {
                    self.put_all(&["if", "true", &name, "=", &fun.name, "else", &name, "=", &fun.name, "end"]);
                }
                self.put(&name);
                self.arguments(&fun.params);
                self.vars.retain(|(n, _)| *n != name);
                false
            }
            _ => {
                self.unbracketed(Sort::Mixed);
                false
            }
        }
    }

    /// An expression that, mostly, doesn't start with `(`: that would call what stands before it.
    fn unbracketed(&mut self, sort: Sort) {
        let at = self.words.len();
        self.expression(sort);
        if self.words[at] == "(" && !self.rng.percent(2) {
            self.words.insert(at, "+".into());
            self.words.insert(at, "0".into());
        }
    }

    fn choice(&mut self, gives: Sort) -> bool {
        self.put("if");
        match self.rng.below(10) {
            0 => self.put("true"),
            1 => self.put("false"),
            2..=3 => self.put("nil"),
            4..=6 => self.expression(Sort::Plain),
            7..=8 => {
                self.expression(Sort::Number);
                self.put("<");
                self.expression(Sort::Number);
            }
            _ => self.expression(Sort::Mixed),
        }
        let old = self.vars.clone();
        let n = self.rng.below(3);
        let then_ends = self.arm(n, gives);
        let then_vars = std::mem::replace(&mut self.vars, old.clone());
        let mut else_ends = false;
        if self.rng.percent(60) {
            self.put("else");
            let n = self.rng.below(3);
            else_ends = self.arm(n, gives);
        }
        let else_vars = std::mem::take(&mut self.vars);
        for (name, sort) in &then_vars {
            let other = else_vars.iter().find(|(n, _)| n == name).map(|(_, s)| *s);
            let joined = match other {
                _ if else_ends => *sort,
                Some(s) if s == *sort || then_ends => s,
                Some(Sort::Number | Sort::Plain) if *sort != Sort::Object && *sort != Sort::Mixed => Sort::Plain,
                None if *sort != Sort::Object && *sort != Sort::Mixed => Sort::Plain,
                _ => Sort::Mixed,
            };
            self.vars.push((name.clone(), joined));
        }
        for (name, sort) in &else_vars {
            if !self.vars.iter().any(|(n, _)| n == name) {
                let joined = if *sort == Sort::Object || *sort == Sort::Mixed { Sort::Mixed } else { Sort::Plain };
                self.vars.push((name.clone(), if then_ends { *sort } else { joined }));
            }
        }
        self.put("end");
        then_ends && else_ends
    }

    fn arm(&mut self, count: usize, gives: Sort) -> bool {
        let at = self.words.len();
        let ends = self.statements(count, gives, None);
        let ends = if !ends && self.rng.percent(15) {
            self.put("return");
            self.expression(gives);
            true
        } else {
            if !ends && self.rng.percent(30) {
                self.unbracketed(Sort::Plain);
            }
            ends
        };
        if self.words.get(at).is_some_and(|w| w == "(") {
            self.words.insert(at, "0".into());
            self.words.insert(at + 1, "+".into());
        }
        ends
    }

    fn params(&mut self, sorts: &[Sort]) {
        self.put("(");
        for (i, sort) in sorts.iter().enumerate() {
            let name = if self.rng.percent(80) { ["i", "j", "l", "q"][i % 4].to_string() } else { self.name(VARS) };
            self.put(&name);
            self.bind(&name, *sort);
            if i + 1 < sorts.len() || self.rng.percent(4) {
                self.put(",");
            }
        }
        self.put(")");
    }

    fn body(&mut self, fun: &Fun, size: usize) {
        self.put("def");
        self.put(&fun.name.clone());
        self.funs.push(fun.clone());
        self.vars.clear();
        self.params(&fun.params);
        self.budget = 1 + size / 3;
        if fun.params.contains(&Sort::Number) && self.rng.percent(20) {
            // recursion with an end
            if let Some(name) = self.var_of(Sort::Number) {
                self.put_all(&["if", &name, "<"]);
                self.literal();
                self.put("return");
                self.expression(fun.gives);
                self.put("end");
            }
        }
        if fun.name == "main" && !fun.method {
            self.tour();
        }
        let n = self.rng.below(size + 1);
        let last = if self.rng.percent(90) { Some(fun.gives) } else { None };
        self.statements(n, fun.gives, last);
        self.put("end");
    }

    /// Makes objects and calls what is known, so that little stays dead.
    fn tour(&mut self) {
        for i in 0..self.classes.len() {
            if self.rng.percent(60) {
                let name = self.name(VARS);
                let class = self.classes[i].clone();
                self.put_all(&[&name, "=", &class.name, ".", "new"]);
                self.arguments(&class.constructor.unwrap_or_default());
                self.bind(&name, Sort::Object);
            }
        }
        if self.classes.len() > 1 && self.rng.percent(40) {
            // one variable, several classes
            let name = self.name(VARS);
            self.put_all(&["if", "nil", &name, "="]);
            self.new_object();
            self.put_all(&["else", &name, "="]);
            self.new_object();
            self.put("end");
            self.bind(&name, Sort::Object);
        }
        let funs: Vec<Fun> = self.latest().into_iter().rev().filter(|f| !f.method && f.name != "main").collect();
        for fun in funs {
            for _ in 0..2 {
                if self.rng.percent(45) && (self.objects_known() || !fun.params.contains(&Sort::Object)) {
                    let name = if self.rng.percent(40) { Some(self.name(VARS)) } else { None };
                    if let Some(name) = &name {
                        self.put_all(&[name, "="]);
                    }
                    self.put(&fun.name);
                    self.arguments(&fun.params);
                    if let Some(name) = name {
                        self.bind(&name, Sort::Mixed);
                    }
                }
            }
        }
        for _ in 0..self.rng.below(3) {
            self.send(Sort::Mixed);
        }
    }

    fn signature(&mut self, names: &[&str], method: bool, objects: bool) -> Fun {
        let name = self.name(names);
        let n = *self.rng.pick(&[0, 1, 1, 2, 2, 3]);
        let params = (0..n).map(|_| {
            let s = self.sort();
            if s == Sort::Object && !objects { Sort::Plain } else { s }
        }).collect();
        let gives = *self.rng.pick(&[Sort::Number, Sort::Plain, Sort::Plain]);
        Fun { name, params, gives, method }
    }

    fn class(&mut self, name: String, size: usize) {
        self.put_all(&["class", &name]);
        let mut class = Class { name, constructor: None, attributes: self.shared_attributes.clone(), methods: vec![] };
        for _ in 0..self.rng.below(2) {
            let n = self.name(ATTRS);
            if !class.attributes.iter().any(|(m, _)| *m == n) {
                let sort = if self.classes.is_empty() { Sort::Plain } else { self.sort() };
                class.attributes.push((n, sort));
            }
        }
        let mut order: Vec<usize> = (0..class.attributes.len()).collect();
        if order.len() > 1 && self.rng.percent(50) {
            order.reverse();
        }
        let late = self.rng.percent(5);
        if !late {
            for i in &order {
                let name = class.attributes[*i].0.clone();
                self.put_all(&["attr_accessor", ":", &name]);
            }
        }
        if self.rng.percent(60) {
            let mut fun = self.signature(&["initialize"], true, !self.classes.is_empty());
            fun.name = "initialize".into();
            class.constructor = Some(fun.params.clone());
            self.inside = Some(class.clone());
            self.constructor(&fun, size);
            self.inside = None;
        }
        for fun in self.shared.clone() {
            self.inside = Some(class.clone());
            self.body(&fun, size);
            self.inside = None;
            class.methods.push(fun);
        }
        if self.rng.percent(30) {
            let fun = self.signature(METHODS, true, !self.classes.is_empty());
            if !class.methods.iter().any(|m| m.name == fun.name) {
                self.inside = Some(class.clone());
                self.body(&fun, size);
                self.inside = None;
            }
        }
        if late {
            for i in &order {
                let name = class.attributes[*i].0.clone();
                self.put_all(&["attr_accessor", ":", &name]);
            }
        }
        self.put("end");
        self.classes.push(class);
    }

    /// A constructor with paths that set an attribute and paths that don't.
    fn constructor(&mut self, fun: &Fun, size: usize) {
        self.put_all(&["def", "initialize"]);
        self.funs.push(fun.clone());
        self.vars.clear();
        self.params(&fun.params);
        self.budget = 2;
        let class = self.inside.clone().unwrap();
        for (name, sort) in class.attributes.clone() {
            let set = |w: &mut Self| {
                w.put_all(&["@", &name, "="]);
                w.expression(sort);
            };
            match self.rng.below(6) {
                0 => {}
                1 => {
                    self.put("if");
                    self.expression(Sort::Plain);
                    set(self);
                    if self.rng.percent(50) {
                        self.put("else");
                        set(self);
                    }
                    self.put("end");
                }
                2 => {
                    self.put("if");
                    self.expression(Sort::Plain);
                    if self.rng.percent(50) {
                        set(self);
                    }
                    self.put("return");
                    self.expression(Sort::Plain);
                    self.put("end");
                    set(self);
                }
                _ => set(self),
            }
        }
        let n = self.rng.below(size / 2 + 1);
        self.statements(n, Sort::Plain, None);
        self.put("end");
    }
}

/// The words of a script that is likely accepted.
fn good(rng: &mut Rng, size: usize) -> Vec<String> {
    let fuel = 20 + 12 * size;
    let mut w = Writer {
        rng, words: vec![], funs: vec![], classes: vec![], shared: vec![], shared_attributes: vec![], vars: vec![],
        inside: None, budget: 0, nesting: 0, fuel,
    };
    let classes = *w.rng.pick(&[0, 0, 1, 1, 2, 2, 3, 4]);
    if classes > 0 {
        for _ in 0..1 + w.rng.below(2) {
            let fun = w.signature(METHODS, true, false);
            if !w.shared.iter().any(|m| m.name == fun.name) {
                w.shared.push(fun);
            }
        }
        for _ in 0..w.rng.below(3) {
            let name = w.name(ATTRS);
            if !w.shared_attributes.iter().any(|(n, _)| *n == name) {
                let sort = *w.rng.pick(&[Sort::Number, Sort::Plain]);
                w.shared_attributes.push((name, sort));
            }
        }
    }
    let functions = w.rng.below(4);
    let mut parts: Vec<bool> = vec![true; classes];
    for _ in 0..functions {
        let at = w.rng.below(parts.len() + 1);
        parts.insert(at, false);
    }
    let mut names: Vec<String> = CLASSES.iter().map(|n| n.to_string()).collect();
    for class in parts {
        w.fuel = w.fuel.max(6);
        if class {
            let at = if w.rng.percent(90) { 0 } else { w.rng.below(names.len()) };
            let name = names.remove(at);
            w.class(name, size);
        } else {
            let objects = w.objects_known();
            let fun = w.signature(FUNS, false, objects);
            w.body(&fun, size);
        }
    }
    w.fuel = w.fuel.max(20);
    let gives = w.sort();
    let gives = if gives == Sort::Object && !w.objects_known() { Sort::Plain } else { gives };
    let name = if w.rng.percent(96) { "main" } else { "f" };
    let params = if w.rng.percent(3) { vec![Sort::Mixed] } else { vec![] };
    let fun = Fun { name: name.into(), params, gives, method: false };
    w.body(&fun, size + 2);
    if w.rng.percent(5) {
        let objects = w.objects_known();
        let fun = w.signature(&["f", "g", "main"], false, objects);
        w.body(&fun, size);
    }
    w.words
}

fn is_wordy(c: u8) -> bool {
    c.is_ascii_alphanumeric() || c == b'_'
}

fn join(rng: &mut Rng, words: &[String]) -> Vec<u8> {
    let mut out: Vec<u8> = vec![];
    let tight = rng.below(3);
    for (i, word) in words.iter().enumerate() {
        let starts = |w: &String, test: fn(&u8) -> bool| w.as_bytes().first().is_some_and(test);
        // a number and a name behind it are two words without a blank, too
        let parted = i > 0 && starts(&words[i - 1], u8::is_ascii_digit) && starts(word, u8::is_ascii_alphabetic);
        let touch = !parted && matches!((out.last(), word.as_bytes().first()), (Some(a), Some(b)) if is_wordy(*a) && is_wordy(*b));
        if touch || (tight == 2 && !out.is_empty()) || (tight == 1 && rng.percent(30)) {
            out.push(if rng.percent(8) { *rng.pick(b"\n\t\r\x0b\x0c") } else { b' ' });
        }
        out.extend(word.as_bytes());
    }
    out
}

// ---- damage ----

const ALL_WORDS: &[&str] = &[
    "def", "class", "end", "return", "if", "else", "attr_accessor", "(", ")", ",", "+", "-", "*", "=", "<", ".", ":", "@",
    "0", "1", "9223372036854775807", "9223372036854775808", "x", "y", "f", "g", "A", "B", "a", "m", "x1", "x10", "x1_", "x1y", "f2", "A1", "pen2", "return1", "if1", "end1", "else1", "def1", "true1", "nil2", "true", "false", "nil",
    "main", "initialize", "new",
];

fn random_word(rng: &mut Rng) -> String {
    rng.pick(ALL_WORDS).to_string()
}

fn damaged(rng: &mut Rng, size: usize) -> Vec<u8> {
    let mut words = good(rng, size);
    for _ in 0..*rng.pick(&[1, 1, 1, 2, 3]) {
        if words.is_empty() {
            break;
        }
        let at = rng.below(words.len());
        match rng.below(12) {
            7..=11 => {
                // another word of the same sort
                let sort = |w: &str| -> u8 {
                    let c = w.as_bytes()[0];
                    if c.is_ascii_digit() { 0 } else if "+-*<".contains(c as char) { 1 } else if ALL_WORDS[..7].contains(&w) { 2 }
                    else if c.is_ascii_alphabetic() { 3 } else { 4 }
                };
                let like: Vec<String> = words.iter().map(|w| w.as_str()).chain(ALL_WORDS.iter().copied())
                    .filter(|w| sort(w) == sort(&words[at])).map(String::from).collect();
                words[at] = rng.pick(&like).clone();
            }
            0 => {
                words.remove(at);
            }
            1 => {
                let w = random_word(rng);
                words.insert(at, w)
            }
            2 => words[at] = random_word(rng),
            3 => {
                let other = rng.below(words.len());
                words.swap(at, other)
            }
            4 => {
                let n = 1 + rng.below(6);
                let part: Vec<String> = words[at..words.len().min(at + n)].to_vec();
                let to = rng.below(words.len());
                words.splice(to..to, part);
            }
            5 if rng.percent(30) => words.truncate(at),
            _ => {
                let other = words[rng.below(words.len())].clone();
                words[at] = other
            }
        }
    }
    let mut script = join(rng, &words);
    if rng.percent(20) && !script.is_empty() {
        let at = rng.below(script.len());
        match rng.below(3) {
            0 => script[at] = (rng.next() >> 56) as u8,
            1 => {
                script.remove(at);
            }
            _ => script.insert(at, (rng.next() >> 56) as u8),
        }
    }
    script
}

fn words_only(rng: &mut Rng, size: usize) -> Vec<u8> {
    let mut words: Vec<String> = vec![];
    let frame = rng.below(6);
    let before: &[&str] = match frame {
        0 => &[],
        1 => &["class", "A"],
        2 => &["def", "f2", "(", "a", ")", "end", "def", "main", "(", ")", "x1", "=", "1"],
        3 => &["class", "A1", "attr_accessor", ":", "pen2", "def", "m", "(", "a", ")"],
        4 => &["class", "A", "attr_accessor", ":", "a", "end", "def", "f", "(", "x", ")", "if", "x"],
        _ => &["def", "g", "(", ")", "1", "end", "def", "main", "(", ")", "x10", "=", "g", "(", ")"],
    };
    words.extend(before.iter().map(|w| w.to_string()));
    for _ in 0..rng.below(3 + 3 * size) {
        let w = random_word(rng);
        words.push(w);
    }
    for _ in 0..rng.below(4) {
        words.push("end".into());
    }
    join(rng, &words)
}

// ---- limits ----

fn letters(n: usize) -> String {
    let mut text = String::new();
    text.push((b'a' + (n / 26) as u8) as char);
    text.push((b'a' + (n % 26) as u8) as char);
    text
}

/// A script that brings one of the counts to `limit - 1`, `limit` or `limit + 1` (by `step`).
fn at_limit(rng: &mut Rng, which: usize, step: usize) -> Vec<u8> {
    let near = |limit: usize| limit - 1 + step;
    let each = |n: usize, f: &dyn Fn(usize) -> String| -> String { (0..n).map(f).collect() };
    let text = match which {
        0 => {
            let mut s = String::from_utf8(join(rng, &["def", "main", "(", ")", "1", "+", "2", "end"].map(String::from))).unwrap();
            while s.len() < near(16_384) {
                s.push(*rng.pick(&[' ', '\n', '\t']));
            }
            s
        }
        1 => each(near(128), &|i| format!("def f{}() {} end ", letters(i), i)),
        2 => format!("class A {}end def main() A.new().maa() end", each(near(127), &|i| format!("def m{}() {} end ", letters(i), i))),
        3 => format!("{}def main() if nil x=Caa.new() else x=Cba.new() end end", each(near(60), &|i| format!("class C{} end ", letters(i)))),
        4 => format!("class A {}end def main() A.new().xab end", each(near(64), &|i| format!("attr_accessor :x{} ", letters(i)))),
        5 => format!("class A {}def initialize() {}end end def main() A.new().xab end", each(near(64), &|i| format!("attr_accessor :x{} ", letters(i))),
                     each(1 + rng.below(64), &|i| format!("@x{}={} ", letters(i), i))),
        6 => {
            let elses = rng.below(80);
            let rest = (near(255) - 1).saturating_sub(3 * elses);
            let odd = if rest % 2 == 1 { "if 1 else end " } else { "" };
            let rest = if odd.is_empty() { rest } else { rest - 3 };
            format!("def main() {}{odd}{}end", each(elses, &|i| format!("if {i} {i} else x={i} end ")), each(rest / 2, &|_| "if nil end ".into()))
        }
        7 => format!("def main() {}end", each(near(2_048) - 1, &|i| format!("{}+1 ", i % 10))),
        8 => format!("class A def initialize() end end def main() {}{}end", each(1_000, &|_| "A.new()".into()), each(near(2_048) - 2_003, &|_| "1+1 ".into())),
        9 => format!("def f() end def main() {}{}{}f({}) end", each(40, &|_| "if 0 ".into()), each(25, &|i| format!("x{}=1 ", letters(i))),
                     each(40, &|_| "end ".into()), each(near(8_192) - 2_080, &|_| "0,".into())),
        10 => format!("def main() {}1{} end", each(near(128) - 1, &|_| "(".into()), each(near(128) - 1, &|_| ")".into())),
        11 => format!("def main() 1{} end", each(near(128) - 1, &|_| "+1".into())),
        12 => format!("def main() 1{} end", each(near(128) - 1, &|_| "*2".into())),
        13 => format!("def main() {}1 end", each(near(128) - 1, &|_| "x=".into())),
        14 => format!("def f(a) a end def main() {}1{} end", each(near(128) - 1, &|_| "f(".into()), each(near(128) - 1, &|_| ")".into())),
        15 => format!("def main() {}{}end", each(near(128) - 1, &|_| "if 1 ".into()), each(near(128) - 1, &|_| "end ".into())),
        16 => {
            let ifs = 1 + rng.below(80);
            format!("def main() {}1{} {}end", each(ifs, &|_| "if 1 else ".into()), each(near(127) - ifs, &|_| "+1".into()), each(ifs, &|_| "end ".into()))
        }
        17 => format!("class A attr_accessor :x def m() {}1 end end def main() A.new().m() end", each(near(128) - 1, &|_| "@x=".into())),
        18 => format!("def main() {} end", each(near(128) + 70, &|_| if step == 0 { "1<1 " } else { "2*2 " }.into())),
        _ => {
            let calls = 1 + rng.below(127);
            format!("def f(a,b) a end def main() {}1{} end", each(calls, &|_| "f(2,".into()),
                    each(calls, &|_| ")".into()) + &each(near(128).saturating_sub(calls + 1), &|_| "+1".into()))
        }
    };
    let mut script = text.into_bytes();
    if rng.percent(25) && which != 0 {
        // something more at the end: which question is first?
        let tail: &[u8] = *rng.pick(&[b" $" as &[u8], b" class A", b" def", b" def f() y end", b" class Z attr_accessor :x end", b" def g() @x end", b" end"]);
        script.extend(tail);
    }
    script
}

/// Scripts that fill a waiting list to, and one above, 16,384 (and nearby).
fn full_list(rng: &mut Rng) -> Vec<u8> {
    let ring = |n: usize, first: &str| -> String { (1..n).map(|i| format!("{}{},", first, letters(i))).collect::<String>() + first + "aa" };
    let names = |n: usize, first: &str| -> String { (0..n).map(|i| format!("{}{},", first, letters(i))).collect() };
    let text = if rng.percent(50) {
        // every change puts in both calls, each of which puts in every parameter
        let n = *rng.pick(&[65, 65, 65, 60, 63, 66, 70]);
        let more = if n == 65 { *rng.pick(&[63, 64, 65, 66]) } else { rng.below(70) };
        let calls: String = (0..2).map(|_| format!("f({}) ", ring(n, ""))).collect();
        let values: String = (0..n).map(|i| ["1,", "nil,", "true,", "false,"][i % 4]).collect();
        format!("def f({}) {calls}{}end def main() f({values}) end", names(n, ""), "aa+1 ".repeat(more))
    } else {
        // choices on a kind that grows by one class at a time
        let choices = *rng.pick(&[126, 126, 125, 120]);
        let calls = if choices == 126 { rng.below(5) } else { 125 + rng.below(12) };
        let classes: String = (0..60).map(|i| format!("class C{} end ", letters(i))).collect();
        let objects: String = (0..60).map(|i| format!("C{}.new(),", letters(i))).collect();
        format!("{classes}def g() end def k({}) {}k({}) {}end def main() k(1,2,nil,true,false,{objects}1+nil) end",
                names(66, ""), "if aa end ".repeat(choices), ring(66, ""), "g() ".repeat(calls))
    };
    text.into_bytes()
}

// ---- all short sequences ----

/// Name, text before, what parts the words, text after.
const FRAMES: &[(&str, &str, &str, &str)] = &[
    ("top", "", " ", ""),
    ("class", "class A attr_accessor :x ", " ", ""),
    ("body", "def f(x) x end def main() ", " ", " end"),
    ("method", "def f(x) 1 end class A attr_accessor :x def m(x) ", " ", " end end"),
    ("arm", "class A attr_accessor :x end def f() end def main() x=A.new() if nil ", " ", " end x end"),
    ("touching", "class A1 attr_accessor :x1 end def f1() 1 end def main() x=f1() x1=A1.new() ", "", " end"),
];

const SEQUENCE_WORDS: &[&str] = &[
    "def", "class", "end", "return", "if", "else", "attr_accessor", "(", ")", ",", "+", "-", "*", "=", "<", ".", ":", "@",
    "1", "x", "f", "A", "true", "nil", "new", "$",
];

fn all_sequences(most: usize, only: Option<&str>, out: &mut dyn FnMut(Vec<u8>)) {
    for (at, (name, ..)) in FRAMES.iter().enumerate() {
        if only.is_some_and(|o| o != *name) {
            continue;
        }
        for length in 0..=most as u32 {
            (0..sequences(length)).for_each(|i| out(sequence(at, length, i)));
        }
    }
}

// ---- a script by its number ----

pub const MODES: [&str; 5] = ["good", "damaged", "words", "limits", "lists"];

/// Script i of a seed. Each has a state of its own, so one can be made again by itself.
pub fn one(mode: &str, seed: u64, i: u64, size: Option<usize>) -> Vec<u8> {
    let mut rng = Rng(seed.wrapping_mul(0x2545f4914f6cdd1d) ^ i.wrapping_mul(0x9e6c63d0876a9a47));
    rng.next();
    let size = size.unwrap_or([1, 2, 3, 3, 4, 6, 9][rng.below(7)]);
    match mode {
        "good" => {
            let words = good(&mut rng, size);
            join(&mut rng, &words)
        }
        "damaged" => damaged(&mut rng, size),
        "words" => words_only(&mut rng, size),
        "limits" => {
            let which = (i as usize / 3) % 20;
            at_limit(&mut rng, which, i as usize % 3)
        }
        _ => full_list(&mut rng),
    }
}

/// How many sequences of so many words there are, and in how many frames.
pub fn sequences(length: u32) -> u64 {
    (SEQUENCE_WORDS.len() as u64).pow(length)
}

pub fn frames() -> usize {
    FRAMES.len()
}

/// Sequence i of so many words, in a frame.
pub fn sequence(frame: usize, length: u32, i: u64) -> Vec<u8> {
    let (_, before, between, after) = FRAMES[frame];
    let n = SEQUENCE_WORDS.len() as u64;
    let middle: Vec<&str> = (0..length).rev().map(|place| SEQUENCE_WORDS[(i / n.pow(place) % n) as usize]).collect();
    format!("{before}{}{after}", middle.join(between)).into_bytes()
}

// ---- the program ----

fn stop(text: &str) -> ! {
    eprintln!("generate: {text}");
    std::process::exit(2)
}

pub fn main() {
    let mut words = std::env::args().skip(1);
    let Some(mode) = words.next() else { stop(USAGE) };
    let (mut seed, mut count, mut size, mut most, mut frame) = (None, None, None, None, None);
    while let Some(word) = words.next() {
        let Some(value) = words.next() else { stop(&format!("{word}: nothing after it; {USAGE}")) };
        let number = || value.parse::<u64>().unwrap_or_else(|_| stop(&format!("{word}: a number expected, not '{value}'")));
        match word.as_str() {
            "--seed" => seed = Some(number()),
            "--count" => count = Some(number()),
            "--size" => size = Some(number() as usize),
            "--words" => most = Some(number() as usize),
            "--frame" => frame = Some(value.clone()),
            _ => stop(&format!("unknown word '{word}'; {USAGE}")),
        }
    }
    let mut output = std::io::BufWriter::with_capacity(1 << 16, std::io::stdout().lock());
    let mut written = 0u64;
    let mut put = |script: Vec<u8>| {
        let done = output.write_all(&(script.len() as u32).to_be_bytes()).and_then(|_| output.write_all(&script));
        if done.is_err() {
            stop("can't write");
        }
        written += 1;
    };
    let said = if mode == "all" {
        if seed.is_some() || count.is_some() || size.is_some() {
            stop(&format!("all takes --words and --frame; {USAGE}"));
        }
        let Some(most) = most else { stop(&format!("--words is missing; {USAGE}")) };
        if let Some(name) = &frame {
            if !FRAMES.iter().any(|(n, ..)| n == name) {
                stop(&format!("unknown frame '{name}'"));
            }
        }
        all_sequences(most, frame.as_deref(), &mut put);
        format!("all --words {most}")
    } else {
        if !MODES.contains(&mode.as_str()) {
            stop(&format!("unknown word '{mode}'; {USAGE}"));
        }
        let (Some(seed), Some(count)) = (seed, count) else { stop(&format!("--seed and --count are needed; {USAGE}")) };
        if most.is_some() || frame.is_some() {
            stop(&format!("--words and --frame belong to all; {USAGE}"));
        }
        for i in 0..count {
            put(one(&mode, seed, i, size));
        }
        format!("{mode} --seed {seed} --count {count}{}", size.map_or(String::new(), |n| format!(" --size {n}")))
    };
    eprintln!("generate {said}: {written} scripts");
    if output.flush().is_err() {
        stop("can't write");
    }
}
