//! Other texts of a script: its program, its words, what holds before the first step.
//! The forms are described in reference/README.md.
use super::*;
use driver::*;
use std::fmt::Write;

fn operand(opnd: &Opnd) -> String {
    match opnd {
        Opnd::Const(Value::Nil) => "nil".into(),
        Opnd::Const(Value::Int(n)) => n.to_string(),
        Opnd::Const(Value::Bool(b)) => b.to_string(),
        Opnd::Const(Value::Fun(f)) => format!("f{}", f.0),
        Opnd::Const(Value::Class(c)) => format!("c{}", c.0),
        Opnd::Insn(v) => format!("v{}", v.0),
    }
}

fn list(opnds: &[Opnd]) -> String {
    opnds.iter().map(|o| format!(" {}", operand(o))).collect()
}

fn instruction(op: &Op) -> String {
    let o = operand;
    match op {
        Op::Phi { ins } => {
            let parts: String = ins.iter().map(|(b, v)| format!(" b{}:{}", b.0, o(v))).collect();
            format!("join{parts}")
        }
        Op::Add { v0, v1 } => format!("add {} {}", o(v0), o(v1)),
        Op::Sub { v0, v1 } => format!("subtract {} {}", o(v0), o(v1)),
        Op::Mul { v0, v1 } => format!("multiply {} {}", o(v0), o(v1)),
        Op::LessThan { v0, v1 } => format!("less {} {}", o(v0), o(v1)),
        Op::IsNil { v } => format!("isnil {}", o(v)),
        Op::New { class } => format!("new c{}", class.0),
        Op::SendStatic { target, args } => format!("call f{}{}", target.0, list(args)),
        Op::SendDynamic { method, self_val, args } => format!("send {} {}{}", method, o(self_val), list(args)),
        Op::Return { val } => format!("return {}", o(val)),
        Op::SelfParam { class_id } => format!("self c{}", class_id.0),
        Op::Param { idx } => format!("param {idx}"),
        Op::SetIvar { name, self_val, val } => format!("set {} {} {}", name, o(self_val), o(val)),
        Op::GetIvar { name, self_val } => format!("get {} {}", name, o(self_val)),
        Op::IfTrue { val, then_block, else_block } => format!("choice {} b{} b{}", o(val), then_block.0, else_block.0),
        Op::Jump { target } => format!("jump b{}", target.0),
    }
}

/// Outcome, that of the analysis if it is run, then the program.
fn outcome(script: &[u8], analysed: bool) -> String {
    let prog = match read(script) {
        Err(number) => return format!("reading refused {number}\n"),
        Ok(prog) => prog,
    };
    let mut out = String::from("reading done\n");
    if analysed {
        match analyse(&prog) {
            Err(number) => writeln!(out, "analysis refused {number}").unwrap(),
            Ok(result) => writeln!(out, "analysis done {}", result.itr_count).unwrap(),
        }
    }
    writeln!(out, "main f{}", prog.main.0).unwrap();
    for (id, class) in prog.classes.iter().enumerate() {
        let ctor = class.ctor.map_or("-".into(), |f| format!("f{}", f.0));
        writeln!(out, "class c{id} {} constructor {ctor}", class.name).unwrap();
        for (place, name) in class.ivars.iter().enumerate() {
            writeln!(out, "attribute c{id} {place} {name}").unwrap();
        }
        let mut methods: Vec<(usize, &String)> = class.methods.iter().map(|(name, f)| (f.0, name)).collect();
        methods.sort();
        for (f, name) in methods {
            writeln!(out, "method c{id} {name} f{f}").unwrap();
        }
    }
    for (id, fun) in prog.funs.iter().enumerate() {
        writeln!(out, "function f{id} {} entry b{}", fun.name, fun.entry_block.0).unwrap();
    }
    for (id, block) in prog.blocks.iter().enumerate() {
        let insns: String = block.insns.iter().map(|v| format!(" v{}", v.0)).collect();
        writeln!(out, "block b{id} of f{}:{insns}", block.fun_id.0).unwrap();
    }
    for (id, insn) in prog.insns.iter().enumerate() {
        writeln!(out, "v{id} in b{}: {}", insn.block_id.0, instruction(&insn.op)).unwrap();
    }
    out
}

pub fn dump(script: &[u8]) -> String {
    outcome(script, true)
}

pub fn program(script: &[u8]) -> String {
    outcome(script, false)
}

/// One word a line, with its place in the script.
pub fn words(script: &[u8]) -> String {
    let text = match text_of(script) {
        Err(number) => return format!("refused {number}\n"),
        Ok(text) => text,
    };
    let chars: Vec<char> = text.chars().collect();
    let mut lexer = Lexer::new(&text);
    let mut out = String::new();
    loop {
        let mut start = chars.len() - lexer.input.clone().count();
        while start < chars.len() && chars[start].is_whitespace() {
            start += 1;
        }
        let token = match asked(|| lexer.next()) {
            Err(number) => {
                writeln!(out, "refused {number} {start}").unwrap();
                return out;
            }
            Ok(None) => {
                writeln!(out, "end {start}").unwrap();
                return out;
            }
            Ok(Some(token)) => token,
        };
        let end = chars.len() - lexer.input.clone().count();
        let (kind, value) = match &token {
            Token::Ident(name) => ("name", name.clone()),
            Token::Int(n) => ("number", n.to_string()),
            Token::Def | Token::Class | Token::End | Token::Return | Token::If | Token::Else | Token::AttrAccessor => {
                ("kept", chars[start..end].iter().collect())
            }
            _ => ("sign", chars[start..end].iter().collect()),
        };
        writeln!(out, "{kind} {start} {} {value}", end - start).unwrap();
    }
}

/// Uses, and the kind that each attribute starts with.
pub fn first(script: &[u8]) -> String {
    let prog = match read(script) {
        Err(number) => return format!("reading refused {number}\n"),
        Ok(prog) => prog,
    };
    let mut out = String::from("reading done\n");
    for (used, users) in compute_uses(&prog).iter().enumerate() {
        let mut users: Vec<usize> = users.iter().map(|user| user.0).collect();
        users.sort();
        for user in users {
            writeln!(out, "use v{used} v{user}").unwrap();
        }
    }
    if prog.funs.is_empty() {
        writeln!(out, "start refused 12").unwrap();
        return out;
    }
    for (id, class) in prog.classes.iter().enumerate() {
        match asked(|| analyze_ctor(&prog, ClassId(id))) {
            Err(number) => {
                writeln!(out, "start refused {number}").unwrap();
                return out;
            }
            Ok(set) => {
                for (place, name) in class.ivars.iter().enumerate().take(64) {
                    writeln!(out, "attribute c{id} {place} {name} {}", if set.get(place) { "nothing" } else { "nil" }).unwrap();
                }
            }
        }
    }
    out
}

/// The greatest number of entries that waited at once: instructions, blocks.
pub fn peaks(script: &[u8]) -> String {
    let outcome = match read(script) {
        Err(number) => format!("refused {number}"),
        Ok(prog) => match analyse(&prog) {
            Err(number) => format!("refused {number}"),
            Ok(result) => format!("answered {}", result.itr_count),
        },
    };
    let peaks = PEAKS.get();
    format!("{outcome} instructions {} blocks {}\n", peaks[0], peaks[1])
}
