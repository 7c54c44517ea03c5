//! Exactness and the bound, checked from the program and the final kinds alone.
use super::*;
use driver::*;
use std::collections::{BTreeMap, BTreeSet};
use std::fmt::Write;

fn final_kind(opnd: &Opnd, kinds: &[Type]) -> Type {
    match opnd {
        Opnd::Const(value) => Type::Const(*value),
        Opnd::Insn(v) => kinds[v.0].clone(),
    }
}

/// The blocks to which a step leads from this instruction's block.
fn steps(prog: &Program, op: &Op, kinds: &[Type]) -> Result<Vec<usize>, String> {
    Ok(match op {
        Op::Jump { target } => vec![target.0],
        Op::IfTrue { val, then_block, else_block } => match final_kind(val, kinds) {
            Type::Empty => vec![],
            Type::Const(Value::Bool(true)) => vec![then_block.0],
            Type::Const(Value::Bool(false)) => vec![else_block.0],
            _ => vec![then_block.0, else_block.0],
        },
        Op::SendStatic { target, .. } => vec![prog.funs[target.0].entry_block.0],
        Op::SendDynamic { method, self_val, .. } => match final_kind(self_val, kinds) {
            Type::Object(classes) => {
                let mut entries = vec![];
                for class in classes.iter() {
                    match prog.classes[class].methods.get(method) {
                        Some(fun) => entries.push(prog.funs[fun.0].entry_block.0),
                        None => return Err(format!("a reached send of {method}, which class {class} lacks")),
                    }
                }
                entries
            }
            Type::Empty => vec![],
            kind => return Err(format!("a reached send to {kind:?}")),
        },
        _ => vec![],
    })
}

fn reached(prog: &Program, kinds: &[Type]) -> Result<Vec<bool>, String> {
    let mut seen = vec![false; prog.blocks.len()];
    let mut open = vec![prog.funs[prog.main.0].entry_block.0];
    while let Some(block) = open.pop() {
        if seen[block] {
            continue;
        }
        seen[block] = true;
        for insn in &prog.blocks[block].insns {
            open.extend(steps(prog, &prog.insns[insn.0].op, kinds)?);
        }
    }
    Ok(seen)
}

pub fn bound(prog: &Program) -> u128 {
    let mut uses: BTreeSet<(usize, usize)> = BTreeSet::new();
    let (mut calls, mut returns, mut reads, mut params) = (0u128, 0u128, 0u128, 0u128);
    for (user, insn) in prog.insns.iter().enumerate() {
        let operands: Vec<Opnd> = match &insn.op {
            Op::Phi { ins } => ins.iter().map(|(_, o)| *o).collect(),
            Op::Add { v0, v1 } | Op::Sub { v0, v1 } | Op::Mul { v0, v1 } | Op::LessThan { v0, v1 } => vec![*v0, *v1],
            Op::IsNil { v } => vec![*v],
            Op::SendStatic { args, .. } => {
                calls += 1;
                args.clone()
            }
            Op::SendDynamic { self_val, args, .. } => {
                calls += 1;
                args.iter().copied().chain([*self_val]).collect()
            }
            Op::Return { val } => {
                returns += 1;
                vec![*val]
            }
            Op::Param { .. } => {
                params += 1;
                vec![]
            }
            Op::GetIvar { self_val, .. } => {
                reads += 1;
                vec![*self_val]
            }
            Op::SetIvar { self_val, val, .. } => vec![*self_val, *val],
            Op::IfTrue { val, .. } => vec![*val],
            Op::New { .. } | Op::SelfParam { .. } | Op::Jump { .. } => vec![],
        };
        for operand in operands {
            if let Opnd::Insn(used) = operand {
                uses.insert((used.0, user));
            }
        }
    }
    let attributes: u128 = prog.classes.iter().map(|class| class.ivars.len() as u128).sum();
    let height = prog.classes.len() as u128 + 2;
    let turns = prog.insns.len() as u128 + height * uses.len() as u128
        + calls * returns * (1 + height) + reads * attributes * height;
    3 * turns * (1 + params) + calls * prog.funs.len() as u128
}

fn fault(prog: &Program, result: &AnalysisResult) -> Option<String> {
    let count = result.itr_count as u128;
    if count > bound(prog) {
        return Some(format!("count {count} above the bound {}", bound(prog)));
    }
    match reached(prog, &result.insn_type) {
        Err(text) => Some(text),
        Ok(seen) => (0..seen.len())
            .find(|b| seen[*b] != result.block_executable[*b])
            .map(|b| format!("block {b} is {} but {}", ["dead", "live"][result.block_executable[b] as usize],
                             ["not reached", "reached"][seen[b] as usize])),
    }
}

#[derive(Default)]
pub struct Tally {
    scripts: usize,
    refused: BTreeMap<u8, usize>,
    pub violations: usize,
    largest_count: usize,
    largest_part: f64,
    lines: String,
}

impl Tally {
    pub fn add(&mut self, script: &[u8]) {
        self.scripts += 1;
        let done = read(script).and_then(|prog| analyse(&prog).map(|result| (prog, result)));
        let fault = match done {
            Err(number) => {
                *self.refused.entry(number).or_default() += 1;
                if number == 255 { Some("a panic without a number".to_string()) } else { None }
            }
            Ok((prog, result)) => {
                self.largest_count = self.largest_count.max(result.itr_count);
                self.largest_part = self.largest_part.max(result.itr_count as f64 / bound(&prog) as f64);
                fault(&prog, &result)
            }
        };
        if let Some(fault) = fault {
            self.violations += 1;
            writeln!(self.lines, "violation: {fault}: {}", script.escape_ascii()).unwrap();
        }
    }

    pub fn text(&self) -> String {
        let refused: usize = self.refused.values().sum();
        let parts: String = self.refused.iter().map(|(n, times)| format!(" {n}:{times}")).collect();
        format!("{}checked {} scripts: {} answered, {} refused ({}), {} violations; largest count {}, largest count/bound {:.4}\n",
                self.lines, self.scripts, self.scripts - refused, refused, parts.trim(), self.violations,
                self.largest_count, self.largest_part)
    }
}
