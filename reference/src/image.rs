//! The answer memory of docs/MEMORY.md as the Rust's result gives it, for comparing word by word.
use super::driver::{analyse, kind_of, read};
use super::*;

pub const WORDS: usize = 22_788;
const LIVE: usize = 4;
const TAGS: usize = 259;
const PAYLOADS: usize = 2_307;
const STARTS: usize = 4_355;
const USERS: usize = 6_404;
const CALLERS: usize = 18_692;

fn write(prog: &Program, result: &AnalysisResult, words: &mut [u64]) {
    words[..LIVE].copy_from_slice(&[prog.funs.len() as u64, prog.blocks.len() as u64, prog.insns.len() as u64, result.itr_count as u64]);
    for (block, live) in result.block_executable.iter().enumerate() {
        words[LIVE + block] = *live as u64;
    }
    for (insn, kind) in result.insn_type.iter().enumerate() {
        let (tag, payload) = kind_of(kind);
        words[TAGS + insn] = tag as u64;
        words[PAYLOADS + insn] = payload;
    }
    let mut at = 0;
    for (used, users) in result.insn_uses.iter().enumerate() {
        words[STARTS + used] = at as u64;
        let mut users: Vec<u64> = users.iter().map(|user| user.0 as u64).collect();
        users.sort();
        words[USERS + at..][..users.len()].copy_from_slice(&users);
        at += users.len();
    }
    words[STARTS + result.insn_uses.len()] = at as u64;
    for (fun, callers) in result.called_by.iter().enumerate() {
        for caller in callers.iter() {
            words[CALLERS + fun * 32 + caller.0 / 64] |= 1 << (caller.0 % 64);
        }
    }
}

/// Fills the words with the answer, or clears them; gives the refusal's number, or 0. Words that hold no answer are clear
/// already: an answer has a function.
pub fn image(script: &[u8], words: &mut [u64]) -> u8 {
    if words[0] != 0 {
        words.fill(0);
    }
    match read(script).and_then(|prog| analyse(&prog).map(|result| (prog, result))) {
        Ok((prog, result)) => {
            write(&prog, &result, words);
            0
        }
        Err(number) => number,
    }
}

/// Reads and analyses a script and keeps nothing: for timing. Gives the count, or the refusal's number.
pub fn timed(script: &[u8]) -> Result<u64, u8> {
    read(script).and_then(|prog| analyse(&prog).map(|result| result.itr_count as u64))
}
