//! Which blocks of a farm script can run: a safe wrapper of libdinqosa.a.
//!
//! Lent memory is 8-byte words in three parts; each may be longer than its published length, and words beyond it are
//! never changed. The parts and the script must not overlap, and the borrows of `analyze` see to it. `docs/MEMORY.md` says
//! what the answer part holds.

/// Bytes of the longest script.
pub const SCRIPT_MOST: usize = 16_384;
/// Published lengths, in words.
pub const ANSWER_WORDS: usize = 22_788;
pub const PROGRAM_WORDS: usize = 57_088;
pub const STATE_WORDS: usize = 54_272;

/// Bytes of stack to give a call. Measured, not proved: the deepest script found takes 190,056 (`docs/MEMORY.md`).
pub const STACK_BYTES: usize = 786_432;

/// Where the answer part has its tables, behind the totals (functions, blocks, instructions, count).
pub const LIVE: usize = 4;
pub const TAGS: usize = 259;
pub const PAYLOADS: usize = 2_307;
pub const STARTS: usize = 4_355;
pub const USERS: usize = 6_404;
pub const CALLERS: usize = 18_692;
/// Words of a function's row of callers.
pub const ROW_WORDS: usize = 32;

/// Why a script got no answer (`docs/QUESTIONS.md`). `ScriptTooLong` and `MemoryTooShort` leave all memory as it was; the
/// others clear the published words of all three parts.
#[derive(Clone, Copy, PartialEq, Eq, Debug)]
#[repr(u8)]
pub enum Refusal {
    ScriptTooLong = 1,
    MemoryTooShort = 2,
    BadByte = 3,
    NumberTooLarge = 4,
    UnexpectedWord = 5,
    UnboundName = 6,
    NameTaken = 7,
    NotCallable = 8,
    AttributeOutsideMethod = 9,
    AfterTerminator = 10,
    Limit = 11,
    NoFunction = 12,
    UndeclaredInConstructor = 13,
    ReceiverNotObject = 14,
    MemberMissing = 15,
    ArgumentMissing = 16,
    BareCallOfMethod = 17,
    /// No longer given: a difference has a kind, as a sum has.
    Subtraction = 18,
    KindsClash = 19,
    WorklistFull = 20,
}

impl Refusal {
    pub const ALL: [Refusal; 20] = {
        use Refusal::*;
        [
            ScriptTooLong, MemoryTooShort, BadByte, NumberTooLarge, UnexpectedWord, UnboundName, NameTaken, NotCallable,
            AttributeOutsideMethod, AfterTerminator, Limit, NoFunction, UndeclaredInConstructor, ReceiverNotObject,
            MemberMissing, ArgumentMissing, BareCallOfMethod, Subtraction, KindsClash, WorklistFull,
        ]
    };

    pub fn number(self) -> u8 {
        self as u8
    }
}

mod raw {
    extern "C" {
        pub fn dinqosa_analyze(
            script: *const u8, script_len: usize, answer: *mut u64, answer_len: usize, program: *mut u64, program_len: usize,
            state: *mut u64, state_len: usize,
        ) -> u8;

        pub fn dinqosa_read(text: *const u8, text_len: usize, answer: *mut u64, answer_len: usize) -> u16;
    }
}

/// One call. An answer clears `program`, `state` and the places of `answer` that it doesn't use.
pub fn analyze(script: &[u8], answer: &mut [u64], program: &mut [u64], state: &mut [u64]) -> Result<(), Refusal> {
    // The borrows keep the script and the parts apart and alive for the call.
    let number = unsafe {
        raw::dinqosa_analyze(
            script.as_ptr(), script.len(), answer.as_mut_ptr(), answer.len(), program.as_mut_ptr(), program.len(),
            state.as_mut_ptr(), state.len(),
        )
    };
    match number {
        0 => Ok(()),
        n => Err(Refusal::ALL[n as usize - 1]),
    }
}

/// What is added to the number of a refusal that was read.
pub const READ: usize = 256;

/// A stored answer that was read: an answer, which the answer part holds, or a refusal.
#[derive(Clone, Copy, PartialEq, Eq, Debug)]
pub enum Loaded {
    Answer,
    Refusal(Refusal),
}

/// Why nothing was read. `MemoryTooShort` leaves the answer part as it was; the others clear its published words.
#[derive(Clone, Copy, PartialEq, Eq, Debug)]
#[repr(u8)]
pub enum Unread {
    MemoryTooShort = 2,
    /// A line is no legal frame, or isn't ended.
    IllegalLine = 21,
    /// A frame is missing, repeated or misplaced, a number reaches a total, or there are too many uses.
    Misplaced = 22,
}

impl Unread {
    const ALL: [Unread; 3] = [Unread::MemoryTooShort, Unread::IllegalLine, Unread::Misplaced];
}

/// Reads frames, as `live` writes them, of any length. A refusal clears the published words, as an answer does those that it
/// doesn't use.
pub fn read(text: &[u8], answer: &mut [u64]) -> Result<Loaded, Unread> {
    // The borrows keep the text and the answer part apart and alive for the call.
    let number = unsafe { raw::dinqosa_read(text.as_ptr(), text.len(), answer.as_mut_ptr(), answer.len()) };
    match usize::from(number) {
        0 => Ok(Loaded::Answer),
        n if READ < n => Ok(Loaded::Refusal(Refusal::ALL[n - READ - 1])),
        n => Err(*Unread::ALL.iter().find(|u| **u as usize == n).expect("a number of the reader's")),
    }
}

/// An answer part after an answered call, or after an answer was read. Numbers out of range panic, as a slice's would.
#[derive(Clone, Copy)]
pub struct Answer<'a>(pub &'a [u64]);

impl<'a> Answer<'a> {
    pub fn functions(&self) -> usize {
        self.0[0] as usize
    }

    pub fn blocks(&self) -> usize {
        self.0[1] as usize
    }

    pub fn instructions(&self) -> usize {
        self.0[2] as usize
    }

    /// Entries taken off the worklists.
    pub fn count(&self) -> u64 {
        self.0[3]
    }

    pub fn live(&self, block: usize) -> bool {
        self.0[LIVE..TAGS][block] != 0
    }

    /// Kind byte and payload of an instruction; of kind 2, `payload as i64` is the number.
    pub fn kind(&self, instruction: usize) -> (u8, u64) {
        (self.0[TAGS..PAYLOADS][instruction] as u8, self.0[PAYLOADS..STARTS][instruction])
    }

    /// The users of an instruction, rising.
    pub fn users(&self, instruction: usize) -> &'a [u64] {
        let starts = &self.0[STARTS..USERS];
        &self.0[USERS..CALLERS][starts[instruction] as usize..starts[instruction + 1] as usize]
    }

    pub fn calls(&self, function: usize, instruction: usize) -> bool {
        self.0[CALLERS..][function * ROW_WORDS + instruction / 64] >> (instruction % 64) & 1 != 0
    }
}
