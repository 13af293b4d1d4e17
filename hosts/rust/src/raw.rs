//! The archives' own calls, as C sees them. `qhobuziya.h` says what every field means; a safe call for each is in the crate's root.
//! Nothing compares these declarations with the Rattle source but the tests.

/// 32 registers, pc, the steps completed so far, and a note: absent where `noted` is 0, and then without content; anything else says
/// that the 16 bytes of `note_low` and `note_high` are there.
#[repr(C)]
#[derive(Clone, Copy, Debug, PartialEq, Eq)]
pub struct Record {
    pub regs: [u64; 32],
    pub pc: u64,
    pub total: u64,
    pub noted: u64,
    pub note_low: u64,
    pub note_high: u64,
}

/// What a run and an answer return.
#[repr(C)]
#[derive(Clone, Copy, Debug, PartialEq, Eq)]
pub struct Reply {
    pub session: Record,
    pub refused: u64,
    pub ecode: u64,
    pub subcode: u64,
    pub carried: u64,
    pub steps: u64,
}

/// What a write returns.
#[repr(C)]
#[derive(Clone, Copy, Debug, PartialEq, Eq)]
pub struct Written {
    pub refused: u64,
    pub length: usize,
}

/// What a read returns.
#[repr(C)]
#[derive(Clone, Copy, Debug, PartialEq, Eq)]
pub struct Reading {
    pub session: Record,
    pub refused: u64,
    pub offset: usize,
}

/// What decoding returns.
#[repr(C)]
#[derive(Clone, Copy, Debug, PartialEq, Eq)]
pub struct Decoded {
    pub family: u64,
    pub operation: u64,
    pub rd: u64,
    pub rj: u64,
    pub rk: u64,
    pub imm: u64,
}

extern "C" {
    pub fn qhobuziya_run(
        code: *const u8,
        code_length: usize,
        arena: *mut u8,
        arena_length: usize,
        window_offset: usize,
        window_length: usize,
        session: Record,
        budget: u64,
    ) -> Reply;
    pub fn qhobuziya_answer(code: *const u8, code_length: usize, session: Record, value: u64) -> Reply;
    pub fn qhobuziya_write(session: Record, buffer: *mut u8, buffer_length: usize) -> Written;
    pub fn qhobuziya_read(file: *const u8, file_length: usize) -> Reading;
    pub fn qhobuziya_decode(word: u32) -> Decoded;
}
