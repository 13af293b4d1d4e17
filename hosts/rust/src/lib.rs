//! Qhobuziya: a LoongArch LA64 emulator for untrusted fare modules. The calls that a Rust server makes.
//!
//! A module is code, and a [`Window`] on the server's arena: the only bytes of it that the module can read or write. What it has reached is
//! a [`Session`]. A [`run`] goes on until the module stops; where it asked for a service, [`answer`] it and run on.
//!
//! ```
//! use qhobuziya::{run, Session, Stop, Window};
//!
//! // addi.d r4, r0, 7; slli.d r5, r4, 3; syscall 0
//! let code = [0x04, 0x1C, 0xC0, 0x02, 0x85, 0x0C, 0x41, 0x00, 0x00, 0x00, 0x2B, 0x00];
//! let mut arena = [0; 64];
//! let window = Window { offset: 0, length: 64 };
//!
//! let ran = run(&code, &mut arena, window, &Session::start(), 1_000)?;
//! assert_eq!(ran.stop, Stop::Syscall(0));
//! assert_eq!(ran.steps, 2);
//! assert_eq!(ran.session.regs[5], 56);
//! # Ok::<(), qhobuziya::Refusal>(())
//! ```
//!
//! The calls are in two archives, which the build links. They allocate nothing, keep nothing and have no state: calls may run at once in
//! different threads. A number from them that does not exist means that something else was linked in their place; then the crate panics.

#![deny(missing_docs)]
#![deny(unsafe_code)]

#[allow(unsafe_code)]
pub mod calls;
mod instruction;
#[allow(missing_docs)]
pub mod raw;
mod refusal;
mod session;
mod stop;

pub use instruction::{Family, Instruction, FAMILIES};
pub use refusal::{ReadError, Refusal};
pub use session::{Session, Window};
pub use stop::Stop;

/// The guest address of the code's first byte.
pub const CODE_ADDRESS: u64 = 0x10000;
/// The guest address of the window's first byte.
pub const WINDOW_ADDRESS: u64 = 0x4000_0000;
/// The greatest length of code, in bytes. It must be a multiple of 4.
pub const CODE_LENGTH_MAX: usize = 65_536;
/// The greatest length of a window, in bytes.
pub const WINDOW_LENGTH_MAX: usize = 65_536;
/// The greatest budget of a run, in steps.
pub const BUDGET_MAX: u64 = 1_000_000;
/// The most that a session's total and the budget may be together.
pub const TOTAL_MAX: u64 = 1 << 63;
/// The length of a file without a note.
pub const FILE_LENGTH: usize = 268;
/// The length of a file with a note. A buffer of this length always suffices.
pub const FILE_LENGTH_NOTED: usize = 285;

/// What an accepted run gives.
#[derive(Clone, Debug, PartialEq, Eq)]
pub struct Ran {
    /// Why it stopped.
    pub stop: Stop,
    /// The instructions that completed.
    pub steps: u64,
    /// The session afterwards. Its total has grown by the steps.
    pub session: Session,
}

/// Runs a session for at most `budget` steps. Only the window's bytes of the arena are read and changed. Budget 0 is spent at once, before
/// anything is fetched.
///
/// Refused with the first of 1 to 6 that applies. Then nothing has happened: the arena is unchanged, and the session, which was only
/// borrowed, is still the caller's.
pub fn run(code: &[u8], arena: &mut [u8], window: Window, session: &Session, budget: u64) -> Result<Ran, Refusal> {
    let reply = calls::run(code, arena, window, session.into(), budget);
    match Refusal::of(reply.refused) {
        Some(refusal) => Err(refusal),
        None => Ok(Ran {
            stop: Stop::of(&reply),
            steps: reply.steps,
            session: (&reply.session).into(),
        }),
    }
}

/// Answers a service call, after a run of the same code that stopped with [`Stop::Syscall`]: the session that comes back has `value` in r4,
/// and its pc behind the SYSCALL. Refused with the first of 1, 4 and 7 that applies.
pub fn answer(code: &[u8], session: &Session, value: u64) -> Result<Session, Refusal> {
    let reply = calls::answer(code, session.into(), value);
    match Refusal::of(reply.refused) {
        Some(refusal) => Err(refusal),
        None => Ok((&reply.session).into()),
    }
}

/// Writes a session's file to the front of the buffer and gives its length: [`FILE_LENGTH`], or [`FILE_LENGTH_NOTED`] with a note. The
/// bytes behind the file stay as they were. The window's bytes are not in the file: keep them yourself.
///
/// Refused with the first of 4 and 14 that applies; then the buffer is unchanged. [`Session::to_bytes`] brings its own buffer.
pub fn write(session: &Session, buffer: &mut [u8]) -> Result<usize, Refusal> {
    let written = calls::write(session.into(), buffer);
    match Refusal::of(written.refused) {
        Some(refusal) => Err(refusal),
        None => Ok(written.length),
    }
}

/// Reads a session's file, which ends where `file` ends. Refused with the first of 11, 12 and 13 that it meets, from left to right. Every
/// value of pc, registers, total and note is accepted.
pub fn read(file: &[u8]) -> Result<Session, ReadError> {
    let reading = calls::read(file);
    match Refusal::of(reading.refused) {
        Some(refusal) => Err(ReadError {
            refusal,
            offset: reading.offset,
        }),
        None => Ok((&reading.session).into()),
    }
}

/// Says which instruction a word is. `None` exactly for the words that stop a run with [`Stop::NoSuchInstruction`].
pub fn decode(word: u32) -> Option<Instruction> {
    Instruction::of(&calls::decode(word))
}
