//! A kernel on our library and on the independent interpreter. A run takes a budget of at most a million, so both are called again with
//! the session that came back until the kernel stops at its SYSCALL.

use crate::kernels::{Kernel, OFFSET, WINDOW};
use qhobuziya::raw::Record;
use qhobuziya::{calls, Window};

pub const BUDGET: u64 = 1_000_000;
pub const START: u64 = 0x10000;
/// The window of every kernel.
pub const KERNEL_WINDOW: Window = Window {
    offset: OFFSET,
    length: WINDOW,
};
const SYSCALL: u64 = 11;

/// What a kernel leaves: r4 and the number of steps.
#[derive(Clone, Copy, Debug, PartialEq, Eq)]
pub struct Finish {
    pub checksum: u64,
    pub steps: u64,
}

/// A session at its first word.
pub fn started() -> Record {
    Record {
        regs: [0; 32],
        pc: START,
        total: 0,
        noted: 0,
        note_low: 0,
        note_high: 0,
    }
}

pub fn ours(kernel: &Kernel, arena: &mut [u8]) -> Result<Finish, String> {
    let mut session = started();
    loop {
        let reply = calls::run(&kernel.code, arena, KERNEL_WINDOW, session, BUDGET);
        session = reply.session;
        if reply.refused != 0 || reply.ecode != 0 {
            return ended(
                reply.refused,
                reply.ecode,
                session.pc,
                Finish {
                    checksum: session.regs[4],
                    steps: session.total,
                },
            );
        }
    }
}

pub fn rust(kernel: &Kernel, arena: &mut [u8]) -> Result<Finish, String> {
    let mut session = reference::Session {
        regs: [0; 32],
        pc: START,
        total: 0,
        note: None,
    };
    loop {
        let reply = reference::run(&kernel.code, arena, OFFSET, WINDOW, &session, BUDGET);
        session = reply.session;
        if reply.refused != 0 || reply.ecode != 0 {
            return ended(
                reply.refused,
                reply.ecode,
                session.pc,
                Finish {
                    checksum: session.regs[4],
                    steps: session.total,
                },
            );
        }
    }
}

fn ended(refused: u64, ecode: u64, pc: u64, finish: Finish) -> Result<Finish, String> {
    if refused == 0 && ecode == SYSCALL {
        return Ok(finish);
    }
    Err(format!(
        "refused {}, ecode {} at pc {:#x} after {} steps",
        refused, ecode, pc, finish.steps
    ))
}
