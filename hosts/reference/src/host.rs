//! Run and answer: the refusals, then the guest.

use crate::decode::operation;
use crate::machine::{fetch, Machine};
use crate::operation::{Operation, Trap};
use crate::session::{Reply, Session, LONGEST, MOST_STEPS, MOST_TOTAL};

/// Runs the session until its budget is spent or an instruction raises.
pub fn run(code: &[u8], arena: &mut [u8], offset: usize, length: usize, session: &Session, budget: u64) -> Reply {
    if let Some(number) = run_refusal(code, arena.len(), offset, length, session, budget) {
        return Reply::plain(number, session.clone());
    }
    let window = &mut arena[offset..offset + length];
    let mut machine = Machine {
        code,
        window,
        regs: session.regs,
        pc: session.pc,
    };
    let mut steps = 0;
    let mut numbers = (0, 0, 0);
    while steps < budget {
        if let Err(stop) = machine.step() {
            numbers = stop.numbers();
            break;
        }
        steps += 1;
    }
    let (ecode, subcode, carried) = numbers;
    let session = Session {
        regs: machine.regs,
        pc: machine.pc,
        total: session.total + steps,
        note: session.note,
    };
    Reply {
        refused: 0,
        ecode,
        subcode,
        carried,
        steps,
        session,
    }
}

/// Puts the value in r4 and goes past the SYSCALL at pc.
pub fn answer(code: &[u8], session: &Session, value: u64) -> Reply {
    if let Some(number) = answer_refusal(code, session) {
        return Reply::plain(number, session.clone());
    }
    let mut answered = session.clone();
    answered.regs[4] = value;
    answered.pc = session.pc.wrapping_add(4);
    Reply::plain(0, answered)
}

fn run_refusal(code: &[u8], arena: usize, offset: usize, length: usize, session: &Session, budget: u64) -> Option<u64> {
    if bad_code(code) {
        Some(1)
    } else if length > LONGEST {
        Some(2)
    } else if offset > arena || length > arena - offset {
        Some(3)
    } else if session.regs[0] != 0 {
        Some(4)
    } else if budget > MOST_STEPS {
        Some(5)
    } else if u128::from(session.total) + u128::from(budget) > u128::from(MOST_TOTAL) {
        Some(6)
    } else {
        None
    }
}

fn answer_refusal(code: &[u8], session: &Session) -> Option<u64> {
    if bad_code(code) {
        Some(1)
    } else if session.regs[0] != 0 {
        Some(4)
    } else if fetch(code, session.pc).and_then(operation) != Some(Operation::Trap(Trap::Syscall)) {
        Some(7)
    } else {
        None
    }
}

fn bad_code(code: &[u8]) -> bool {
    code.len() > LONGEST || code.len() % 4 != 0
}
