//! What one call of our library costs, and what that cost grows with.

use crate::clock;
use crate::interpreters::{started, BUDGET, KERNEL_WINDOW};
use crate::kernels::Kernel;
use crate::layout;
use crate::results::Cost;
use qhobuziya::raw::{qhobuziya_run, Record, Reply};
use qhobuziya::{calls::run, Window};

const REPETITIONS: usize = 15;

/// Every repetition makes so many steps and calls, together.
const WORK: u64 = 400_000;

pub const BUDGETS: [u64; 7] = [1, 10, 100, 1_000, 10_000, 100_000, BUDGET];
pub const CODES: [u64; 5] = [4, 64, 1_024, 16_384, 65_536];
pub const ARENAS: [u64; 6] = [64, 1 << 10, 1 << 14, 1 << 18, 1 << 22, 1 << 26];

const SMALL_WINDOW: usize = 64;
const BRANCH_TO_ITSELF: [u8; 4] = 0x5000_0000u32.to_le_bytes();
const STORE_R4_AT_R5: [u8; 4] = 0x29C0_00A4u32.to_le_bytes();
const BRANCH_BACK_A_WORD: [u8; 4] = 0x53FF_FFFFu32.to_le_bytes();

type Run = unsafe extern "C" fn(*const u8, usize, *mut u8, usize, usize, usize, Record, u64) -> Reply;

/// Takes and gives the same records as a run, and does nothing.
#[inline(never)]
unsafe extern "C" fn empty(_: *const u8, _: usize, _: *mut u8, _: usize, _: usize, _: usize, session: Record, _: u64) -> Reply {
    Reply {
        session,
        refused: 0,
        ecode: 0,
        subcode: 0,
        carried: 0,
        steps: 0,
    }
}

pub fn costs(kernel: &Kernel) -> Vec<Cost> {
    let mut costs = Vec::new();
    of_call(&mut costs);
    of_budget(kernel, &mut costs);
    for budget in [0, 100] {
        of_code(budget, &mut costs);
        of_arena(budget, &mut costs);
    }
    costs
}

fn cost(what: &str, at: u64, least: f64) -> Cost {
    Cost {
        layout: layout::NUMBER.into(),
        what: what.into(),
        at,
        least,
    }
}

/// The least nanoseconds of one call, when it is made again and again with the same session.
fn least(budget: u64, mut work: impl FnMut()) -> f64 {
    let calls = WORK / (budget + 100) + 1;
    let once = |_| {
        clock::time(|| {
            for _ in 0..calls {
                work();
            }
        })
        .1 / calls as f64
    };
    clock::minimum(&(0..REPETITIONS).map(once).collect::<Vec<_>>())
}

/// A call with budget 0 beside the empty one. Both are called through a pointer that the compiler does not know.
fn of_call(costs: &mut Vec<Cost>) {
    let (empty, ours): (Run, Run) = (empty, qhobuziya_run);
    let mut arena = vec![0u8; SMALL_WINDOW];
    for (what, function) in [("empty", empty), ("none", ours)] {
        let time = least(0, || {
            // The pointers and lengths are those of two slices that do not overlap.
            let reply = unsafe {
                let function = std::ptr::read_volatile(&function);
                let (code, length) = (BRANCH_TO_ITSELF.as_ptr(), BRANCH_TO_ITSELF.len());
                function(code, length, arena.as_mut_ptr(), arena.len(), 0, SMALL_WINDOW, started(), 0)
            };
            assert!(reply.refused == 0 && reply.steps == 0);
        });
        costs.push(cost(what, 0, time));
    }
}

/// Growing budgets, on a kernel that works longer than all of them.
fn of_budget(kernel: &Kernel, costs: &mut Vec<Cost>) {
    let mut arena = kernel.arena(BUDGET);
    for budget in BUDGETS {
        let time = least(budget, || {
            let reply = run(&kernel.code, &mut arena, KERNEL_WINDOW, started(), budget);
            assert_eq!(reply.steps, budget);
        });
        costs.push(cost("budget", budget, time));
    }
}

/// Growing code, of which only the first word is run.
fn of_code(budget: u64, costs: &mut Vec<Cost>) {
    let mut arena = vec![0u8; SMALL_WINDOW];
    let window = Window {
        offset: 0,
        length: SMALL_WINDOW,
    };
    for length in CODES {
        let mut code = BRANCH_TO_ITSELF.to_vec();
        code.resize(length as usize, 0);
        let time = least(budget, || {
            let reply = run(&code, &mut arena, window, started(), budget);
            assert_eq!(reply.steps, budget);
        });
        costs.push(cost(&format!("code{}", budget), length, time));
    }
}

/// A growing arena, with a window of 64 bytes at its end, to which the code writes.
fn of_arena(budget: u64, costs: &mut Vec<Cost>) {
    let code = [STORE_R4_AT_R5, BRANCH_BACK_A_WORD].concat();
    let mut session = started();
    session.regs[5] = 0x4000_0000;
    for length in ARENAS {
        let mut arena = vec![1u8; length as usize];
        let window = Window {
            offset: arena.len() - SMALL_WINDOW,
            length: SMALL_WINDOW,
        };
        let time = least(budget, || {
            let reply = run(&code, &mut arena, window, session, budget);
            assert_eq!(reply.steps, budget);
        });
        costs.push(cost(&format!("arena{}", budget), length, time));
    }
}
