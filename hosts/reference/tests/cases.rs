//! The scope's bench cases and its example program.

use reference::{run, Reply, Session};

const BASE: u64 = 0x10000;
const WINDOW: u64 = 0x4000_0000;

fn start(regs: &[(usize, u64)]) -> Session {
    let mut session = Session {
        regs: [0; 32],
        pc: BASE,
        total: 0,
        note: None,
    };
    for (register, value) in regs {
        session.regs[*register] = *value;
    }
    session
}

fn code(words: &[u32]) -> Vec<u8> {
    words.iter().flat_map(|word| word.to_le_bytes()).collect()
}

fn one(word: u32, regs: &[(usize, u64)]) -> Reply {
    run(&code(&[word]), &mut [0; 16], 0, 16, &start(regs), 1)
}

/// The value of r3 after one word that has rd 3, rj 1 and rk 2 added to it.
fn value(base: u32, rj: u64, rk: u64, rd: u64) -> u64 {
    let reply = one(base | 3 | 1 << 5 | 2 << 10, &[(1, rj), (2, rk), (3, rd)]);
    assert_eq!((reply.refused, reply.ecode, reply.steps), (0, 0, 1));
    reply.session.regs[3]
}

fn stop(reply: &Reply) -> (u64, u64, u64, u64) {
    (reply.refused, reply.ecode, reply.subcode, reply.carried)
}

#[test]
fn case_1_add_w() {
    assert_eq!(value(0x0010_0000, 0x7FFF_FFFF, 1, 0), 0xFFFF_FFFF_8000_0000);
}

#[test]
fn case_2_alsl() {
    assert_eq!(value(0x0004_0000, 0x4000_0000, 0, 0), 0xFFFF_FFFF_8000_0000);
    assert_eq!(value(0x0006_0000, 0x4000_0000, 0, 0), 0x8000_0000);
}

#[test]
fn case_3_lu32i_d() {
    let reply = one(0x1600_0000 | 0xFFFFF << 5 | 3, &[(3, 5)]);
    assert_eq!(reply.session.regs[3], 0xFFFF_FFFF_0000_0005);
}

#[test]
fn case_4_sltui() {
    let reply = one(0x0240_0000 | 0xFFF << 10 | 1 << 5 | 3, &[(1, 5)]);
    assert_eq!(reply.session.regs[3], 1);
}

#[test]
fn case_5_bytepick_d() {
    let picked = value(0x000C_0000 | 1 << 15, 0xAABB_CCDD_EEFF_0011, 0x1122_3344_5566_7788, 0);
    assert_eq!(picked, 0x2233_4455_6677_88AA);
}

#[test]
fn case_6_division() {
    assert_eq!(value(0x0022_0000, -7i64 as u64, 2, 0), -3i64 as u64);
    assert_eq!(value(0x0022_8000, -7i64 as u64, 2, 0), -1i64 as u64);
}

#[test]
fn case_7_jirl() {
    let reply = one(0x4C00_0000 | 1 << 5 | 1, &[(1, 0x10010)]);
    assert_eq!((reply.session.pc, reply.session.regs[1], reply.steps), (0x10010, 0x10004, 1));
}

#[test]
fn case_8_window_of_16_bytes() {
    let load = |address| one(0x28C0_0000 | 1 << 5 | 3, &[(1, address)]);
    assert_eq!(stop(&load(WINDOW + 8)), (0, 0, 0, 0));
    assert_eq!(stop(&load(WINDOW + 9)), (0, 9, 0, WINDOW + 9));
    assert_eq!(stop(&load(WINDOW + 16)), (0, 8, 1, WINDOW + 16));
    assert_eq!(stop(&load(WINDOW + 17)), (0, 9, 0, WINDOW + 17));
    assert_eq!(stop(&load(WINDOW - 8)), (0, 8, 1, WINDOW - 8));
}

#[test]
fn case_9_jump_to_a_bad_address() {
    let reply = run(&code(&[0x4C00_0000 | 1 << 5]), &mut [], 0, 0, &start(&[(1, 0x10002)]), 2);
    assert_eq!((stop(&reply), reply.steps, reply.session.pc), ((0, 8, 0, 0x10002), 1, 0x10002));
}

#[test]
fn case_10_empty_window() {
    let reply = run(&code(&[0x2900_0000 | 1 << 5]), &mut [0], 1, 0, &start(&[(1, WINDOW)]), 1);
    assert_eq!((stop(&reply), reply.steps, reply.session.pc), ((0, 8, 1, WINDOW), 0, BASE));
}

#[test]
fn case_11_window_at_the_end() {
    let refused = |offset, length| run(&[], &mut [0; 8], offset, length, &start(&[]), 0).refused;
    assert_eq!(refused(8, 0), 0);
    assert_eq!(refused(8, 1), 3);
    assert_eq!(refused(usize::MAX, 1), 3);
}

#[test]
fn case_12_code_length() {
    let refused = |length| run(&vec![0; length], &mut [], 0, 0, &start(&[]), 0).refused;
    assert_eq!((refused(65_536), refused(65_540), refused(65_535)), (0, 1, 1));
}

#[test]
fn case_13_budget() {
    let refused = |budget| run(&[], &mut [], 0, 0, &start(&[]), budget).refused;
    assert_eq!((refused(1_000_000), refused(1_000_001)), (0, 5));
}

#[test]
fn the_lowest_refusal_and_the_session_as_it_came() {
    let mut session = start(&[(0, 1)]);
    session.total = u64::MAX;
    let mut arena = [7; 4];
    let mut refused = |code: &[u8], offset, length, session: &Session, budget| {
        let reply = run(code, &mut arena, offset, length, session, budget);
        assert_eq!((&reply.session, reply.steps, arena), (session, 0, [7; 4]));
        reply.refused
    };
    assert_eq!(refused(&[0], 0, 65_537, &session, u64::MAX), 1);
    assert_eq!(refused(&[], usize::MAX, 65_537, &session, u64::MAX), 2);
    assert_eq!(refused(&[], usize::MAX, 65_536, &session, u64::MAX), 3);
    assert_eq!(refused(&[], 0, 4, &session, u64::MAX), 4);
    session.regs[0] = 0;
    assert_eq!(refused(&[], 0, 4, &session, u64::MAX), 5);
    assert_eq!(refused(&[], 0, 4, &session, 1), 6);
    session.total = 1 << 63;
    assert_eq!(refused(&[], 0, 4, &session, 1), 6);
    assert_eq!(refused(&[], 0, 4, &session, 0), 0);
}

#[test]
fn the_example_program() {
    let bytes = [0x04, 0x1C, 0xC0, 0x02, 0x85, 0x0C, 0x41, 0x00, 0x00, 0x00, 0x2B, 0x00];
    let reply = run(&bytes, &mut [0; 64], 0, 64, &start(&[]), 1000);
    let mut after = start(&[(4, 7), (5, 0x38)]);
    after.pc = 0x10008;
    after.total = 2;
    assert_eq!((stop(&reply), reply.steps, &reply.session), ((0, 11, 0, 0), 2, &after));
    let answered = reference::answer(&bytes, &reply.session, 9);
    after.pc = 0x1000C;
    after.regs[4] = 9;
    assert_eq!((stop(&answered), answered.steps, &answered.session), ((0, 0, 0, 0), 0, &after));
    assert_eq!(reference::answer(&bytes, &after, 9).refused, 7);
}
