//! Document 01's bench cases that go through the calls, and every refusal.

use qhobuziya::{answer, read, run, write, ReadError, Refusal, Session, Stop, Window};

const LOAD: u32 = 0x28C000A4; // ld.d r4, r5, 0
const STORE: u32 = 0x290000A4; // st.b r4, r5, 0
const JUMP: u32 = 0x4C0000A0; // jirl r0, r5, 0
const LOOP: u32 = 0x50000000; // b 0
const SYSCALL: u32 = 0x002B0001; // syscall 1
const NOTHING: Window = Window { offset: 0, length: 0 };
const NOTE: [u8; 16] = *b"ticket 000004711";

fn code(words: &[u32]) -> Vec<u8> {
    words.iter().flat_map(|word| word.to_le_bytes()).collect()
}

/// A session at the first word, with a number in r5.
fn with_r5(value: u64) -> Session {
    let mut session = Session::start();
    session.regs[5] = value;
    session
}

fn refused(window: Window, session: &Session, budget: u64) -> Refusal {
    let mut arena: Vec<u8> = (0..100).collect();
    let refusal = run(&code(&[STORE]), &mut arena, window, session, budget).unwrap_err();
    assert_eq!(arena, (0..100).collect::<Vec<u8>>());
    refusal
}

#[test]
fn twelve_bytes() {
    let code = [0x04, 0x1C, 0xC0, 0x02, 0x85, 0x0C, 0x41, 0x00, 0x00, 0x00, 0x2B, 0x00];
    let ran = run(&code, &mut [0; 64], Window { offset: 0, length: 64 }, &Session::start(), 1_000).unwrap();
    let mut session = Session {
        pc: 0x10008,
        total: 2,
        ..Session::fresh()
    };
    session.regs[4] = 7;
    session.regs[5] = 0x38;
    assert_eq!((ran.stop, ran.steps, ran.session), (Stop::Syscall(0), 2, session));
}

#[test]
fn case_8_a_load_at_the_windows_end() {
    let mut arena: Vec<u8> = (0..32).collect();
    let window = Window { offset: 3, length: 16 };
    let mut load = |address| run(&code(&[LOAD]), &mut arena, window, &with_r5(address), 1).unwrap();
    let loaded = load(0x40000008);
    assert_eq!(
        (loaded.stop, loaded.steps, loaded.session.regs[4]),
        (Stop::BudgetSpent, 1, 0x1211100F0E0D0C0B)
    );
    for (address, stop) in [
        (0x40000009, Stop::Alignment as fn(u64) -> Stop),
        (0x40000010, Stop::DataAddress),
        (0x40000011, Stop::Alignment),
    ] {
        let ran = load(address);
        assert_eq!((ran.stop, ran.steps, ran.session), (stop(address), 0, with_r5(address)));
    }
}

#[test]
fn case_9_a_jump_to_a_bad_address() {
    let ran = run(&code(&[JUMP]), &mut [], NOTHING, &with_r5(0x10002), 2).unwrap();
    assert_eq!((ran.stop, ran.steps, ran.session.pc), (Stop::FetchAddress(0x10002), 1, 0x10002));
}

#[test]
fn case_10_a_store_into_no_window() {
    let ran = run(&code(&[STORE]), &mut [9], NOTHING, &with_r5(0x40000000), 1).unwrap();
    assert_eq!((ran.stop, ran.steps), (Stop::DataAddress(0x40000000), 0));
}

#[test]
fn case_11_a_window_at_the_arenas_end() {
    let at_end = |length| run(&[], &mut [0; 100], Window { offset: 100, length }, &Session::start(), 1);
    assert_eq!(at_end(0).unwrap().stop, Stop::FetchAddress(0x10000));
    assert_eq!(at_end(1), Err(Refusal::WindowPlace));
    assert_eq!(
        refused(
            Window {
                offset: usize::MAX,
                length: 1
            },
            &Session::start(),
            1
        ),
        Refusal::WindowPlace
    );
}

#[test]
fn case_12_the_codes_length() {
    let of_length = |length| run(&vec![0; length], &mut [], NOTHING, &Session::start(), 1);
    assert_eq!(of_length(65_536).unwrap().stop, Stop::NoSuchInstruction(0));
    assert_eq!(of_length(65_540), Err(Refusal::CodeLength));
    assert_eq!(of_length(3), Err(Refusal::CodeLength));
}

#[test]
fn case_13_the_budget() {
    let of_budget = |budget| run(&code(&[LOOP]), &mut [], NOTHING, &Session::start(), budget);
    let ran = of_budget(1_000_000).unwrap();
    assert_eq!((ran.stop, ran.steps, ran.session.total), (Stop::BudgetSpent, 1_000_000, 1_000_000));
    assert_eq!(of_budget(1_000_001), Err(Refusal::Budget));
}

#[test]
fn the_other_stops() {
    let stop = |word| run(&code(&[word]), &mut [], NOTHING, &with_r5(u64::MAX), 1).unwrap().stop;
    assert_eq!(stop(0x002A0009), Stop::Break(9));
    assert_eq!(stop(0x00011480), Stop::BoundCheck); // asrtle.d r4, r5: 0 and -1
    assert_eq!(stop(0xFFFFFFFF), Stop::NoSuchInstruction(0xFFFFFFFF));
}

#[test]
fn refusals_of_a_run() {
    let mut wrong = Session::start();
    wrong.regs[0] = 1;
    let late = |total| Session { total, ..Session::start() };
    assert_eq!(
        refused(Window { offset: 0, length: 65_537 }, &Session::start(), 1),
        Refusal::WindowLength
    );
    assert_eq!(refused(NOTHING, &wrong, 1), Refusal::ZeroRegister);
    assert_eq!(refused(NOTHING, &late(1 << 63), 1), Refusal::Total);
    assert_eq!(refused(NOTHING, &late(u64::MAX), 2), Refusal::Total);
    assert_eq!(run(&[], &mut [], NOTHING, &late(1 << 63), 0).unwrap().stop, Stop::BudgetSpent);
}

#[test]
fn an_answer_and_its_refusals() {
    let code = code(&[SYSCALL, LOOP]);
    let at = |pc| Session { pc, ..Session::start() };
    let mut session = at(0x10004);
    session.regs[4] = u64::MAX;
    assert_eq!(answer(&code, &at(0x10000), u64::MAX), Ok(session));
    for pc in [0x10004, 0x10002, 0x10008, 0, u64::MAX] {
        assert_eq!(answer(&code, &at(pc), 1), Err(Refusal::NoSyscall), "{pc:X}");
    }
    let mut wrong = Session::start();
    wrong.regs[0] = 1;
    assert_eq!(answer(&code, &wrong, 1), Err(Refusal::ZeroRegister));
    assert_eq!(answer(&code[1..], &wrong, 1), Err(Refusal::CodeLength));
}

fn paused() -> Session {
    let mut session = Session {
        pc: 0x10203,
        total: u64::MAX,
        note: Some(NOTE),
        ..Session::fresh()
    };
    session.regs[1] = 0x0102030405060708;
    session.regs[31] = 31;
    session
}

#[test]
fn a_file_comes_back() {
    let noted = paused();
    let plain = Session { note: None, ..paused() };
    for (session, length) in [(noted, 285), (plain, 268)] {
        let file = session.to_bytes().unwrap();
        assert_eq!(file.len(), length);
        assert_eq!(read(&file), Ok(session));
    }
}

#[test]
fn where_the_bytes_of_a_note_stand() {
    let file = paused().to_bytes().unwrap();
    assert_eq!((file[267], &file[268..284], file[284]), (4, &NOTE[..], 5));
    let ran = run(&[], &mut [], NOTHING, &Session { total: 0, ..paused() }, 0).unwrap();
    assert_eq!(ran.session.note, Some(NOTE));
}

#[test]
fn refusals_of_a_write() {
    let mut buffer = [7; 300];
    assert_eq!(write(&paused(), &mut buffer[..284]), Err(Refusal::BufferLength));
    let mut wrong = paused();
    wrong.regs[0] = 1;
    assert_eq!(write(&wrong, &mut buffer), Err(Refusal::ZeroRegister));
    assert_eq!(wrong.to_bytes(), Err(Refusal::ZeroRegister));
    assert_eq!(buffer, [7; 300]);
    assert_eq!(write(&paused(), &mut buffer), Ok(285));
    assert_eq!(buffer[285..], [7; 15]);
}

#[test]
fn refusals_of_a_read() {
    let mut file = paused().to_bytes().unwrap();
    let error = |refusal, offset| Err(ReadError { refusal, offset });
    assert_eq!(read(&[]), error(Refusal::FileCut, 0));
    assert_eq!(read(&file[..284]), error(Refusal::FileCut, 284));
    assert_eq!(read(&file[..100]), error(Refusal::FileCut, 9));
    file.push(0);
    assert_eq!(read(&file), error(Refusal::FileExtra, 285));
    file[258] = 4;
    assert_eq!(read(&file), error(Refusal::FileKind, 258));
}

#[test]
fn a_refusal_says_why() {
    assert_eq!(Refusal::WindowPlace.number(), 3);
    assert_eq!(Refusal::BufferLength.number(), 14);
    assert_eq!(Refusal::Budget.to_string(), "budget over 1,000,000");
    let error = read(&[1]).unwrap_err();
    assert_eq!(
        error.to_string(),
        "reading: the file ends where a kind or part of a body is due (at offset 0)"
    );
}
