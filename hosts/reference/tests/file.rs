//! The paused session's file.

use reference::{read, write, Session};

fn sample(note: Option<[u8; 16]>) -> Session {
    let mut session = Session {
        regs: [0; 32],
        pc: 0x0102_0304_0506_0708,
        total: 9,
        note,
    };
    for (register, value) in session.regs.iter_mut().enumerate() {
        *value = (register as u64) << 32;
    }
    session
}

fn file(note: Option<[u8; 16]>) -> Vec<u8> {
    let mut buffer = vec![0xEE; 300];
    let written = write(&sample(note), &mut buffer);
    assert_eq!(written.refused, 0);
    assert!(buffer[written.length..].iter().all(|byte| *byte == 0xEE));
    buffer.truncate(written.length);
    buffer
}

#[test]
fn kinds_are_where_the_scope_puts_them() {
    let short = file(None);
    let long = file(Some([6; 16]));
    assert_eq!((short.len(), long.len()), (268, 285));
    assert_eq!((short[0], short[9], short[258], short[267]), (1, 2, 3, 5));
    assert_eq!((long[267], long[268], long[283], long[284]), (4, 6, 6, 5));
    assert_eq!(&short[1..9], &[8, 7, 6, 5, 4, 3, 2, 1]);
}

#[test]
fn what_was_written_reads_back() {
    for note in [None, Some([6; 16])] {
        let bytes = file(note);
        let reading = read(&bytes);
        assert_eq!((reading.refused, reading.offset, reading.session), (0, bytes.len(), sample(note)));
    }
}

#[test]
fn damage_is_refused_where_it_is() {
    let bytes = file(Some([6; 16]));
    let refusal = |bytes: &[u8]| {
        let reading = read(bytes);
        assert_eq!(
            reading.session,
            Session {
                regs: [0; 32],
                pc: 0,
                total: 0,
                note: None
            }
        );
        (reading.refused, reading.offset)
    };
    for (length, offset) in [
        (0, 0),
        (1, 0),
        (8, 0),
        (9, 9),
        (10, 9),
        (257, 9),
        (258, 258),
        (266, 258),
        (267, 267),
        (283, 267),
        (284, 284),
    ] {
        assert_eq!(refusal(&bytes[..length]), (12, offset), "cut at {}", length);
    }
    for place in [0, 9, 258, 267, 284] {
        let mut wrong = bytes.clone();
        wrong[place] = 6;
        assert_eq!(refusal(&wrong), (11, place));
    }
    let longer: Vec<u8> = bytes.iter().copied().chain([1, 2]).collect();
    assert_eq!(refusal(&longer), (13, 285));
}

#[test]
fn refused_writes_leave_the_buffer() {
    let mut session = sample(None);
    let mut buffer = [0xEE; 267];
    assert_eq!((write(&session, &mut buffer).refused, buffer), (14, [0xEE; 267]));
    session.regs[0] = 1;
    let written = write(&session, &mut buffer);
    assert_eq!((written.refused, written.length, buffer), (4, 0, [0xEE; 267]));
}
