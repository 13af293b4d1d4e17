//! The five calls over slices and the archives' own records, for a server that keeps its sessions as records. Any record is fine. All
//! `unsafe` of the crate is here.
//!
//! What the archives ask for is in `qhobuziya.h`: a pointer may be null only where its length is 0, the length is that of what can be read
//! or written there, and code and arena do not overlap. A slice has all of this. Its pointer is never null, not even that of an empty one,
//! which points nowhere and has length 0. A `&mut` slice shares no byte with any other slice that lives. Nothing is kept after a call, so
//! the borrows may end with it. Every other value of every argument is fine.

use crate::raw::{self, Decoded, Reading, Record, Reply, Written};
use crate::Window;

// The archives were compiled for these sizes. They need `usize` to have 64 bits.
const _: () = assert!(std::mem::size_of::<Record>() == 296);
const _: () = assert!(std::mem::size_of::<Reply>() == 336);
const _: () = assert!(std::mem::size_of::<Written>() == 16);
const _: () = assert!(std::mem::size_of::<Reading>() == 312);
const _: () = assert!(std::mem::size_of::<Decoded>() == 48);

/// [`run`](crate::run) on a record. A refused one gives back the record that came, byte for byte.
pub fn run(code: &[u8], arena: &mut [u8], window: Window, session: Record, budget: u64) -> Reply {
    let (place, length) = (arena.as_mut_ptr(), arena.len());
    // SAFETY: `code` can be read and the arena written for their lengths, and `&mut` keeps them apart. A window that does not fit in the
    // arena is refused.
    unsafe {
        raw::qhobuziya_run(
            code.as_ptr(),
            code.len(),
            place,
            length,
            window.offset,
            window.length,
            session,
            budget,
        )
    }
}

/// [`answer`](crate::answer) on a record. A refused one gives back the record that came, byte for byte.
pub fn answer(code: &[u8], session: Record, value: u64) -> Reply {
    // SAFETY: `code` can be read for its length.
    unsafe { raw::qhobuziya_answer(code.as_ptr(), code.len(), session, value) }
}

/// [`write`](crate::write) of a record.
pub fn write(session: Record, buffer: &mut [u8]) -> Written {
    // SAFETY: the buffer can be written for its length. One that is too short is refused.
    unsafe { raw::qhobuziya_write(session, buffer.as_mut_ptr(), buffer.len()) }
}

/// [`read`](crate::read), with the offset of an accepted file too: its length.
pub fn read(file: &[u8]) -> Reading {
    // SAFETY: `file` can be read for its length.
    unsafe { raw::qhobuziya_read(file.as_ptr(), file.len()) }
}

/// [`decode`](crate::decode) in numbers.
pub fn decode(word: u32) -> Decoded {
    // SAFETY: it takes a number and returns numbers; every word is fine.
    unsafe { raw::qhobuziya_decode(word) }
}

#[cfg(test)]
mod tests {
    use super::*;
    use crate::Session;
    use std::ptr::{null, null_mut};

    const NOTHING: Window = Window { offset: 0, length: 0 };
    const SYSCALL: [u8; 4] = [0, 0, 0x2B, 0];

    fn noted(noted: u64) -> Record {
        Record {
            noted,
            note_low: 5,
            note_high: 6,
            ..(&Session::start()).into()
        }
    }

    /// Every `noted` but 0 is a note, and an accepted call says 1. An absent note's words come back as 0.
    #[test]
    fn accepted_notes() {
        for (came, expected) in [(0, (0, 0, 0)), (1, (1, 5, 6)), (7, (1, 5, 6)), (u64::MAX, (1, 5, 6))] {
            for reply in [run(&SYSCALL, &mut [], NOTHING, noted(came), 1), answer(&SYSCALL, noted(came), 1)] {
                assert_eq!(reply.refused, 0);
                assert_eq!((reply.session.noted, reply.session.note_low, reply.session.note_high), expected);
            }
            assert_eq!(write(noted(came), &mut [0; 285]).length, if came == 0 { 268 } else { 285 });
        }
    }

    /// A refused call gives back the record that came, and nothing else.
    #[test]
    fn refused_notes() {
        for came in [noted(0), noted(7)] {
            let expected = |refused| Reply {
                session: came,
                refused,
                ecode: 0,
                subcode: 0,
                carried: 0,
                steps: 0,
            };
            assert_eq!(run(&SYSCALL, &mut [], NOTHING, came, 1_000_001), expected(5));
            assert_eq!(answer(&[], came, 1), expected(7));
        }
    }

    /// What the safe calls do not pass on: the length of a refused write, the session of a refused read, the offset of an accepted one.
    #[test]
    fn written_and_read() {
        let mut file = [0; 285];
        let nothing = Written { refused: 14, length: 0 };
        let cut = Reading {
            session: (&Session::fresh()).into(),
            refused: 12,
            offset: 284,
        };
        let whole = Reading {
            session: noted(1),
            refused: 0,
            offset: 285,
        };
        assert_eq!(write(noted(7), &mut file[..284]), nothing);
        assert_eq!(write(noted(7), &mut file), Written { refused: 0, length: 285 });
        assert_eq!(read(&file[..284]), cut);
        assert_eq!(read(&file), whole);
    }

    /// A C server may hand in null where the length is 0.
    #[test]
    fn null_and_nothing() {
        // SAFETY: every length is 0, so that no pointer is used.
        unsafe {
            assert_eq!(raw::qhobuziya_run(null(), 0, null_mut(), 0, 0, 0, noted(1), 1).ecode, 8);
            assert_eq!(raw::qhobuziya_answer(null(), 0, noted(1), 1).refused, 7);
            assert_eq!(raw::qhobuziya_write(noted(1), null_mut(), 0).refused, 14);
            assert_eq!(raw::qhobuziya_read(null(), 0).refused, 12);
        }
    }
}
