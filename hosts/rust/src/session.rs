use crate::raw::Record;
use crate::{Refusal, CODE_ADDRESS, FILE_LENGTH_NOTED};

/// Everything of a module that lasts from call to call, but for the bytes of its window. The server keeps it between calls.
#[derive(Clone, Debug, PartialEq, Eq)]
pub struct Session {
    /// The general registers r0 to r31. A call with another value than 0 in `regs[0]` is refused.
    pub regs: [u64; 32],
    /// The guest address of the next instruction.
    pub pc: u64,
    /// The steps completed so far, in all runs of this session.
    pub total: u64,
    /// The support note, where there is one. No call looks at its bytes.
    pub note: Option<[u8; 16]>,
}

impl Session {
    /// All zero, pc too, with no note.
    pub fn fresh() -> Session {
        Session {
            regs: [0; 32],
            pc: 0,
            total: 0,
            note: None,
        }
    }

    /// A fresh session but for its pc: the first word of the code is next.
    pub fn start() -> Session {
        Session {
            pc: CODE_ADDRESS,
            ..Session::fresh()
        }
    }

    /// The session's file, as [`write`](crate::write) writes it. Refused with 4 only.
    pub fn to_bytes(&self) -> Result<Vec<u8>, Refusal> {
        let mut file = vec![0; FILE_LENGTH_NOTED];
        let length = crate::write(self, &mut file)?;
        file.truncate(length);
        Ok(file)
    }
}

/// The record that the archives take. The words of an absent note are 0.
impl From<&Session> for Record {
    fn from(session: &Session) -> Record {
        let note = session.note.map_or(0, u128::from_le_bytes);
        Record {
            regs: session.regs,
            pc: session.pc,
            total: session.total,
            noted: session.note.is_some().into(),
            note_low: note as u64,
            note_high: (note >> 64) as u64,
        }
    }
}

/// The session of a record. Every `noted` but 0 says that the note is there.
impl From<&Record> for Session {
    fn from(record: &Record) -> Session {
        let note = u128::from(record.note_high) << 64 | u128::from(record.note_low);
        Session {
            regs: record.regs,
            pc: record.pc,
            total: record.total,
            note: (record.noted != 0).then(|| note.to_le_bytes()),
        }
    }
}

/// Which bytes of the arena a module sees, at guest address [`WINDOW_ADDRESS`](crate::WINDOW_ADDRESS) and upward. It may start at any
/// offset.
#[derive(Clone, Copy, Debug, PartialEq, Eq)]
pub struct Window {
    /// The arena's offset of the first byte.
    pub offset: usize,
    /// How many bytes.
    pub length: usize,
}
