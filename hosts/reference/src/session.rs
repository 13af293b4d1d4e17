//! What the host hands in and gets back, and the limits of the house map.

/// The guest address of the first byte of code.
pub const CODE_BASE: u64 = 0x10000;
/// The guest address of the first byte of the window.
pub const WINDOW_BASE: u64 = 0x4000_0000;
/// The most bytes that code or a window has.
pub(crate) const LONGEST: usize = 65_536;
/// The most steps that one run does.
pub(crate) const MOST_STEPS: u64 = 1_000_000;
/// The most steps that a session does in its life.
pub(crate) const MOST_TOTAL: u64 = 1 << 63;

/// One guest's state between calls. Register 0 is zero, except in a session that is refused for it.
#[derive(Clone, Debug, PartialEq, Eq)]
pub struct Session {
    pub regs: [u64; 32],
    pub pc: u64,
    pub total: u64,
    pub note: Option<[u8; 16]>,
}

impl Session {
    /// All zero, without a note.
    pub fn fresh() -> Session {
        Session {
            regs: [0; 32],
            pc: 0,
            total: 0,
            note: None,
        }
    }
}

/// What a run and an answer return. `refused` is 0 or the refusal's number. Ecode, subcode and what is carried are those of the stop, and
/// all 0 where no instruction raised.
#[derive(Clone, Debug, PartialEq, Eq)]
pub struct Reply {
    pub refused: u64,
    pub ecode: u64,
    pub subcode: u64,
    pub carried: u64,
    pub steps: u64,
    pub session: Session,
}

impl Reply {
    /// Nothing raised and nothing counted.
    pub(crate) fn plain(refused: u64, session: Session) -> Reply {
        Reply {
            refused,
            ecode: 0,
            subcode: 0,
            carried: 0,
            steps: 0,
            session,
        }
    }
}

/// What a write returns: the file's length, or 0 if it is refused.
#[derive(Clone, Debug, PartialEq, Eq)]
pub struct Written {
    pub refused: u64,
    pub length: usize,
}

/// What a read returns: the file's length as the offset, or where the file is refused.
#[derive(Clone, Debug, PartialEq, Eq)]
pub struct Reading {
    pub session: Session,
    pub refused: u64,
    pub offset: usize,
}
