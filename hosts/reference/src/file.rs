//! The paused session's file: one byte of kind, then a body whose length the kind fixes. Numbers have their lowest byte first.

use crate::session::{Reading, Session, Written};

const PC: u8 = 1;
const REGISTERS: u8 = 2;
const TOTAL: u8 = 3;
const NOTE: u8 = 4;
const END: u8 = 5;

/// The length of a file without a note, and what a note adds.
const SHORT: usize = 268;
const NOTE_PART: usize = 17;

/// Writes the session's file to the front of the buffer.
pub fn write(session: &Session, buffer: &mut [u8]) -> Written {
    if session.regs[0] != 0 {
        return Written { refused: 4, length: 0 };
    }
    let length = if session.note.is_some() { SHORT + NOTE_PART } else { SHORT };
    if buffer.len() < length {
        return Written { refused: 14, length: 0 };
    }
    let mut place = Place { buffer, at: 0 };
    place.put(&[PC]);
    place.put(&session.pc.to_le_bytes());
    place.put(&[REGISTERS]);
    for register in &session.regs[1..] {
        place.put(&register.to_le_bytes());
    }
    place.put(&[TOTAL]);
    place.put(&session.total.to_le_bytes());
    if let Some(note) = &session.note {
        place.put(&[NOTE]);
        place.put(note);
    }
    place.put(&[END]);
    Written { refused: 0, length }
}

/// Where the next bytes of a file go. The buffer is known to be long enough.
struct Place<'a> {
    buffer: &'a mut [u8],
    at: usize,
}

impl Place<'_> {
    fn put(&mut self, bytes: &[u8]) {
        let end = self.at + bytes.len();
        self.buffer[self.at..end].copy_from_slice(bytes);
        self.at = end;
    }
}

/// Reads a session's file. A refused one gives the fresh session.
pub fn read(file: &[u8]) -> Reading {
    match parts(file) {
        Ok(session) => Reading {
            session,
            refused: 0,
            offset: file.len(),
        },
        Err((refused, offset)) => Reading {
            session: Session::fresh(),
            refused,
            offset,
        },
    }
}

/// The session, or the refusal's number and offset.
fn parts(file: &[u8]) -> Result<Session, (u64, usize)> {
    let mut session = Session::fresh();
    let mut source = Source { file, at: 0 };
    session.pc = u64::from_le_bytes(source.part(PC)?);
    source.kind(&[REGISTERS])?;
    let registers: [u8; 248] = source.body()?;
    for (register, bytes) in session.regs[1..].iter_mut().zip(registers.chunks_exact(8)) {
        *register = bytes.iter().rev().fold(0, |number, byte| number << 8 | u64::from(*byte));
    }
    session.total = u64::from_le_bytes(source.part(TOTAL)?);
    if source.kind(&[NOTE, END])? == NOTE {
        session.note = Some(source.body()?);
        source.kind(&[END])?;
    }
    if source.at < file.len() {
        return Err((13, source.at));
    }
    Ok(session)
}

/// What is left of a file.
struct Source<'a> {
    file: &'a [u8],
    at: usize,
}

impl Source<'_> {
    /// A kind byte, one of those allowed here.
    fn kind(&mut self, allowed: &[u8]) -> Result<u8, (u64, usize)> {
        match self.file.get(self.at) {
            None => Err((12, self.file.len())),
            Some(kind) if !allowed.contains(kind) => Err((11, self.at)),
            Some(kind) => {
                self.at += 1;
                Ok(*kind)
            }
        }
    }

    /// The body behind the kind byte that was just taken. A cut one is refused at that byte.
    fn body<const N: usize>(&mut self) -> Result<[u8; N], (u64, usize)> {
        let mut body = [0; N];
        match self.file.get(self.at..self.at + N) {
            None => Err((12, self.at - 1)),
            Some(bytes) => {
                body.copy_from_slice(bytes);
                self.at += N;
                Ok(body)
            }
        }
    }

    fn part<const N: usize>(&mut self, kind: u8) -> Result<[u8; N], (u64, usize)> {
        self.kind(&[kind])?;
        self.body()
    }
}
