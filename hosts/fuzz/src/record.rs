//! The two sides' sessions, one turned into the other.

use qhobuziya::raw::Record;
use reference::Session;

/// A record as the interpreter takes it.
pub fn session_of(record: &Record) -> Session {
    let note = if record.noted == 0 { None } else { Some(note_bytes(record)) };
    Session {
        regs: record.regs,
        pc: record.pc,
        total: record.total,
        note,
    }
}

fn note_bytes(record: &Record) -> [u8; 16] {
    let mut bytes = [0; 16];
    bytes[..8].copy_from_slice(&record.note_low.to_le_bytes());
    bytes[8..].copy_from_slice(&record.note_high.to_le_bytes());
    bytes
}

/// The record that an accepted call must give for this session.
pub fn record_of(session: &Session) -> Record {
    let (noted, note) = match session.note {
        None => (0, 0),
        Some(bytes) => (1, u128::from_le_bytes(bytes)),
    };
    Record {
        regs: session.regs,
        pc: session.pc,
        total: session.total,
        noted,
        note_low: note as u64,
        note_high: (note >> 64) as u64,
    }
}

/// The same for a call that takes `given`: refused, it gives that record itself, with all that means nothing in it.
pub fn record_after(refused: u64, session: &Session, given: &Record) -> Record {
    if refused == 0 {
        return record_of(session);
    }
    *given
}

/// Names of the record's numbers, and the numbers.
pub fn numbers(record: &Record) -> Vec<(String, u64)> {
    let registers = record
        .regs
        .iter()
        .enumerate()
        .map(|(register, value)| (format!("r{}", register), *value));
    let rest = [
        ("pc", record.pc),
        ("total", record.total),
        ("noted", record.noted),
        ("note_low", record.note_low),
        ("note_high", record.note_high),
    ];
    registers
        .chain(rest.iter().map(|(name, value)| (name.to_string(), *value)))
        .collect()
}
