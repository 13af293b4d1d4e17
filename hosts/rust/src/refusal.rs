use std::fmt;

/// Why a call was refused.
#[derive(Clone, Copy, Debug, PartialEq, Eq)]
pub enum Refusal {
    /// 1: the code is longer than 65,536 bytes, or its length is not a multiple of 4.
    CodeLength,
    /// 2: the window is longer than 65,536 bytes.
    WindowLength,
    /// 3: the window is not all inside the arena.
    WindowPlace,
    /// 4: register 0 of the session is not zero.
    ZeroRegister,
    /// 5: the budget is over 1,000,000.
    Budget,
    /// 6: total plus budget exceeds 2^63.
    Total,
    /// 7: there is no SYSCALL at the pc that could be answered.
    NoSyscall,
    /// 11: the file has a kind byte that is not allowed at its place.
    FileKind,
    /// 12: the file ends too early.
    FileCut,
    /// 13: the file goes on after its end mark.
    FileExtra,
    /// 14: the buffer is shorter than the file.
    BufferLength,
}

/// Every refusal with its number and the sentence that says when it is given.
const TABLE: [(Refusal, u64, &str); 11] = [
    (Refusal::CodeLength, 1, "code length over 65,536 or not a multiple of 4"),
    (Refusal::WindowLength, 2, "window length over 65,536"),
    (
        Refusal::WindowPlace,
        3,
        "window offset plus window length, as whole numbers, exceeds the arena's length",
    ),
    (Refusal::ZeroRegister, 4, "register 0 of the session given is not zero"),
    (Refusal::Budget, 5, "budget over 1,000,000"),
    (Refusal::Total, 6, "total plus budget exceeds 2^63, as whole numbers"),
    (
        Refusal::NoSyscall,
        7,
        "answer: the pc is not a multiple of 4 inside code, or the word there is no SYSCALL",
    ),
    (Refusal::FileKind, 11, "reading: a kind byte not allowed at that place"),
    (Refusal::FileCut, 12, "reading: the file ends where a kind or part of a body is due"),
    (Refusal::FileExtra, 13, "reading: bytes after the end mark"),
    (Refusal::BufferLength, 14, "writing: the buffer is too short"),
];

impl Refusal {
    /// The refusal's number.
    pub fn number(self) -> u64 {
        self.row().1
    }

    /// A call's `refused`: 0 is no refusal.
    pub(crate) fn of(number: u64) -> Option<Refusal> {
        if number == 0 {
            return None;
        }
        match TABLE.iter().find(|row| row.1 == number) {
            Some(row) => Some(row.0),
            None => panic!("the linked library refused with {number}, which does not exist: it is not Qhobuziya's"),
        }
    }

    // The table has a line for every refusal, in the enum's order.
    fn row(self) -> (Refusal, u64, &'static str) {
        TABLE[self as usize]
    }
}

impl fmt::Display for Refusal {
    fn fmt(&self, f: &mut fmt::Formatter<'_>) -> fmt::Result {
        f.write_str(self.row().2)
    }
}

impl std::error::Error for Refusal {}

/// Why a file was refused, and where.
#[derive(Clone, Copy, Debug, PartialEq, Eq)]
pub struct ReadError {
    /// Which refusal: [`Refusal::FileKind`], [`Refusal::FileCut`] or [`Refusal::FileExtra`].
    pub refusal: Refusal,
    /// The offset of the kind byte that is not allowed, or whose body is cut; the file's length where a kind is due; the offset of the
    /// first byte after the end mark.
    pub offset: usize,
}

impl fmt::Display for ReadError {
    fn fmt(&self, f: &mut fmt::Formatter<'_>) -> fmt::Result {
        write!(f, "{} (at offset {})", self.refusal, self.offset)
    }
}

impl std::error::Error for ReadError {}

#[cfg(test)]
mod tests {
    use super::*;

    #[test]
    fn every_refusal_has_its_own_line() {
        for (at, row) in TABLE.iter().enumerate() {
            assert_eq!(row.0 as usize, at);
            assert_eq!(Refusal::of(row.1), Some(row.0));
        }
    }
}
