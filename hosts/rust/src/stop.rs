use crate::raw::Reply;

/// Why a run stopped, and what the stop carries. An instruction that raised has changed nothing, pc included, and is not counted.
#[derive(Clone, Copy, Debug, PartialEq, Eq)]
pub enum Stop {
    /// ADEF: the pc is not a multiple of 4 inside the code. Carries the pc.
    FetchAddress(u64),
    /// ADEM: an access that is not all inside the window. Carries the guest address.
    DataAddress(u64),
    /// ALE: an access whose address is not a multiple of its width. Carries the guest address.
    Alignment(u64),
    /// BCE: an assertion of the module does not hold.
    BoundCheck,
    /// The module asks the host for a service. Carries the 15-bit code; [`answer`](crate::answer) goes on.
    Syscall(u64),
    /// BREAK. Carries its 15-bit code.
    Break(u64),
    /// INE: there is no such instruction. Carries the word.
    NoSuchInstruction(u64),
    /// The budget is spent. To go on, run the session that came back.
    BudgetSpent,
}

impl Stop {
    pub(crate) fn of(reply: &Reply) -> Stop {
        match (reply.ecode, reply.subcode, reply.carried) {
            (8, 0, pc) => Stop::FetchAddress(pc),
            (8, 1, address) => Stop::DataAddress(address),
            (9, 0, address) => Stop::Alignment(address),
            (10, 0, 0) => Stop::BoundCheck,
            (11, 0, code) => Stop::Syscall(code),
            (12, 0, code) => Stop::Break(code),
            (13, 0, word) => Stop::NoSuchInstruction(word),
            (0, 0, 0) => Stop::BudgetSpent,
            other => panic!("the linked library gave the stop {other:?}, which does not exist: it is not Qhobuziya's"),
        }
    }
}
