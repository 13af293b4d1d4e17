//! An interpreter of the guest machine, written from the manual and the house rules alone. It shares no line with the proved code, so
//! what both give alike is right or is the same misreading made twice. The fuzzer takes it as its oracle, the benchmark as its baseline.
//!
//! It is a plain interpreter: fetch a word, decode it, carry it out, and again. Nothing is prepared before a run or kept after one.

mod compute;
mod decode;
mod file;
mod host;
mod machine;
mod operation;
mod session;
mod word;

pub use decode::{decode, Instruction};
pub use file::{read, write};
pub use host::{answer, run};
pub use operation::Operation;
pub use session::{Reading, Reply, Session, Written};
pub use session::{CODE_BASE, WINDOW_BASE};
