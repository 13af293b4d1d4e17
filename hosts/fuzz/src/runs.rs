//! Runs and answers: one call each, and sequences of several guests in one arena.

use crate::compare::{self, Compared};
use crate::guests::{arena_length, budget, entry, guest, inner_window, outer_window, spoil, told, windows, Guest};
use crate::random::Random;
use crate::record::record_after;
use crate::tally::Tally;
use qhobuziya::raw::{Record, Reply};
use qhobuziya::{calls, Window};
use reference::CODE_BASE;

/// Bytes before and behind an arena or a buffer that no call may touch, and that no call is told of.
pub const GUARD: usize = 16;

/// The Ecode of a service call.
const SYSCALL: u64 = 11;

/// The raw form of what the interpreter gave for `given`.
fn expected(reply: &reference::Reply, given: &Record) -> Reply {
    Reply {
        session: record_after(reply.refused, &reply.session, given),
        refused: reply.refused,
        ecode: reply.ecode,
        subcode: reply.subcode,
        carried: reply.carried,
        steps: reply.steps,
    }
}

/// Both sides' arenas, with guards around them.
struct Arenas {
    library: Vec<u8>,
    reference: Vec<u8>,
}

impl Arenas {
    fn new(random: &mut Random, length: usize) -> Arenas {
        let library = random.bytes(length + 2 * GUARD);
        let reference = library.clone();
        Arenas { library, reference }
    }

    /// One run on both sides. Each side goes on from its own session. Gives the stop's Ecode.
    fn run(&mut self, guest: &mut Guest, budget: u64, tally: &mut Tally) -> Result<u64, String> {
        let inner = GUARD..self.library.len() - GUARD;
        let code = guest.code.clone();
        let Guest {
            offset, length, record, ..
        } = *guest;
        let theirs = calls::run(&code, &mut self.library[inner.clone()], Window { offset, length }, record, budget);
        let ours = reference::run(&guest.code, &mut self.reference[inner], offset, length, &guest.session, budget);
        tally.run(&ours);
        compare::reply(&theirs, &expected(&ours, &guest.record))?;
        compare::bytes("the code", &code, &guest.code)?;
        compare::bytes("the arena with 16 bytes on both sides", &self.library, &self.reference)?;
        guest.record = theirs.session;
        guest.session = ours.session;
        Ok(theirs.ecode)
    }
}

/// One run of one guest.
pub fn single(random: &mut Random, tally: &mut Tally) -> Compared {
    let length = arena_length(random);
    let mut arenas = Arenas::new(random, length);
    let window = if random.chance(20) {
        outer_window(random, length)
    } else {
        inner_window(random, length)
    };
    let mut budget = budget(random);
    let mut guest = guest(random, window, budget);
    if random.chance(20) {
        spoil(random, length, &mut guest, &mut budget);
    }
    let before = guest.clone();
    let arena = arenas.library[GUARD..GUARD + length].to_vec();
    let ran = arenas.run(&mut guest, budget, tally);
    ran.map_err(|text| format!("run: {}\nbudget {}, {}", text, budget, told(&before, &arena)))?;
    Ok(())
}

/// Several guests' runs and answers in random turn. One that stopped at a SYSCALL is mostly answered; one that another fault stopped mostly
/// starts elsewhere.
pub fn sequence(random: &mut Random, tally: &mut Tally) -> Compared {
    let length = 24 + random.index(400);
    let mut arenas = Arenas::new(random, length);
    let mut guests: Vec<Guest> = Vec::new();
    for window in windows(random, length) {
        guests.push(guest(random, window, 400));
    }
    for turn in 0..4 + random.index(16) {
        let chosen = random.index(guests.len());
        let guest = &mut guests[chosen];
        let told_of = |text: String| format!("turn {} of a sequence, guest {}: {}", turn, chosen, text);
        let budget = random.below(200);
        let ecode = arenas.run(guest, budget, tally).map_err(told_of)?;
        if random.chance(if ecode == SYSCALL { 900 } else { 50 }) {
            let value = random.value(guest.length as u64, guest.code.len() as u64);
            answer(guest, value, tally).map_err(told_of)?;
        } else if random.chance(if ecode == 0 { 50 } else { 800 }) {
            let pc = entry(random, guest.code.len());
            guest.change(|record| record.pc = pc);
        }
    }
    Ok(())
}

/// One answer on both sides. Each side goes on from its own session.
fn answer(guest: &mut Guest, value: u64, tally: &mut Tally) -> Compared {
    let code = guest.code.clone();
    let theirs = calls::answer(&code, guest.record, value);
    let ours = reference::answer(&guest.code, &guest.session, value);
    tally.answer(&ours);
    compare::reply(&theirs, &expected(&ours, &guest.record))?;
    compare::bytes("the code", &code, &guest.code)?;
    guest.record = theirs.session;
    guest.session = ours.session;
    Ok(())
}

/// One answer: mostly at a SYSCALL, else anywhere.
pub fn single_answer(random: &mut Random, tally: &mut Tally) -> Compared {
    let mut guest = guest(random, (0, 64), 0);
    let words = guest.code.len() / 4;
    if words > 0 && random.chance(600) {
        let at = random.index(words);
        let word = 0x002B_0000 | random.below(0x8000) as u32;
        guest.code[4 * at..4 * at + 4].copy_from_slice(&word.to_le_bytes());
        guest.change(|record| record.pc = CODE_BASE + 4 * at as u64);
    }
    if random.chance(50) {
        guest.change(|record| record.pc = random.near(record.pc));
    }
    let value = random.value(64, guest.code.len() as u64);
    let before = guest.clone();
    let answered = answer(&mut guest, value, tally);
    answered.map_err(|text| format!("answer {:#x}: {}\n{}", value, text, told(&before, &[])))
}
