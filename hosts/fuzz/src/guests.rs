//! The inputs of runs and answers: guests, their windows and their budgets.

use crate::random::Random;
use crate::record::{numbers, session_of};
use crate::words::{code, Shape};
use qhobuziya::raw::Record;
use reference::{Session, CODE_BASE};

/// A guest: its code, its window, and where it stands by either side.
#[derive(Clone, Debug)]
pub struct Guest {
    pub code: Vec<u8>,
    pub offset: usize,
    pub length: usize,
    pub record: Record,
    pub session: Session,
}

impl Guest {
    /// Sets both sides' sessions alike.
    pub fn change(&mut self, change: impl FnOnce(&mut Record)) {
        change(&mut self.record);
        self.session = session_of(&self.record);
    }
}

/// A length of arena: mostly small.
pub fn arena_length(random: &mut Random) -> usize {
    match random.below(200) {
        0 => 65_536 + random.index(8_000),
        1..=70 => random.index(65),
        _ => random.index(400),
    }
}

/// A window that is in the arena: at any offset, of any length that is left, often short, often up to the end.
pub fn inner_window(random: &mut Random, arena: usize) -> (usize, usize) {
    let offset = random.index(arena + 1);
    let offset = if arena > 65_536 { random.index(100) } else { offset };
    let room = (arena - offset).min(65_536);
    let length = match random.below(4) {
        0 => random.index(room.min(24) + 1),
        1 => random.index(room + 1),
        _ => room,
    };
    (offset, length)
}

/// A window that reaches beyond the arena, or is too long, or whose sum wraps.
pub fn outer_window(random: &mut Random, arena: usize) -> (usize, usize) {
    let near = random.near(arena as u64) as usize;
    match random.below(5) {
        0 => (near, random.index(12)),
        1 => (random.index(arena + 1), near.wrapping_add(1)),
        2 => (random.near(0) as usize, random.index(20)),
        3 => (random.index(arena + 1), random.near(65_537) as usize),
        _ => (random.next() as usize, random.next() as usize),
    }
}

/// A length of code: mostly some words, now and then a bad one or a very long one.
fn code_length(random: &mut Random) -> usize {
    match random.below(1000) {
        0 => random.pick(&[65_536, 65_536, 65_535, 65_537, 65_538, 65_540, 65_600]),
        1..=15 => random.index(200),
        16..=25 => 0,
        _ => 4 + 4 * random.index(60),
    }
}

/// A pc: in code, mostly its beginning, or anywhere.
pub fn entry(random: &mut Random, code_length: usize) -> u64 {
    match random.below(100) {
        0 => random.near(CODE_BASE),
        1 => random.near(CODE_BASE + code_length as u64),
        2 => random.value(0, code_length as u64),
        3..=40 => CODE_BASE + 4 * random.below(code_length as u64 / 4 + 1),
        _ => CODE_BASE,
    }
}

/// Steps done so far: nothing of note, or close to where the sum with a budget is refused, or where it wraps.
fn total(random: &mut Random, budget: u64) -> u64 {
    match random.below(40) {
        0 => (1u64 << 63).wrapping_sub(budget).wrapping_add(random.below(5)).wrapping_sub(2),
        1 => 0u64.wrapping_sub(budget).wrapping_add(random.below(5)).wrapping_sub(2),
        2 => random.next(),
        _ => random.next() >> 1 >> random.below(63),
    }
}

/// Mostly some hundred steps. The greatest budget comes once in some thousand runs, as guests that go round spend it all.
pub fn budget(random: &mut Random) -> u64 {
    match random.below(10_000) {
        0..=1 => 1_000_000,
        2..=299 => 0,
        300..=1299 => 1 + random.below(4),
        1300..=1449 => 1_000_001 + random.below(3),
        1450..=1549 => random.value(0, 0) & !0xF_FFFF | random.below(2_000),
        1550..=1699 => random.below(5_000),
        1700..=5999 => random.below(100),
        _ => random.below(500),
    }
}

/// A note, there or not: a number other than 1 says that it is there too, and words of an absent one are mostly rubbish.
pub fn noted(random: &mut Random, record: &mut Record) {
    record.noted = match random.below(10) {
        0..=4 => 0,
        5..=8 => 1,
        _ => random.value(0, 0),
    };
    if record.noted != 0 || random.chance(700) {
        record.note_low = random.next();
        record.note_high = random.next();
    }
}

pub fn blank() -> Record {
    Record {
        regs: [0; 32],
        pc: 0,
        total: 0,
        noted: 0,
        note_low: 0,
        note_high: 0,
    }
}

/// A guest whose window is `window`.
pub fn guest(random: &mut Random, (offset, length): (usize, usize), budget: u64) -> Guest {
    let shape = Shape::new(random, length.min(65_536) as u64);
    let code_length = code_length(random);
    let mut record = blank();
    record.regs = shape.registers(random, code_length as u64);
    record.pc = entry(random, code_length);
    record.total = total(random, budget);
    noted(random, &mut record);
    if random.chance(10) {
        record.regs[0] = random.value(0, 0);
    }
    Guest {
        code: code(random, &shape, code_length),
        offset,
        length,
        record,
        session: session_of(&record),
    }
}

/// Several reasons to refuse at once, so that their order shows.
pub fn spoil(random: &mut Random, arena: usize, guest: &mut Guest, budget: &mut u64) {
    if random.chance(300) {
        guest.code.push(0);
    }
    if random.chance(500) {
        (guest.offset, guest.length) = outer_window(random, arena);
    }
    if random.chance(500) {
        guest.change(|record| record.regs[0] = 1 << random.below(64));
    }
    if random.chance(500) {
        *budget = 1_000_001 + random.below(3);
    }
    if random.chance(500) {
        guest.change(|record| record.total = random.near(1 << 63));
    }
}

/// The guest and its arena, with as much of the bytes as one can read.
pub fn told(guest: &Guest, arena: &[u8]) -> String {
    let mut text = format!("window {:#x} of {} bytes, arena of {}\n", guest.offset, guest.length, arena.len());
    for (name, number) in numbers(&guest.record) {
        text += &format!("  {} {:#x}\n", name, number);
    }
    text += "code:";
    for word in guest.code.chunks(4).take(100) {
        let digits: String = word.iter().rev().map(|byte| format!("{:02X}", byte)).collect();
        text += &format!(" {}", digits);
    }
    if arena.len() <= 512 {
        let digits: String = arena.iter().map(|byte| format!("{:02X}", byte)).collect();
        text += &format!("\narena: {}", digits);
    }
    text
}

/// Windows of several guests in one arena: apart, touching, and now and then one over another.
pub fn windows(random: &mut Random, arena: usize) -> Vec<(usize, usize)> {
    let count = 3 + random.index(3);
    let share = arena / count;
    let mut windows = Vec::new();
    for number in 0..count {
        let skipped = random.pick(&[0, 1, share / 3]).min(share);
        windows.push((number * share + skipped, share - skipped));
    }
    if random.chance(200) {
        windows[0] = inner_window(random, arena);
    }
    windows
}
