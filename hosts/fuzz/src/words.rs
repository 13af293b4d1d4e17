//! Code that runs some way before it stops: words of every row, with operands that mostly make sense.

use crate::random::Random;
use crate::table::{family, width, Row, FAMILIES};
use reference::{CODE_BASE, WINDOW_BASE};

/// How often each family comes, family 1 first.
const OFTEN: [u64; 24] = [14, 8, 8, 7, 7, 10, 5, 3, 4, 10, 6, 7, 4, 4, 12, 7, 12, 7, 8, 2, 1, 1, 1, 2];
/// The same for the body of a loop, which nothing is to leave.
const CALM: [u64; 24] = [14, 8, 8, 7, 7, 10, 5, 3, 4, 10, 6, 0, 0, 0, 10, 6, 10, 6, 8, 2, 1, 0, 0, 2];

/// What a program is made for. Eight registers in a row have parts: four point into the window, two into code, one counts a loop, one is
/// an index. Most words leave them alone.
pub struct Shape {
    pub window_length: u64,
    first: u32,
    /// How far from the window's beginning the four pointers are.
    places: [u64; 4],
}

const COUNTER: u32 = 6;
const INDEX: u32 = 7;

impl Shape {
    pub fn new(random: &mut Random, window_length: u64) -> Shape {
        let first = 1 + random.below(24) as u32;
        let mut places = [0; 4];
        for place in &mut places {
            *place = match random.below(20) {
                0 => random.below(window_length + 1),
                1..=7 => 0,
                _ => random.below(window_length / 8 + 1) * 8,
            };
        }
        Shape {
            window_length,
            first,
            places,
        }
    }

    /// The registers that this shape's code starts with.
    pub fn registers(&self, random: &mut Random, code_length: u64) -> [u64; 32] {
        let mut regs = [0; 32];
        for register in &mut regs[1..] {
            *register = random.value(self.window_length, code_length);
        }
        let first = self.first as usize;
        for (register, place) in regs[first..].iter_mut().zip(self.places) {
            *register = WINDOW_BASE + place;
        }
        for register in &mut regs[first + 4..first + 6] {
            *register = CODE_BASE + 4 * random.below(code_length / 4 + 1);
        }
        regs[first + COUNTER as usize] = 1 + random.below(40);
        regs[first + INDEX as usize] = random.below(self.window_length / 8 + 1) * 8;
        regs
    }

    /// A register to write: rarely one that has a part.
    fn target(&self, random: &mut Random) -> u32 {
        let register = random.below(32) as u32;
        let has_part = register >= self.first && register < self.first + 8;
        if has_part && !random.chance(100) {
            return (register + 8) % 32;
        }
        register
    }
}

/// `length` bytes of code, also where that is no multiple of 4.
pub fn code(random: &mut Random, shape: &Shape, length: usize) -> Vec<u8> {
    let words = match random.below(10) {
        0 => return random.bytes(length),
        1..=3 => looping(random, shape, length / 4 + 1),
        _ => (0..length / 4 + 1).map(|at| word(random, shape, &OFTEN, at, length / 4)).collect(),
    };
    let mut bytes: Vec<u8> = words.iter().flat_map(|word| word.to_le_bytes()).collect();
    bytes.truncate(length);
    if random.chance(800) {
        close(random, &mut bytes);
    }
    bytes
}

/// Puts a jump back to some word in the place of the last one, so that the code is gone through again until the budget is spent.
fn close(random: &mut Random, bytes: &mut [u8]) {
    let count = bytes.len() / 4;
    if count == 0 {
        return;
    }
    let back = (random.index(count) as u32 + 1).min(count as u32 - 1).wrapping_neg();
    let word = 0x5000_0000 | (back & 0xFFFF) << 10 | back >> 16 & 0x3FF;
    bytes[4 * count - 4..4 * count].copy_from_slice(&word.to_le_bytes());
}

/// A body that is done a counted number of times, then anything.
fn looping(random: &mut Random, shape: &Shape, count: usize) -> Vec<u32> {
    let body = 1 + random.index(8);
    let counter = shape.first + COUNTER;
    let mut words: Vec<u32> = (0..body).map(|at| word(random, shape, &CALM, at, count)).collect();
    words.push(0x02C0_0000 | 0xFFF << 10 | counter << 5 | counter);
    let back = (-(body as i32 + 1) as u32) & 0x1F_FFFF;
    words.push(0x4400_0000 | (back & 0xFFFF) << 10 | counter << 5 | back >> 16);
    while words.len() < count {
        words.push(word(random, shape, &OFTEN, words.len(), count));
    }
    words
}

/// A word of some row, rarely with one bit wrong. `at` of `count` words is its place, which branches need.
fn word(random: &mut Random, shape: &Shape, often: &[u64; 24], at: usize, count: usize) -> u32 {
    let number = random.weighted(often) + 1;
    let row = &FAMILIES[number - 1][random.index(FAMILIES[number - 1].len())];
    let operands = match number {
        family::LOAD | family::STORE | family::POINTER => offset_access(random, shape, row, number),
        family::INDEXED_LOAD | family::INDEXED_STORE => indexed_access(random, shape),
        family::FIELD => bit_field(random, shape, row),
        family::BRANCH | family::ZERO_BRANCH => near_branch(random, number, at, count),
        family::JUMP => jump(random, shape, row, at, count),
        family::ASSERT => compared_registers(random),
        family::TRAP => random.next() as u32,
        _ => random.next() as u32 & !31 | shape.target(random),
    };
    let word = row.bits | operands & !row.mask;
    if random.chance(3) {
        return word ^ 1 << random.below(32);
    }
    word
}

/// rj and rk, often the same one, so that ASRTLE.D holds.
fn compared_registers(random: &mut Random) -> u32 {
    let [rj, rk] = [random.below(32) as u32, random.below(32) as u32];
    if random.chance(500) {
        return rj << 10 | rj << 5;
    }
    rk << 10 | rj << 5
}

/// Any word of some row, with operands of no sense.
pub fn any_of_table(random: &mut Random) -> u32 {
    let rows = random.pick(&FAMILIES);
    let row = &rows[random.index(rows.len())];
    row.bits | random.next() as u32 & !row.mask
}

/// Where an access of `width` bytes goes, counted from the window's beginning: mostly a multiple of the width inside, often at an end,
/// rarely across one.
fn place(random: &mut Random, window_length: u64, width: u64) -> u64 {
    let last = window_length.saturating_sub(width);
    let place = match random.below(64) {
        0 => window_length.wrapping_add(8).wrapping_sub(random.below(17)),
        1 => 0u64.wrapping_sub(random.below(17)),
        2 => return random.below(window_length + 1),
        3..=10 => last.saturating_sub(random.below(9)),
        11..=20 => random.below(9).min(last),
        _ => random.below(last + 1),
    };
    place & width.wrapping_neg()
}

fn offset_access(random: &mut Random, shape: &Shape, row: &Row, number: usize) -> u32 {
    let pointer = random.index(4);
    let wanted = place(random, shape.window_length, width(row.name));
    let offset = wanted.wrapping_sub(shape.places[pointer]);
    let field = if number == family::POINTER {
        (offset >> 2) & 0x3FFF
    } else {
        offset & 0xFFF
    };
    let rj = if random.chance(970) {
        shape.first + pointer as u32
    } else {
        random.below(32) as u32
    };
    (field as u32) << 10 | rj << 5 | shape.target(random)
}

fn indexed_access(random: &mut Random, shape: &Shape) -> u32 {
    let pointer = shape.first + random.below(4) as u32;
    let index = if random.chance(900) {
        shape.first + INDEX
    } else {
        random.below(32) as u32
    };
    let index = if random.chance(300) { 0 } else { index };
    let (rj, rk) = if random.chance(500) { (pointer, index) } else { (index, pointer) };
    rk << 10 | rj << 5 | shape.target(random)
}

fn bit_field(random: &mut Random, shape: &Shape, row: &Row) -> u32 {
    let limit = if row.name.ends_with(".w") { 32 } else { 64 };
    let [a, b] = [random.below(limit) as u32, random.below(limit) as u32];
    let (msb, lsb) = if random.chance(30) { (a, b) } else { (a.max(b), a.min(b)) };
    msb << 16 | lsb << 10 | (random.below(32) as u32) << 5 | shape.target(random)
}

/// An offset in words to a place in code, mostly a little ahead; one past the end now and then.
fn distance(random: &mut Random, at: usize, count: usize) -> u32 {
    let to = match random.below(60) {
        0 => return random.next() as u32,
        1 => random.index(count + 2),
        2..=6 => at.saturating_sub(random.index(6)),
        _ => (at + 1 + random.index(3)).min(count - count.min(1)),
    };
    (to as u32).wrapping_sub(at as u32)
}

fn near_branch(random: &mut Random, number: usize, at: usize, count: usize) -> u32 {
    let offset = distance(random, at, count);
    let rj = (random.below(32) as u32) << 5;
    let low = if number == family::BRANCH {
        random.below(32) as u32
    } else {
        offset >> 16 & 31
    };
    (offset & 0xFFFF) << 10 | rj | low
}

fn jump(random: &mut Random, shape: &Shape, row: &Row, at: usize, count: usize) -> u32 {
    if row.name != "jirl" {
        let offset = distance(random, at, count);
        return (offset & 0xFFFF) << 10 | offset >> 16 & 0x3FF;
    }
    let rj = if random.chance(900) {
        shape.first + 4 + random.below(2) as u32
    } else {
        random.below(32) as u32
    };
    let rd = if random.chance(300) {
        random.pick(&[0, rj])
    } else {
        shape.target(random)
    };
    let offset = if random.chance(900) { 0 } else { random.near(0) as u32 & 0xFFFF };
    offset << 10 | rj << 5 | rd
}
