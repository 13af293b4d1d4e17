//! Writing and reading the paused session's file, whole and damaged.

use crate::compare::{self, Compared};
use crate::guests::{blank, noted};
use crate::random::Random;
use crate::record::{record_of, session_of};
use crate::runs::GUARD;
use crate::tally::Tally;
use qhobuziya::calls;
use qhobuziya::raw::Record;

/// Where the kind bytes of a file with a note are.
const KINDS: [usize; 5] = [0, 9, 258, 267, 284];

fn record(random: &mut Random) -> Record {
    let mut record = blank();
    for register in &mut record.regs[1..] {
        *register = random.value(100, 100);
    }
    record.pc = random.value(100, 100);
    record.total = random.value(100, 100);
    noted(random, &mut record);
    record
}

/// One write on both sides, and what was written read back.
pub fn write(random: &mut Random, tally: &mut Tally) -> Compared {
    let mut record = record(random);
    if random.chance(60) {
        record.regs[0] = random.value(0, 0);
    }
    let length = match random.below(10) {
        0 => random.pick(&[0, 1, 266, 267]),
        1..=2 => random.pick(&[269, 283, 284]),
        3..=4 => 268,
        5..=6 => 285,
        7 => 286 + random.index(200),
        _ => random.index(400),
    };
    let mut buffer = random.bytes(length + 2 * GUARD);
    let mut other = buffer.clone();
    let theirs = calls::write(record, &mut buffer[GUARD..GUARD + length]);
    let ours = reference::write(&session_of(&record), &mut other[GUARD..GUARD + length]);
    tally.write(ours.refused);
    let compared = compare::number("refused", theirs.refused, ours.refused)
        .and_then(|()| compare::number("length", theirs.length as u64, ours.length as u64))
        .and_then(|()| compare::bytes("the buffer with 16 bytes on both sides", &buffer, &other));
    compared.map_err(|text| format!("write into {} bytes: {}\n{:x?}", length, text, record))?;
    if ours.refused == 0 {
        read_back(&buffer[GUARD..GUARD + ours.length], &record, tally)?;
    }
    Ok(())
}

fn read_back(file: &[u8], record: &Record, tally: &mut Tally) -> Compared {
    let wanted = record_of(&session_of(record));
    let reading = calls::read(file);
    compare::number("refused of what was written", reading.refused, 0)?;
    compare::record(&reading.session, &wanted).map_err(|text| format!("what was written reads back otherwise: {}", text))?;
    both_read(file, tally)
}

/// One read on both sides.
pub fn read(random: &mut Random, tally: &mut Tally) -> Compared {
    let mut file = whole(random);
    for _ in 0..random.pick(&[0, 1, 1, 1, 2, 3]) {
        damage(random, &mut file);
    }
    both_read(&file, tally)
}

fn both_read(file: &[u8], tally: &mut Tally) -> Compared {
    let kept = file.to_vec();
    let theirs = calls::read(file);
    let ours = reference::read(&kept);
    tally.read(ours.refused);
    let compared = compare::number("refused", theirs.refused, ours.refused)
        .and_then(|()| compare::number("offset", theirs.offset as u64, ours.offset as u64))
        .and_then(|()| compare::record(&theirs.session, &record_of(&ours.session)))
        .and_then(|()| compare::bytes("the file", file, &kept));
    compared.map_err(|text| format!("read of {} bytes: {}\n{:02x?}", file.len(), text, kept))
}

/// A file made by hand, so that reading does not lean on writing; or only bytes.
fn whole(random: &mut Random) -> Vec<u8> {
    if random.chance(30) {
        let length = random.index(400);
        return random.bytes(length);
    }
    let mut file = vec![1];
    file.extend(random.bytes(8));
    file.push(2);
    file.extend(random.bytes(248));
    file.push(3);
    file.extend(random.bytes(8));
    if random.chance(500) {
        file.push(4);
        file.extend(random.bytes(16));
    }
    file.push(5);
    file
}

/// Cut, longer, a wrong kind, a bit turned, a byte more or less.
fn damage(random: &mut Random, file: &mut Vec<u8>) {
    let near_kind = random.pick(&KINDS) + random.index(3);
    let anywhere = random.index(file.len() + 1);
    let place = if random.chance(600) {
        near_kind.saturating_sub(1)
    } else {
        anywhere
    }
    .min(file.len());
    match random.below(7) {
        0 => file.truncate(place),
        1 => {
            let length = 1 + random.index(20);
            file.extend(random.bytes(length));
        }
        2 if place < file.len() => {
            file.remove(place);
        }
        3 => file.insert(place, random.below(8) as u8),
        4 if place < file.len() => file[place] ^= 1 << random.below(8),
        _ => wrong_kind(random, file),
    }
}

fn wrong_kind(random: &mut Random, file: &mut [u8]) {
    let place = random.pick(&KINDS);
    if place < file.len() {
        file[place] = random.below(8) as u8;
    }
}
