//! Decoding: any words, words of every row, and those a bit away from them.

use crate::compare::{self, Compared};
use crate::random::Random;
use crate::table;
use crate::tally::Tally;
use crate::words::any_of_table;
use qhobuziya::calls;

/// How many words one case decodes.
const WORDS: usize = 48;

pub fn words(random: &mut Random, tally: &mut Tally) -> Compared {
    for _ in 0..WORDS {
        let word = match random.below(4) {
            0 => random.next() as u32,
            1 => any_of_table(random),
            2 => any_of_table(random) ^ 1 << random.below(32),
            _ => any_of_table(random) ^ 1 << (15 + random.below(17)) ^ 1 << random.below(32),
        };
        one(word, tally).map_err(|text| format!("decode {:08X}: {}", word, text))?;
    }
    Ok(())
}

fn one(word: u32, tally: &mut Tally) -> Compared {
    let theirs = calls::decode(word);
    let ours = reference::decode(word);
    tally.decode(ours.is_some());
    let (ours_named, operands) = match &ours {
        None => ("no instruction", [0; 4]),
        Some(found) => (found.mnemonic(), [found.rd, found.rj, found.rk, found.imm]),
    };
    let theirs_named = match table::named(theirs.family, theirs.operation) {
        None if (theirs.family, theirs.operation) == (0, 0) => "no instruction",
        None => "neither an instruction nor none",
        Some(row) => row.name,
    };
    if theirs_named != ours_named {
        return Err(format!("it is {} by the library and {} by the reference", theirs_named, ours_named));
    }
    compare::number("rd", theirs.rd, operands[0].into())?;
    compare::number("rj", theirs.rj, operands[1].into())?;
    compare::number("rk", theirs.rk, operands[2].into())?;
    compare::number("imm", theirs.imm, operands[3].into())
}
