//! What both sides gave, held against each other. The first place where they differ is told in words.

use crate::record::numbers;
use qhobuziya::raw::{Record, Reply};

/// What differs, in one line.
pub type Compared = Result<(), String>;

pub fn number(name: &str, library: u64, reference: u64) -> Compared {
    if library == reference {
        return Ok(());
    }
    Err(format!(
        "{} is {:#x} by the library and {:#x} by the reference",
        name, library, reference
    ))
}

pub fn record(library: &Record, reference: &Record) -> Compared {
    if library == reference {
        return Ok(());
    }
    for ((name, left), (_, right)) in numbers(library).iter().zip(numbers(reference)) {
        number(name, *left, right)?;
    }
    Ok(())
}

pub fn reply(library: &Reply, reference: &Reply) -> Compared {
    number("refused", library.refused, reference.refused)?;
    number("ecode", library.ecode, reference.ecode)?;
    number("subcode", library.subcode, reference.subcode)?;
    number("carried", library.carried, reference.carried)?;
    number("steps", library.steps, reference.steps)?;
    record(&library.session, &reference.session)
}

pub fn bytes(name: &str, library: &[u8], reference: &[u8]) -> Compared {
    if library == reference {
        return Ok(());
    }
    let place = library.iter().zip(reference).position(|(left, right)| left != right);
    match place {
        None => Err(format!("{} has {} bytes and {} bytes", name, library.len(), reference.len())),
        Some(at) => number(&format!("{} at {}", name, at), library[at].into(), reference[at].into()),
    }
}
