//! Times every kernel on all that runs it. They take turns, so that a slow minute of the machine falls on all alike.

use crate::clock;
use crate::interpreters::{ours, rust, Finish};
use crate::kernels::Kernel;
use crate::layout;
use crate::qemu::Qemu;
use crate::results::{Time, COMPILER, NATIVE, ONE, OURS, RUNNERS, RUST};
use std::path::{Path, PathBuf};

pub const REPETITIONS: usize = 9;

/// A program of qemu has to work so long, in nanoseconds: much longer than it takes to start.
const LONG: f64 = 60e6;

/// A kernel as programs for qemu: the empty one works for 0 rounds.
struct Programs<'a> {
    qemu: &'a Qemu,
    empty: PathBuf,
    one: (PathBuf, Finish),
    compiler: (PathBuf, Finish),
}

/// Times in nanoseconds, by runner; and of the empty program, one at a time and by the compiler.
#[derive(Default)]
struct Times {
    runners: [Vec<f64>; 5],
    empty: [Vec<f64>; 2],
}

pub fn kernel(kernel: &Kernel, qemu: Option<&Qemu>) -> Result<Vec<Time>, String> {
    let told = |error: String| format!("{}: {}", kernel.name, error);
    let finish = agree(kernel).map_err(told)?;
    let programs = match qemu {
        Some(qemu) => Some(programs(kernel, qemu).map_err(told)?),
        None => None,
    };
    let mut times = Times::default();
    for _ in 0..REPETITIONS {
        turn(kernel, finish, &mut times).map_err(told)?;
        if let Some(programs) = &programs {
            turn_of_qemu(programs, &mut times).map_err(told)?;
        }
    }
    let steps = |runner| match (&programs, runner) {
        (Some(programs), ONE) => programs.one.1.steps,
        (Some(programs), COMPILER) => programs.compiler.1.steps,
        _ => finish.steps,
    };
    Ok((0..RUNNERS.len())
        .filter(|&runner| !times.runners[runner].is_empty())
        .map(|r| one_time(kernel, r, steps(r), &times))
        .collect())
}

/// What the kernel leaves: ours, the Rust interpreter and this machine's own code have to agree, the first two on every byte of the arena too.
fn agree(kernel: &Kernel) -> Result<Finish, String> {
    let (mut arena, mut other) = (kernel.arena(kernel.rounds), kernel.arena(kernel.rounds));
    let finish = ours(kernel, &mut arena)?;
    same("the Rust interpreter", rust(kernel, &mut other)?, finish)?;
    if arena != other {
        return Err("the Rust interpreter leaves another arena than ours".into());
    }
    native(kernel, kernel.rounds, finish)?;
    Ok(finish)
}

fn same(who: &str, found: Finish, ours: Finish) -> Result<(), String> {
    if found == ours {
        return Ok(());
    }
    Err(format!(
        "{} gives {:016x} after {} steps, ours {:016x} after {}",
        who, found.checksum, found.steps, ours.checksum, ours.steps
    ))
}

/// One run of each in this process. The arena is a fresh copy; making it is not timed.
fn turn(kernel: &Kernel, finish: Finish, times: &mut Times) -> Result<(), String> {
    let mut arena = kernel.arena(kernel.rounds);
    let (found, time) = clock::time(|| ours(kernel, &mut arena));
    same("our second run", found?, finish)?;
    times.runners[OURS].push(time);
    let mut arena = kernel.arena(kernel.rounds);
    let (found, time) = clock::time(|| rust(kernel, &mut arena));
    same("the Rust interpreter", found?, finish)?;
    times.runners[RUST].push(time);
    times.runners[NATIVE].extend(native(kernel, kernel.rounds, finish)?);
    Ok(())
}

/// The time of the kernel as this machine's own code. It counts no steps.
fn native(kernel: &Kernel, rounds: u64, finish: Finish) -> Result<Option<f64>, String> {
    let work = match kernel.native {
        Some(work) => work,
        None => return Ok(None),
    };
    // A kernel touches nothing but its own variables, and no other thread runs it.
    let (checksum, time) = clock::time(|| unsafe { work(rounds) });
    same("native code", Finish { checksum, ..finish }, finish)?;
    Ok(Some(time))
}

fn turn_of_qemu(programs: &Programs, times: &mut Times) -> Result<(), String> {
    let qemu = programs.qemu;
    for (at, one, runner, long) in [(0, true, ONE, &programs.one), (1, false, COMPILER, &programs.compiler)] {
        times.empty[at].push(time_of(qemu, &programs.empty, one)?);
        let (checksum, time) = clock::time_of_programs(|| qemu.run(&long.0, one));
        same(
            RUNNERS[runner].1,
            Finish {
                checksum: checksum?,
                ..long.1
            },
            long.1,
        )?;
        times.runners[runner].push(time);
    }
    Ok(())
}

fn time_of(qemu: &Qemu, program: &Path, one: bool) -> Result<f64, String> {
    let (checksum, time) = clock::time_of_programs(|| qemu.run(program, one));
    checksum.map(|_| time)
}

/// The programs, which work long enough; how many steps that is, our library counts.
fn programs<'a>(kernel: &Kernel, qemu: &'a Qemu) -> Result<Programs<'a>, String> {
    let empty = qemu.program(kernel, 0)?;
    let mut made = Vec::new();
    for one in [true, false] {
        let start = time_of(qemu, &empty, one)?;
        let mut rounds = kernel.rounds;
        let mut program = qemu.program(kernel, rounds)?;
        while time_of(qemu, &program, one)? < start + LONG {
            rounds *= 2;
            program = qemu.program(kernel, rounds)?;
        }
        let finish = ours(kernel, &mut kernel.arena(rounds))?;
        native(kernel, rounds, finish)?;
        made.push((program, finish));
    }
    let compiler = made.remove(1);
    Ok(Programs {
        qemu,
        empty,
        one: made.remove(0),
        compiler,
    })
}

fn one_time(kernel: &Kernel, runner: usize, steps: u64, times: &Times) -> Time {
    let empty = |of: fn(&[f64]) -> f64| match runner {
        ONE => of(&times.empty[0]),
        COMPILER => of(&times.empty[1]),
        _ => 0.0,
    };
    let each = |of: fn(&[f64]) -> f64| (of(&times.runners[runner]) - empty(of)) / steps as f64;
    Time {
        layout: layout::NUMBER.into(),
        kernel: kernel.name.into(),
        runner,
        steps,
        least: each(clock::minimum),
        middle: each(clock::median),
    }
}
