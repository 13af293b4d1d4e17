//! How fast the library is, beside others that run the same kernels. Started by hosts/measure:
//!
//!     benchmark run FOLDER [QEMU]      measures this program's layout; FOLDER takes the programs for qemu
//!     benchmark report PLOT MACHINE RESULTS..
//!                                      prints the tables and verdicts of all layouts, and draws them; the picture names the machine
//!     benchmark kernels                prints the kernels' names
//!     benchmark one ours|rust KERNEL ROUNDS
//!                                      runs a kernel once and prints its steps, for hosts/count

mod calls;
mod clock;
mod compare;
mod interpreters;
mod kernels;
mod layout;
mod plot;
mod qemu;
mod report;
mod results;
mod summary;

use results::Results;
use std::path::Path;
use std::process::exit;

fn main() {
    let words: Vec<String> = std::env::args().skip(1).collect();
    let words: Vec<&str> = words.iter().map(String::as_str).collect();
    let done = match words.as_slice() {
        ["run", folder] => run(folder, None),
        ["run", folder, qemu] => run(folder, Some(qemu)),
        ["report", plot, machine, results @ ..] if !results.is_empty() => report(plot, machine, results),
        ["kernels"] => names(),
        ["one", who, kernel, rounds] => one(who, kernel, rounds),
        _ => Err("words: run FOLDER [QEMU], report PLOT MACHINE RESULTS.., kernels, or one ours|rust KERNEL ROUNDS".into()),
    };
    match done {
        Ok(true) => {}
        Ok(false) => exit(1),
        Err(error) => {
            eprintln!("benchmark: {}", error);
            exit(2);
        }
    }
}

/// Results on standard output, the kernel at work on standard error.
fn run(folder: &str, qemu: Option<&str>) -> Result<bool, String> {
    let kernels = kernels::all();
    let qemu = match qemu {
        Some(command) => Some(qemu::Qemu::new(Path::new(command), Path::new(folder), &kernels[0])?),
        None => None,
    };
    let mut results = Results {
        places: vec![(layout::NUMBER.into(), layout::described())],
        ..Results::default()
    };
    for kernel in &kernels {
        eprintln!("layout {}: {}", layout::NUMBER, kernel.name);
        results.times.extend(compare::kernel(kernel, qemu.as_ref())?);
    }
    eprintln!("layout {}: calls", layout::NUMBER);
    results.costs = calls::costs(&kernels[0]);
    print!("{}", results.text());
    Ok(true)
}

fn report(plot: &str, machine: &str, files: &[&str]) -> Result<bool, String> {
    let mut results = Results::default();
    for file in files {
        let text = std::fs::read_to_string(file).map_err(|error| format!("{}: {}", file, error))?;
        results.add(&text)?;
    }
    report::tables(&results);
    std::fs::write(plot, plot::draw(&results, machine)).map_err(|error| format!("{}: {}", plot, error))?;
    Ok(report::verdicts(&results))
}

fn names() -> Result<bool, String> {
    for kernel in kernels::all() {
        println!("{}", kernel.name);
    }
    Ok(true)
}

fn one(who: &str, name: &str, rounds: &str) -> Result<bool, String> {
    let rounds = rounds.parse().map_err(|_| format!("{} is no number of rounds", rounds))?;
    let kernels = kernels::all();
    let kernel = kernels
        .iter()
        .find(|kernel| kernel.name == name)
        .ok_or(format!("there is no kernel {}", name))?;
    let run = match who {
        "ours" => interpreters::ours,
        "rust" => interpreters::rust,
        _ => return Err(format!("{} is neither ours nor rust", who)),
    };
    println!("{}", run(kernel, &mut kernel.arena(rounds))?.steps);
    Ok(true)
}
