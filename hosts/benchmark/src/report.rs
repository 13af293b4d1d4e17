//! The tables, and the verdicts with their limits.

use crate::calls::{ARENAS, BUDGETS, CODES};
use crate::compare::REPETITIONS;
use crate::results::{Results, COMPILER, NATIVE, ONE, RUNNERS, RUST};
use crate::summary::{least, middle, Of};

const RATIO_LIMIT: f64 = 1.0;
const CALL_LIMIT: f64 = 1000.0;

/// Two times of a call are the same when they differ by less than a quarter and 40 nanoseconds: so much they differ by chance.
const SAME: (f64, f64) = (1.25, 40.0);

pub fn tables(results: &Results) {
    steps(results);
    ratios(results);
    calls(results);
}

fn number(value: Option<f64>) -> String {
    match value {
        Some(value) if value < 10.0 => format!("{:.2}", value),
        Some(value) => format!("{:.1}", value),
        None => "-".into(),
    }
}

fn line(name: &str, first: &str, cells: impl Iterator<Item = String>) {
    let cells: String = cells.map(|cell| format!("{:>20}", cell)).collect();
    println!("{:<22}{:>10}{}", name, first, cells);
}

fn steps(results: &Results) {
    println!(
        "Nanoseconds for a guest step: the least of {} repetitions (their median), geometric mean of the layouts",
        REPETITIONS
    );
    line("kernel", "steps", RUNNERS.iter().map(|runner| runner.1.into()));
    let cells = |kernel: Option<&str>| -> Vec<String> {
        let cell = |runner, of: Of| number(results.step(runner, kernel, None, of));
        (0..RUNNERS.len())
            .map(|runner| format!("{} ({})", cell(runner, least), cell(runner, middle)))
            .collect()
    };
    for kernel in results.kernels() {
        line(kernel, &results.steps(kernel).to_string(), cells(Some(kernel)).into_iter());
    }
    line("geometric mean", "", cells(None).into_iter());
    println!();
}

fn ratios(results: &Results) {
    println!("Our time divided by the other's, by the least times; below 1 ours is faster");
    let others = [RUST, ONE, COMPILER, NATIVE];
    line("", "", others.iter().map(|&runner| RUNNERS[runner].1.into()));
    let row = |name: &str, kernel: Option<&str>, layout: Option<&str>, of: Of| {
        line(
            name,
            "",
            others.iter().map(|&runner| number(results.ratio(runner, kernel, layout, of))),
        );
    };
    for kernel in results.kernels() {
        row(kernel, Some(kernel), None, least);
    }
    for layout in results.layouts() {
        row(&format!("all, layout {}", layout), None, Some(layout), least);
    }
    row("all, all layouts", None, None, least);
    row("the same by medians", None, None, middle);
    for (layout, place) in &results.places {
        println!("layout {}: {}", layout, place);
    }
    println!();
}

fn calls(results: &Results) {
    println!("Nanoseconds of one call, the least of the layouts");
    println!("{:<22}{:>10}", "empty call", number(Some(results.cost("empty", 0))));
    println!("{:<22}{:>10}", "budget 0", number(Some(results.cost("none", 0))));
    for budget in BUDGETS {
        println!(
            "{:<22}{:>10}",
            format!("budget {}", budget),
            number(Some(results.cost("budget", budget)))
        );
    }
    for (name, what, values) in [("code", "code", &CODES[..]), ("arena", "arena", &ARENAS[..])] {
        println!("{:<22}{:>10}{:>12}", format!("{}, bytes", name), "budget 0", "budget 100");
        for &at in values {
            let cell = |budget: &str| number(Some(results.cost(&format!("{}{}", what, budget), at)));
            println!("{:<22}{:>10}{:>12}", at, cell("0"), cell("100"));
        }
    }
    println!();
}

/// Prints the verdicts, and whether all limits are kept.
pub fn verdicts(results: &Results) -> bool {
    let ratios = [ratio_kept(results, RUST), ratio_kept(results, ONE)];
    let more = results.more_than_empty();
    println!(
        "budget 0: {:.0} ns more than an empty call (limit {:.0}): {}",
        more,
        CALL_LIMIT,
        kept(more <= CALL_LIMIT)
    );
    grows(results, "code", "code0", &CODES, 0);
    grows(results, "code", "code100", &CODES, 100);
    let arena = [
        grows(results, "arena", "arena0", &ARENAS, 0),
        grows(results, "arena", "arena100", &ARENAS, 100),
    ];
    println!("the arena's length must not count: {}", kept(arena == [false, false]));
    ratios == [true, true] && more <= CALL_LIMIT && arena == [false, false]
}

fn kept(holds: bool) -> &'static str {
    if holds {
        "kept"
    } else {
        "MISSED"
    }
}

/// What was not measured misses nothing.
fn ratio_kept(results: &Results, runner: usize) -> bool {
    let name = RUNNERS[runner].1;
    match results.ratio(runner, None, None, least) {
        Some(ratio) => {
            println!(
                "geometric mean against {}: {:.3} (limit {:.1}): {}",
                name,
                ratio,
                RATIO_LIMIT,
                kept(ratio <= RATIO_LIMIT)
            );
            ratio <= RATIO_LIMIT
        }
        None => {
            println!("geometric mean against {}: not measured", name);
            true
        }
    }
}

/// Prints whether a call's time grows with something, and gives the answer.
fn grows(results: &Results, name: &str, what: &str, values: &[u64], budget: u64) -> bool {
    let times: Vec<f64> = values.iter().map(|&at| results.cost(what, at)).collect();
    let most = times.iter().copied().fold(0.0, f64::max);
    let grows = most > times[0] * SAME.0 + SAME.1;
    let (first, last) = (values[0], values[values.len() - 1]);
    println!(
        "grows with {}: {} ({:.0} ns at {}, {:.0} ns at {}, budget {})",
        name,
        if grows { "yes" } else { "no" },
        times[0],
        bytes(first),
        times[times.len() - 1],
        bytes(last),
        budget
    );
    grows
}

pub fn bytes(length: u64) -> String {
    match length {
        0..=1023 => format!("{} bytes", length),
        1024..=1_048_575 => format!("{} KiB", length >> 10),
        _ => format!("{} MiB", length >> 20),
    }
}
