//! Numbers drawn from the results of all layouts.

use crate::results::{Results, Time, OURS};

/// None where there are no values.
pub fn geometric(values: &[f64]) -> Option<f64> {
    if values.is_empty() {
        return None;
    }
    Some((values.iter().map(|value| value.ln()).sum::<f64>() / values.len() as f64).exp())
}

/// Which number of a time: the least or the median of its repetitions.
pub type Of = fn(&Time) -> f64;

pub fn least(time: &Time) -> f64 {
    time.least
}

pub fn middle(time: &Time) -> f64 {
    time.middle
}

impl Results {
    pub fn kernels(&self) -> Vec<&str> {
        in_order(self.times.iter().map(|time| time.kernel.as_str()))
    }

    pub fn layouts(&self) -> Vec<&str> {
        in_order(self.times.iter().map(|time| time.layout.as_str()))
    }

    pub fn steps(&self, kernel: &str) -> u64 {
        self.times
            .iter()
            .find(|time| time.kernel == kernel && time.runner == OURS)
            .map_or(0, |time| time.steps)
    }

    fn chosen<'a>(&'a self, runner: usize, kernel: Option<&'a str>, layout: Option<&'a str>) -> impl Iterator<Item = &'a Time> + 'a {
        let wanted = move |time: &&Time| {
            time.runner == runner && kernel.map_or(true, |name| time.kernel == name) && layout.map_or(true, |name| time.layout == name)
        };
        self.times.iter().filter(wanted)
    }

    /// Nanoseconds for a step: the geometric mean of these kernels and layouts. No name means all.
    pub fn step(&self, runner: usize, kernel: Option<&str>, layout: Option<&str>, of: Of) -> Option<f64> {
        geometric(&self.chosen(runner, kernel, layout).map(of).collect::<Vec<_>>())
    }

    /// Our time as a part of another's, over the same kernels and layouts.
    pub fn ratio(&self, runner: usize, kernel: Option<&str>, layout: Option<&str>, of: Of) -> Option<f64> {
        Some(self.step(OURS, kernel, layout, of)? / self.step(runner, kernel, layout, of)?)
    }

    /// The nanoseconds of a call in each layout.
    fn costs_of<'a>(&'a self, what: &'a str, at: u64) -> impl Iterator<Item = f64> + 'a {
        self.costs
            .iter()
            .filter(move |cost| cost.what == what && cost.at == at)
            .map(|cost| cost.least)
    }

    /// The least of all layouts.
    pub fn cost(&self, what: &str, at: u64) -> f64 {
        self.costs_of(what, at).fold(f64::INFINITY, f64::min)
    }

    /// What a call with budget 0 takes more than an empty one, in the layout where that is most.
    pub fn more_than_empty(&self) -> f64 {
        self.costs_of("none", 0)
            .zip(self.costs_of("empty", 0))
            .map(|(none, empty)| none - empty)
            .fold(f64::NEG_INFINITY, f64::max)
    }
}

fn in_order<'a>(names: impl Iterator<Item = &'a str>) -> Vec<&'a str> {
    let mut found = Vec::new();
    for name in names {
        if !found.contains(&name) {
            found.push(name);
        }
    }
    found
}

#[cfg(test)]
mod tests {
    use super::*;
    use crate::results::{Cost, RUST};

    fn time(layout: &str, kernel: &str, runner: usize, least: f64) -> Time {
        Time {
            layout: layout.into(),
            kernel: kernel.into(),
            runner,
            steps: 1,
            least,
            middle: 2.0 * least,
        }
    }

    #[test]
    fn ratios() {
        let mut results = Results::default();
        results.times = vec![
            time("1", "a", OURS, 2.0),
            time("1", "a", RUST, 4.0),
            time("2", "a", OURS, 8.0),
            time("2", "a", RUST, 1.0),
        ];
        assert_eq!(results.ratio(RUST, None, Some("1"), least), Some(0.5));
        assert!((results.ratio(RUST, Some("a"), None, middle).unwrap() - 2.0).abs() < 1e-9);
        assert_eq!(results.ratio(4, None, None, least), None);
    }

    #[test]
    fn the_layout_where_budget_0_costs_most() {
        let mut results = Results::default();
        for (layout, empty, none) in [("1", 10.0, 30.0), ("2", 5.0, 45.0)] {
            results.costs.push(Cost {
                layout: layout.into(),
                what: "empty".into(),
                at: 0,
                least: empty,
            });
            results.costs.push(Cost {
                layout: layout.into(),
                what: "none".into(),
                at: 0,
                least: none,
            });
        }
        assert_eq!(results.more_than_empty(), 40.0);
        assert_eq!(results.cost("none", 0), 30.0);
    }
}
