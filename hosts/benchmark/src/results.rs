//! What one program measured, as lines of words with tabs between them, so that the programs of all layouts can be reported together.

use std::fmt::Write;

/// What runs a kernel: the word in a line, and how it is called in tables.
pub const RUNNERS: [(&str, &str); 5] = [
    ("ours", "Qhobuziya"),
    ("rust", "Rust interpreter"),
    ("one", "qemu one at a time"),
    ("compiler", "qemu compiler"),
    ("native", "native code"),
];
pub const OURS: usize = 0;
pub const RUST: usize = 1;
pub const ONE: usize = 2;
pub const COMPILER: usize = 3;
pub const NATIVE: usize = 4;

/// Nanoseconds for each guest step.
#[derive(Clone, Debug, PartialEq)]
pub struct Time {
    pub layout: String,
    pub kernel: String,
    pub runner: usize,
    pub steps: u64,
    pub least: f64,
    pub middle: f64,
}

/// Nanoseconds of one call: `what` was varied, and `at` is its value.
#[derive(Clone, Debug, PartialEq)]
pub struct Cost {
    pub layout: String,
    pub what: String,
    pub at: u64,
    pub least: f64,
}

#[derive(Default)]
pub struct Results {
    pub times: Vec<Time>,
    pub costs: Vec<Cost>,
    /// Of each layout: where its code lies.
    pub places: Vec<(String, String)>,
}

impl Results {
    pub fn text(&self) -> String {
        let mut text = String::new();
        let put = "a text takes every line";
        for (layout, place) in &self.places {
            writeln!(text, "place\t{}\t{}", layout, place).expect(put);
        }
        for t in &self.times {
            let runner = RUNNERS[t.runner].0;
            writeln!(
                text,
                "time\t{}\t{}\t{}\t{}\t{}\t{}",
                t.layout, t.kernel, runner, t.steps, t.least, t.middle
            )
            .expect(put);
        }
        for c in &self.costs {
            writeln!(text, "cost\t{}\t{}\t{}\t{}", c.layout, c.what, c.at, c.least).expect(put);
        }
        text
    }

    /// Takes the lines of another program.
    pub fn add(&mut self, text: &str) -> Result<(), String> {
        for line in text.lines() {
            self.add_line(line).ok_or_else(|| format!("not a line of results: {}", line))?;
        }
        Ok(())
    }

    fn add_line(&mut self, line: &str) -> Option<()> {
        let words: Vec<&str> = line.split('\t').collect();
        match words.as_slice() {
            ["place", layout, place] => self.places.push((layout.to_string(), place.to_string())),
            ["time", layout, kernel, runner, steps, least, middle] => self.times.push(Time {
                layout: layout.to_string(),
                kernel: kernel.to_string(),
                runner: RUNNERS.iter().position(|known| known.0 == *runner)?,
                steps: steps.parse().ok()?,
                least: least.parse().ok()?,
                middle: middle.parse().ok()?,
            }),
            ["cost", layout, what, at, least] => self.costs.push(Cost {
                layout: layout.to_string(),
                what: what.to_string(),
                at: at.parse().ok()?,
                least: least.parse().ok()?,
            }),
            _ => return None,
        }
        Some(())
    }
}

#[cfg(test)]
mod tests {
    use super::*;

    #[test]
    fn lines_come_back() {
        let mut made = Results::default();
        made.places.push(("2".into(), "ours at 0x40".into()));
        made.times.push(Time {
            layout: "2".into(),
            kernel: "sort".into(),
            runner: ONE,
            steps: 7,
            least: 1.5,
            middle: 2.25,
        });
        made.costs.push(Cost {
            layout: "2".into(),
            what: "arena".into(),
            at: 64,
            least: 0.125,
        });
        let mut read = Results::default();
        read.add(&made.text()).unwrap();
        assert_eq!((read.places, read.times, read.costs), (made.places, made.times, made.costs));
        assert!(Results::default().add("time\t1\tsort\tnobody\t7\t1\t2").is_err());
    }
}
