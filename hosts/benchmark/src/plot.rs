//! The results as a picture: bars for each kernel, and below them what a call's time grows with.

use crate::calls::{ARENAS, BUDGETS};
use crate::report::bytes;
use crate::results::{Results, RUNNERS};
use crate::summary::least;
use std::fmt::Write;

const WIDTH: f64 = 1000.0;
const HEIGHT: f64 = 740.0;
const COLOURS: [&str; 5] = ["#1b5fa8", "#e07b1a", "#8a5bb0", "#4f9d69", "#7d7d7d"];
/// Ours too, where there are two lines of it.
const LIGHTER: &str = "#68a5de";
const TEXT: &str = "a text takes every line";

/// A rectangle of the picture with a logarithmic axis up its left side, in powers of ten.
struct Panel {
    left: f64,
    top: f64,
    width: f64,
    height: f64,
    low: i32,
    high: i32,
}

impl Panel {
    fn bottom(&self) -> f64 {
        self.top + self.height
    }

    fn y(&self, value: f64) -> f64 {
        let part = (value.log10() - f64::from(self.low)) / f64::from(self.high - self.low);
        self.bottom() - part.max(0.0).min(1.0) * self.height
    }

    /// The title above it, and a line for each power of ten.
    fn frame(&self, svg: &mut String, title: &str) {
        words(svg, self.left - 42.0, self.top - 14.0, "start", 14, title);
        for power in self.low..=self.high {
            let y = self.y(10f64.powi(power));
            let colour = if power == self.low { "#333" } else { "#ddd" };
            rule(svg, (self.left, y), (self.left + self.width, y), colour, 1.0);
            words(svg, self.left - 8.0, y + 4.0, "end", 11, &span(power));
        }
    }
}

/// A power of ten of nanoseconds, as 0.1 ns or 10 ms.
fn span(power: i32) -> String {
    let unit = ["ns", "\u{b5}s", "ms", "s"][(power.max(0) / 3).min(3) as usize];
    let left = power - 3 * (power.max(0) / 3).min(3);
    format!("{} {}", 10f64.powi(left), unit)
}

/// With commas, as 1,000.
fn amount(value: u64) -> String {
    let digits = value.to_string();
    let mut text = String::new();
    for (at, digit) in digits.chars().enumerate() {
        if at > 0 && (digits.len() - at) % 3 == 0 {
            text.push(',');
        }
        text.push(digit);
    }
    text
}

fn words(svg: &mut String, x: f64, y: f64, anchor: &str, size: u32, text: &str) {
    writeln!(
        svg,
        r#"<text x="{:.1}" y="{:.1}" text-anchor="{}" font-size="{}">{}</text>"#,
        x, y, anchor, size, text
    )
    .expect(TEXT);
}

fn rule(svg: &mut String, from: (f64, f64), to: (f64, f64), colour: &str, width: f64) {
    let (x1, y1, x2, y2) = (from.0, from.1, to.0, to.1);
    writeln!(
        svg,
        r#"<line x1="{:.1}" y1="{:.1}" x2="{:.1}" y2="{:.1}" stroke="{}" stroke-width="{}"/>"#,
        x1, y1, x2, y2, colour, width
    )
    .expect(TEXT);
}

fn block(svg: &mut String, x: f64, y: f64, size: (f64, f64), colour: &str) {
    writeln!(
        svg,
        r#"<rect x="{:.1}" y="{:.1}" width="{:.1}" height="{:.1}" fill="{}"/>"#,
        x, y, size.0, size.1, colour
    )
    .expect(TEXT);
}

pub fn draw(results: &Results, machine: &str) -> String {
    let mut svg = String::new();
    write!(
        svg,
        r#"<svg xmlns="http://www.w3.org/2000/svg" viewBox="0 0 {} {}" "#,
        WIDTH, HEIGHT
    )
    .expect(TEXT);
    writeln!(
        svg,
        r##"width="{}" height="{}" font-family="Helvetica, Arial, sans-serif" fill="#222">"##,
        WIDTH, HEIGHT
    )
    .expect(TEXT);
    block(&mut svg, 0.0, 0.0, (WIDTH, HEIGHT), "#ffffff");
    words(&mut svg, 20.0, 32.0, "start", 20, "Time for one guest instruction");
    words(
        &mut svg,
        WIDTH - 20.0,
        32.0,
        "end",
        12,
        &machine.replace('&', "&amp;").replace('<', "&lt;"),
    );
    legend(&mut svg, results);
    bars(&mut svg, results);
    budgets(&mut svg, results);
    arenas(&mut svg, results);
    svg.push_str("</svg>\n");
    svg
}

fn measured(results: &Results) -> Vec<usize> {
    (0..RUNNERS.len())
        .filter(|&runner| results.step(runner, None, None, least).is_some())
        .collect()
}

fn legend(svg: &mut String, results: &Results) {
    let mut x = 24.0;
    for runner in measured(results) {
        block(svg, x, 48.0, (13.0, 13.0), COLOURS[runner]);
        words(svg, x + 19.0, 59.0, "start", 13, RUNNERS[runner].1);
        x += 50.0 + 7.2 * RUNNERS[runner].1.len() as f64;
    }
}

/// A group of bars for each kernel, and one for the geometric mean.
fn bars(svg: &mut String, results: &Results) {
    let panel = panel_of_bars(results);
    panel.frame(
        svg,
        "For each step of a kernel; less is better, and each line is ten times the one below",
    );
    let runners = measured(results);
    let mut groups: Vec<Option<&str>> = results.kernels().into_iter().map(Some).collect();
    groups.push(None);
    let group = panel.width / groups.len() as f64;
    let bar = group * 0.86 / runners.len() as f64;
    for (at, kernel) in groups.iter().enumerate() {
        let left = panel.left + group * (at as f64 + 0.07);
        for (place, &runner) in runners.iter().enumerate() {
            let value = results.step(runner, *kernel, None, least).unwrap_or(0.0);
            let (x, y) = (left + bar * place as f64, panel.y(value));
            block(svg, x + 1.0, y, (bar - 2.0, panel.bottom() - y), COLOURS[runner]);
            words(svg, x + bar / 2.0, y - 4.0, "middle", 10, &short(value));
        }
        let name = kernel.unwrap_or("geometric mean");
        words(
            svg,
            panel.left + group * (at as f64 + 0.5),
            panel.bottom() + 18.0,
            "middle",
            13,
            name,
        );
    }
}

/// The axis has room for the least and the greatest bar.
fn panel_of_bars(results: &Results) -> Panel {
    let values = || results.times.iter().map(|time| time.least.log10());
    let low = values().fold(f64::INFINITY, f64::min).floor() as i32;
    let high = values().fold(f64::NEG_INFINITY, f64::max).ceil() as i32;
    Panel {
        left: 66.0,
        top: 108.0,
        width: WIDTH - 86.0,
        height: 290.0,
        low,
        high,
    }
}

fn short(value: f64) -> String {
    match value {
        v if v < 10.0 => format!("{:.2}", v),
        v if v < 100.0 => format!("{:.1}", v),
        v => format!("{:.0}", v),
    }
}

fn budgets(svg: &mut String, results: &Results) {
    let panel = Panel {
        left: 66.0,
        top: 490.0,
        width: 420.0,
        height: 190.0,
        low: 1,
        high: 8,
    };
    panel.frame(svg, "One call, by its budget");
    let times: Vec<f64> = BUDGETS.iter().map(|&budget| results.cost("budget", budget)).collect();
    let names: Vec<String> = BUDGETS.iter().map(|&budget| amount(budget)).collect();
    below(svg, &panel, &names, "steps of the budget");
    curve(svg, &panel, &times, COLOURS[0]);
}

fn arenas(svg: &mut String, results: &Results) {
    let panel = Panel {
        left: 580.0,
        top: 490.0,
        width: 400.0,
        height: 190.0,
        low: 1,
        high: 4,
    };
    panel.frame(svg, "One call, by the arena's length");
    let names: Vec<String> = ARENAS.iter().map(|&length| bytes(length)).collect();
    below(svg, &panel, &names, "length of the arena");
    for (what, name, colour) in [("arena0", "budget 0", COLOURS[0]), ("arena100", "budget 100", LIGHTER)] {
        let times: Vec<f64> = ARENAS.iter().map(|&length| results.cost(what, length)).collect();
        curve(svg, &panel, &times, colour);
        words(svg, panel.left + 12.0, panel.y(times[0]) - 9.0, "start", 12, name);
    }
}

fn place(panel: &Panel, at: usize, count: usize) -> f64 {
    panel.left + panel.width * (at as f64 + 0.5) / count as f64
}

/// The names of the values along the axis below, and what they are.
fn below(svg: &mut String, panel: &Panel, names: &[String], what: &str) {
    for (at, name) in names.iter().enumerate() {
        words(svg, place(panel, at, names.len()), panel.bottom() + 16.0, "middle", 11, name);
    }
    words(svg, panel.left + panel.width / 2.0, panel.bottom() + 36.0, "middle", 12, what);
}

/// A line through the values, which are evenly spaced.
fn curve(svg: &mut String, panel: &Panel, values: &[f64], colour: &str) {
    let points: Vec<(f64, f64)> = values
        .iter()
        .enumerate()
        .map(|(at, &value)| (place(panel, at, values.len()), panel.y(value)))
        .collect();
    for pair in points.windows(2) {
        rule(svg, pair[0], pair[1], colour, 2.0);
    }
    for (x, y) in points {
        writeln!(svg, r#"<circle cx="{:.1}" cy="{:.1}" r="3.5" fill="{}"/>"#, x, y, colour).expect(TEXT);
    }
}
