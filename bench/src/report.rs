//! The table that is printed.

use crate::timing::shown;

/// What is held against a ratio.
#[derive(Clone, Copy)]
pub enum Bar {
    AtMost(f64),
    AtLeast(f64),
    None,
}

impl Bar {
    fn verdict(self, ratio: f64) -> (String, &'static str) {
        let verdict = |met| if met { "ok" } else { "OVER" };
        match self {
            Bar::AtMost(bar) => (format!("≤ {bar}"), verdict(ratio <= bar)),
            Bar::AtLeast(bar) => (format!("≥ {bar}"), verdict(ratio >= bar)),
            Bar::None => (String::new(), ""),
        }
    }
}

/// The heading of a table, with the names of its two times.
pub fn heading(title: &str, first: &str, second: &str) {
    println!("\n{title}\n");
    println!("| what | {first} | {second} | ratio | bar | |");
    println!("|---|---:|---:|---:|---|---|");
}

/// A line: two times in nanoseconds, and how often the second goes into the first.
pub fn line(what: &str, first: f64, second: f64, bar: Bar) {
    let ratio = first / second;
    let (bar, verdict) = bar.verdict(ratio);
    let (first, second) = (shown(first), shown(second));
    println!("| {what} | {first} | {second} | {ratio:.2} | {bar} | {verdict} |");
}
