//! What a run of comparisons prints: a line for each, and a final one.

use crate::original::Verdict;
use std::time::{Duration, Instant};

pub(crate) struct Report {
    started: Instant,
    comparisons: u64,
    cases: Cases,
    mismatches: u64,
}

/// Cases counted by their verdicts: beside the original, and by the rule alone.
#[derive(Clone, Copy, Debug, Default, PartialEq)]
pub(crate) struct Cases {
    beside: u64,
    alone: u64,
}

impl Cases {
    pub(crate) fn note(&mut self, verdict: &Verdict) {
        match verdict.is_beside() {
            true => self.beside += 1,
            false => self.alone += 1,
        }
    }

    pub(crate) fn and(self, other: Self) -> Self {
        Self {
            beside: self.beside + other.beside,
            alone: self.alone + other.alone,
        }
    }

    pub(crate) fn all(self) -> u64 {
        self.beside + self.alone
    }

    /// How many are beside the original, and how many by the rule alone.
    #[cfg(test)]
    pub(crate) fn apart(self) -> (u64, u64) {
        (self.beside, self.alone)
    }
}

/// What one comparison found.
pub(crate) struct Found {
    pub(crate) cases: Cases,
    pub(crate) mismatches: u64,
    /// The smallest failing input, where there is a mismatch.
    pub(crate) smallest: Option<String>,
}

impl Report {
    pub(crate) fn new() -> Self {
        Self {
            started: Instant::now(),
            comparisons: 0,
            cases: Cases::default(),
            mismatches: 0,
        }
    }

    /// Runs a comparison and prints its line.
    pub(crate) fn run(&mut self, name: &str, comparison: impl FnOnce() -> Found) {
        let started = Instant::now();
        let found = comparison();
        // To compare no case is no agreement.
        let mismatches = found.mismatches.max(u64::from(found.cases.all() == 0));
        println!(
            "{name:<28} {}",
            numbers(found.cases, mismatches, started.elapsed())
        );
        if let Some(smallest) = &found.smallest {
            println!("  smallest: {smallest}");
        }
        self.comparisons += 1;
        self.cases = self.cases.and(found.cases);
        self.mismatches += mismatches;
    }

    /// Prints the final line and says whether all agreed; to compare nothing is no agreement.
    pub(crate) fn finish(self) -> bool {
        let name = format!("oracle: {} comparisons", self.comparisons);
        println!(
            "{name:<28} {}",
            numbers(self.cases, self.mismatches, self.started.elapsed())
        );
        self.comparisons > 0 && self.mismatches == 0
    }
}

fn numbers(cases: Cases, mismatches: u64, time: Duration) -> String {
    let all = cases.all();
    let Cases { beside, alone } = cases;
    format!(
        "{all:>9} cases {beside:>9} beside the original {alone:>9} by the rule alone {mismatches:>9} mismatches {:>8.3} s",
        time.as_secs_f64()
    )
}

#[cfg(test)]
mod tests {
    use super::*;

    /// Whether a comparison of so many cases with so many mismatches is told as agreement.
    fn agreed(alone: u64, mismatches: u64) -> bool {
        let mut report = Report::new();
        let cases = Cases { beside: 0, alone };
        report.run("test", || Found {
            cases,
            mismatches,
            smallest: None,
        });
        report.finish()
    }

    #[test]
    fn nothing_compared_is_no_agreement() {
        assert!(agreed(1, 0) && !agreed(1, 1) && !agreed(0, 0));
        assert!(!Report::new().finish());
    }

    #[test]
    fn both_counts_are_printed() {
        let cases = Cases {
            beside: 30,
            alone: 4,
        };
        let words = numbers(cases.and(cases), 5, Duration::from_millis(1500));
        let words: Vec<&str> = words.split_whitespace().collect();
        let said = "68 cases 60 beside the original 8 by the rule alone 5 mismatches 1.500 s";
        assert_eq!(words.join(" "), said);
    }
}
