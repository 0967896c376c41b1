//! Counts what a test met, so that it cannot pass by meeting nothing.

use std::collections::BTreeMap;

pub struct Tally {
    title: &'static str,
    counts: BTreeMap<String, usize>,
}

impl Tally {
    pub fn new(title: &'static str) -> Self {
        Tally {
            title,
            counts: BTreeMap::new(),
        }
    }

    pub fn count(&mut self, what: impl Into<String>) {
        *self.counts.entry(what.into()).or_default() += 1;
    }

    /// Counts those of these that were met.
    pub fn count_met(&mut self, shapes: &[(&str, bool)]) {
        let met = shapes.iter().filter(|(_, met)| *met);
        met.for_each(|(what, _)| self.count(*what));
    }

    /// Counts an answer by its number, with success as `accepted`.
    pub fn answer(&mut self, number: u32) {
        self.count(answer_name(number));
    }

    /// Prints all counts and asserts that each of these was met so often.
    pub fn close(&self, least: &[(&str, usize)]) {
        println!("{}:", self.title);
        for (what, count) in &self.counts {
            println!("  {what}: {count}");
        }
        self.assert_met(least);
    }

    /// Asserts that each of these was met so often.
    pub fn assert_met(&self, least: &[(&str, usize)]) {
        for (what, least) in least {
            let met = self.counts.get(*what).copied().unwrap_or(0);
            assert!(met >= *least, "{what}: met {met} times, not {least}");
        }
    }
}

fn answer_name(number: u32) -> String {
    match number {
        0 => "accepted".into(),
        number => format!("refused {number}"),
    }
}
