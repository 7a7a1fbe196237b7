//! What was compared, by headings, and what differed.

use std::collections::BTreeMap;

#[derive(Default)]
pub struct Tally {
    counts: BTreeMap<String, BTreeMap<String, u64>>,
    pub differed: u64,
    first: Option<String>,
}

impl Tally {
    pub fn add(&mut self, heading: &str, name: impl ToString, n: u64) {
        *self.counts.entry(heading.into()).or_default().entry(name.to_string()).or_default() += n;
    }
    pub fn count(&self, heading: &str) -> u64 {
        self.counts.get(heading).map_or(0, |c| c.values().sum())
    }
    /// A difference; only the first is told.
    pub fn differs(&mut self, tell: impl FnOnce() -> String) {
        self.differed += 1;
        if self.first.is_none() {
            self.first = Some(tell());
        }
    }
    pub fn print(&self) {
        for (heading, counts) in &self.counts {
            let all: Vec<String> = counts.iter().map(|(n, c)| format!("{n} {c}")).collect();
            // long names stand in lines of their own
            let by = if counts.keys().any(|n| n.len() > 20) { "\n    " } else { ", " };
            println!("{heading}:{}{}", if by == ", " { " " } else { by }, all.join(by));
        }
        if let Some(f) = &self.first {
            println!("the first difference:\n{f}");
        }
        println!("{} differed", self.differed);
    }
}
