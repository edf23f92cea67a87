//! What a comparison counts and prints: reasons with their numbers, and differences.
use std::collections::BTreeMap;

const SHOWN_DIFFERENCES: usize = 5;

/// How often each reason came up.
#[derive(Default)]
pub struct Reasons(BTreeMap<String, usize>);

impl Reasons {
    pub fn add(&mut self, reason: impl Into<String>) {
        *self.0.entry(reason.into()).or_default() += 1;
    }

    pub fn print(&self, title: &str) {
        let counts: Vec<_> = self.0.iter().map(|(what, count)| format!("{count} {what}")).collect();
        if !counts.is_empty() {
            println!("{title}: {}", counts.join(", "));
        }
    }
}

/// The symbols on which the product differs, and how.
#[derive(Default)]
pub struct Differences(Vec<(Vec<u8>, String)>);

impl Differences {
    pub fn add(&mut self, symbol: Vec<u8>, difference: String) {
        self.0.push((symbol, difference));
    }

    /// Whether there are any. The shortest symbols are shown.
    pub fn print(&mut self, title: &str) -> bool {
        self.0.sort_by_key(|(symbol, _)| symbol.len());
        for (symbol, difference) in self.0.iter().take(SHOWN_DIFFERENCES) {
            println!("{title}: `{}`: {difference}", symbol.escape_ascii());
        }
        if !self.0.is_empty() {
            println!("{title}: {} DIFFERENT", self.0.len());
        }
        !self.0.is_empty()
    }
}
