//! What the records of a list are answered with, and how often each refusal is met.

use std::collections::BTreeMap;

/// What a record is answered with: the refusal, 0 for none, and the line that is printed.
pub struct Answer {
    pub refusal: u32,
    pub line: String,
}

impl Answer {
    /// Of the load of a table.
    pub fn of_load(bytes: &[u8], refusal: u32) -> Answer {
        let line = format!("load {} {refusal}\n", bytes.len());
        Answer { refusal, line }
    }
}

/// A line for each name, with every refusal that is met under it, 0 for none, and its count.
pub fn tally<'a>(met: impl Iterator<Item = (&'a str, u32)>) -> String {
    let mut counts: BTreeMap<&str, BTreeMap<u32, u64>> = BTreeMap::new();
    for (name, refusal) in met {
        *counts.entry(name).or_default().entry(refusal).or_default() += 1;
    }
    let line = |(name, of_name): (&str, BTreeMap<u32, u64>)| {
        let shown = of_name
            .iter()
            .map(|(refusal, count)| format!("{refusal}: {count}"));
        let shown: Vec<String> = shown.collect();
        format!("{name} {}\n", shown.join(", "))
    };
    counts.into_iter().map(line).collect()
}
