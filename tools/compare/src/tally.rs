//! What was compared, counted.

use crate::case::Entry;
use std::collections::BTreeMap;
use std::fmt::{self, Display, Formatter};

/// The largest refusal number.
const LAST_NUMBER: usize = 19;

/// Counts for each entry and number, of the library's answers and of egg's; and counts under a name.
#[derive(Default)]
pub struct Tally {
    library: [[u64; LAST_NUMBER + 1]; 9],
    reading: [[u64; LAST_NUMBER + 1]; 9],
    named: BTreeMap<&'static str, u64>,
}

impl Tally {
    /// Counts a case that the reading has answered.
    pub fn read(&mut self, entry: Entry, number: u32) {
        self.reading[entry as usize][number as usize] += 1;
    }

    /// Counts a call of the library that was compared with the reading.
    pub fn called(&mut self, entry: Entry, number: u32) {
        self.library[entry as usize][number as usize] += 1;
    }

    /// Counts something under a name.
    pub fn count(&mut self, name: &'static str) {
        *self.named.entry(name).or_default() += 1;
    }

    /// All calls of the library so far.
    pub fn calls(&self) -> u64 {
        self.library.iter().flatten().sum()
    }
}

/// Writes one table of counts: a line for each number, a column for each entry.
fn write_counts(f: &mut Formatter<'_>, title: &str, counts: &[[u64; LAST_NUMBER + 1]; 9]) -> fmt::Result {
    writeln!(f, "{title}")?;
    write!(f, "| No. |")?;
    for (_, name) in Entry::ALL {
        write!(f, " {name} |")?;
    }
    writeln!(f, " all |")?;
    writeln!(f, "|{}", "---|".repeat(Entry::ALL.len() + 2))?;
    for number in 0..=LAST_NUMBER {
        let row = counts.iter().map(|entry| entry[number]);
        write!(f, "| {number} |")?;
        for count in row.clone() {
            write!(f, " {count} |")?;
        }
        writeln!(f, " {} |", row.sum::<u64>())?;
    }
    write!(f, "| all |")?;
    for entry in counts {
        write!(f, " {} |", entry.iter().sum::<u64>())?;
    }
    writeln!(f, " {} |", counts.iter().flatten().sum::<u64>())
}

impl Display for Tally {
    fn fmt(&self, f: &mut Formatter<'_>) -> fmt::Result {
        if self.calls() > 0 {
            write_counts(
                f,
                "Calls of the library compared with the reading, number, count and every word:",
                &self.library,
            )?;
            writeln!(f)?;
        }
        write_counts(f, "Cases read:", &self.reading)?;
        writeln!(f, "\negg and the reading:")?;
        for (name, count) in &self.named {
            writeln!(f, "| {name} | {count} |")?;
        }
        Ok(())
    }
}
