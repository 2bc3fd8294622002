//! A case: one call of one entry, as words; and what an entry answers.

use std::fmt::{self, Display, Formatter};

/// The entries of the library, in the order of its header.
#[derive(Clone, Copy, Debug, PartialEq, Eq)]
pub enum Entry {
    CheckTable,
    SearchClass,
    SearchTable,
    SearchClassMulti,
    SearchTableMulti,
    DryApply,
    CheckMap,
    CheckRule,
    Program,
}

impl Entry {
    /// All entries and their names, in order.
    pub const ALL: [(Entry, &'static str); 9] = [
        (Entry::CheckTable, "check_table"),
        (Entry::SearchClass, "search_class"),
        (Entry::SearchTable, "search_table"),
        (Entry::SearchClassMulti, "search_class_multi"),
        (Entry::SearchTableMulti, "search_table_multi"),
        (Entry::DryApply, "dry_apply"),
        (Entry::CheckMap, "check_map"),
        (Entry::CheckRule, "check_rule"),
        (Entry::Program, "program"),
    ];

    /// The entry's name without `mulavedrop_`.
    pub fn name(self) -> &'static str {
        Entry::ALL[self as usize].1
    }
}

/// A call: the slices in the entry's order, then its other arguments in their order (true is 1), then
/// the words that the buffer holds before the call, none where the entry has no buffer.
#[derive(Clone, Debug, PartialEq, Eq)]
pub struct Case {
    pub entry: Entry,
    pub slices: Vec<Vec<u32>>,
    pub numbers: Vec<u64>,
    pub buffer: Vec<u32>,
}

/// What a call leaves: the refusal number, the count, and every word of the buffer.
#[derive(Clone, Debug, PartialEq, Eq)]
pub struct Answer {
    pub number: u32,
    pub count: u64,
    pub buffer: Vec<u32>,
}

/// The words in decimal, with blanks between.
pub fn words_text<T: Display>(words: &[T]) -> String {
    let words: Vec<String> = words.iter().map(T::to_string).collect();
    words.join(" ")
}

impl Display for Case {
    fn fmt(&self, f: &mut Formatter<'_>) -> fmt::Result {
        writeln!(f, "mulavedrop_{}", self.entry.name())?;
        for slice in &self.slices {
            writeln!(f, "  slice of {}: {}", slice.len(), words_text(slice))?;
        }
        writeln!(f, "  numbers: {}", words_text(&self.numbers))?;
        write!(f, "  buffer of {}: {}", self.buffer.len(), words_text(&self.buffer))
    }
}

impl Display for Answer {
    fn fmt(&self, f: &mut Formatter<'_>) -> fmt::Result {
        write!(f, "number {}, count {}, buffer {}", self.number, self.count, words_text(&self.buffer))
    }
}
