//! The multipattern: words to patterns with binders, or the refusal number 7 to 10; and 11.

use super::pattern::{self, Pattern, MAX_OCCURRENCES};
use super::table::require;

/// The most patterns of a multipattern.
pub const MAX_PATTERNS: u32 = 8;

/// One pattern of a search: its binder variable, none for a lone pattern.
#[derive(Clone, Debug)]
pub struct Part {
    pub binder: Option<u32>,
    pub pattern: Pattern,
}

/// The pattern of these words as the only part, or its refusal number.
pub fn read_lone(words: &[u32]) -> Result<Vec<Part>, u32> {
    Ok(vec![Part { binder: None, pattern: pattern::read(words)? }])
}

/// The parts of these words as a multipattern, or its refusal number other than 11.
pub fn read(words: &[u32]) -> Result<Vec<Part>, u32> {
    require(words.len() >= 3, 10)?;
    let m = words[0];
    require((1..=MAX_PATTERNS).contains(&m), 8)?;
    let first = 3 + 3 * m as usize;
    require(words[1] == 3 && words[2] as usize == first, 10)?;
    require(words.len() >= first, 10)?;
    let records: Vec<&[u32]> = words[3..first].chunks(3).collect();
    let mut end = first as u64;
    for record in &records {
        require(u64::from(record[1]) == end, 10)?;
        end += u64::from(record[2]);
    }
    require(words.len() as u64 == end, 10)?;

    let mut parts = vec![];
    for record in &records {
        let (offset, length) = (record[1] as usize, record[2] as usize);
        let pattern = pattern::read(&words[offset..offset + length])?;
        parts.push(Part { binder: Some(record[0]), pattern });
    }
    let sum: u64 = parts.iter().map(|part| part.pattern.occurrences()).sum();
    require(sum <= MAX_OCCURRENCES, 8)?;
    Ok(parts)
}

/// The parts of a pattern or a multipattern that is searched, a left side or shown: 11 is given too.
pub fn read_left(words: &[u32], is_multi: bool) -> Result<Vec<Part>, u32> {
    if !is_multi {
        return read_lone(words);
    }
    let parts = read(words)?;
    require(!parts[0].pattern.is_one_variable(), 11)?;
    Ok(parts)
}

/// The parts of a pattern or a multipattern that is a right side.
pub fn read_right(words: &[u32], is_multi: bool) -> Result<Vec<Part>, u32> {
    if is_multi {
        read(words)
    } else {
        read_lone(words)
    }
}
