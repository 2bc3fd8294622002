//! Patterns and multipatterns, shown as programs: good ones, and each with something wrong.

use super::tables::any_table;
use crate::case::{Case, Entry};
use crate::make::damage::damaged;
use crate::make::rng::Rng;
use crate::make::{multi, pattern};
use crate::reading::{entries, table};
use crate::run::{Mismatch, Run};

/// The case of showing a program in a buffer of so many words.
pub fn program_case(rng: &mut Rng, words: Vec<u32>, is_multi: bool, room: usize) -> Case {
    Case { entry: Entry::Program, slices: vec![words], numbers: vec![u64::from(is_multi)], buffer: rng.buffer(room) }
}

/// The case of showing a program, in a buffer at the length that it needs or around it.
pub fn program_at_its_length(rng: &mut Rng, words: Vec<u32>, is_multi: bool) -> Case {
    let whole = program_case(rng, words.clone(), is_multi, 5 * 263);
    let needed = 5 * entries::answer(&whole).map_or(0, |answer| answer.count as usize);
    let room = match rng.below(6) {
        0 => needed.saturating_sub(1),
        1 => rng.below(needed + 1),
        2 => needed + rng.below(8),
        _ => needed,
    };
    program_case(rng, words, is_multi, room)
}

/// A multipattern with one of its patterns damaged and its records mended, so that later checks are reached.
pub fn damaged_within(rng: &mut Rng, words: &[u32]) -> Vec<u32> {
    let m = words[0] as usize;
    let mut parts: Vec<(u32, Vec<u32>)> = (0..m)
        .map(|i| {
            let [binder, offset, length] = [0, 1, 2].map(|j| words[3 + 3 * i + j]);
            (binder, words[offset as usize..(offset + length) as usize].to_vec())
        })
        .collect();
    let which = rng.below(m);
    parts[which].1 = damaged(rng, &parts[which].1);
    multi::words(&parts)
}

/// Something wrong with a good pattern or multipattern.
pub fn damaged_pattern(rng: &mut Rng, words: &[u32], is_multi: bool) -> Vec<u32> {
    if is_multi && rng.chance(60) {
        damaged_within(rng, words)
    } else {
        damaged(rng, words)
    }
}

/// Shows a pattern's and a multipattern's program, and damaged ones made from them.
pub fn round(rng: &mut Rng, run: &mut Run) -> Result<(), Mismatch> {
    let table = table::read(&any_table(rng)).expect("a good table");
    for is_multi in [false, true] {
        let words = if is_multi { multi::any(rng, &table) } else { pattern::any(rng, &table).words(rng) };
        let case = program_at_its_length(rng, words.clone(), is_multi);
        run.check(rng, case)?;
        for _ in 0..5 {
            let wrong = damaged_pattern(rng, &words, is_multi);
            let case = program_at_its_length(rng, wrong, is_multi);
            run.check(rng, case)?;
        }
    }
    Ok(())
}
