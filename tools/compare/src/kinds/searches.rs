//! Searches of a class and of a whole table, for a pattern and a multipattern.

use super::patterns::damaged_pattern;
use super::tables::any_table;
use crate::case::{Case, Entry};
use crate::make::damage::damaged;
use crate::make::rng::Rng;
use crate::make::{multi, pattern, table};
use crate::reading::search;
use crate::reading::table::{self as tables, Table};
use crate::run::{Mismatch, Run};

/// A searching case without limit or buffer; no class means the whole table.
pub fn search_case(table: &[u32], pattern: &[u32], is_multi: bool, class: Option<u32>, cycles_allowed: bool) -> Case {
    let entry = match (class, is_multi) {
        (Some(_), false) => Entry::SearchClass,
        (None, false) => Entry::SearchTable,
        (Some(_), true) => Entry::SearchClassMulti,
        (None, true) => Entry::SearchTableMulti,
    };
    let numbers = class.map(u64::from).into_iter().chain([u64::from(cycles_allowed), u64::MAX]).collect();
    Case { entry, slices: vec![table.to_vec(), pattern.to_vec()], numbers, buffer: vec![] }
}

/// The case with a limit and a buffer near the number of rows that there are.
fn with_limit_and_buffer(rng: &mut Rng, mut case: Case) -> Case {
    let opened = search::open(&case).ok();
    let width = opened.as_ref().map_or(1, |o| o.row_width());
    let rows = opened.and_then(|o| o.all_rows()).map_or(20, |rows| rows.len());
    let limit = match rng.below(10) {
        0 => 0,
        1 => 1,
        2 => (rows as u64).saturating_sub(1),
        3 => rows as u64,
        4 => rows as u64 + 1,
        5 => rng.below(rows + 2) as u64,
        _ => u64::MAX,
    };
    let needed = width * rows.min(usize::try_from(limit).unwrap_or(usize::MAX)).min(400);
    let room = match rng.below(12) {
        0 => needed.saturating_sub(1),
        1 => rng.below(needed + 1),
        2 => needed + 1,
        3 => needed + rng.below(20),
        4 => 0,
        _ => needed,
    };
    *case.numbers.last_mut().expect("a limit") = limit;
    case.buffer = rng.buffer(room);
    case
}

/// A class of the table, or now and then an id that is none, or nothing for the whole table.
fn any_class(rng: &mut Rng, table: &Table) -> Option<u32> {
    match rng.below(12) {
        0..=4 => None,
        5 => Some(*rng.pick(&[table.find.len() as u32, table.find.len() as u32 + 1, u32::MAX])),
        6 if !table.find.is_empty() => Some(rng.below(table.find.len()) as u32),
        _ if table.classes.is_empty() => Some(0),
        _ => Some(rng.pick(&table.classes).id),
    }
}

/// A few searches of the table for patterns of its own, and some with the table or the pattern damaged.
fn searches(rng: &mut Rng, run: &mut Run, words: &[u32], is_multi: bool) -> Result<(), Mismatch> {
    let table = tables::read(words).expect("a good table");
    for _ in 0..3 {
        let pattern = if is_multi { multi::any(rng, &table) } else { pattern::any(rng, &table).words(rng) };
        for _ in 0..4 {
            let (class, cycles) = (any_class(rng, &table), rng.chance(60));
            let case = search_case(words, &pattern, is_multi, class, cycles);
            let case = with_limit_and_buffer(rng, case);
            run.check(rng, case)?;
        }
        let (class, cycles) = (any_class(rng, &table), rng.chance(60));
        let mut case = search_case(words, &pattern, is_multi, class, cycles);
        if rng.chance(50) {
            case.slices[0] = damaged(rng, words);
        } else {
            case.slices[1] = damaged_pattern(rng, &pattern, is_multi);
        }
        let case = with_limit_and_buffer(rng, case);
        run.check(rng, case)?;
    }
    Ok(())
}

/// Searches for patterns.
pub fn lone(rng: &mut Rng, run: &mut Run) -> Result<(), Mismatch> {
    let words = any_table(rng);
    searches(rng, run, &words, false)
}

/// Searches for multipatterns.
pub fn multi(rng: &mut Rng, run: &mut Run) -> Result<(), Mismatch> {
    let words = any_table(rng);
    searches(rng, run, &words, true)
}

/// Searches in tables with a class of 49, 50, 51 or some thousands of nodes.
pub fn wide(rng: &mut Rng, run: &mut Run) -> Result<(), Mismatch> {
    let count = *rng.pick(&[48, 49, 49, 50, 50, 51, 51, 52, 100, 1000, 4000]);
    let words = table::wide(rng, count).words();
    let is_multi = rng.chance(30);
    searches(rng, run, &words, is_multi)
}
