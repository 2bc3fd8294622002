//! Dry applications: under the rows of a search, and under lists with something wrong.

use super::patterns::damaged_pattern;
use super::searches::search_case;
use super::tables::any_table;
use crate::case::{Case, Entry};
use crate::make::damage::damaged;
use crate::make::list::lists;
use crate::make::rng::Rng;
use crate::make::{pattern as make, term::Term};
use crate::reading::table::Table;
use crate::reading::{pattern, search, table};
use crate::run::{Mismatch, Run};

/// The case of a dry application.
pub fn dry_case(table: &[u32], pattern: &[u32], (variables, classes): (Vec<u32>, Vec<u32>)) -> Case {
    let slices = vec![table.to_vec(), pattern.to_vec(), variables, classes];
    Case { entry: Entry::DryApply, slices, numbers: vec![], buffer: vec![] }
}

/// A row of a search of the whole table for the pattern, as pairs of variable and class; nothing if there is none.
fn any_row(rng: &mut Rng, table: &[u32], pattern: &[u32]) -> Option<Vec<(u32, u32)>> {
    let opened = search::open(&search_case(table, pattern, false, None, true)).ok()?;
    let rows = opened.all_rows().filter(|rows| !rows.is_empty())?;
    let row = rng.pick(&rows);
    Some(opened.program.variables.iter().map(|(v, _)| *v).zip(row[1..].iter().copied()).collect())
}

/// A term that matches in the table, and now and then any.
fn any_term(rng: &mut Rng, table: &Table) -> Term {
    if rng.chance(20) {
        return make::random(rng, table, &mut make::Size { depth: 3, operators: 4 });
    }
    make::any(rng, table)
}

/// Applies patterns dry.
pub fn round(rng: &mut Rng, run: &mut Run) -> Result<(), Mismatch> {
    let words = any_table(rng);
    let table = table::read(&words).expect("a good table");
    for _ in 0..3 {
        let pattern_words = any_term(rng, &table).words(rng);
        let Ok(pattern) = pattern::read(&pattern_words) else { continue };
        let row = any_row(rng, &words, &pattern_words);
        for _ in 0..4 {
            let row = row.as_deref().filter(|_| rng.chance(70));
            let lists = lists(rng, &table, &pattern, row);
            run.check(rng, dry_case(&words, &pattern_words, lists))?;
        }
        let mut case = dry_case(&words, &pattern_words, lists(rng, &table, &pattern, row.as_deref()));
        match rng.below(4) {
            0 => case.slices[0] = damaged(rng, &words),
            1 => case.slices[1] = damaged_pattern(rng, &pattern_words, false),
            which => case.slices[which] = damaged(rng, &case.slices[which]),
        }
        run.check(rng, case)?;
    }
    Ok(())
}
