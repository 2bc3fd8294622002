//! Tables: good ones, and each with something wrong.

use crate::case::{Case, Entry};
use crate::make::damage::damaged;
use crate::make::rng::Rng;
use crate::make::{egraph, table};
use crate::run::{Mismatch, Run};

/// The words of a good table, small for the most part.
pub fn any_table(rng: &mut Rng) -> Vec<u32> {
    match rng.below(22) {
        0 => {
            let nodes = rng.between(1, 6);
            table::random(rng, 40, nodes).words()
        }
        1..=8 => {
            let steps = rng.between(1, 16);
            egraph::plan(&egraph::random(rng, steps)).words()
        }
        20 | 21 => table::dense(rng).words(),
        _ => {
            let nodes = rng.between(1, 4);
            table::random(rng, 7, nodes).words()
        }
    }
}

/// The case of checking a table.
pub fn check_case(table: Vec<u32>) -> Case {
    Case { entry: Entry::CheckTable, slices: vec![table], numbers: vec![], buffer: vec![] }
}

/// Checks a good table, and damaged ones made from it.
pub fn round(rng: &mut Rng, run: &mut Run) -> Result<(), Mismatch> {
    let words = any_table(rng);
    run.check(rng, check_case(words.clone()))?;
    for _ in 0..12 {
        let mut wrong = damaged(rng, &words);
        if rng.chance(15) {
            wrong = damaged(rng, &wrong);
        }
        run.check(rng, check_case(wrong))?;
    }
    Ok(())
}
