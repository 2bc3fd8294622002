//! Maps between tables: of growth, of a table to itself, any, and with something wrong.

use super::tables::any_table;
use crate::case::{Case, Entry};
use crate::make::damage::damaged;
use crate::make::egraph::growth;
use crate::make::rng::Rng;
use crate::reading::{entries, table};
use crate::run::{Mismatch, Run};

/// The case of checking a map.
pub fn map_case(first: &[u32], second: &[u32], map: &[u32]) -> Case {
    let slices = vec![first.to_vec(), second.to_vec(), map.to_vec()];
    Case { entry: Entry::CheckMap, slices, numbers: vec![], buffer: vec![] }
}

/// A map that may take the first table into the second, for each class any of the second's.
fn any_map(rng: &mut Rng, first: &[u32], second: &[u32]) -> Vec<u32> {
    let (first, second) = (table::read(first).expect("a good table"), table::read(second).expect("a good table"));
    let canonical: Vec<u32> = second.classes.iter().map(|class| class.id).chain([0]).collect();
    first.classes.iter().map(|_| *rng.pick(&canonical)).collect()
}

/// Checks the map of a growth, which must pass, and others.
pub fn round(rng: &mut Rng, run: &mut Run) -> Result<(), Mismatch> {
    let steps = rng.between(1, 20);
    let (first, second, map) = growth(rng, steps);
    let case = map_case(&first, &second, &map);
    assert_eq!(entries::answer(&case).map(|a| a.number), Some(0), "a growth's map passes");
    run.check(rng, case)?;
    run.tally.count("maps of growth in the small e-graph, all taken");
    for _ in 0..6 {
        let mut case = map_case(&first, &second, &map);
        let which = *rng.pick(&[0, 1, 2, 2, 2]);
        case.slices[which] = damaged(rng, &case.slices[which]);
        run.check(rng, case)?;
    }
    let words = any_table(rng);
    let itself: Vec<u32> = table::read(&words).expect("a good table").classes.iter().map(|class| class.id).collect();
    run.check(rng, map_case(&words, &words, &itself))?;
    let map = any_map(rng, &words, &words);
    run.check(rng, map_case(&words, &words, &map))?;
    let map = any_map(rng, &words, &second);
    run.check(rng, map_case(&words, &second, &map))
}
