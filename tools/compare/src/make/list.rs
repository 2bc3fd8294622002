//! Lists of variables and classes for a dry application.

use super::rng::Rng;
use crate::reading::pattern::Pattern;
use crate::reading::table::Table;

/// A class of the table, or now and then an id that is none.
fn class(rng: &mut Rng, table: &Table) -> u32 {
    if table.classes.is_empty() || rng.chance(2) {
        return rng.below(table.find.len() + 2) as u32;
    }
    rng.pick(&table.classes).id
}

/// The lists from a row of a search, in another order and with more entries now and then; or, without a row, any classes for the
/// pattern's variables. Some lack a variable, name one twice, or differ in length.
pub fn lists(rng: &mut Rng, table: &Table, pattern: &Pattern, row: Option<&[(u32, u32)]>) -> (Vec<u32>, Vec<u32>) {
    let mut pairs: Vec<(u32, u32)> = match row {
        Some(row) => row.to_vec(),
        None => pattern.variables().map(|v| (v, class(rng, table))).collect(),
    };
    for _ in 0..rng.below(3) {
        let at = rng.below(pairs.len() + 1);
        let variable = if pairs.is_empty() || rng.chance(50) { rng.word() } else { rng.pick(&pairs).0 };
        pairs.insert(at, (variable, class(rng, table)));
    }
    if !pairs.is_empty() && rng.chance(10) {
        pairs.remove(rng.below(pairs.len()));
    }
    if pairs.len() > 1 && rng.chance(30) {
        let (a, b) = (rng.below(pairs.len()), rng.below(pairs.len()));
        pairs.swap(a, b);
    }
    let (mut variables, mut classes): (Vec<u32>, Vec<u32>) = pairs.into_iter().unzip();
    match rng.below(20) {
        0 => variables.push(rng.word()),
        1 => classes.push(class(rng, table)),
        2 => {
            variables.pop();
        }
        _ => {}
    }
    (variables, classes)
}
