//! Multipatterns: several patterns over shared variables, their binders new or bound before.

use super::pattern::{self, matching, operator_matching, Size, Variables};
use super::rng::Rng;
use super::term::Term;
use crate::reading::table::Table;

/// The multipattern's words of these binders and patterns' words.
pub fn words(parts: &[(u32, Vec<u32>)]) -> Vec<u32> {
    let m = parts.len() as u32;
    let first = 3 + 3 * m;
    let (mut records, mut patterns) = (vec![], vec![]);
    for (binder, pattern) in parts {
        records.extend([*binder, first + patterns.len() as u32, pattern.len() as u32]);
        patterns.extend(pattern);
    }
    [vec![m, 3, first], records, patterns].concat()
}

/// Binders and terms that match a table's classes together unless a variable went astray; any if it has no class.
pub fn terms(rng: &mut Rng, table: &Table) -> Vec<(u32, Term)> {
    let count = if rng.chance(10) { rng.between(4, 8) } else { rng.between(1, 3) };
    if table.classes.is_empty() {
        let any = |rng: &mut Rng| pattern::random(rng, table, &mut Size { depth: 2, operators: 3 });
        return (0..count).map(|_| (rng.below(3) as u32, any(rng))).collect();
    }
    let mut variables = Variables::default();
    let mut terms = vec![];
    for i in 0..count {
        let bound = !variables.0.is_empty() && rng.chance(50);
        let class = if bound { rng.pick(&variables.0).1 } else { rng.pick(&table.classes).id };
        let mut size = Size { depth: rng.between(1, 3), operators: rng.between(1, 6) };
        let binder_first = rng.chance(50).then(|| variables.for_class(rng, class));
        let bare = rng.chance(if i == 0 { 2 } else { 10 });
        let term = if bare {
            matching(rng, table, class, &mut variables, &mut Size { depth: 0, operators: 0 })
        } else {
            operator_matching(rng, table, class, &mut variables, &mut size)
        };
        terms.push((binder_first.unwrap_or_else(|| variables.for_class(rng, class)), term));
    }
    terms
}

/// The words of a multipattern for the table; most of them match.
pub fn any(rng: &mut Rng, table: &Table) -> Vec<u32> {
    let parts: Vec<(u32, Vec<u32>)> = terms(rng, table).iter().map(|(v, term)| (*v, term.words(rng))).collect();
    words(&parts)
}
