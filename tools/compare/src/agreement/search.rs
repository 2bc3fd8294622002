//! Searches: egg's rows and the reading's.

use super::mismatch;
use crate::case::Case;
use crate::oracle::{self, Row, Side};
use crate::reading::compile::Instruction;
use crate::reading::meaning;
use crate::reading::search::{open, Opened};
use crate::tally::Tally;
use egg::{set_order, Order};
use std::collections::{BTreeMap, BTreeSet};

/// The most assignments that are tried against the Meaning section for one class.
const MAX_ASSIGNMENTS: u64 = 3_000;

/// Compares a search that has no refusal but 13.
pub fn check(case: &Case, salt: u64, tally: &mut Tally) -> Result<(), String> {
    let opened = open(case).expect("a search without a refusal");
    let Some(rows) = opened.all_rows() else {
        tally.count("given up: too many rows for egg");
        return Ok(());
    };
    count_what_is_in(&opened, &rows, tally);
    let rows: Vec<Row> = rows.iter().map(|words| as_row(&opened, words)).collect();
    check_in_order(&opened, &rows, tally)?;
    check_by_hash(&opened, &rows, salt, tally)?;
    check_meaning(&opened, &rows, tally)
}

/// The first rows, as many as the limit allows.
fn limited<'a>(opened: &Opened, rows: &'a [Row]) -> &'a [Row] {
    &rows[..rows.len().min(usize::try_from(opened.limit).unwrap_or(usize::MAX))]
}

/// Compares instructions and rows, in order and under the limit, where egg's ties fall as document 01 has them.
fn check_in_order(opened: &Opened, rows: &[Row], tally: &mut Tally) -> Result<(), String> {
    set_order(Order::Falling);
    let (instructions, program) = (oracle::instructions(&opened.parts), as_egg_writes(opened));
    if instructions != program {
        return mismatch("instructions", &instructions, &program);
    }
    let graph = oracle::graph(&opened.table, opened.cycles_allowed);
    let found = Side::new(&opened.parts).rows(&graph, opened.class, opened.limit);
    if found != limited(opened, rows) {
        return mismatch("rows in order, ties as in document 01", &found, &limited(opened, rows));
    }
    tally.count(if opened.cycles_allowed { "rows in order" } else { "rows in order, cycles barred" });
    Ok(())
}

/// The reading's program in the form of egg's instructions.
fn as_egg_writes(opened: &Opened) -> Vec<egg::asked::Instruction> {
    oracle::as_egg_writes(&opened.parts, &opened.program)
}

/// Compares the rows as sets, and under the limit by count and membership, where egg's ties and classes fall by a
/// hash; with cycles barred only if the instructions are equal.
fn check_by_hash(opened: &Opened, rows: &[Row], salt: u64, tally: &mut Tally) -> Result<(), String> {
    set_order(Order::Hashed(salt));
    let side = Side::new(&opened.parts);
    let same_program = oracle::instructions(&opened.parts) == as_egg_writes(opened);
    set_order(Order::Falling);
    if !opened.cycles_allowed && !same_program {
        tally.count("cycles barred, not compared by hash order: instructions differ");
        return Ok(());
    }
    let mut graph = oracle::graph(&opened.table, opened.cycles_allowed);
    graph.set_class_order(shuffled(graph.classes().map(|class| class.id).collect(), salt));
    let (found, meant) = (sorted(&side.rows(&graph, opened.class, u64::MAX)), sorted(rows));
    if found != meant {
        return mismatch("rows as sets, ties by hash", &found, &meant);
    }
    let found = sorted(&side.rows(&graph, opened.class, opened.limit));
    let (once, members): (BTreeSet<&Row>, BTreeSet<&Row>) = (found.iter().collect(), meant.iter().collect());
    if found.len() != limited(opened, rows).len() || once.len() != found.len() || !once.is_subset(&members) {
        return mismatch("rows under a limit, ties by hash", &found, &meant);
    }
    tally.count(match (opened.cycles_allowed, same_program) {
        (true, true) => "rows as sets and under the limit, by hash order, equal instructions",
        (true, false) => "rows as sets and under the limit, by hash order, other instructions",
        (false, _) => "rows as sets and under the limit, by hash order, cycles barred",
    });
    Ok(())
}

/// Counts what a search has in it, to show what the runs reach.
fn count_what_is_in(opened: &Opened, rows: &[Vec<u32>], tally: &mut Tally) {
    let instructions = &opened.program.instructions;
    let traits = [
        ("searches with at least one row", !rows.is_empty()),
        ("searches with a hundred rows or more", rows.len() >= 100),
        ("searches that compare", instructions.iter().any(|i| matches!(i, Instruction::Compare { .. }))),
        ("searches that look up", instructions.iter().any(|i| matches!(i, Instruction::Lookup { .. }))),
        ("searches that scan", instructions.iter().any(|i| matches!(i, Instruction::Scan { .. }))),
        ("searches of ten instructions or more", instructions.len() >= 10),
        ("searches with a class of 50 nodes or more", opened.table.classes.iter().any(|c| c.nodes.len() >= 50)),
    ];
    traits.iter().filter(|(_, has)| *has).for_each(|(name, _)| tally.count(name));
}

/// The ids in an order that the salt decides.
fn shuffled(mut ids: Vec<egg::Id>, salt: u64) -> Vec<egg::Id> {
    ids.sort_by_key(|id| (usize::from(*id) as u64 + 1).wrapping_mul(salt | 1).rotate_left(29));
    ids
}

/// The rows as egg would write them: the class, and the variables with their classes.
fn as_row(opened: &Opened, words: &[u32]) -> Row {
    let (class, words) = match opened.class {
        Some(class) => (class, words),
        None => (words[0], &words[1..]),
    };
    let variables = opened.program.variables.iter().map(|(v, _)| *v);
    Row { class, pairs: variables.zip(words.iter().copied()).collect() }
}

/// The rows with their pairs in order of the variables, sorted.
fn sorted(rows: &[Row]) -> Vec<Row> {
    let mut rows = rows.to_vec();
    for row in &mut rows {
        row.pairs.sort();
    }
    rows.sort();
    rows
}

/// Compares the rows of each class with the assignments of the Meaning section, where these are few.
fn check_meaning(opened: &Opened, all: &[Row], tally: &mut Tally) -> Result<(), String> {
    if !opened.cycles_allowed {
        return Ok(());
    }
    let mut found: BTreeMap<u32, Vec<Vec<u32>>> = BTreeMap::new();
    for row in sorted(all) {
        found.entry(row.class).or_default().push(row.pairs.iter().map(|(_, class)| *class).collect());
    }
    let classes = opened.class.map_or_else(|| opened.table.classes.iter().map(|c| c.id).collect(), |c| vec![c]);
    for class in classes {
        let Some(mut meant) = meaning::assignments(&opened.table, &opened.parts, class, MAX_ASSIGNMENTS) else {
            return Ok(());
        };
        meant.sort();
        let rows = found.remove(&class).unwrap_or_default();
        if rows != meant {
            return Err(format!("class {class}: the program's rows {rows:?}\nthe Meaning section's {meant:?}"));
        }
    }
    tally.count("rows as the Meaning section's assignments (both of the reading)");
    Ok(())
}
