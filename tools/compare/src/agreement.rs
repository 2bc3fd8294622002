//! Whether the library, egg and the plain reading agree on a case.

mod search;

use crate::case::{Answer, Case, Entry};
use crate::library;
use crate::oracle::{self, Applied};
use crate::reading::multi::{self, Part};
use crate::reading::search::is_search;
use crate::reading::{compile, entries, pattern, table};
use crate::tally::Tally;
use egg::{set_order, Order};

/// Counts what agrees on the case; `salt` decides the hash orders that are tried in egg. An error is a
/// mismatch, in words.
pub fn check(case: &Case, salt: u64, tally: &mut Tally) -> Result<(), String> {
    let Some(expected) = entries::answer(case) else {
        tally.count("given up: too many steps");
        return Ok(());
    };
    tally.read(case.entry, expected.number);
    if let Some(answer) = library::answer(case) {
        if answer != expected {
            return Err(format!("the library: {answer}\nthe reading: {expected}"));
        }
        tally.called(case.entry, expected.number);
    }
    match (case.entry, expected.number) {
        (entry, 0 | 13) if is_search(entry) => search::check(case, salt, tally),
        (Entry::DryApply, 0 | 14 | 18) => check_dry(case, &expected, tally),
        (Entry::CheckRule, 0 | 14) => check_rule(case, &expected, tally),
        (Entry::Program, 0 | 13) => check_program(case, tally),
        _ => Ok(()),
    }
}

/// An error that names what egg and the reading have.
fn mismatch(what: &str, egg: &dyn std::fmt::Debug, reading: &dyn std::fmt::Debug) -> Result<(), String> {
    Err(format!("{what}\negg: {egg:?}\nthe reading: {reading:?}"))
}

/// Compares a dry application with egg's application: a class, nodes added (18), or a panic (14).
fn check_dry(case: &Case, expected: &Answer, tally: &mut Tally) -> Result<(), String> {
    let table = table::read(&case.slices[0]).expect("a good table");
    let pattern = pattern::read(&case.slices[1]).expect("a good pattern");
    let wanted = match expected.number {
        0 => Applied::Class(expected.count as u32),
        14 => Applied::Panicked,
        _ => Applied::Added,
    };
    let applied = oracle::applied(&table, &pattern, &case.slices[2], &case.slices[3]);
    if applied != wanted {
        return mismatch("dry application", &applied, &wanted);
    }
    tally.count(match applied {
        Applied::Class(_) => "applications: the class was there",
        Applied::Added => "applications: egg had to add (18)",
        Applied::Panicked => "applications: egg panicked (14)",
    });
    Ok(())
}

/// Compares the rule check with `Rewrite::new`, which also takes a right variable that an earlier entry binds.
fn check_rule(case: &Case, expected: &Answer, tally: &mut Tally) -> Result<(), String> {
    let left = multi::read_left(&case.slices[0], case.numbers[0] != 0).expect("a good left side");
    let right = multi::read_right(&case.slices[1], case.numbers[1] != 0).expect("a good right side");
    let accepted = oracle::accepts_rule(&left, &right);
    if accepted == (expected.number == 0) {
        tally.count(if accepted { "rules that both take" } else { "rules that both refuse" });
        return Ok(());
    }
    if accepted && entries::lacking(&left, &right).iter().all(|v| bound_before_use(&right, *v)) {
        tally.count("rules that egg alone takes: an earlier right entry binds the variable");
        return Ok(());
    }
    mismatch("rule taken", &accepted, &expected.number)
}

/// Whether every use of the variable on a right side comes after an entry whose binder it is.
fn bound_before_use(right: &[Part], variable: u32) -> bool {
    let bound = right.iter().position(|part| part.binder == Some(variable));
    let used = right.iter().position(|part| part.pattern.variables().any(|v| v == variable));
    matches!((bound, used), (Some(bound), Some(used)) if bound < used)
}

/// Compares a program with egg's, where egg's ties fall as document 01 has them.
fn check_program(case: &Case, tally: &mut Tally) -> Result<(), String> {
    let parts = multi::read_left(&case.slices[0], case.numbers[0] != 0).expect("a good pattern");
    let program = oracle::as_egg_writes(&parts, &compile::compile(&parts));
    set_order(Order::Falling);
    let instructions = oracle::instructions(&parts);
    if instructions != program {
        return mismatch("instructions", &instructions, &program);
    }
    tally.count("programs, ties as in document 01");
    Ok(())
}
