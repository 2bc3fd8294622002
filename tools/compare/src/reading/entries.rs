//! The entries: number, count and every buffer word, refusals in document 01's order.

use super::compile::compile;
use super::meaning::instance;
use super::multi::{self, Part};
use super::run::Flow;
use super::search::{self, is_search};
use super::table::{self, require, Node};
use super::{meaning, pattern};
use crate::case::{Answer, Case, Entry};

/// What the entry must answer; nothing if the search takes too many steps.
pub fn answer(case: &Case) -> Option<Answer> {
    let mut rows = Rows { count: 0, buffer: case.buffer.clone() };
    let (slices, numbers) = (&case.slices, &case.numbers);
    let result = match case.entry {
        Entry::CheckTable => table::read(&slices[0]).map(|_| Some(0)),
        Entry::DryApply => dry_apply(slices).map(Some),
        Entry::CheckMap => check_map(slices).map(|_| Some(0)),
        Entry::CheckRule => check_rule(slices, numbers[0] != 0, numbers[1] != 0).map(|_| Some(0)),
        Entry::Program => program(&slices[0], numbers[0] != 0, &mut rows),
        entry => {
            assert!(is_search(entry));
            search(case, &mut rows)
        }
    };
    let (number, count) = match result {
        Ok(count) => (0, count?),
        Err(13) => (13, rows.count),
        Err(number) => (number, 0),
    };
    Some(Answer { number, count, buffer: rows.buffer })
}

/// The buffer, and how many rows are in it.
struct Rows {
    count: u64,
    buffer: Vec<u32>,
}

impl Rows {
    /// Writes the row after those that are there; refusal 13 if it doesn't fit, and then nothing is written.
    fn push(&mut self, row: &[u32]) -> Result<(), u32> {
        let start = self.count as usize * row.len();
        let place = self.buffer.get_mut(start..start + row.len()).ok_or(13u32)?;
        place.copy_from_slice(row);
        self.count += 1;
        Ok(())
    }
}

/// The count of a search's rows, as many as the limit allows; none if it takes too many steps.
fn search(case: &Case, rows: &mut Rows) -> Result<Option<u64>, u32> {
    let opened = search::open(case)?;
    if opened.limit == 0 {
        return Ok(Some(0));
    }
    let mut fitted = Ok(());
    let ended = opened.each_row(&mut |row| {
        fitted = rows.push(row);
        if fitted.is_ok() && rows.count < opened.limit {
            Flow::On
        } else {
            Flow::Stop
        }
    });
    fitted?;
    Ok(ended.then_some(rows.count))
}

/// The class of the pattern's root under the lists.
fn dry_apply(slices: &[Vec<u32>]) -> Result<u64, u32> {
    let table = table::read(&slices[0])?;
    let pattern = pattern::read(&slices[1])?;
    let (variables, classes) = (&slices[2], &slices[3]);
    require(variables.len() == classes.len(), 19)?;
    require(classes.iter().all(|id| table.is_canonical(*id)), 12)?;
    require(pattern.variables().all(|v| variables.contains(&v)), 14)?;
    let value = |v: u32| variables.iter().position(|w| *w == v).map(|place| classes[place]);
    instance(&table, &pattern, pattern.root(), &value).map(u64::from).ok_or(18)
}

/// Whether the map takes the first table into the second.
fn check_map(slices: &[Vec<u32>]) -> Result<(), u32> {
    let first = table::read(&slices[0])?;
    let second = table::read(&slices[1])?;
    let map = &slices[2];
    require(map.len() == first.classes.len(), 15)?;
    require(map.iter().all(|id| second.is_canonical(*id)), 16)?;
    let image = |id: &u32| map[first.place(*id)];
    for class in &first.classes {
        for node in &class.nodes {
            let children = node.children.iter().map(image).collect();
            require(second.lookup(&Node { operator: node.operator, children }) == Some(image(&class.id)), 17)?;
        }
    }
    Ok(())
}

/// Whether the left side lacks no variable of the right.
fn check_rule(slices: &[Vec<u32>], left_is_multi: bool, right_is_multi: bool) -> Result<(), u32> {
    let left = multi::read_left(&slices[0], left_is_multi)?;
    let right = multi::read_right(&slices[1], right_is_multi)?;
    require(lacking(&left, &right).is_empty(), 14)
}

/// The variables of the right side's patterns that the left lacks; binders count on the left only.
pub fn lacking(left: &[Part], right: &[Part]) -> Vec<u32> {
    let bound = meaning::variables(left);
    right.iter().flat_map(|part| part.pattern.variables()).filter(|v| !bound.contains(v)).collect()
}

/// The count of the program's instructions, five words each.
fn program(words: &[u32], is_multi: bool, rows: &mut Rows) -> Result<Option<u64>, u32> {
    let parts = multi::read_left(words, is_multi)?;
    for instruction in compile(&parts).instructions {
        rows.push(&instruction.words())?;
    }
    Ok(Some(rows.count))
}
