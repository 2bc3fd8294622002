//! The four searches: their refusals before any row, and their rows.

use super::compile::{compile, Program};
use super::multi::{self, Part};
use super::run::{Flow, Search};
use super::table::{self, require, Table};
use crate::case::{Case, Entry};

/// The steps after which a search is given up.
const MAX_STEPS: u64 = 300_000;

/// A search whose table, pattern and class are good; no class means the whole table.
pub struct Opened {
    pub table: Table,
    pub parts: Vec<Part>,
    pub program: Program,
    pub class: Option<u32>,
    pub cycles_allowed: bool,
    pub limit: u64,
}

/// Whether the entry searches.
pub fn is_search(entry: Entry) -> bool {
    use Entry::*;
    matches!(entry, SearchClass | SearchTable | SearchClassMulti | SearchTableMulti)
}

/// The search of a searching entry's case, or its refusal number other than 13.
pub fn open(case: &Case) -> Result<Opened, u32> {
    let is_multi = matches!(case.entry, Entry::SearchClassMulti | Entry::SearchTableMulti);
    let (class, cycles_allowed, limit) = match case.numbers[..] {
        [class, cycles, limit] => (Some(class as u32), cycles != 0, limit),
        [cycles, limit] => (None, cycles != 0, limit),
        _ => unreachable!("a search has two or three numbers"),
    };
    let table = table::read(&case.slices[0])?;
    let parts = multi::read_left(&case.slices[1], is_multi)?;
    require(class.is_none_or(|id| table.is_canonical(id)), 12)?;
    let program = compile(&parts);
    Ok(Opened { table, parts, program, class, cycles_allowed, limit })
}

impl Opened {
    /// The words of a row: its variables, and its class first if the whole table is searched.
    pub fn row_width(&self) -> usize {
        self.program.variables.len() + usize::from(self.class.is_none())
    }

    /// Hands each row to `row` until it says stop; false if the search took too many steps before that.
    pub fn each_row(&self, row: &mut dyn FnMut(&[u32]) -> Flow) -> bool {
        let classes: Vec<u32> = match self.class {
            Some(id) => vec![id],
            None => self.table.classes.iter().map(|class| class.id).collect(),
        };
        let mut search = Search {
            table: &self.table,
            parts: &self.parts,
            program: &self.program,
            cycles_allowed: self.cycles_allowed,
            steps_left: MAX_STEPS,
        };
        for id in classes {
            let first: &[u32] = if self.class.is_none() { &[id] } else { &[] };
            if search.each_row(id, &mut |words| row(&[first, words].concat())) == Flow::Stop {
                break;
            }
        }
        search.steps_left > 0
    }

    /// All rows, without regard to the limit; nothing if there are too many steps to them.
    pub fn all_rows(&self) -> Option<Vec<Vec<u32>>> {
        let mut rows = vec![];
        let ended = self.each_row(&mut |row| {
            rows.push(row.to_vec());
            Flow::On
        });
        ended.then_some(rows)
    }
}
