//! Rules: a pattern or a multipattern on each side, the right side's variables mostly from the left.

use super::patterns::damaged_pattern;
use super::tables::any_table;
use crate::case::{Case, Entry};
use crate::make::rng::Rng;
use crate::make::{multi, pattern};
use crate::reading::table::{self, Table};
use crate::run::{Mismatch, Run};

/// The case of checking a rule.
pub fn rule_case(left: &[u32], left_is_multi: bool, right: &[u32], right_is_multi: bool) -> Case {
    let slices = vec![left.to_vec(), right.to_vec()];
    let numbers = vec![u64::from(left_is_multi), u64::from(right_is_multi)];
    Case { entry: Entry::CheckRule, slices, numbers, buffer: vec![] }
}

/// The words of a pattern or a multipattern for the table.
fn any_side(rng: &mut Rng, table: &Table, is_multi: bool) -> Vec<u32> {
    if is_multi {
        multi::any(rng, table)
    } else {
        pattern::any(rng, table).words(rng)
    }
}

/// Checks rules, and some with a side damaged.
pub fn round(rng: &mut Rng, run: &mut Run) -> Result<(), Mismatch> {
    let table = table::read(&any_table(rng)).expect("a good table");
    for _ in 0..6 {
        let (left_is_multi, right_is_multi) = (rng.chance(50), rng.chance(50));
        let left = any_side(rng, &table, left_is_multi);
        let right = any_side(rng, &table, right_is_multi);
        run.check(rng, rule_case(&left, left_is_multi, &right, right_is_multi))?;
        let (mut wrong_left, mut wrong_right) = (left, right);
        if rng.chance(50) {
            wrong_left = damaged_pattern(rng, &wrong_left, left_is_multi);
        } else {
            wrong_right = damaged_pattern(rng, &wrong_right, right_is_multi);
        }
        run.check(rng, rule_case(&wrong_left, left_is_multi, &wrong_right, right_is_multi))?;
    }
    Ok(())
}
