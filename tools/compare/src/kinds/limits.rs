//! Every limit, at it and one past it.

use super::apply::dry_case;
use super::maps::map_case;
use super::patterns::program_at_its_length;
use super::rules::rule_case;
use super::searches::search_case;
use super::tables::check_case;
use crate::make::rng::Rng;
use crate::make::table::{wide, Plan};
use crate::make::{limits, term};
use crate::run::{Mismatch, Run};

/// The tables at each limit and one past it.
fn tables() -> Vec<Plan> {
    vec![
        limits::leaves(65_536, 0),
        limits::leaves(65_537, 0),
        limits::leaves(65_536, 65_000),
        limits::leaves(65_537, 65_000),
        limits::eights(32_768, 0),
        limits::eights(32_768, 1),
        limits::eights(65_534, 8),
        limits::eights(65_535, 0),
    ]
}

/// Checks tables, patterns and multipatterns at the limits, and searches with them.
pub fn round(rng: &mut Rng, run: &mut Run) -> Result<(), Mismatch> {
    for plan in tables() {
        run.check(rng, check_case(plan.words()))?;
    }
    let largest = limits::leaves(65_536, 0).words();
    for class in [0, 65_535, 65_536] {
        let leaf = term::words(&[(1, class, vec![])]);
        run.check(rng, search_case(&largest, &leaf, false, Some(class), true))?;
        run.check(rng, dry_case(&largest, &leaf, (vec![], vec![])))?;
    }
    let mut every_class = search_case(&largest, &term::words(&[(0, 0, vec![])]), false, None, false);
    every_class.buffer = rng.buffer(7);
    run.check(rng, every_class)?;
    let itself: Vec<u32> = (0..65_536).collect();
    for map in [&itself[..], &itself[1..]] {
        run.check(rng, map_case(&largest, &largest, map))?;
    }
    for table in [wide(rng, 60).words(), limits::every_arity().words()] {
        for is_multi in [false, true] {
            let all = if is_multi { limits::multis(rng) } else { limits::patterns(rng) };
            for words in &all {
                let case = program_at_its_length(rng, words.clone(), is_multi);
                run.check(rng, case)?;
                for class in [Some(0), None] {
                    let mut case = search_case(&table, words, is_multi, class, true);
                    case.buffer = rng.buffer(40);
                    run.check(rng, case)?;
                }
                let other = rng.pick(&all).clone();
                run.check(rng, rule_case(words, is_multi, &other, is_multi))?;
            }
        }
    }
    Ok(())
}
