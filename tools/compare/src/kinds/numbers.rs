//! Document 01's numbers to try, with the answers that it gives.

use super::patterns::program_case;
use super::searches::search_case;
use super::tables::check_case;
use crate::case::{Answer, Case};
use crate::make::limits::with_occurrences;
use crate::make::rng::Rng;
use crate::make::table::wide;
use crate::make::{multi, term::Term};
use crate::reading::entries;
use crate::run::{Mismatch, Run};

pub const T: [u32; 49] = [
    4, 4, 4, 4, 9, 13, 25, 41, 45, 0, 1, 2, 3, 0, 0, 1, 1, 1, 1, 2, 2, 1, 3, 3, 1, 1, 0, 0, 0, 2, 0, 0, 1, 10, 2, 0, 2, 10, 2,
    2, 3, 0, 0, 0, 1, 0, 1, 2, 3,
];
pub const LOOP: [u32; 24] = [1, 1, 2, 1, 9, 10, 13, 21, 22, 0, 0, 0, 2, 1, 0, 0, 0, 5, 1, 0, 0, 0, 0, 1];
const EMPTY: [u32; 9] = [0, 0, 0, 0, 9, 9, 9, 9, 9];
const P: [u32; 14] = [2, 2, 4, 12, 0, 0, 0, 0, 1, 10, 2, 0, 0, 0];
/// What the buffers hold before a call.
const FILL: u32 = 77;

/// The variable.
fn var(number: u32) -> Term {
    Term::Variable(number)
}

/// The operator over these terms.
fn op(operator: u32, below: &[Term]) -> Term {
    Term::Operator(operator, below.to_vec())
}

/// The case with a limit and a buffer of so many words.
fn with(mut case: Case, limit: u64, room: usize) -> Case {
    *case.numbers.last_mut().expect("a limit") = limit;
    case.buffer = vec![FILL; room];
    case
}

/// The cases by their number in document 01, with number, count and the words written.
fn cases(rng: &mut Rng) -> Vec<(u32, Case, u32, u64, Vec<u32>)> {
    let all = u64::MAX;
    let two = op(10, &[var(0), var(1)]).words(rng);
    let ground = op(10, &[op(1, &[]), op(2, &[])]).words(rng);
    let g = |depth: usize| (0..depth).fold(var(0), |below, _| op(5, &[below]));
    let (g1, g3, v) = (g(1).words(rng), g(3).words(rng), var(0).words(rng));
    let mut bad_index = T.to_vec();
    bad_index[48] = 2;
    let f_g_h = op(10, &[op(5, &[var(0)]), op(6, &[var(0), var(1)])]).words(rng);
    let lone = |table: &[u32], pattern: &[u32], class| search_case(table, pattern, false, class, true);
    let barred = |table: &[u32], pattern: &[u32]| search_case(table, pattern, false, Some(0), false);
    let shown = |rng: &mut Rng, words: Vec<u32>, room| program_case(rng, words, false, room);
    // a and b, f(a,a), f(a,b), g(a,a), g(a,b), as in src/multipattern.rs.
    let f_and_g = crate::make::table::Plan {
        find: (0..6).collect(),
        classes: [(1, vec![]), (2, vec![]), (10, vec![0, 0]), (10, vec![0, 1]), (11, vec![0, 0]), (11, vec![0, 1])]
            .into_iter()
            .enumerate()
            .map(|(id, (operator, children))| (id as u32, vec![crate::reading::table::Node { operator, children }]))
            .collect(),
    };
    let both = [(8, op(10, &[var(0), var(1)]).words(rng)), (9, op(11, &[var(0), var(1)]).words(rng))];
    let both = search_case(&f_and_g.words(), &multi::words(&both), true, None, true);
    let instructions = vec![0, 0, 3, 0, 1, 0, 0, 3, 2, 3, 2, 0, 3, 1, 0];
    let mut all_cases = vec![
        (1, with(lone(&T, &P, Some(2)), all, 3), 0, 1, vec![0]),
        (2, with(lone(&T, &P, Some(3)), all, 3), 0, 0, vec![]),
        (3, with(lone(&T, &P, None), all, 3), 0, 1, vec![2, 0]),
        (4, with(lone(&T, &two, None), all, 7), 0, 2, vec![2, 0, 0, 3, 0, 1]),
        (5, with(lone(&T, &two, None), 1, 7), 0, 1, vec![2, 0, 0]),
        (6, with(lone(&T, &two, None), all, 5), 13, 1, vec![2, 0, 0]),
        (7, with(lone(&LOOP, &g1, Some(0)), all, 2), 0, 1, vec![0]),
        (8, with(barred(&LOOP, &g1), all, 2), 0, 0, vec![]),
        (9, with(barred(&LOOP, &v), all, 2), 0, 1, vec![0]),
        (10, with(lone(&LOOP, &g3, Some(0)), all, 2), 0, 1, vec![0]),
        (11, check_case(bad_index), 6, 0, vec![]),
        (12, with(lone(&T, &ground, Some(3)), all, 2), 0, 1, vec![]),
        (13, shown(rng, f_g_h, 15), 0, 3, instructions),
        (14, check_case(EMPTY.to_vec()), 0, 0, vec![]),
        (14, with(lone(&EMPTY, &P, Some(0)), all, 2), 12, 0, vec![]),
        (16, with(both, all, 10), 0, 2, vec![2, 0, 1, 2, 4, 2, 0, 1, 2, 4]),
    ];
    for (occurrences, number) in [(256, 0), (257, 8)] {
        let words = with_occurrences(occurrences).words(rng);
        let count = if number == 0 { 135 } else { 0 };
        all_cases.push((15, shown(rng, words, 263 * 5), number, count, vec![]));
    }
    for nodes in [49, 50] {
        all_cases.push((15, check_case(wide(rng, nodes).words()), 0, 0, vec![]));
    }
    all_cases
}

/// Checks document 01's numbers against the answers it gives.
pub fn round(rng: &mut Rng, run: &mut Run) -> Result<(), Mismatch> {
    for (place, case, number, count, words) in cases(rng) {
        let Some(answer) = entries::answer(&case) else { return Err(Mismatch(format!("case {place} takes too long"))) };
        let said = Answer { number, count, buffer: [&words, &answer.buffer[words.len()..]].concat() };
        let unchanged = case.buffer[words.len()..] == answer.buffer[words.len()..] || place == 15;
        if answer != said || !unchanged {
            return Err(Mismatch(format!("document 01's case {place}\n{case}\nthe reading: {answer}\nthe document: {said}")));
        }
        run.check(rng, case)?;
    }
    Ok(())
}
