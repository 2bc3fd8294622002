//! Where egg and document 01 differ: each input, what document 01 says, and what egg does when it is run.

use crate::case::Case;
use crate::kinds::numbers::{LOOP, T};
use crate::kinds::{apply::dry_case, rules::rule_case, searches::search_case};
use crate::make::table::Plan;
use crate::make::{limits, multi, term};
use crate::oracle::{self, Side};
use crate::reading::multi::Part;
use crate::reading::pattern::{Pattern, PatternNode};
use crate::reading::table::{self, Node};
use crate::reading::{entries, search};
use crate::run::last_panic;
use egg::{set_order, Order};
use std::panic::{catch_unwind, AssertUnwindSafe};

/// The words of the buffers.
const ROOM: usize = 4;

/// A difference: what it is about, the input, and what egg does.
struct Difference {
    about: &'static str,
    case: Case,
    egg: String,
}

/// What f answers, or that it panicked and what it said.
fn or_panic(f: impl FnOnce() -> String) -> String {
    catch_unwind(AssertUnwindSafe(f)).unwrap_or_else(|_| {
        let said = last_panic();
        format!("panics: {}", said.split_once('\n').map_or(said.as_str(), |(_, message)| message))
    })
}

/// The nodes of a pattern's words, without any check.
fn unchecked(words: &[u32]) -> Pattern {
    let n = words[0] as usize;
    let (records, children) = words[4..].split_at(4 * n);
    let node = |record: &[u32]| match record[0] {
        0 => PatternNode::Variable(record[1]),
        _ => {
            let below = &children[record[3] as usize..(record[3] + record[2]) as usize];
            PatternNode::Operator(record[1], below.iter().map(|child| *child as usize).collect())
        }
    };
    Pattern { nodes: records.chunks(4).map(node).collect() }
}

/// The parts of a pattern's or a multipattern's words, without any check.
fn unchecked_parts(words: &[u32], is_multi: bool) -> Vec<Part> {
    if !is_multi {
        return vec![Part { binder: None, pattern: unchecked(words) }];
    }
    let part = |record: &[u32]| Part {
        binder: Some(record[0]),
        pattern: unchecked(&words[record[1] as usize..(record[1] + record[2]) as usize]),
    };
    words[3..3 + 3 * words[0] as usize].chunks(3).map(part).collect()
}

/// A search without limit and with some room, and the rows that egg finds in the same graph for the same pattern.
fn searched(
    about: &'static str,
    table: &[u32],
    words: &[u32],
    is_multi: bool,
    class: Option<u32>,
    cycles: bool,
) -> Difference {
    let case = Case { buffer: vec![0; ROOM], ..search_case(table, words, is_multi, class, cycles) };
    let egg = or_panic(|| {
        let graph = oracle::graph(&table::read(table).expect("a good table"), cycles);
        let rows = Side::new(&unchecked_parts(words, is_multi)).rows(&graph, class, u64::MAX);
        format!("count {}, rows as pairs {:?}", rows.len(), rows.iter().map(|row| &row.pairs).collect::<Vec<_>>())
    });
    Difference { about, case, egg }
}

/// A rule, and whether egg takes it.
fn rule(about: &'static str, left: &[u32], left_is_multi: bool, right: &[u32], right_is_multi: bool) -> Difference {
    let (l, r) = (unchecked_parts(left, left_is_multi), unchecked_parts(right, right_is_multi));
    let egg = or_panic(|| if oracle::accepts_rule(&l, &r) { "takes the rule" } else { "refuses the rule" }.to_string());
    Difference { about, case: rule_case(left, left_is_multi, right, right_is_multi), egg }
}

/// A dry application, and what becomes of it in egg.
fn dry(about: &'static str, words: &[u32], lists: (Vec<u32>, Vec<u32>)) -> Difference {
    let case = dry_case(&T, words, lists);
    let table = table::read(&T).expect("a good table");
    let applied = oracle::applied(&table, &unchecked(words), &case.slices[2], &case.slices[3]);
    Difference { about, case, egg: format!("{applied:?}") }
}

/// A search with cycles barred whose rows egg has or lacks as its hash map orders two equal work items.
fn tie() -> Difference {
    let node = |operator, children: &[u32]| Node { operator, children: children.to_vec() };
    let table = Plan {
        find: vec![0, 1],
        classes: vec![
            (0, vec![node(5, &[0]), node(6, &[0]), node(7, &[1, 0])]),
            (1, vec![node(2, &[]), node(10, &[0, 0])]),
        ],
    };
    // (10 (5 (6 ?0)) (7 2 ?0)): the terms below the root are equal in free variables and in size.
    let pattern = term::words(&[
        (0, 0, vec![]),
        (1, 6, vec![0]),
        (1, 5, vec![1]),
        (1, 2, vec![]),
        (1, 7, vec![3, 0]),
        (1, 10, vec![2, 4]),
    ]);
    let case = Case { buffer: vec![0; ROOM], ..search_case(&table.words(), &pattern, false, Some(1), false) };
    let opened = search::open(&case).expect("a good search");
    let graph = oracle::graph(&opened.table, false);
    let counts: Vec<usize> = (0..16)
        .map(|salt| {
            set_order(Order::Hashed(salt));
            Side::new(&opened.parts).rows(&graph, opened.class, u64::MAX).len()
        })
        .collect();
    set_order(Order::Falling);
    let egg = format!("rows in sixteen hash orders: {counts:?}");
    Difference { about: "equal work items, cycles barred", case, egg }
}

/// The differences that have an input.
fn all() -> Vec<Difference> {
    let x = (0, 0, vec![]);
    let two_ids = [2, 1, 2, 1, 9, 11, 14, 22, 23, 0, 0, 0, 0, 2, 1, 0, 0, 0, 5, 1, 0, 0, 0, 0, 1];
    let two_below = [1, 1, 2, 2, 9, 10, 13, 21, 23, 0, 0, 0, 2, 1, 0, 0, 0, 5, 2, 0, 0, 0, 0, 0, 1];
    let empty = [0, 0, 0, 0, 9, 9, 9, 9, 9];
    let g = term::words(&[x.clone(), (1, 5, vec![0])]);
    let f_a_a_twice = term::words(&[(1, 1, vec![]), (1, 1, vec![]), (1, 10, vec![0, 1])]);
    let f_y = term::words(&[(0, 1, vec![]), (1, 10, vec![0, 0])]);
    let variable = term::words(std::slice::from_ref(&x));
    let loose = term::words(&[(0, 7, vec![]), x.clone(), (1, 5, vec![1])]);
    let nine = term::words(&[x.clone(), (1, 5, vec![0; 9])]);
    let thrice: Vec<_> = (0..43).map(|i| if i == 0 { x.clone() } else { (1, 5, vec![i - 1; 3]) }).collect();
    let bare_first = multi::words(&[(8, variable.clone()), (9, g.clone())]);
    let binds_then_uses = multi::words(&[(1, g.clone()), (2, f_y)]);
    vec![
        searched("a class id that is not canonical", &two_ids, &g, false, Some(1), true),
        searched("the same, cycles barred: egg compares the stale id", &two_ids, &g, false, Some(1), false),
        searched("a class id past the last", &LOOP, &g, false, Some(1), true),
        searched("two equal nodes in a pattern", &T, &f_a_a_twice, false, Some(2), true),
        searched("two equal nodes in a multipattern", &T, &multi::words(&[(9, f_a_a_twice)]), true, Some(2), true),
        searched("a node that is nobody's child", &LOOP, &loose, false, Some(0), true),
        rule("a variable that is nobody's child, on the left", &loose, false, &term::words(&[(0, 7, vec![])]), false),
        searched("an arity of nine", &LOOP, &nine, false, Some(0), true),
        searched("65 nodes", &LOOP, &limits::chain(65), false, Some(0), true),
        searched("511 occurrences", &two_below, &limits::doubling(9), false, Some(0), true),
        searched(
            "sizes past 64 bits; without overflow checks egg goes on with a wrong size",
            &LOOP,
            &term::words(&thrice),
            false,
            Some(0),
            true,
        ),
        searched("nine patterns", &LOOP, &multi::words(&vec![(9, g.clone()); 9]), true, Some(0), true),
        searched("no pattern", &LOOP, &[0, 3, 3], true, Some(0), true),
        searched("the first pattern is one variable", &LOOP, &bare_first, true, Some(0), true),
        searched("the same over an empty table", &empty, &bare_first, true, None, true),
        rule("the same as a left side", &bare_first, true, &variable, false),
        rule("a right side uses what its entry before binds", &g, false, &binds_then_uses, true),
        dry("no instance", &g, (vec![0], vec![0])),
        dry("a variable that the list lacks", &g, (vec![1], vec![0])),
        tie(),
    ]
}

/// Writes every difference: the input, document 01's answer by the plain reading, egg's.
pub fn show() {
    for Difference { about, case, egg } in all() {
        let answer = entries::answer(&case).expect("an answer");
        println!("{about}\n{case}\n  document 01: number {}, count {}\n  egg: {egg}\n", answer.number, answer.count);
    }
}
