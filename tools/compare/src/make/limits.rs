//! Inputs at each limit and one past it.

use super::multi;
use super::rng::Rng;
use super::table::Plan;
use super::term::{self, Term};
use crate::reading::table::Node;

/// A table of so many ids, the last `merged` of them not canonical, each class with one leaf.
pub fn leaves(ids: usize, merged: usize) -> Plan {
    let classes = ids - merged;
    let find = (0..ids as u32).map(|x| if (x as usize) < classes { x } else { 0 });
    let leaf = |id: u32| (id, vec![Node { operator: id, children: vec![] }]);
    Plan { find: find.collect(), classes: (0..classes as u32).map(leaf).collect() }
}

/// A table of two classes, the second with so many nodes of arity 8 and one more of the arity given.
pub fn eights(nodes: usize, arity: usize) -> Plan {
    let bits = |number: usize, count: usize| (0..count).map(|b| (number >> b & 1) as u32).collect();
    let node = |number: usize| Node { operator: 5 + (number >> 8) as u32, children: bits(number, 8) };
    let mut members: Vec<Node> = (0..nodes).map(node).collect();
    members.push(Node { operator: 1, children: bits(0, arity) });
    Plan { find: vec![0, 1], classes: vec![(0, vec![Node { operator: 0, children: vec![] }]), (1, members)] }
}

/// A table of one class with the operator 5 at every arity over itself, in which the patterns below match.
pub fn every_arity() -> Plan {
    let nodes = (0..=8).map(|arity| Node { operator: 5, children: vec![0; arity] });
    Plan { find: vec![0], classes: vec![(0, nodes.collect())] }
}

/// A chain of one-child operators over a variable, with so many nodes.
pub fn chain(nodes: u32) -> Vec<u32> {
    let link = |i: u32| (1, 5, vec![i - 1]);
    let nodes: Vec<_> = (0..nodes).map(|i| if i == 0 { (0, 0, vec![]) } else { link(i) }).collect();
    term::words(&nodes)
}

/// A pattern of so many different nodes, each operator with as many children as given, all of them the variable.
pub fn bush(nodes: u32, arity: usize) -> Vec<u32> {
    let mut all = vec![(0, 0, vec![])];
    for i in 1..nodes {
        let mut below = vec![0; arity];
        below[0] = i - 1;
        all.push((1, 5, below));
    }
    term::words(&all)
}

/// A term with exactly so many occurrences and few different parts.
pub fn with_occurrences(occurrences: usize) -> Term {
    if occurrences == 1 {
        return Term::Variable(0);
    }
    let each = (occurrences - 1) / 2;
    let rest = occurrences - 1 - 2 * each;
    let mut below = vec![];
    if each > 0 {
        below.extend([with_occurrences(each), with_occurrences(each)]);
    }
    if rest > 0 {
        below.push(Term::Variable(0));
    }
    Term::Operator(5, below)
}

/// A pattern of n nodes each of which has the one before it twice: 2 to the n, less one, occurrences.
pub fn doubling(nodes: u32) -> Vec<u32> {
    let nodes: Vec<_> = (0..nodes).map(|i| if i == 0 { (0, 0, vec![]) } else { (1, 5, vec![i - 1, i - 1]) }).collect();
    term::words(&nodes)
}

/// A multipattern of m patterns with so many occurrences in all, binders new or all the same.
pub fn multi_of(rng: &mut Rng, m: usize, occurrences: usize, same_binder: bool) -> Vec<u32> {
    let each = occurrences / m.max(1);
    let part = |i: usize| {
        let size = if i == 0 { occurrences - each * (m - 1) } else { each };
        (if same_binder { 9 } else { 9 + i as u32 }, with_occurrences(size).words(rng))
    };
    let parts: Vec<(u32, Vec<u32>)> = (0..m).map(part).collect();
    multi::words(&parts)
}

/// The patterns at each limit and one past it.
pub fn patterns(rng: &mut Rng) -> Vec<Vec<u32>> {
    let mut all =
        vec![vec![], vec![0, 0, 4, 4], chain(64), chain(65), doubling(8), doubling(9), doubling(40), doubling(64)];
    for occurrences in [255, 256, 257, 511] {
        all.push(with_occurrences(occurrences).words(rng));
    }
    for arity in [8, 9] {
        all.push(bush(2, arity));
        all.push(term::words(&[(1, 3, vec![]), (1, 5, vec![0; arity])]));
    }
    all.push(bush(33, 8));
    all.push(bush(64, 8));
    let mut k_512 = bush(64, 8);
    k_512[1] = 512;
    k_512.extend([0; 8]);
    let mut k_513 = k_512.clone();
    k_513[1] = 513;
    k_513.push(0);
    all.extend([k_512, k_513]);
    all
}

/// The multipatterns at each limit and one past it.
pub fn multis(rng: &mut Rng) -> Vec<Vec<u32>> {
    let mut all = vec![vec![], vec![0, 3, 3]];
    for m in [1, 8, 9] {
        for same in [false, true] {
            all.push(multi_of(rng, m, 2 * m + 7, same));
            all.push(multi_of(rng, m, 256, same));
            all.push(multi_of(rng, m, 257, same));
        }
    }
    all
}
