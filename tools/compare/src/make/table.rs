//! Good tables: of random nodes, and with one wide class.

use super::rng::Rng;
use crate::reading::table::Node;
use std::collections::BTreeSet;

/// What a good table is written from: what each id stands for, and the nodes of each class by rising id.
#[derive(Clone, Debug)]
pub struct Plan {
    pub find: Vec<u32>,
    pub classes: Vec<(u32, Vec<Node>)>,
}

impl Plan {
    /// The table's words.
    pub fn words(&self) -> Vec<u32> {
        let (mut records, mut nodes, mut children, mut keys) = (vec![], vec![], vec![], vec![]);
        for (id, members) in &self.classes {
            let mut members = members.clone();
            members.sort();
            records.extend([*id, keys.len() as u32, members.len() as u32]);
            for node in members {
                nodes.extend([node.operator, node.children.len() as u32, children.len() as u32, *id]);
                children.extend(&node.children);
                keys.push(node);
            }
        }
        let mut index: Vec<u32> = (0..keys.len() as u32).collect();
        index.sort_by_key(|x| &keys[*x as usize]);
        let counts = [self.find.len(), self.classes.len(), keys.len(), children.len()].map(|n| n as u32);
        let areas = [&self.find, &records, &nodes, &children, &index];
        let mut words = counts.to_vec();
        let mut at = 9;
        for area in areas {
            words.push(at);
            at += area.len() as u32;
        }
        words.extend(areas.into_iter().flatten());
        words
    }
}

/// A few operators, each with an arity; now and then one operator has two arities, or a number is large.
fn operators(rng: &mut Rng) -> Vec<(u32, usize)> {
    let mut operators: Vec<(u32, usize)> = vec![(rng.word(), 0)];
    for _ in 0..rng.between(1, 5) {
        let arity = if rng.chance(5) { rng.between(4, 8) } else { rng.between(0, 3) };
        let number = if rng.chance(20) { rng.pick(&operators).0 } else { rng.word() };
        operators.push((number, arity));
    }
    operators
}

/// The finds of so many ids of which about a quarter are not canonical, and the canonical ids; an id stands
/// for itself or for any canonical one, smaller or larger.
fn finds(rng: &mut Rng, ids: usize) -> (Vec<u32>, Vec<u32>) {
    let canonical: Vec<u32> = (0..ids as u32).filter(|_| !rng.chance(25)).collect();
    let canonical = if canonical.is_empty() && ids > 0 { vec![rng.below(ids) as u32] } else { canonical };
    let find = (0..ids as u32).map(|x| if canonical.contains(&x) { x } else { *rng.pick(&canonical) }).collect();
    (find, canonical)
}

/// A table of random nodes with up to so many ids and so many nodes a class on average; children are any classes,
/// so there are cycles.
pub fn random(rng: &mut Rng, most_ids: usize, nodes_a_class: usize) -> Plan {
    let ids = if rng.chance(1) { 0 } else { rng.between(1, most_ids) };
    let (find, canonical) = finds(rng, ids);
    let operators = operators(rng);
    let mut taken: BTreeSet<Node> = BTreeSet::new();
    let mut classes: Vec<(u32, Vec<Node>)> = canonical.iter().map(|id| (*id, vec![])).collect();
    for (_, nodes) in &mut classes {
        let mut fresh = 100;
        while nodes.is_empty() || rng.chance(100 - 100 / nodes_a_class.max(1)) {
            let (operator, arity) = *rng.pick(&operators);
            let mut node = Node { operator, children: (0..arity).map(|_| *rng.pick(&canonical)).collect() };
            if nodes.is_empty() && taken.contains(&node) {
                node = Node { operator: fresh, children: vec![] };
                fresh += 1;
            }
            if taken.insert(node.clone()) {
                nodes.push(node);
            }
        }
    }
    Plan { find, classes }
}

/// A table of few classes in which most nodes that two operators can make stand somewhere, so that patterns have
/// many rows.
pub fn dense(rng: &mut Rng) -> Plan {
    let ids: Vec<u32> = (0..rng.between(2, 6) as u32).collect();
    let mut classes: Vec<(u32, Vec<Node>)> =
        ids.iter().map(|id| (*id, vec![Node { operator: 100 + id, children: vec![] }])).collect();
    for a in &ids {
        for children in [vec![*a]].into_iter().chain(ids.iter().map(|b| vec![*a, *b])) {
            if rng.chance(80) {
                let place = rng.below(classes.len());
                classes[place].1.push(Node { operator: children.len() as u32, children });
            }
        }
    }
    Plan { find: ids, classes }
}

/// A table with one class of exactly so many nodes: mostly one operator at one arity, with smaller and larger
/// operators and other arities of the same one around it.
pub fn wide(rng: &mut Rng, count: usize) -> Plan {
    let leaves = (count as f64).sqrt() as usize + 3;
    let wide_id = rng.below(leaves + 1) as u32;
    let ids: Vec<u32> = (0..=leaves as u32).collect();
    let leaf = |id: u32| (id, vec![Node { operator: 1000 + id, children: vec![] }]);
    let mut classes: Vec<(u32, Vec<Node>)> = ids.iter().map(|id| leaf(*id)).collect();
    let mut nodes: BTreeSet<Node> = BTreeSet::new();
    let blocks = [(0, 1), (6, 1), (7, 1), (7, 2), (7, 2), (7, 2), (7, 3), (8, 1), (u32::MAX, 2)];
    let single = rng.chance(30);
    while nodes.len() < count {
        let (operator, arity) = if single { (7, 2) } else { *rng.pick(&blocks) };
        nodes.insert(Node { operator, children: (0..arity).map(|_| *rng.pick(&ids)).collect() });
    }
    classes[wide_id as usize].1 = nodes.into_iter().collect();
    Plan { find: ids, classes }
}
