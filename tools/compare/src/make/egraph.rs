//! Good tables from an e-graph that has been added to and joined, and the map of its growth.

use super::rng::Rng;
use super::table::Plan;
use crate::oracle::Graph;
use crate::reading::table::Node;
use egg::{Cycles, Id, Language};

/// The plan of a rebuilt e-graph.
pub fn plan(graph: &Graph) -> Plan {
    let number = |id: Id| usize::from(id) as u32;
    let node =
        |n: &egg::Node| Node { operator: n.operator, children: n.children().iter().map(|c| number(*c)).collect() };
    Plan {
        find: (0..graph.id_count()).map(|x| number(graph.find(Id::from(x)))).collect(),
        classes: graph.classes().map(|class| (number(class.id), class.nodes.iter().map(node).collect())).collect(),
    }
}

/// An e-graph after so many random additions and about a third as many joins.
pub fn random(rng: &mut Rng, steps: usize) -> Graph {
    let mut graph = Graph::new(Cycles { allowed: true });
    grow(rng, &mut graph, steps);
    graph
}

/// Adds so many random nodes and joins about a third as many pairs of classes, then rebuilds.
pub fn grow(rng: &mut Rng, graph: &mut Graph, steps: usize) {
    for _ in 0..steps {
        let any = |rng: &mut Rng, graph: &Graph| Id::from(rng.below(graph.id_count()));
        let arity = if graph.id_count() == 0 { 0 } else { rng.below(3) };
        let operator = (10 * arity + rng.below(3)) as u32;
        let children = (0..arity).map(|_| any(rng, graph)).collect();
        graph.add(egg::Node { operator, children });
        if rng.chance(30) {
            let (a, b) = (any(rng, graph), any(rng, graph));
            graph.union(a, b);
        }
    }
    graph.rebuild();
}

/// A table, the table after growth, and the map between them.
pub fn growth(rng: &mut Rng, steps: usize) -> (Vec<u32>, Vec<u32>, Vec<u32>) {
    let mut graph = random(rng, steps);
    let first = plan(&graph);
    let more = rng.below(steps + 1);
    grow(rng, &mut graph, more);
    let second = plan(&graph);
    let map = first.classes.iter().map(|(id, _)| second.find[*id as usize]).collect();
    (first.words(), second.words(), map)
}
