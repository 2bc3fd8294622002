//! Good tables with a class, a node or an id less.

use crate::make::table::Plan;
use crate::reading::table::{self, Node};

/// The plan of a good table's words, or nothing.
fn plan(words: &[u32]) -> Option<Plan> {
    let table = table::read(words).ok()?;
    Some(Plan { find: table.find, classes: table.classes.into_iter().map(|class| (class.id, class.nodes)).collect() })
}

/// The good tables with a class or a node less, none if the words are no good table.
pub fn smaller(words: &[u32]) -> Vec<Vec<u32>> {
    let Some(plan) = plan(words) else { return vec![] };
    let mut found = vec![];
    for length in [plan.classes.len() / 2, plan.classes.len() / 8, 1] {
        for gone in plan.classes.chunks(length.max(1)) {
            found.push(without(&plan, &|id, _| gone.iter().any(|(g, _)| *g == id)).words());
        }
    }
    for (id, nodes) in &plan.classes {
        for length in [nodes.len() / 2, nodes.len() / 8, 1] {
            for gone in nodes.chunks(length.max(1)) {
                found.push(without(&plan, &|i, node| i == *id && gone.contains(node)).words());
            }
        }
    }
    found
}

/// The plan without the nodes that are gone, and without those that then have a child in no class.
fn without(plan: &Plan, gone: &dyn Fn(u32, &Node) -> bool) -> Plan {
    let mut plan = plan.clone();
    for (id, nodes) in &mut plan.classes {
        nodes.retain(|node| !gone(*id, node));
    }
    loop {
        let before: usize = plan.classes.iter().map(|(_, nodes)| nodes.len()).sum();
        plan.classes.retain(|(_, nodes)| !nodes.is_empty());
        let ids: Vec<u32> = plan.classes.iter().map(|(id, _)| *id).collect();
        for (_, nodes) in &mut plan.classes {
            nodes.retain(|node| node.children.iter().all(|child| ids.contains(child)));
        }
        if before == plan.classes.iter().map(|(_, nodes)| nodes.len()).sum() {
            plan.classes.retain(|(_, nodes)| !nodes.is_empty());
            return mended(plan);
        }
    }
}

/// The plan with every id that stands for no class standing for the first one; no ids if there is no class.
fn mended(mut plan: Plan) -> Plan {
    let ids: Vec<u32> = plan.classes.iter().map(|(id, _)| *id).collect();
    match ids.first() {
        None => plan.find.clear(),
        Some(first) => {
            for (x, find) in plan.find.iter_mut().enumerate() {
                let x = x as u32;
                *find = if ids.contains(&x) { x } else { Some(*find).filter(|f| ids.contains(f)).unwrap_or(*first) };
            }
        }
    }
    plan
}

/// The good table without an id that is not canonical, the ids above it one lower; nothing if there is no such id.
pub fn without_id(words: &[u32], id: u32) -> Option<Vec<u32>> {
    let mut plan = plan(words)?;
    if plan.find.get(id as usize).is_none_or(|find| *find == id) {
        return None;
    }
    let lower = |x: &mut u32| *x -= u32::from(*x > id);
    plan.find.remove(id as usize);
    plan.find.iter_mut().for_each(lower);
    for (class, nodes) in &mut plan.classes {
        lower(class);
        nodes.iter_mut().flat_map(|node| &mut node.children).for_each(lower);
    }
    Some(plan.words())
}
