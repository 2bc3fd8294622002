//! The Meaning section: instances, and the rows of a search as the assignments that have that meaning.

use super::multi::Part;
use super::pattern::{Pattern, PatternNode};
use super::table::{Node, Table};

/// The instance of the pattern's node under the assignment, or none.
pub fn instance(table: &Table, pattern: &Pattern, node: usize, value: &dyn Fn(u32) -> Option<u32>) -> Option<u32> {
    match &pattern.nodes[node] {
        PatternNode::Variable(v) => value(*v),
        PatternNode::Operator(operator, below) => {
            let children: Option<Vec<u32>> =
                below.iter().map(|child| instance(table, pattern, *child, value)).collect();
            table.lookup(&Node { operator: *operator, children: children? })
        }
    }
}

/// The variables of the parts, binders included, each once, rising.
pub fn variables(parts: &[Part]) -> Vec<u32> {
    let mut all: Vec<u32> = parts.iter().flat_map(|part| part.pattern.variables().chain(part.binder)).collect();
    all.sort();
    all.dedup();
    all
}

/// The assignments that belong to the class, as classes of the variables in rising order; nothing if
/// there are more than `most` assignments to try.
pub fn assignments(table: &Table, parts: &[Part], class: u32, most: u64) -> Option<Vec<Vec<u32>>> {
    let variables = variables(parts);
    let classes: Vec<u32> = table.classes.iter().map(|class| class.id).collect();
    let total = (classes.len() as u64).checked_pow(variables.len() as u32).filter(|total| *total <= most)?;
    let tried = (0..total).map(|number| {
        let digit = |place: usize| number / (classes.len() as u64).pow(place as u32) % classes.len() as u64;
        (0..variables.len()).map(|place| classes[digit(place) as usize]).collect::<Vec<u32>>()
    });
    Some(tried.filter(|values| belongs(table, parts, class, &variables, values)).collect())
}

/// Whether the assignment of these values to these variables belongs to the class.
fn belongs(table: &Table, parts: &[Part], class: u32, variables: &[u32], values: &[u32]) -> bool {
    let value = |v: u32| variables.iter().position(|w| *w == v).map(|place| values[place]);
    parts.iter().enumerate().all(|(i, Part { binder, pattern })| {
        let root = instance(table, pattern, pattern.root(), &value);
        let bound = binder.is_none_or(|v| root.is_some() && root == value(v));
        bound && (i > 0 || root == Some(class))
    })
}
