//! Patterns that have a match in a table, and patterns that may have none.

use super::rng::Rng;
use super::term::Term;
use crate::reading::table::Table;

/// The variables used so far, each with the class that it would have in a match.
#[derive(Default)]
pub struct Variables(pub Vec<(u32, u32)>);

impl Variables {
    /// A variable for the class: one that has it already, a new one, or now and then any.
    pub fn for_class(&mut self, rng: &mut Rng, class: u32) -> u32 {
        let known: Vec<u32> = self.0.iter().filter(|(_, c)| *c == class).map(|(v, _)| *v).collect();
        if !known.is_empty() && rng.chance(60) {
            return *rng.pick(&known);
        }
        if !self.0.is_empty() && rng.chance(3) {
            return rng.pick(&self.0).0;
        }
        let fresh = if rng.chance(5) { rng.word() } else { self.0.len() as u32 };
        if self.0.iter().all(|(v, _)| *v != fresh) {
            self.0.push((fresh, class));
        }
        fresh
    }
}

/// How large a pattern may become.
pub struct Size {
    pub depth: usize,
    pub operators: usize,
}

/// A size: small for the most part, now and then as large as a pattern can be.
pub fn size(rng: &mut Rng) -> Size {
    match rng.below(20) {
        0 => Size { depth: 30, operators: 60 },
        1..=4 => Size { depth: 6, operators: 12 },
        _ => Size { depth: 3, operators: 5 },
    }
}

/// A term that matches the class unless a variable went astray.
pub fn matching(rng: &mut Rng, table: &Table, class: u32, variables: &mut Variables, size: &mut Size) -> Term {
    if size.depth == 0 || size.operators == 0 || rng.chance(25) {
        return Term::Variable(variables.for_class(rng, class));
    }
    operator_matching(rng, table, class, variables, size)
}

/// A term with an operator at its root that matches the class unless a variable went astray.
pub fn operator_matching(rng: &mut Rng, table: &Table, class: u32, variables: &mut Variables, size: &mut Size) -> Term {
    size.operators = size.operators.saturating_sub(1);
    size.depth = size.depth.saturating_sub(1);
    let node = rng.pick(&table.classes[table.place(class)].nodes).clone();
    let below = node.children.iter().map(|child| matching(rng, table, *child, variables, size)).collect();
    size.depth += 1;
    Term::Operator(node.operator, below)
}

/// A term of the table's operators and few variables, whatever it matches.
pub fn random(rng: &mut Rng, table: &Table, size: &mut Size) -> Term {
    let nodes: Vec<_> = table.classes.iter().flat_map(|class| &class.nodes).collect();
    if size.depth == 0 || size.operators == 0 || nodes.is_empty() || rng.chance(30) {
        return Term::Variable(rng.below(3) as u32);
    }
    size.operators -= 1;
    size.depth -= 1;
    let node = *rng.pick(&nodes);
    let arity = if rng.chance(5) { rng.below(4) } else { node.children.len() };
    let below = (0..arity).map(|_| random(rng, table, size)).collect();
    size.depth += 1;
    Term::Operator(node.operator, below)
}

/// A term for a class of the table, or any if there is none; most of them match.
pub fn any(rng: &mut Rng, table: &Table) -> Term {
    let mut size = size(rng);
    if table.classes.is_empty() || rng.chance(20) {
        return random(rng, table, &mut size);
    }
    let class = rng.pick(&table.classes).id;
    let mut variables = Variables::default();
    if rng.chance(95) {
        operator_matching(rng, table, class, &mut variables, &mut size)
    } else {
        matching(rng, table, class, &mut variables, &mut size)
    }
}
