//! The language of the tables: an operator's number, and children.

use crate::{Id, Language};
use std::cmp::Ordering;
use std::fmt::{self, Debug, Formatter};

/// A node; as in egg's `SymbolLang`, two nodes match if operator and arity are equal.
#[derive(Clone, PartialEq, Eq, Hash)]
pub struct Node {
    pub operator: u32,
    pub children: Vec<Id>,
}

impl Language for Node {
    type Discriminant = u32;

    fn discriminant(&self) -> u32 {
        self.operator
    }

    fn matches(&self, other: &Self) -> bool {
        self.operator == other.operator && self.children.len() == other.children.len()
    }

    fn children(&self) -> &[Id] {
        &self.children
    }

    fn children_mut(&mut self) -> &mut [Id] {
        &mut self.children
    }
}

impl Ord for Node {
    /// By operator, arity, children left to right.
    fn cmp(&self, other: &Self) -> Ordering {
        let key = |n: &Self| (n.operator, n.children.len());
        key(self).cmp(&key(other)).then_with(|| self.children.cmp(&other.children))
    }
}

impl PartialOrd for Node {
    fn partial_cmp(&self, other: &Self) -> Option<Ordering> {
        Some(self.cmp(other))
    }
}

impl Debug for Node {
    /// `operator[children]`, which `asked` reads back.
    fn fmt(&self, f: &mut Formatter<'_>) -> fmt::Result {
        write!(f, "{}{:?}", self.operator, self.children)
    }
}
