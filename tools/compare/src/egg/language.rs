//! What egg's files need of a language.

use crate::Id;
use std::fmt::Debug;
use std::hash::Hash;

/// The nodes of a language: an operator of some kind, and children.
#[allow(clippy::len_without_is_empty)]
pub trait Language: Debug + Clone + Eq + Ord + Hash {
    /// What tells two operators apart.
    type Discriminant: Debug + Clone + Eq + Hash;

    /// The node's operator.
    fn discriminant(&self) -> Self::Discriminant;

    /// Whether both nodes are equal but for their children's ids.
    fn matches(&self, other: &Self) -> bool;

    /// The children, left to right.
    fn children(&self) -> &[Id];

    /// The children, to be changed.
    fn children_mut(&mut self) -> &mut [Id];

    /// Calls f with each child, left to right.
    fn for_each<F: FnMut(Id)>(&self, f: F) {
        self.children().iter().copied().for_each(f)
    }

    /// The number of children.
    fn len(&self) -> usize {
        self.children().len()
    }

    /// Whether there is no child.
    fn is_leaf(&self) -> bool {
        self.children().is_empty()
    }

    /// Whether f holds of every child.
    fn all<F: FnMut(Id) -> bool>(&self, f: F) -> bool {
        self.children().iter().copied().all(f)
    }

    /// The node with each child replaced by f's answer.
    fn map_children<F: FnMut(Id) -> Id>(mut self, mut f: F) -> Self {
        for child in self.children_mut() {
            *child = f(*child);
        }
        self
    }
}

/// A language whose nodes can be read from text.
pub trait FromOp: Language + Sized {
    /// Why a node could not be read.
    type Error: Debug;

    /// The node of this operator's name and these children.
    fn from_op(op: &str, children: Vec<Id>) -> Result<Self, Self::Error>;
}
