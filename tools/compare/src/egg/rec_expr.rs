//! What egg's files need of `RecExpr`: a term as a list of nodes, children before parents.

use crate::symbolic_expressions::Sexp;
use crate::{pretty_print, FromOp, Id, IndexSet, Language};
use std::fmt::{self, Display, Formatter};
use std::ops::{Deref, Index};
use std::str::FromStr;

/// A term: its nodes, children before parents, the root last.
#[derive(Debug, Clone, PartialEq, Eq)]
pub struct RecExpr<L> {
    nodes: Vec<L>,
}

impl<L: Language> RecExpr<L> {
    /// The id of the node, put at the end.
    pub fn add(&mut self, node: L) -> Id {
        self.nodes.push(node);
        self.root()
    }

    /// The id of the last node.
    pub fn root(&self) -> Id {
        Id::from(self.nodes.len() - 1)
    }

    /// The same term with each node once, at its first place.
    pub(crate) fn compact(self) -> Self {
        let mut ids: Vec<Id> = vec![];
        let mut set = IndexSet::default();
        for node in self.nodes {
            let node = node.map_children(|id| ids[usize::from(id)]);
            ids.push(Id::from(set.insert_full(node).0));
        }
        set.into_iter().collect()
    }

    /// The term below the node, of the nodes that it needs and in their order.
    pub(crate) fn extract(&self, root: Id) -> Self {
        let root = usize::from(root);
        let mut needed = vec![false; root + 1];
        needed[root] = true;
        for i in (0..=root).rev() {
            if needed[i] {
                self.nodes[i].for_each(|child| needed[usize::from(child)] = true);
            }
        }
        let mut ids = vec![Id::from(0); root + 1];
        let mut term = RecExpr::default();
        for i in (0..=root).filter(|i| needed[*i]) {
            ids[i] = term.add(self.nodes[i].clone().map_children(|id| ids[usize::from(id)]));
        }
        term
    }
}

impl<L: Language + Display> RecExpr<L> {
    /// The term's text, broken where it is wider than this.
    pub fn pretty(&self, width: usize) -> String {
        let mut text = String::new();
        pretty_print(&mut text, &self.sexp(self.root()), width, 1).unwrap();
        text
    }

    /// The term below the node, in brackets.
    fn sexp(&self, id: Id) -> Sexp {
        let node = &self[id];
        let name = Sexp::String(node.to_string());
        if node.is_leaf() {
            return name;
        }
        let below = node.children().iter().map(|child| self.sexp(*child));
        Sexp::List(std::iter::once(name).chain(below).collect())
    }
}

impl<L: Language + Display> Display for RecExpr<L> {
    fn fmt(&self, f: &mut Formatter<'_>) -> fmt::Result {
        self.sexp(self.root()).fmt(f)
    }
}

impl<L> Default for RecExpr<L> {
    fn default() -> Self {
        RecExpr { nodes: vec![] }
    }
}

impl<L> Deref for RecExpr<L> {
    type Target = [L];
    fn deref(&self) -> &[L] {
        &self.nodes
    }
}

impl<L> AsRef<[L]> for RecExpr<L> {
    fn as_ref(&self) -> &[L] {
        &self.nodes
    }
}

impl<L> Index<Id> for RecExpr<L> {
    type Output = L;
    fn index(&self, id: Id) -> &L {
        &self.nodes[usize::from(id)]
    }
}

impl<L> FromIterator<L> for RecExpr<L> {
    fn from_iter<I: IntoIterator<Item = L>>(iter: I) -> Self {
        RecExpr { nodes: iter.into_iter().collect() }
    }
}

impl<L> IntoIterator for RecExpr<L> {
    type Item = L;
    type IntoIter = std::vec::IntoIter<L>;
    fn into_iter(self) -> Self::IntoIter {
        self.nodes.into_iter()
    }
}

impl<'a, L> IntoIterator for &'a RecExpr<L> {
    type Item = &'a L;
    type IntoIter = std::slice::Iter<'a, L>;
    fn into_iter(self) -> Self::IntoIter {
        self.nodes.iter()
    }
}

/// Why a term could not be read.
#[derive(Debug)]
pub enum RecExprParseError<E> {
    /// A name that is no operator of the language.
    BadOp(E),
    /// A bracket or a name is missing or too many.
    BadBrackets,
}

/// The names and brackets of the text.
fn tokens(text: &str) -> Vec<String> {
    let spaced = text.replace('(', " ( ").replace(')', " ) ");
    spaced.split_whitespace().map(str::to_string).collect()
}

/// Reads one term from the front of the tokens into the nodes; its root's id.
fn read_term<L: FromOp>(
    tokens: &mut impl Iterator<Item = String>,
    nodes: &mut RecExpr<L>,
) -> Result<Option<Id>, RecExprParseError<L::Error>> {
    use RecExprParseError::*;
    let (name, children) = match tokens.next().ok_or(BadBrackets)?.as_str() {
        ")" => return Ok(None),
        "(" => {
            let name = tokens.next().ok_or(BadBrackets)?;
            let mut children = vec![];
            while let Some(child) = read_term(tokens, nodes)? {
                children.push(child);
            }
            (name, children)
        }
        name => (name.to_string(), vec![]),
    };
    Ok(Some(nodes.add(L::from_op(&name, children).map_err(BadOp)?)))
}

impl<L: FromOp> FromStr for RecExpr<L> {
    type Err = RecExprParseError<L::Error>;

    fn from_str(text: &str) -> Result<Self, Self::Err> {
        let mut nodes = RecExpr::default();
        let mut tokens = tokens(text).into_iter();
        match (read_term(&mut tokens, &mut nodes)?, tokens.next()) {
            (Some(_), None) => Ok(nodes),
            _ => Err(RecExprParseError::BadBrackets),
        }
    }
}
