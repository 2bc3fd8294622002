//! The pattern: words to nodes, or the refusal number 7 to 9.

use super::table::{require, MAX_ARITY};

/// The most nodes of a pattern.
pub const MAX_NODES: u32 = 64;
/// The most children of a pattern.
pub const MAX_CHILDREN: u32 = 512;
/// The most occurrences of a pattern, or over a multipattern.
pub const MAX_OCCURRENCES: u64 = 256;

/// A pattern's node: a variable's number, or an operator's and its children's node numbers.
#[derive(Clone, Debug, PartialEq, Eq)]
pub enum PatternNode {
    Variable(u32),
    Operator(u32, Vec<usize>),
}

impl PatternNode {
    /// The children's node numbers, none for a variable.
    pub fn children(&self) -> &[usize] {
        match self {
            PatternNode::Variable(_) => &[],
            PatternNode::Operator(_, children) => children,
        }
    }
}

/// A good pattern: its nodes, the root last.
#[derive(Clone, Debug, PartialEq, Eq)]
pub struct Pattern {
    pub nodes: Vec<PatternNode>,
}

impl Pattern {
    /// The root's node number.
    pub fn root(&self) -> usize {
        self.nodes.len() - 1
    }

    /// Whether the pattern is one variable and nothing else.
    pub fn is_one_variable(&self) -> bool {
        matches!(self.nodes[..], [PatternNode::Variable(_)])
    }

    /// The variables, each as often as it has a node, by node number.
    pub fn variables(&self) -> impl Iterator<Item = u32> + '_ {
        self.nodes.iter().filter_map(|node| match node {
            PatternNode::Variable(v) => Some(*v),
            PatternNode::Operator(..) => None,
        })
    }

    /// The occurrences at the root, shared children counted each time; the largest number if they are more.
    pub fn occurrences(&self) -> u64 {
        let mut at: Vec<u64> = vec![];
        for node in &self.nodes {
            let below = node.children().iter().map(|child| at[*child]);
            at.push(below.fold(1, u64::saturating_add));
        }
        at[self.root()]
    }
}

/// The pattern of these words, or its refusal number.
pub fn read(words: &[u32]) -> Result<Pattern, u32> {
    require(words.len() >= 4, 7)?;
    let (n, k) = (words[0], words[1]);
    require((1..=MAX_NODES).contains(&n) && k <= MAX_CHILDREN, 8)?;
    let (n, k) = (n as usize, k as usize);
    require(words[2] == 4 && words[3] as usize == 4 + 4 * n, 7)?;
    require(words.len() == 4 + 4 * n + k, 7)?;

    let (records, children) = words[4..].split_at(4 * n);
    let mut nodes: Vec<PatternNode> = vec![];
    let mut next_child = 0;
    for record in records.chunks(4) {
        let (kind, number, arity, first) = (record[0], record[1], record[2], record[3]);
        require(kind <= 1, 9)?;
        require(arity <= if kind == 0 { 0 } else { MAX_ARITY }, 9)?;
        require(first as usize == next_child, 9)?;
        next_child += arity as usize;
        require(next_child <= k, 9)?;
        let below: Vec<usize> = children[first as usize..next_child].iter().map(|c| *c as usize).collect();
        require(below.iter().all(|child| *child < nodes.len()), 9)?;
        let node = if kind == 0 { PatternNode::Variable(number) } else { PatternNode::Operator(number, below) };
        require(!nodes.contains(&node), 9)?;
        nodes.push(node);
    }
    require(next_child == k, 9)?;
    require((0..n as u32 - 1).all(|x| children.contains(&x)), 9)?;

    let pattern = Pattern { nodes };
    require(pattern.occurrences() <= MAX_OCCURRENCES, 8)?;
    Ok(pattern)
}
