//! Good patterns and multipatterns with a part less.

use crate::make::{multi as make_multi, term};
use crate::reading::pattern::{Pattern, PatternNode};
use crate::reading::{multi, pattern};

/// The good patterns or multipatterns with a part less, none if the words are not good.
pub fn smaller(words: &[u32], is_multi: bool) -> Vec<Vec<u32>> {
    if !is_multi {
        return pattern::read(words).map_or(vec![], |pattern| smaller_patterns(&pattern));
    }
    let Ok(parts) = multi::read(words) else { return vec![] };
    let all: Vec<(u32, Vec<u32>)> =
        parts.iter().map(|part| (part.binder.unwrap_or(0), pattern_words(&part.pattern.nodes))).collect();
    let mut found = vec![];
    for i in 0..all.len() {
        let mut fewer = all.clone();
        fewer.remove(i);
        found.push(make_multi::words(&fewer));
    }
    for (i, part) in parts.iter().enumerate() {
        for words in smaller_patterns(&part.pattern) {
            let mut other = all.clone();
            other[i].1 = words;
            found.push(make_multi::words(&other));
        }
    }
    found
}

/// The pattern with a node made the root, or an operator replaced by a variable, by one of its children or by
/// itself with a child less.
fn smaller_patterns(pattern: &Pattern) -> Vec<Vec<u32>> {
    let nodes = &pattern.nodes;
    let mut found: Vec<Vec<u32>> = (0..pattern.root()).map(|i| pattern_words(&tidy(nodes[..=i].to_vec()))).collect();
    for (i, node) in nodes.iter().enumerate() {
        if let PatternNode::Operator(operator, below) = node {
            let children = below.iter().map(|child| nodes[*child].clone());
            let variables = pattern.variables().chain([0, 1]).map(PatternNode::Variable);
            let fewer = (0..below.len()).map(|gone| {
                let mut below = below.clone();
                below.remove(gone);
                PatternNode::Operator(*operator, below)
            });
            for replacement in children.chain(variables).chain(fewer) {
                let mut nodes = nodes.clone();
                nodes[i] = replacement;
                found.push(pattern_words(&tidy(nodes)));
            }
        }
    }
    found
}

/// The nodes that the last one needs, each once, in their order.
fn tidy(nodes: Vec<PatternNode>) -> Vec<PatternNode> {
    let mut needed = vec![false; nodes.len()];
    needed[nodes.len() - 1] = true;
    for i in (0..nodes.len()).rev() {
        if needed[i] {
            nodes[i].children().iter().for_each(|child| needed[*child] = true);
        }
    }
    let (mut tidy, mut places): (Vec<PatternNode>, Vec<usize>) = (vec![], vec![]);
    for (i, node) in nodes.into_iter().enumerate() {
        let node = match node {
            PatternNode::Operator(operator, below) if needed[i] => {
                PatternNode::Operator(operator, below.iter().map(|child| places[*child]).collect())
            }
            node => node,
        };
        let place = tidy.iter().position(|n| *n == node).unwrap_or(tidy.len());
        if needed[i] && place == tidy.len() {
            tidy.push(node);
        }
        places.push(place);
    }
    tidy
}

/// The words of these nodes.
fn pattern_words(nodes: &[PatternNode]) -> Vec<u32> {
    let record = |node: &PatternNode| match node {
        PatternNode::Variable(v) => (0, *v, vec![]),
        PatternNode::Operator(operator, below) => (1, *operator, below.iter().map(|child| *child as u32).collect()),
    };
    term::words(&nodes.iter().map(record).collect::<Vec<_>>())
}
