//! Terms with variables, and their words as patterns.

use super::rng::Rng;

/// A term: a variable, or an operator over terms.
#[derive(Clone, Debug, PartialEq, Eq, PartialOrd, Ord)]
pub enum Term {
    Variable(u32),
    Operator(u32, Vec<Term>),
}

impl Term {
    /// The term's occurrences.
    #[allow(dead_code)]
    pub fn occurrences(&self) -> usize {
        match self {
            Term::Variable(_) => 1,
            Term::Operator(_, below) => 1 + below.iter().map(Term::occurrences).sum::<usize>(),
        }
    }

    /// The term's parts, each once, children before parents.
    fn parts<'a>(&'a self, found: &mut Vec<&'a Term>) {
        if !found.contains(&self) {
            if let Term::Operator(_, below) = self {
                below.iter().for_each(|term| term.parts(found));
            }
            found.push(self);
        }
    }

    /// The pattern's words, its nodes numbered in a random order with children before parents.
    pub fn words(&self, rng: &mut Rng) -> Vec<u32> {
        let mut left = vec![];
        self.parts(&mut left);
        let mut nodes: Vec<&Term> = vec![];
        while !left.is_empty() {
            let is_ready = |term: &Term| match term {
                Term::Variable(_) => true,
                Term::Operator(_, below) => below.iter().all(|t| nodes.contains(&t)),
            };
            let ready: Vec<usize> = (0..left.len()).filter(|i| is_ready(left[*i])).collect();
            nodes.push(left.remove(*rng.pick(&ready)));
        }
        let place = |term: &Term| nodes.iter().position(|t| *t == term).expect("a part of the term") as u32;
        let records = nodes.iter().map(|term| match term {
            Term::Variable(v) => (0, *v, vec![]),
            Term::Operator(operator, below) => (1, *operator, below.iter().map(place).collect()),
        });
        words(&records.collect::<Vec<_>>())
    }
}

/// The pattern's words of these nodes: kind, number, children.
pub fn words(nodes: &[(u32, u32, Vec<u32>)]) -> Vec<u32> {
    let (mut records, mut children) = (vec![], vec![]);
    for (kind, number, below) in nodes {
        records.extend([*kind, *number, below.len() as u32, children.len() as u32]);
        children.extend(below);
    }
    let n = nodes.len() as u32;
    [vec![n, children.len() as u32, 4, 4 + 4 * n], records, children].concat()
}
