//! Compiling: the parts of a search to instructions, by document 01's tie rule.

use super::multi::Part;
use super::pattern::{Pattern, PatternNode};
use std::cmp::Reverse;
use std::collections::BTreeSet;

/// An instruction; `part` is the place of its pattern.
#[derive(Clone, Copy, Debug, PartialEq, Eq)]
pub enum Instruction {
    Bind { part: usize, node: usize, from: usize, to: usize },
    Compare { part: usize, from: usize, to: usize },
    Lookup { part: usize, node: usize, from: usize },
    Scan { part: usize, to: usize },
}

impl Instruction {
    /// The five words of the instruction: kind, pattern, node, from, to.
    pub fn words(self) -> [u32; 5] {
        let words = match self {
            Instruction::Bind { part, node, from, to } => [0, part, node, from, to],
            Instruction::Compare { part, from, to } => [1, part, 0, from, to],
            Instruction::Lookup { part, node, from } => [2, part, node, from, 0],
            Instruction::Scan { part, to } => [3, part, 0, 0, to],
        };
        words.map(|word| word as u32)
    }
}

/// A program: its instructions, and the register of each variable in order of first binding.
#[derive(Clone, Debug, Default)]
pub struct Program {
    pub instructions: Vec<Instruction>,
    pub variables: Vec<(u32, usize)>,
}

impl Program {
    /// The variable's register, or nothing while it is not bound.
    pub fn register(&self, variable: u32) -> Option<usize> {
        self.variables.iter().find(|(v, _)| *v == variable).map(|(_, r)| *r)
    }
}

/// A work item: an operator node of the pattern, to be matched with a register's class.
type Item = (usize, usize);

/// The variables below each node.
fn free_variables(pattern: &Pattern) -> Vec<BTreeSet<u32>> {
    let mut free: Vec<BTreeSet<u32>> = vec![];
    for node in &pattern.nodes {
        free.push(match node {
            PatternNode::Variable(v) => BTreeSet::from([*v]),
            PatternNode::Operator(_, children) => children.iter().flat_map(|c| free[*c].clone()).collect(),
        });
    }
    free
}

/// The operators below each node, itself included, shared ones counted each time.
fn sizes(pattern: &Pattern) -> Vec<u64> {
    let mut sizes: Vec<u64> = vec![];
    for node in &pattern.nodes {
        sizes.push(match node {
            PatternNode::Variable(_) => 0,
            PatternNode::Operator(_, children) => 1 + children.iter().map(|c| sizes[*c]).sum::<u64>(),
        });
    }
    sizes
}

/// Meets the pattern's node at the register: binds or compares a variable, notes an operator as work.
fn meet(program: &mut Program, work: &mut Vec<Item>, part: usize, pattern: &Pattern, node: usize, register: usize) {
    match pattern.nodes[node] {
        PatternNode::Variable(v) => match program.register(v) {
            Some(first) => program.instructions.push(Instruction::Compare { part, from: register, to: first }),
            None => program.variables.push((v, register)),
        },
        PatternNode::Operator(..) => work.push((node, register)),
    }
}

/// The program of these parts.
pub fn compile(parts: &[Part]) -> Program {
    let mut program = Program::default();
    let mut next_register = 0;
    for (part, Part { binder, pattern }) in parts.iter().enumerate() {
        let free = free_variables(pattern);
        let sizes = sizes(pattern);
        let mut work = vec![];
        match binder.and_then(|v| program.register(v)) {
            Some(register) => meet(&mut program, &mut work, part, pattern, pattern.root(), register),
            None => {
                let register = next_register;
                next_register += 1;
                if !program.instructions.is_empty() {
                    program.instructions.push(Instruction::Scan { part, to: register });
                }
                meet(&mut program, &mut work, part, pattern, pattern.root(), register);
                if let Some(v) = binder.filter(|v| program.register(*v).is_none()) {
                    program.variables.push((v, register));
                }
            }
        }
        while !work.is_empty() {
            let unbound = |node: usize| free[node].iter().filter(|v| program.register(**v).is_none()).count();
            let key = |(node, register): &Item| {
                let open = unbound(*node);
                (open == 0, open, Reverse(sizes[*node]), Reverse(*node), Reverse(*register))
            };
            let next = (0..work.len()).max_by_key(|i| key(&work[*i])).unwrap();
            let (node, from) = work.remove(next);
            let children = pattern.nodes[node].children();
            if unbound(node) == 0 && !children.is_empty() {
                program.instructions.push(Instruction::Lookup { part, node, from });
                continue;
            }
            let to = next_register;
            next_register += children.len();
            program.instructions.push(Instruction::Bind { part, node, from, to });
            for (i, child) in children.iter().enumerate() {
                meet(&mut program, &mut work, part, pattern, *child, to + i);
            }
        }
    }
    program
}
