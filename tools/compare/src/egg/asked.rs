//! What the comparison asks of egg and egg keeps to itself: programs, substitutions, dry application.

use crate::machine::Program;
use crate::pattern::apply_pat;
use crate::{Cycles, EGraph, Id, Node, PatternAst, Subst, Var};
use std::iter::Peekable;

/// One of egg's instructions, registers as numbers.
#[derive(Debug, Clone, PartialEq, Eq)]
pub enum Instruction {
    Bind { operator: u32, arity: usize, from: u32, to: u32 },
    Compare { from: u32, to: u32 },
    Lookup { term: Term, from: u32 },
    Scan { to: u32 },
}

/// The term of a Lookup, spread out: shared parts stand in it each time.
#[derive(Debug, Clone, PartialEq, Eq)]
pub enum Term {
    Register(u32),
    Operator(u32, Vec<Term>),
}

/// The instructions of the pattern's program.
pub fn program(pattern: &PatternAst<Node>) -> Vec<Instruction> {
    instructions(&Program::compile_from_pat(pattern))
}

/// The instructions of the multipattern's program.
pub fn multi_program(patterns: &[(Var, PatternAst<Node>)]) -> Vec<Instruction> {
    instructions(&Program::compile_from_multi_pat(patterns))
}

/// The substitution's pairs of variable and class, in its order.
pub fn pairs(subst: &Subst) -> Vec<(u32, u32)> {
    let pair = |(var, id): &(Var, Id)| (var.as_u32().expect("a numbered variable"), id.0);
    subst.vec.iter().map(pair).collect()
}

/// The substitution of these pairs as they stand, a variable listed twice included.
pub fn subst(pairs: &[(u32, u32)]) -> Subst {
    Subst { vec: pairs.iter().map(|(var, id)| (Var::from_u32(*var), Id(*id))).collect() }
}

/// The class of the pattern's root under the substitution, after egg has added what was missing.
pub fn applied(graph: &mut EGraph<Node, Cycles>, pattern: &PatternAst<Node>, subst: &Subst) -> Id {
    let mut ids = vec![Id(0); pattern.len()];
    apply_pat(&mut ids, pattern, graph, subst)
}

/// The instructions, read from the text that egg's `Debug` gives, since the fields are private.
fn instructions(program: &Program<Node>) -> Vec<Instruction> {
    let text = format!("{program:?}");
    let spaced: String = text
        .chars()
        .map(|c| match c {
            '[' => " [ ".to_string(),
            ']' => " ] ".to_string(),
            '{' | '}' | '(' | ')' | ',' | ':' => " ".to_string(),
            c => c.to_string(),
        })
        .collect();
    let mut words = spaced.split_whitespace().peekable();
    let mut found = vec![];
    while let Some(word) = words.next() {
        match word {
            "Bind" => {
                words.next();
                let (operator, children) = node(&mut words);
                let (from, to) = (register(&mut words), register(&mut words));
                found.push(Instruction::Bind { operator, arity: children.len(), from, to });
            }
            "Compare" => {
                let (from, to) = (register(&mut words), register(&mut words));
                found.push(Instruction::Compare { from, to });
            }
            "Lookup" => {
                words.next();
                let term = term(&mut words);
                found.push(Instruction::Lookup { term, from: register(&mut words) });
            }
            "Scan" => found.push(Instruction::Scan { to: register(&mut words) }),
            "subst" => break,
            _ => {}
        }
    }
    found
}

/// The number that comes next.
fn number<'a>(words: &mut impl Iterator<Item = &'a str>) -> u32 {
    words.next().and_then(|word| word.parse().ok()).expect("a number in egg's text")
}

/// The register that comes next, after its field's name and `Reg`.
fn register<'a>(words: &mut impl Iterator<Item = &'a str>) -> u32 {
    words.find(|word| *word == "Reg");
    number(words)
}

/// The operator and the children of the node that comes next.
fn node<'a>(words: &mut Peekable<impl Iterator<Item = &'a str>>) -> (u32, Vec<u32>) {
    let operator = number(words);
    words.next();
    let mut children = vec![];
    while words.next_if_eq(&"]").is_none() {
        children.push(number(words));
    }
    (operator, children)
}

/// The term that the list of nodes and registers coming next spells, its last one the root.
fn term<'a>(words: &mut Peekable<impl Iterator<Item = &'a str>>) -> Term {
    words.next();
    let mut terms: Vec<Term> = vec![];
    while let Some(word) = words.next().filter(|word| *word != "]") {
        terms.push(if word == "Reg" {
            Term::Register(register(words))
        } else {
            let (operator, children) = node(words);
            Term::Operator(operator, children.iter().map(|c| terms[*c as usize].clone()).collect())
        });
    }
    terms.pop().expect("a term with a root")
}
