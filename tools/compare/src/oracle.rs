//! egg's own code, asked with what the plain reading has opened.

use crate::reading::compile::{self, Program};
use crate::reading::multi::Part;
use crate::reading::pattern::{Pattern, PatternNode};
use crate::reading::table::Table;
use egg::asked::{self, Instruction, Term};
use egg::{Applier, Cycles, EGraph, ENodeOrVar, Id, MultiPattern, Node, PatternAst, Rewrite, Searcher, Var};
use std::panic::{catch_unwind, AssertUnwindSafe};

/// The small e-graph over egg's language.
pub type Graph = EGraph<Node, Cycles>;

/// The id of a table's class or of a pattern's node.
fn id(number: u32) -> Id {
    Id::from(number as usize)
}

/// The e-graph of a good table, its classes by rising id.
pub fn graph(table: &Table, cycles_allowed: bool) -> Graph {
    let node = |n: &crate::reading::table::Node| Node {
        operator: n.operator,
        children: n.children.iter().map(|child| id(*child)).collect(),
    };
    let classes = table.classes.iter().map(|class| (id(class.id), class.nodes.iter().map(node).collect()));
    let find = table.find.iter().map(|x| id(*x)).collect();
    EGraph::from_classes(Cycles { allowed: cycles_allowed }, find, classes.collect())
}

/// egg's form of a pattern, node for node.
pub fn ast(pattern: &Pattern) -> PatternAst<Node> {
    let node = |node: &PatternNode| match node {
        PatternNode::Variable(v) => ENodeOrVar::Var(Var::from_u32(*v)),
        PatternNode::Operator(operator, children) => {
            ENodeOrVar::ENode(Node { operator: *operator, children: children.iter().map(|c| id(*c as u32)).collect() })
        }
    };
    pattern.nodes.iter().map(node).collect()
}

/// egg's form of a multipattern's parts.
fn asts(parts: &[Part]) -> Vec<(Var, PatternAst<Node>)> {
    let binder = |part: &Part| Var::from_u32(part.binder.expect("a multipattern's binder"));
    parts.iter().map(|part| (binder(part), ast(&part.pattern))).collect()
}

/// A pattern or a multipattern, as egg compiles it.
pub enum Side {
    Lone(egg::Pattern<Node>),
    Multi(MultiPattern<Node>),
}

/// A row of egg's: the class it was found in, and variables with their classes in egg's order.
#[derive(Clone, Debug, PartialEq, Eq, PartialOrd, Ord)]
pub struct Row {
    pub class: u32,
    pub pairs: Vec<(u32, u32)>,
}

impl Side {
    /// egg's form of the parts; a part without a binder is a lone pattern.
    pub fn new(parts: &[Part]) -> Side {
        match parts {
            [Part { binder: None, pattern }] => Side::Lone(egg::Pattern::new(ast(pattern))),
            parts => Side::Multi(MultiPattern::new(asts(parts))),
        }
    }

    /// egg's searcher.
    fn searcher(&self) -> &dyn Searcher<Node, Cycles> {
        match self {
            Side::Lone(pattern) => pattern,
            Side::Multi(multi) => multi,
        }
    }

    /// The rows that egg finds in the class, or in the whole graph if none is given.
    pub fn rows(&self, graph: &Graph, class: Option<u32>, limit: u64) -> Vec<Row> {
        let found = match class {
            Some(c) => self.searcher().search_eclass_with_limit(graph, id(c), limit as usize).into_iter().collect(),
            None => self.searcher().search_with_limit(graph, limit as usize),
        };
        let row = |class: Id, subst| Row { class: usize::from(class) as u32, pairs: asked::pairs(subst) };
        found.iter().flat_map(|m| m.substs.iter().map(|subst| row(m.eclass, subst))).collect()
    }
}

/// The instructions of egg's program for the parts.
pub fn instructions(parts: &[Part]) -> Vec<Instruction> {
    match parts {
        [Part { binder: None, pattern }] => asked::program(&ast(pattern)),
        parts => asked::multi_program(&asts(parts)),
    }
}

/// The reading's program in the form of egg's instructions.
pub fn as_egg_writes(parts: &[Part], program: &Program) -> Vec<Instruction> {
    let number = |n: usize| n as u32;
    let written = |instruction: &compile::Instruction| match *instruction {
        compile::Instruction::Bind { part, node, from, to } => {
            let PatternNode::Operator(operator, children) = &parts[part].pattern.nodes[node] else {
                unreachable!("a Bind names an operator")
            };
            Instruction::Bind { operator: *operator, arity: children.len(), from: number(from), to: number(to) }
        }
        compile::Instruction::Compare { from, to, .. } => Instruction::Compare { from: number(from), to: number(to) },
        compile::Instruction::Lookup { part, node, from } => {
            Instruction::Lookup { term: term(&parts[part].pattern, node, program), from: number(from) }
        }
        compile::Instruction::Scan { to, .. } => Instruction::Scan { to: number(to) },
    };
    program.instructions.iter().map(written).collect()
}

/// The term below the pattern's node, variables as registers.
fn term(pattern: &Pattern, node: usize, program: &Program) -> Term {
    match &pattern.nodes[node] {
        PatternNode::Variable(v) => Term::Register(program.register(*v).expect("a bound variable") as u32),
        PatternNode::Operator(operator, children) => {
            Term::Operator(*operator, children.iter().map(|child| term(pattern, *child, program)).collect())
        }
    }
}

/// What became of an application in egg.
#[derive(Debug, PartialEq, Eq)]
pub enum Applied {
    /// The root's class, which was there.
    Class(u32),
    /// egg had to add nodes.
    Added,
    /// egg panicked.
    Panicked,
}

/// egg's application of the pattern under the lists of variables and classes.
pub fn applied(table: &Table, pattern: &Pattern, variables: &[u32], classes: &[u32]) -> Applied {
    let mut graph = graph(table, true);
    let ids = graph.id_count();
    let pairs: Vec<(u32, u32)> = variables.iter().copied().zip(classes.iter().copied()).collect();
    let subst = asked::subst(&pairs);
    match catch_unwind(AssertUnwindSafe(|| asked::applied(&mut graph, &ast(pattern), &subst))) {
        Err(_) => Applied::Panicked,
        Ok(_) if graph.id_count() > ids => Applied::Added,
        Ok(class) => Applied::Class(usize::from(class) as u32),
    }
}

/// Whether egg's `Rewrite::new` takes the two sides.
pub fn accepts_rule(left: &[Part], right: &[Part]) -> bool {
    match (Side::new(left), Side::new(right)) {
        (Side::Lone(l), Side::Lone(r)) => accepted(l, r),
        (Side::Lone(l), Side::Multi(r)) => accepted(l, r),
        (Side::Multi(l), Side::Lone(r)) => accepted(l, r),
        (Side::Multi(l), Side::Multi(r)) => accepted(l, r),
    }
}

/// Whether egg's `Rewrite::new` takes this searcher and applier.
fn accepted(
    left: impl Searcher<Node, Cycles> + Send + Sync + 'static,
    right: impl Applier<Node, Cycles> + Send + Sync + 'static,
) -> bool {
    Rewrite::new("rule", left, right).is_ok()
}
