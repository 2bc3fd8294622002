//! The small e-graph: what egg's files need of `EGraph` and `Analysis`, slow and plain.

use crate::eclass::EClass;
use crate::{Id, Language, PatternAst, Subst, Symbol};
use std::collections::{BTreeMap, HashMap};
use std::ops::Index;

/// What egg's files need of an analysis.
pub trait Analysis<L: Language>: Sized {
    /// What a class carries.
    type Data: Clone + Default;

    /// Whether a match may lead back to its own class.
    fn allow_ematching_cycles(&self) -> bool;
}

/// The analysis that allows or bars cycles, and nothing else.
#[derive(Clone, Copy)]
pub struct Cycles {
    pub allowed: bool,
}

impl<L: Language> Analysis<L> for Cycles {
    type Data = ();

    fn allow_ematching_cycles(&self) -> bool {
        self.allowed
    }
}

/// An e-graph: ids, each with the one it stands for, and the classes of those that stand for themselves.
#[derive(Clone)]
pub struct EGraph<L: Language, N: Analysis<L>> {
    pub analysis: N,
    pub(crate) clean: bool,
    find: Vec<Id>,
    classes: BTreeMap<Id, EClass<L, N::Data>>,
    memo: HashMap<L, Id>,
    order: Vec<Id>,
}

impl<L: Language, N: Analysis<L>> EGraph<L, N> {
    /// The empty e-graph.
    pub fn new(analysis: N) -> Self {
        EGraph { analysis, clean: true, find: vec![], classes: BTreeMap::new(), memo: HashMap::new(), order: vec![] }
    }

    /// The e-graph of these ids and classes, which must be congruent already, nodes sorted.
    pub fn from_classes(analysis: N, find: Vec<Id>, classes: Vec<(Id, Vec<L>)>) -> Self {
        let mut graph = Self::new(analysis);
        graph.find = find;
        for (id, nodes) in classes {
            graph.order.push(id);
            graph.memo.extend(nodes.iter().map(|n| (n.clone(), id)));
            graph.classes.insert(id, EClass { id, nodes, data: N::Data::default(), parents: vec![] });
        }
        graph
    }

    /// From now on `classes` and `classes_for_op` go by this order.
    pub fn set_class_order(&mut self, order: Vec<Id>) {
        self.order = order;
    }

    /// The number of ids ever made.
    pub fn id_count(&self) -> usize {
        self.find.len()
    }

    /// The id that stands for this one.
    pub fn find(&self, id: Id) -> Id {
        let up = self.find[usize::from(id)];
        if up == id {
            id
        } else {
            self.find(up)
        }
    }

    /// The classes, by rising id unless another order was set.
    pub fn classes(&self) -> impl Iterator<Item = &EClass<L, N::Data>> {
        self.order.iter().map(|id| &self.classes[id])
    }

    /// The classes that have a node of this operator, or nothing if none has.
    pub(crate) fn classes_for_op(&self, op: &L::Discriminant) -> Option<Vec<Id>> {
        let has = |class: &&EClass<L, N::Data>| class.nodes.iter().any(|n| n.discriminant() == *op);
        let ids: Vec<Id> = self.classes().filter(has).map(|class| class.id).collect();
        (!ids.is_empty()).then_some(ids)
    }

    /// The node with its children's canonical ids.
    fn canonical(&self, node: L) -> L {
        node.map_children(|id| self.find(id))
    }

    /// The class of the node, or nothing.
    pub fn lookup(&self, node: L) -> Option<Id> {
        self.memo.get(&self.canonical(node)).map(|id| self.find(*id))
    }

    /// The class of the node, a new one if there is none.
    pub fn add(&mut self, node: L) -> Id {
        let node = self.canonical(node);
        if let Some(id) = self.lookup(node.clone()) {
            return id;
        }
        let id = Id::from(self.find.len());
        self.find.push(id);
        self.order.push(id);
        self.memo.insert(node.clone(), id);
        self.classes.insert(id, EClass { id, nodes: vec![node], data: N::Data::default(), parents: vec![] });
        id
    }

    /// Whether the two were different classes; they are one afterwards, under the first one's id.
    pub fn union(&mut self, a: Id, b: Id) -> bool {
        let (a, b) = (self.find(a), self.find(b));
        if a != b {
            self.clean = false;
            self.find[usize::from(b)] = a;
            let gone = self.classes.remove(&b).unwrap();
            self.classes.get_mut(&a).unwrap().nodes.extend(gone.nodes);
            self.order.retain(|id| *id != b);
        }
        a != b
    }

    /// Makes the graph congruent again: equal nodes in one class, each once, sorted, children canonical.
    pub fn rebuild(&mut self) {
        while let Some((a, b)) = self.memo_or_equal_pair() {
            self.union(a, b);
        }
        for class in self.classes.values_mut() {
            class.nodes.sort();
            class.nodes.dedup();
        }
        self.order = self.classes.keys().copied().collect();
        self.clean = true;
    }

    /// Two different classes with an equal node; nothing if there are none, and then the memo is right.
    fn memo_or_equal_pair(&mut self) -> Option<(Id, Id)> {
        self.memo.clear();
        let ids: Vec<Id> = self.classes.keys().copied().collect();
        for id in ids {
            let nodes = std::mem::take(&mut self.classes.get_mut(&id).unwrap().nodes);
            let nodes: Vec<L> = nodes.into_iter().map(|n| self.canonical(n)).collect();
            let other = nodes.iter().find_map(|n| {
                let before = *self.memo.entry(n.clone()).or_insert(id);
                (before != id).then_some(before)
            });
            self.classes.get_mut(&id).unwrap().nodes = nodes;
            if let Some(other) = other {
                return Some((other, id));
            }
        }
        None
    }

    /// No: explanations are not part of the comparison.
    pub(crate) fn are_explanations_enabled(&self) -> bool {
        false
    }

    /// Never called, since explanations are off.
    pub(crate) fn union_instantiations(
        &mut self,
        _from: &PatternAst<L>,
        _to: &PatternAst<L>,
        _subst: &Subst,
        _rule_name: impl Into<Symbol>,
    ) -> (Id, bool) {
        unreachable!("explanations are off")
    }
}

impl<L: Language, N: Analysis<L>> Index<Id> for EGraph<L, N> {
    type Output = EClass<L, N::Data>;

    /// The class that the id stands for.
    fn index(&self, id: Id) -> &Self::Output {
        &self.classes[&self.find(id)]
    }
}
