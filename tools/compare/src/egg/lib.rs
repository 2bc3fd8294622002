//! egg's own files, compiled unchanged, over a small e-graph written for the comparison.
//!
//! Not at hand, and written here as far as egg's files need it: `EGraph`, `Analysis`, `Language`,
//! `RecExpr`, and the crates that egg uses. egg's `lib.rs` names files that are not at hand, so `Id`
//! is written again below.

include!(concat!(env!("OUT_DIR"), "/egg_files.rs"));

pub mod asked;
mod egraph;
mod language;
mod node;
mod rec_expr;
mod stand_ins;

pub use ::hashbrown::{set_order, Order};
pub use egraph::{Analysis, Cycles, EGraph};
pub use language::{FromOp, Language};
pub use multipattern::*;
pub use node::Node;
pub use pattern::{ENodeOrVar, Pattern, PatternAst, SearchMatches};
pub use rec_expr::{RecExpr, RecExprParseError};
pub use rewrite::{Applier, Condition, ConditionEqual, ConditionalApplier, Rewrite, Searcher};
pub use subst::{Subst, Var};
pub use util::*;

use stand_ins::{indexmap, log, quanta, rustc_hash, smallvec, symbol_table, symbolic_expressions};

/// A class's id, as in egg's lib.rs.
#[derive(Clone, Copy, Default, Ord, PartialOrd, Eq, PartialEq, Hash)]
pub struct Id(u32);

impl From<usize> for Id {
    fn from(n: usize) -> Id {
        Id(n as u32)
    }
}

impl From<Id> for usize {
    fn from(id: Id) -> usize {
        id.0 as usize
    }
}

impl std::fmt::Debug for Id {
    fn fmt(&self, f: &mut std::fmt::Formatter<'_>) -> std::fmt::Result {
        write!(f, "{}", self.0)
    }
}

impl std::fmt::Display for Id {
    fn fmt(&self, f: &mut std::fmt::Formatter<'_>) -> std::fmt::Result {
        write!(f, "{}", self.0)
    }
}
