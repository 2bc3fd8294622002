//! The kinds of run, each a way of making cases.

pub mod apply;
mod limits;
mod maps;
pub mod numbers;
mod patterns;
pub mod rules;
pub mod searches;
mod tables;

use crate::make::rng::Rng;
use crate::run::{Mismatch, Run};

/// One round of a kind.
pub type Round = fn(&mut Rng, &mut Run) -> Result<(), Mismatch>;

/// A kind: its name, one round of it, and how many rounds of the others one round of it stands for.
pub struct Kind {
    pub name: &'static str,
    pub round: Round,
    pub weight: u64,
}

/// All kinds.
pub const KINDS: [Kind; 10] = [
    Kind { name: "numbers", round: numbers::round, weight: u64::MAX },
    Kind { name: "tables", round: tables::round, weight: 1 },
    Kind { name: "patterns", round: patterns::round, weight: 1 },
    Kind { name: "searches", round: searches::lone, weight: 1 },
    Kind { name: "multis", round: searches::multi, weight: 1 },
    Kind { name: "wide", round: searches::wide, weight: 100 },
    Kind { name: "apply", round: apply::round, weight: 1 },
    Kind { name: "maps", round: maps::round, weight: 1 },
    Kind { name: "rules", round: rules::round, weight: 1 },
    Kind { name: "limits", round: limits::round, weight: 5_000 },
];
