//! What egg's files need of other crates, each under the crate's name; two more are packages of their own.

pub mod indexmap;
pub mod log;
pub mod smallvec;
pub mod symbol_table;
pub mod symbolic_expressions;

/// Stands in for the crate `quanta`.
pub mod quanta {
    pub use std::time::Instant;
}

/// Stands in for the crate `rustc_hash`: the maps here hash nothing.
pub mod rustc_hash {
    #[derive(Clone, Default)]
    pub struct FxBuildHasher;
}
