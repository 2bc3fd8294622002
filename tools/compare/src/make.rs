//! Inputs, made from a seed: good ones, ones at the limits, and damaged ones.

pub mod damage;
pub mod egraph;
pub mod limits;
pub mod list;
pub mod multi;
pub mod pattern;
pub mod rng;
pub mod table;
pub mod term;
