//! A plain reading of document 01: what every entry must answer, slow, and written apart from the library.

pub mod compile;
pub mod entries;
pub mod meaning;
pub mod multi;
pub mod pattern;
pub mod run;
pub mod search;
pub mod table;
