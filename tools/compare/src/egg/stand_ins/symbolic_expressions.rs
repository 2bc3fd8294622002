//! Stands in for the crate `symbolic_expressions`: terms in brackets.

use std::fmt::{self, Display, Formatter};

/// A term in brackets, or a name.
pub enum Sexp {
    List(Vec<Sexp>),
    String(String),
}

impl Display for Sexp {
    fn fmt(&self, f: &mut Formatter<'_>) -> fmt::Result {
        match self {
            Sexp::String(name) => f.write_str(name),
            Sexp::List(items) => {
                let items: Vec<String> = items.iter().map(Sexp::to_string).collect();
                write!(f, "({})", items.join(" "))
            }
        }
    }
}
