//! Stands in for the crate `symbol_table`: strings by their place in one list.

use std::fmt::{self, Debug, Display, Formatter};
use std::sync::Mutex;

static STRINGS: Mutex<Vec<String>> = Mutex::new(Vec::new());

/// A string's place in the list of all strings.
#[derive(Clone, Copy, PartialEq, Eq, PartialOrd, Ord, Hash)]
pub struct GlobalSymbol(usize);

impl From<&str> for GlobalSymbol {
    fn from(text: &str) -> Self {
        let mut strings = STRINGS.lock().unwrap();
        let place = strings.iter().position(|s| s == text);
        GlobalSymbol(place.unwrap_or_else(|| {
            strings.push(text.to_string());
            strings.len() - 1
        }))
    }
}

impl Display for GlobalSymbol {
    fn fmt(&self, f: &mut Formatter<'_>) -> fmt::Result {
        f.write_str(&STRINGS.lock().unwrap()[self.0])
    }
}

impl Debug for GlobalSymbol {
    fn fmt(&self, f: &mut Formatter<'_>) -> fmt::Result {
        Display::fmt(self, f)
    }
}
