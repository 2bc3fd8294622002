//! A run: every case is checked and counted, and the first mismatch is made small, shown, and ends the run.

use crate::agreement;
use crate::case::Case;
use crate::make::rng::Rng;
use crate::sample::Sample;
use crate::shrink;
use crate::tally::Tally;
use std::cell::RefCell;
use std::panic::{catch_unwind, set_hook, AssertUnwindSafe};

thread_local! {
    static LAST_PANIC: RefCell<String> = const { RefCell::new(String::new()) };
}

/// From now on a panic writes nothing, and what it says is kept.
pub fn keep_panics() {
    set_hook(Box::new(|info| LAST_PANIC.with(|last| *last.borrow_mut() = info.to_string())));
}

/// What the last panic said.
pub fn last_panic() -> String {
    LAST_PANIC.with(|last| last.borrow().clone())
}

/// Where a run stands: what it has counted, the sample if one is kept, the kind, and the arguments that repeat
/// the round.
#[derive(Default)]
pub struct Run {
    pub tally: Tally,
    pub sample: Option<Sample>,
    pub kind: &'static str,
    pub place: String,
}

/// A mismatch, made small.
pub struct Mismatch(pub String);

impl Run {
    /// Checks the case and counts it.
    pub fn check(&mut self, rng: &mut Rng, case: Case) -> Result<(), Mismatch> {
        let salt = rng.next();
        let Err(said) = checked(&case, salt, &mut self.tally) else {
            if let Some(sample) = &mut self.sample {
                sample.offer(&case, self.kind, &self.place);
            }
            return Ok(());
        };
        let small = shrink::smallest(&case, &|smaller| checked(smaller, salt, &mut Tally::default()).is_err());
        let small_said = checked(&small, salt, &mut Tally::default()).expect_err("a mismatch");
        Err(Mismatch(format!(
            "MISMATCH in {}\n{said}\n\nthe input as it came: {} words\nthe smallest input found:\n{small}\n{small_said}",
            self.place,
            shrink::weight(&case).0,
        )))
    }
}

/// Whether all agree on the case; a panic is a mismatch.
fn checked(case: &Case, salt: u64, tally: &mut Tally) -> Result<(), String> {
    let result = catch_unwind(AssertUnwindSafe(|| agreement::check(case, salt, tally)));
    result.unwrap_or_else(|_| Err(format!("a panic: {}", last_panic())))
}
