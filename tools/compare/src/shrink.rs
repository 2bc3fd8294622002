//! A mismatch made small: parts are taken away and words lowered as long as the mismatch stays.

mod pattern;
mod table;

use crate::case::{Case, Entry};
use std::time::{Duration, Instant};

/// How long a mismatch is made smaller.
const PATIENCE: Duration = Duration::from_secs(60);

/// A case's weight, the first part first: words, the sum of the words, the sum of the numbers.
pub fn weight(case: &Case) -> (usize, u128, u128) {
    let words = case.slices.iter().chain([&case.buffer]);
    let sum = words.clone().flatten().map(|word| u128::from(*word)).sum();
    (words.map(Vec::len).sum(), sum, case.numbers.iter().map(|n| u128::from(*n)).sum())
}

/// The smallest case found, by taking away, for which `differs` still holds.
pub fn smallest(case: &Case, differs: &dyn Fn(&Case) -> bool) -> Case {
    let start = Instant::now();
    let mut best = case.clone();
    loop {
        let lighter = |c: &Case| weight(c) < weight(&best);
        let in_time = |_: &Case| start.elapsed() < PATIENCE;
        let found = candidates(&best).take_while(in_time).filter(lighter).find(|c| differs(c));
        match found {
            Some(smaller) => best = smaller,
            None => return best,
        }
    }
}

/// What a slice of a case is.
enum Slice {
    Table,
    Pattern { is_multi: bool },
    List,
}

/// What the slice at this place is.
fn slice(case: &Case, place: usize) -> Slice {
    use Entry::*;
    match (case.entry, place) {
        (CheckMap, 0 | 1)
        | (CheckTable | SearchClass | SearchTable | SearchClassMulti | SearchTableMulti | DryApply, 0) => Slice::Table,
        (SearchClass | SearchTable | DryApply, 1) => Slice::Pattern { is_multi: false },
        (SearchClassMulti | SearchTableMulti, 1) => Slice::Pattern { is_multi: true },
        (CheckRule, _) => Slice::Pattern { is_multi: case.numbers[place] != 0 },
        (Program, _) => Slice::Pattern { is_multi: case.numbers[0] != 0 },
        _ => Slice::List,
    }
}

/// The cases with one thing taken away or lowered, the larger steps first.
fn candidates(case: &Case) -> impl Iterator<Item = Case> + '_ {
    let places = 0..case.slices.len();
    let by_form = places.clone().flat_map(move |place| {
        let words = &case.slices[place];
        let smaller: Vec<Vec<u32>> = match slice(case, place) {
            Slice::Table => table::smaller(words),
            Slice::Pattern { is_multi } => pattern::smaller(words, is_multi),
            Slice::List => vec![],
        };
        smaller.into_iter().map(move |words| with_slice(case, place, words))
    });
    let renamed = (0..ids(case)).filter_map(move |id| without_id(case, id));
    let cut = places.clone().flat_map(move |place| cuts(&case.slices[place]).map(move |w| with_slice(case, place, w)));
    let lowered = places.flat_map(move |place| lowerings(&case.slices[place]).map(move |w| with_slice(case, place, w)));
    let numbers = (0..case.numbers.len()).flat_map(move |place| {
        let n = case.numbers[place];
        [0, 1, n / 2, n.saturating_sub(1)].into_iter().map(move |smaller| {
            let mut case = case.clone();
            case.numbers[place] = smaller;
            case
        })
    });
    let buffers = cuts(&case.buffer).chain(lowerings(&case.buffer)).map(move |buffer| Case { buffer, ..case.clone() });
    by_form.chain(renamed).chain(cut).chain(numbers).chain(buffers).chain(lowered)
}

/// The case with other words in a slice.
fn with_slice(case: &Case, place: usize, words: Vec<u32>) -> Case {
    let mut case = case.clone();
    case.slices[place] = words;
    case
}

/// The words with a run taken out: half of them, then ever shorter runs.
fn cuts(words: &[u32]) -> impl Iterator<Item = Vec<u32>> + '_ {
    let lengths = std::iter::successors(Some(words.len().div_ceil(2)), |l| (*l > 1).then(|| l.div_ceil(2)));
    lengths.filter(|l| *l > 0).flat_map(move |length| {
        let starts = (0..words.len()).step_by(length);
        starts.map(move |start| [&words[..start], &words[(start + length).min(words.len())..]].concat())
    })
}

/// The words with one of them lowered.
fn lowerings(words: &[u32]) -> impl Iterator<Item = Vec<u32>> + '_ {
    (0..words.len()).flat_map(move |place| {
        let word = words[place];
        [0, 1, word / 2, word.saturating_sub(1)].into_iter().filter(move |w| *w < word).map(move |lower| {
            let mut words = words.to_vec();
            words[place] = lower;
            words
        })
    })
}

/// The ids of the case's first table, none if the case is of another kind.
fn ids(case: &Case) -> u32 {
    match slice(case, 0) {
        Slice::Table if case.entry != Entry::CheckMap => case.slices[0].first().map_or(0, |ids| *ids.min(&256)),
        _ => 0,
    }
}

/// The case without an id that is not canonical, the ids above it one lower; nothing if the table doesn't allow it.
fn without_id(case: &Case, id: u32) -> Option<Case> {
    let lower = |x: u32| if x > id { x - 1 } else { x };
    let mut case = case.clone();
    case.slices[0] = table::without_id(&case.slices[0], id)?;
    if matches!(case.entry, Entry::SearchClass | Entry::SearchClassMulti) {
        case.numbers[0] = u64::from(lower(case.numbers[0] as u32));
    }
    if case.entry == Entry::DryApply {
        case.slices[3].iter_mut().for_each(|class| *class = lower(*class));
    }
    Some(case)
}
