//! A sample of the oracle's answers as text, to be replayed without Rust.
//!
//! A line that starts with `#` is a title: the entry, its number, the kind of run, and who gave the answers
//! below it. Every call was compared as all others are, with egg too where egg has the thing.
//! Every other line is one call and its answer, words in decimal:
//!
//! ```text
//! entry ; numbers ; slice ; .. ; slice ; room => number count buffer
//! ```
//!
//! - `entry` is the entry's place in the header, from 0 (check_table) to 8 (program);
//! - `numbers` are its arguments that are no slices, in their order, true as 1: class, cycles allowed and limit
//!   for a search of a class; cycles allowed and limit for a search of a table; left is multi and right is multi
//!   for a rule; is multi for a program; none for the others;
//! - the slices follow in the entry's order, each with its words, none for an empty one;
//! - `room` is the buffer's length in words, each of which is 4294967295 before the call;
//! - after ` => ` stand the number, the count, and every word of the buffer after the call.
//!
//! What is before ` => ` can be one program's input, and what is behind it the output wanted.

use crate::case::{words_text, Answer, Case, Entry};
use crate::reading::entries;
use crate::reading::search::is_search;
use std::collections::BTreeMap;

/// What every word of a buffer is before a call of the sample.
const FILL: u32 = u32::MAX;
/// The most calls of one kind to an entry that end with one refusal number, and with 0.
const EACH: usize = 3;
const EACH_DONE: usize = 15;
/// The most words of a call's slices; a table with a class of 51 nodes stays below it.
const MOST_WORDS: usize = 600;
/// The most words of a call's buffer.
const MOST_ROOM: usize = 120;

/// The calls kept of one entry, number and kind, and the round of the last one.
#[derive(Default)]
struct Kept {
    last: String,
    calls: Vec<(Case, Answer)>,
}

/// The calls kept so far, by entry, number and kind.
#[derive(Default)]
pub struct Sample(BTreeMap<(usize, u32, &'static str), Kept>);

impl Sample {
    /// Keeps the case if it is short and the first of its sort in this round, as long as there is room for one of
    /// its sort; of finished searches mostly those with rows.
    pub fn offer(&mut self, case: &Case, kind: &'static str, round: &str) {
        if case.slices.iter().map(Vec::len).sum::<usize>() > MOST_WORDS || case.buffer.len() > MOST_ROOM {
            return;
        }
        let case = Case { buffer: vec![FILL; case.buffer.len()], ..case.clone() };
        let Some(answer) = entries::answer(&case) else { return };
        let kept = self.0.entry((case.entry as usize, answer.number, kind)).or_default();
        let most = if answer.number == 0 { EACH_DONE } else { EACH };
        let dull = answer.number == 0 && is_search(case.entry) && answer.count == 0 && kept.calls.len() >= EACH;
        if kept.calls.len() < most && kept.last != round && !dull {
            kept.last = round.to_string();
            kept.calls.push((case, answer));
        }
    }

    /// The sample's lines.
    pub fn text(&self) -> String {
        let mut text = String::new();
        for ((place, number, kind), kept) in &self.0 {
            let (entry, name) = Entry::ALL[*place];
            text += &format!("# {name}, number {number}, {kind}: {}\n", answered_by(entry, *number));
            for (case, answer) in &kept.calls {
                text += &line(case, answer);
            }
        }
        text
    }
}

/// Who gave the answers: egg where it has the thing, and always the plain reading.
fn answered_by(entry: Entry, number: u32) -> &'static str {
    match (entry, number) {
        (entry, 0 | 13) if is_search(entry) => "egg and the plain reading",
        (Entry::Program, 0 | 13) | (Entry::DryApply, 0 | 14 | 18) | (Entry::CheckRule, 0) => {
            "egg and the plain reading"
        }
        _ => "the plain reading",
    }
}

/// The words as numbers of 64 bits.
fn words_of(buffer: &[u32]) -> Vec<u64> {
    buffer.iter().map(|word| u64::from(*word)).collect()
}

/// The line of a call and its answer.
fn line(case: &Case, answer: &Answer) -> String {
    let mut parts = vec![(case.entry as usize).to_string(), words_text(&case.numbers)];
    parts.extend(case.slices.iter().map(|slice| words_text(slice)));
    parts.push(case.buffer.len().to_string());
    let answered = [&[u64::from(answer.number), answer.count][..], &words_of(&answer.buffer)].concat();
    format!("{} => {}\n", parts.join(" ; "), words_text(&answered))
}
