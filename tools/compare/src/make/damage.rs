//! Damage: words changed, cut, added, exchanged.

use super::rng::Rng;

/// The limits of document 01, and one past each.
const LIMITS: [u32; 14] = [8, 9, 64, 65, 256, 257, 512, 513, 65_535, 65_536, 65_537, 262_143, 262_144, 262_145];

/// The words with one thing wrong, or by chance nothing.
pub fn damaged(rng: &mut Rng, words: &[u32]) -> Vec<u32> {
    let mut words = words.to_vec();
    let n = words.len();
    match rng.below(22) {
        0 => words.truncate(rng.below(n + 1)),
        1 => words.truncate(n.saturating_sub(1)),
        2 => words.push(rng.word()),
        3 if n > 0 => {
            words.remove(rng.below(n));
        }
        4 => words.insert(rng.below(n + 1), rng.word()),
        5 | 6 if n > 0 => {
            let (a, b) = (rng.below(n), rng.below(n));
            words.swap(a, b);
        }
        7 if n > 4 => {
            let record = rng.between(3, 4);
            exchange(rng, &mut words, record);
        }
        20 => words.extend((0..rng.below(600)).map(|i| i as u32)),
        21 => words = (0..rng.below(40)).map(|_| rng.word()).collect(),
        _ if n > 0 => {
            let at = rng.below(n);
            words[at] = changed(rng, words[at], n);
        }
        _ => {}
    }
    words
}

/// Another word in place of this one: off by one, 0, the largest, a small one, a limit, one near the length.
fn changed(rng: &mut Rng, word: u32, length: usize) -> u32 {
    match rng.below(9) {
        0 | 1 => word.wrapping_add(1),
        2 | 3 => word.wrapping_sub(1),
        4 => 0,
        5 => u32::MAX,
        6 => rng.below(12) as u32,
        8 => *rng.pick(&LIMITS),
        _ => (length + rng.below(5)) as u32,
    }
}

/// Exchanges two neighbouring runs of so many words, as two records are.
fn exchange(rng: &mut Rng, words: &mut [u32], record: usize) {
    let Some(last) = words.len().checked_sub(2 * record) else { return };
    let at = rng.below(last + 1);
    for i in at..at + record {
        words.swap(i, i + record);
    }
}
