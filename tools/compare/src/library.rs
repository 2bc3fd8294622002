//! The library: its C functions, called with the slices of a case.

// Entries that are not linked leave parts of this unused.
#![allow(dead_code, unreachable_code, unreachable_patterns, unused_variables)]

use crate::case::{Answer, Case, Entry};

/// The answer as the library returns it.
#[repr(C)]
struct Returned {
    number: u32,
    count: u64,
}

extern "C" {
    #[cfg(entry = "check_table")]
    fn mulavedrop_check_table(table: *const u32, table_len: usize) -> Returned;
    #[cfg(entry = "search_class")]
    fn mulavedrop_search_class(
        table: *const u32,
        table_len: usize,
        pattern: *const u32,
        pattern_len: usize,
        class_id: u32,
        cycles_allowed: bool,
        limit: u64,
        rows: *mut u32,
        rows_len: usize,
    ) -> Returned;
    #[cfg(entry = "search_table")]
    fn mulavedrop_search_table(
        table: *const u32,
        table_len: usize,
        pattern: *const u32,
        pattern_len: usize,
        cycles_allowed: bool,
        limit: u64,
        rows: *mut u32,
        rows_len: usize,
    ) -> Returned;
    #[cfg(entry = "search_class_multi")]
    fn mulavedrop_search_class_multi(
        table: *const u32,
        table_len: usize,
        multi: *const u32,
        multi_len: usize,
        class_id: u32,
        cycles_allowed: bool,
        limit: u64,
        rows: *mut u32,
        rows_len: usize,
    ) -> Returned;
    #[cfg(entry = "search_table_multi")]
    fn mulavedrop_search_table_multi(
        table: *const u32,
        table_len: usize,
        multi: *const u32,
        multi_len: usize,
        cycles_allowed: bool,
        limit: u64,
        rows: *mut u32,
        rows_len: usize,
    ) -> Returned;
    #[cfg(entry = "dry_apply")]
    fn mulavedrop_dry_apply(
        table: *const u32,
        table_len: usize,
        pattern: *const u32,
        pattern_len: usize,
        variables: *const u32,
        variables_len: usize,
        classes: *const u32,
        classes_len: usize,
    ) -> Returned;
    #[cfg(entry = "check_map")]
    fn mulavedrop_check_map(
        first: *const u32,
        first_len: usize,
        second: *const u32,
        second_len: usize,
        map: *const u32,
        map_len: usize,
    ) -> Returned;
    #[cfg(entry = "check_rule")]
    fn mulavedrop_check_rule(
        left: *const u32,
        left_len: usize,
        left_is_multi: bool,
        right: *const u32,
        right_len: usize,
        right_is_multi: bool,
    ) -> Returned;
    #[cfg(entry = "program")]
    fn mulavedrop_program(
        pattern: *const u32,
        pattern_len: usize,
        is_multi: bool,
        words: *mut u32,
        words_len: usize,
    ) -> Returned;
}

/// The words before and behind the buffer, which no call may change.
const GUARD: [u32; 8] = [0x6775_6172; 8];

/// Calls f with a buffer of these words; its answer and the buffer afterwards, which must stay within its guards.
fn guarded(buffer: &[u32], f: impl FnOnce(*mut u32, usize) -> Returned) -> (Returned, Vec<u32>) {
    let mut words = [&GUARD, buffer, &GUARD].concat();
    let within = GUARD.len()..GUARD.len() + buffer.len();
    let part = &mut words[within.clone()];
    let returned = f(part.as_mut_ptr(), part.len());
    assert!(words.starts_with(&GUARD) && words.ends_with(&GUARD), "a call wrote outside its buffer");
    (returned, words[within].to_vec())
}

/// The names of the entries that are linked.
pub fn linked() -> Vec<&'static str> {
    let empty = |entry| Case { entry, slices: vec![vec![]; 4], numbers: vec![0; 3], buffer: vec![] };
    Entry::ALL.iter().filter(|(entry, _)| answer(&empty(*entry)).is_some()).map(|(_, name)| *name).collect()
}

/// What the library answers; nothing if the entry is not linked.
pub fn answer(case: &Case) -> Option<Answer> {
    let (s, n) = (&case.slices, &case.numbers);
    // Each pointer and length below is one slice's, and the buffer's are those of its guarded copy.
    let (returned, buffer): (Returned, Vec<u32>) = match case.entry {
        #[cfg(entry = "check_table")]
        Entry::CheckTable => (unsafe { mulavedrop_check_table(s[0].as_ptr(), s[0].len()) }, vec![]),
        #[cfg(entry = "search_class")]
        Entry::SearchClass => guarded(&case.buffer, |rows, room| unsafe {
            let (class, cycles, limit) = (n[0] as u32, n[1] != 0, n[2]);
            mulavedrop_search_class(
                s[0].as_ptr(),
                s[0].len(),
                s[1].as_ptr(),
                s[1].len(),
                class,
                cycles,
                limit,
                rows,
                room,
            )
        }),
        #[cfg(entry = "search_table")]
        Entry::SearchTable => guarded(&case.buffer, |rows, room| unsafe {
            mulavedrop_search_table(s[0].as_ptr(), s[0].len(), s[1].as_ptr(), s[1].len(), n[0] != 0, n[1], rows, room)
        }),
        #[cfg(entry = "search_class_multi")]
        Entry::SearchClassMulti => guarded(&case.buffer, |rows, room| unsafe {
            let (class, cycles, limit) = (n[0] as u32, n[1] != 0, n[2]);
            mulavedrop_search_class_multi(
                s[0].as_ptr(),
                s[0].len(),
                s[1].as_ptr(),
                s[1].len(),
                class,
                cycles,
                limit,
                rows,
                room,
            )
        }),
        #[cfg(entry = "search_table_multi")]
        Entry::SearchTableMulti => guarded(&case.buffer, |rows, room| unsafe {
            mulavedrop_search_table_multi(
                s[0].as_ptr(),
                s[0].len(),
                s[1].as_ptr(),
                s[1].len(),
                n[0] != 0,
                n[1],
                rows,
                room,
            )
        }),
        #[cfg(entry = "dry_apply")]
        Entry::DryApply => (
            unsafe {
                mulavedrop_dry_apply(
                    s[0].as_ptr(),
                    s[0].len(),
                    s[1].as_ptr(),
                    s[1].len(),
                    s[2].as_ptr(),
                    s[2].len(),
                    s[3].as_ptr(),
                    s[3].len(),
                )
            },
            vec![],
        ),
        #[cfg(entry = "check_map")]
        Entry::CheckMap => (
            unsafe {
                mulavedrop_check_map(s[0].as_ptr(), s[0].len(), s[1].as_ptr(), s[1].len(), s[2].as_ptr(), s[2].len())
            },
            vec![],
        ),
        #[cfg(entry = "check_rule")]
        Entry::CheckRule => (
            unsafe {
                mulavedrop_check_rule(s[0].as_ptr(), s[0].len(), n[0] != 0, s[1].as_ptr(), s[1].len(), n[1] != 0)
            },
            vec![],
        ),
        #[cfg(entry = "program")]
        Entry::Program => guarded(&case.buffer, |words, room| unsafe {
            mulavedrop_program(s[0].as_ptr(), s[0].len(), n[0] != 0, words, room)
        }),
        _ => return None,
    };
    Some(Answer { number: returned.number, count: returned.count, buffer })
}
