//! The inputs of the table, call by call.
mod books;
mod steps;
mod vectors;
mod windows;
mod words;

use crate::row::Row;
use plain::{A, B, D};
use std::collections::HashSet;
use std::sync::OnceLock;

/// All rows, those of one call together, and each once.
pub fn all() -> &'static [Row] {
    static ROWS: OnceLock<Vec<Row>> = OnceLock::new();
    ROWS.get_or_init(made)
}

fn made() -> Vec<Row> {
    let mut rows = [words::rows(), windows::rows(), steps::rows(), books::rows(), vectors::rows()].concat();
    let place = |row: &Row| CALLS.iter().position(|name| *name == row.call).expect("a call of the list");
    rows.sort_by_key(place);
    let mut seen = HashSet::new();
    rows.retain(|row| seen.insert(row.to_string()));
    rows
}

/// The calls in the header's order, but for the two that have neither inputs with limits nor refusals 1 to 13.
pub const CALLS: [&str; 30] = [
    "window_of_word",
    "normal_form_of_word",
    "product_of_words",
    "inverse_of_word",
    "length_of_word",
    "crossings_of_word",
    "same",
    "better",
    "normal_form_of_window",
    "product_of_windows",
    "inverse_of_window",
    "length_of_window",
    "crossings_of_window",
    "delay_table",
    "rewrite",
    "rewrite_steps",
    "rewrite_to_end",
    "fallback",
    "split",
    "between",
    "book_check",
    "preset",
    "presets",
    "append",
    "second_book_check",
    "second_preset",
    "second_presets",
    "second_append",
    "to_second",
    "to_first",
];

/// Numbers that are no kinds; the last bits of some are one.
const NO_KINDS: [u32; 8] = [0, 4, 5, 129, 255, 256, 257, u32::MAX];

/// Places and numbers of presets that are very large; the last bits of most are not.
const WRAPPED: [usize; 8] = [65536, 1 << 31, 1 << 32, (1 << 32) + 1, (1 << 53) - 1, 1 << 53, 1 << 63, usize::MAX];

const SMALL: [(u32, u32); 3] = [(A, 2), (B, 2), (D, 4)];
const LARGE: [(u32, u32); 3] = [(A, 63), (B, 64), (D, 64)];
const GROUPS: [(u32, u32); 5] = [(A, 1), (A, 5), (B, 5), (D, 9), (B, 64)];

/// The least and the greatest rank of a kind.
fn ends(kind: u32) -> (u32, u32) {
    match kind {
        A => (1, 63),
        B => (2, 64),
        _ => (4, 64),
    }
}

/// Ranks at the limits and past them, and numbers whose last bits are a rank.
fn ranks(kind: u32) -> Vec<u32> {
    let (least, greatest) = ends(kind);
    let mut ranks = vec![0, least - 1, least, greatest, greatest + 1, 128 + least];
    ranks.extend(if kind == A { vec![255, 256, 257, 65537, u32::MAX] } else { Vec::new() });
    ranks.dedup();
    ranks
}

fn lanes(kind: u32, rank: u32) -> usize {
    rank as usize + usize::from(kind == A)
}

/// Numbers that are random, but the same in each run.
fn random(seed: u64) -> impl FnMut(u64) -> u64 {
    let mut state = seed;
    move |bound| {
        state = state.wrapping_mul(6_364_136_223_846_793_005).wrapping_add(1_442_695_040_888_963_407);
        (state >> 33) % bound
    }
}

fn word(rank: u32, letters: usize, seed: u64) -> Vec<u8> {
    let mut below = random(seed);
    (0..letters).map(|_| below(rank.into()) as u8 + 1).collect()
}

fn straight(kind: u32, rank: u32) -> Vec<i8> {
    (1..=lanes(kind, rank) as i8).collect()
}

/// The window of a word.
fn shown(kind: u32, rank: u32, word: &[u8]) -> Vec<i8> {
    let mut window = vec![0; lanes(kind, rank)];
    assert!(plain::window_of_word(kind, rank, word, &mut window) > 0);
    window
}

fn window(kind: u32, rank: u32, seed: u64) -> Vec<i8> {
    shown(kind, rank, &word(rank, 4000, seed))
}

/// The window with the greatest length, at an even rank.
fn farthest(kind: u32, rank: u32) -> Vec<i8> {
    let straight = straight(kind, rank);
    if kind == A { straight.into_iter().rev().collect() } else { straight.into_iter().map(|entry| -entry).collect() }
}

/// The normal form of that window: 4,096 letters of B64.
fn longest(kind: u32, rank: u32) -> Vec<u8> {
    let mut form = vec![0; plain::MAX_LETTERS];
    let letters = plain::normal_form_of_window(kind, rank, &farthest(kind, rank), &mut form);
    form[..letters as usize].to_vec()
}

/// A word of 4,096 letters with the window of the longest normal form, but for one or two letters another.
fn as_long(kind: u32, rank: u32) -> Vec<u8> {
    let mut word = longest(kind, rank);
    word.reverse();
    word.extend([1, 1].repeat((plain::MAX_LETTERS - word.len()) / 2));
    word
}
