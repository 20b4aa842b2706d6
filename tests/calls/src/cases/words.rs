//! Words: each call that takes one, at the limits of kind, rank, letters and length; then pairs of words.
use super::{GROUPS, LARGE, NO_KINDS, SMALL, as_long, longest, ranks, word};
use crate::makers::*;
use crate::row::Row;
use plain::{A, B, D, MAX_LETTERS};

/// A call with a word. Whether it gives the word's kind and rank, or another word does; and whether a long word has an
/// answer that is not too long.
struct OfWord {
    call: fn(u32, u32, &[u8]) -> Row,
    own: bool,
    long: bool,
}

const fn own(call: fn(u32, u32, &[u8]) -> Row) -> OfWord {
    OfWord { call, own: true, long: true }
}

const fn beside(call: fn(u32, u32, &[u8]) -> Row) -> OfWord {
    OfWord { call, own: false, long: true }
}

const CALLS: [OfWord; 19] = [
    own(|kind, rank, word| window_of_word(kind, rank, word, Exact)),
    own(|kind, rank, word| normal_form_of_word(kind, rank, word, Exact)),
    own(|kind, rank, word| product_of_words(kind, rank, word, &[1], Exact)),
    beside(|kind, rank, word| product_of_words(kind, rank, &[1], word, Exact)),
    own(|kind, rank, word| inverse_of_word(kind, rank, word, Exact)),
    own(length_of_word),
    own(|kind, rank, word| crossings_of_word(kind, rank, word, Exact)),
    own(|kind, rank, word| same((kind, rank, word), (D, 5, &[5, 1]))),
    own(|kind, rank, word| same((B, 3, &[3]), (kind, rank, word))),
    own(|kind, rank, word| better(kind, rank, word, &[1])),
    beside(|kind, rank, word| better(kind, rank, &[1], word)),
    own(|kind, rank, word| rewrite(kind, rank, word, 0, [Exact; 2])),
    OfWord { call: rewrite_steps, own: true, long: false },
    OfWord { call: |kind, rank, word| rewrite_to_end(kind, rank, word, [Exact; 5]), own: true, long: false },
    own(|kind, rank, word| fallback(kind, rank, word, &[], Exact)),
    beside(|kind, rank, word| fallback(kind, rank, &[], word, Exact)),
    own(|kind, rank, word| split(kind, rank, 1, word, [Exact; 3])),
    own(|kind, rank, word| append(false, &[], kind, rank, word, Exact)),
    own(|kind, rank, word| append(true, &[], kind, rank, word, Exact)),
];

fn limits(OfWord { call, own, long }: &OfWord, rows: &mut Vec<Row>) {
    if *own {
        rows.extend(NO_KINDS.map(|kind| call(kind, 5, &[1, 2])));
        for kind in [A, B, D] {
            rows.extend(ranks(kind).into_iter().map(|rank| call(kind, rank, &[1])));
        }
        rows.extend([call(4, 0, &[0]), call(A, 0, &[0])]);
    }
    for (kind, rank) in SMALL {
        let n = rank as u8;
        let above = if kind == D { 255 } else { 128 + n };
        rows.extend([&[1, n][..], &[n + 1], &[0], &[above]].map(|word| call(kind, rank, word)));
    }
    for (kind, rank) in LARGE {
        let n = rank as u8;
        rows.extend([&[n][..], &[1, n + 1]].map(|word| call(kind, rank, word)));
    }
    rows.extend([vec![1; MAX_LETTERS], vec![0; MAX_LETTERS + 1]].map(|word| call(A, 2, &word)));
    for (seed, (kind, rank)) in (1..).zip(GROUPS) {
        rows.push(call(kind, rank, &word(rank, 9, seed)));
    }
    if *long {
        rows.push(call(B, 64, &as_long(B, 64)));
    }
}

/// Two words that are not the same, one after the other in both orders.
fn pairs(rows: &mut Vec<Row>) {
    for (seed, (kind, rank)) in (100..).zip(GROUPS) {
        let (first, second) = (word(rank, 7, seed), word(rank, 4, seed + 50));
        for (first, second) in [(&first, &second), (&second, &first)] {
            rows.push(product_of_words(kind, rank, first, second, Exact));
            rows.push(same((kind, rank, first), (kind, rank, second)));
            rows.push(better(kind, rank, first, second));
        }
    }
    let words: [(&[u8], &[u8]); 6] =
        [(&[2, 1, 2], &[1, 2, 1]), (&[1, 1, 1], &[1]), (&[], &[2, 2]), (&[1], &[1]), (&[1], &[2]), (&[1, 2, 2], &[1])];
    for (first, second) in words {
        for (first, second) in [(first, second), (second, first)] {
            rows.extend([better(A, 2, first, second), same((A, 2, first), (A, 2, second))]);
        }
    }
    for (kind, rank) in LARGE {
        let (form, long) = (longest(kind, rank), as_long(kind, rank));
        rows.extend([window_of_word(kind, rank, &long, Exact), normal_form_of_word(kind, rank, &long, Exact)]);
        rows.extend([better(kind, rank, &form, &long), better(kind, rank, &long, &form)]);
        rows.push(same((kind, rank, &form), (kind, rank, &long)));
        let (front, back) = form.split_at(form.len() / 3);
        rows.push(product_of_words(kind, rank, front, back, Exact));
        rows.push(product_of_words(kind, rank, back, front, Exact));
    }
}

/// Presets of other kinds and ranks look alike or not.
fn across(rows: &mut Vec<Row>) {
    let presets: [(u32, u32, &[u8]); 5] =
        [(A, 2, &[1]), (B, 3, &[1]), (A, 3, &[3, 1]), (D, 4, &[4]), (B, 4, &[4, 3, 4, 3, 3])];
    for first in presets {
        rows.extend(presets.map(|second| same(first, second)));
    }
}

/// The first word's refusal comes before the second's, whichever number is the lower.
fn orders(rows: &mut Vec<Row>) {
    let (long, zero, right) = (vec![1; MAX_LETTERS + 1], vec![0], vec![2, 1]);
    let pairs = [(&long, &zero), (&zero, &long), (&long, &right), (&right, &long), (&zero, &right), (&right, &zero)];
    for (first, second) in pairs {
        rows.push(product_of_words(B, 3, first, second, Exact));
        rows.push(better(B, 3, first, second));
        rows.push(fallback(B, 3, first, second, Exact));
        rows.push(same((B, 3, first), (D, 4, second)));
    }
    let presets: [(u32, u32, &[u8]); 4] = [(4, 3, &[1]), (A, 64, &[1]), (B, 3, &[4]), (D, 4, &[1])];
    for first in presets {
        rows.extend(presets.map(|second| same(first, second)));
    }
}

fn rooms(rows: &mut Vec<Row>) {
    for (kind, rank) in [(A, 3), (B, 3), (D, 5)] {
        let (first, second) = (word(rank, 12, 5), word(rank, 5, 6));
        for room in [Less, More, Places(0)] {
            rows.push(window_of_word(kind, rank, &first, room));
            rows.push(normal_form_of_word(kind, rank, &first, room));
            rows.push(product_of_words(kind, rank, &first, &second, room));
            rows.push(inverse_of_word(kind, rank, &first, room));
        }
        rows.extend([Places(0), Places(2), Places(4)].map(|room| crossings_of_word(kind, rank, &first, room)));
    }
    let form = longest(B, 64);
    rows.push(normal_form_of_word(B, 64, &form, Less));
    rows.push(inverse_of_word(B, 64, &form, Less));
    rows.push(product_of_words(B, 64, &form[..9], &form[9..], Less));
}

/// Words whose three counts are not the same.
fn counts(rows: &mut Vec<Row>) {
    for (seed, (kind, rank)) in (200..).zip([(B, 3), (B, 4), (B, 7), (D, 6), (D, 7), (B, 40), (B, 64), (D, 64)]) {
        rows.push(crossings_of_word(kind, rank, &word(rank, 4 * rank as usize, seed), Exact));
    }
}

pub fn rows() -> Vec<Row> {
    let mut rows = Vec::new();
    CALLS.iter().for_each(|call| limits(call, &mut rows));
    for part in [pairs, across, orders, rooms, counts] {
        part(&mut rows);
    }
    rows
}
