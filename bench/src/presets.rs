//! The calls on words and on windows.
use crate::before;
use crate::inputs::{Random, forms_of, windows_of};
use crate::straight;
use crate::timing::{Bench, INPUTS, Outputs, Room, cell};
use plain::library_way;
use std::hint::black_box;
use winnathey::raw as rattle;

pub const LETTERS: [usize; 3] = [16, 256, 4096];

/// On random words, words of blocks and normal forms.
pub fn words(bench: &mut Bench, random: &mut Random, kind: u32, rank: u32, rig: &str) {
    let mut sorts = Vec::from(LETTERS.map(|letters| (format!("{letters} letters"), random.words(rank, letters))));
    sorts.push(("256 letters in blocks".to_string(), random.block_words(kind, rank, 256)));
    sorts.push(("a normal form".to_string(), forms_of(kind, rank, &random.words(rank, 4096))));
    for (column, words) in &sorts {
        // Each word's normal form, so that the verdict on the two is yes.
        let forms = forms_of(kind, rank, words);
        let word = |k: usize| black_box(&words[k][..]);
        let other = |k: usize| black_box(&words[INPUTS - 1 - k][..]);
        let form = |k: usize| black_box(&forms[k][..]);
        cell!(bench, "window of a word", rig, column, [rattle plain straight before], |k, out|
            window_of_word(kind, rank, word(k), &mut out.lanes));
        cell!(bench, "normal form of a word", rig, column, [rattle plain straight before], |k, out|
            normal_form_of_word(kind, rank, word(k), &mut out.bytes));
        cell!(bench, "length of a word", rig, column, [rattle plain straight before], |k, _|
            length_of_word(kind, rank, word(k)));
        cell!(bench, "crossings of a word", rig, column, [rattle plain before], |k, out|
            crossings_of_word(kind, rank, word(k), out.counts.room()));
        cell!(bench, "product of two words", rig, column, [rattle plain straight before], |k, out|
            product_of_words(kind, rank, word(k), other(k), &mut out.bytes));
        cell!(bench, "inverse of a word", rig, column, [rattle plain straight before], |k, out|
            inverse_of_word(kind, rank, word(k), &mut out.bytes));
        cell!(bench, "verdict on a word and its normal form", rig, column, [rattle plain straight before], |k, _|
            same(kind, rank, word(k), kind, rank, form(k)));
        cell!(bench, "better of a word and its normal form", rig, column, [rattle plain before], |k, _|
            better(kind, rank, word(k), form(k)));
    }
}

/// On random windows and on windows of one block.
pub fn windows(bench: &mut Bench, random: &mut Random, kind: u32, rank: u32, rig: &str) {
    let blocks: Vec<Vec<u8>> = (0..INPUTS).map(|_| random.block(kind, rank)).collect();
    let sorts = [
        ("a random window", windows_of(kind, rank, &random.words(rank, 4000))),
        ("that of a block", windows_of(kind, rank, &blocks)),
    ];
    let all = u64::MAX >> (64 - rank);
    for (column, windows) in &sorts {
        let window = |k: usize| black_box(&windows[k][..]);
        let other = |k: usize| black_box(&windows[INPUTS - 1 - k][..]);
        cell!(bench, "normal form of a window", rig, column, [rattle plain straight before], |k, out|
            normal_form_of_window(kind, rank, window(k), &mut out.bytes));
        cell!(bench, "length of a window", rig, column, [rattle plain straight before], |k, _|
            length_of_window(kind, rank, window(k)));
        cell!(bench, "crossings of a window", rig, column, [rattle plain before], |k, out|
            crossings_of_window(kind, rank, window(k), out.counts.room()));
        cell!(bench, "product of two windows", rig, column, [rattle plain straight before], |k, out|
            product_of_windows(kind, rank, window(k), other(k), &mut out.lanes));
        cell!(bench, "inverse of a window", rig, column, [rattle plain straight before], |k, out|
            inverse_of_window(kind, rank, window(k), &mut out.lanes));
        cell!(bench, "way from window to window", rig, column, [rattle library_way before], |k, out|
            between(kind, rank, black_box(all), window(k), other(k), &mut out.bytes));
    }
}

pub fn rewrites(bench: &mut Bench, random: &mut Random, kind: u32, rank: u32, rig: &str) {
    let mut cell = |column: String, words: &[Vec<u8>], place: usize| {
        cell!(bench, "one rewrite", rig, column, [rattle plain before], |k, out|
            rewrite(kind, rank, black_box(&words[k]), place, &mut out.bytes, &mut out.rule));
    };
    for letters in [16, 4096] {
        let mut words = random.words(rank, letters);
        // A pair that commutes, at both ends.
        for word in &mut words {
            word[..2].copy_from_slice(&[1, 3]);
            word[letters - 2..].copy_from_slice(&[1, 3]);
        }
        cell(format!("{letters} letters, start"), &words, 0);
        cell(format!("{letters} letters, end"), &words, letters - 2);
    }
    // The longest left side: family 3 in A, 4 in B and D.
    let mut words = random.words(rank, 4096);
    let n = rank as u8;
    let left: Vec<u8> = match kind {
        1 => (1..=n).chain([1]).collect(),
        2 => (1..=n).chain((1..n).rev()).chain([2]).collect(),
        _ => (1..=n - 2).chain([n]).chain((1..n).rev()).chain([2]).collect(),
    };
    for word in &mut words {
        word[..left.len()].copy_from_slice(&left);
    }
    cell("4096 letters, start, longest left side".to_string(), &words, 0);
}

/// Rewritings of short words to their end, with their lists and only counted; `traces` has long ones.
pub fn endings(bench: &mut Bench, random: &mut Random, kind: u32, rank: u32, rig: &str) {
    for letters in [16, 256] {
        let words = random.words(rank, letters);
        let word = |k: usize| black_box(&words[k][..]);
        let column = format!("{letters} letters");
        cell!(bench, "rewriting to the end, short words", rig, column, [rattle library_way before], |k, out| rewrite_to_end(
            kind, rank, word(k), &mut out.families, &mut out.at, &mut out.left, &mut out.bytes, out.counts.room()));
        let column = format!("{letters} letters, only counted");
        cell!(bench, "rewriting to the end, short words", rig, column, [rattle library_way before], |k, _|
            rewrite_steps(kind, rank, word(k)));
    }
}

/// The plain version finds fallbacks by another way, all part-lists or the lengths of windows, and not as fast as it could.
pub fn fallbacks(bench: &mut Bench, random: &mut Random, kind: u32, rank: u32, rig: &str) {
    for letters in LETTERS {
        let words = random.words(rank, letters);
        // Every other letter of the normal form, so that the verdict is yes.
        let parts: Vec<Vec<u8>> =
            forms_of(kind, rank, &words).iter().map(|form| form.iter().copied().step_by(2).collect()).collect();
        cell!(bench, "fallback to half of the letters", rig, format!("{letters} letters"), [rattle plain before],
            |k, out| fallback(kind, rank, black_box(&words[k]), black_box(&parts[k]), &mut out.places));
    }
}

pub fn splits(bench: &mut Bench, random: &mut Random, kind: u32, rank: u32, rig: &str) {
    let all = u64::MAX >> (64 - rank);
    let half: Vec<u64> = (0..INPUTS).map(|_| random.next() & all).collect();
    for (call, sets) in [("split by half of the steps", half), ("split by all steps", vec![all; INPUTS])] {
        let mut sorts = Vec::from(LETTERS.map(|letters| (format!("{letters} letters"), random.words(rank, letters))));
        sorts.push(("a normal form".to_string(), forms_of(kind, rank, &random.words(rank, 4096))));
        for (column, words) in &sorts {
            let word = |k: usize| black_box(&words[k][..]);
            let set = |k: usize| black_box(sets[k]);
            cell!(bench, call, rig, column, [rattle library_way before], |k, out|
                split(kind, rank, set(k), word(k), &mut out.bytes, &mut out.second, out.counts.room()));
        }
    }
}

pub fn tables(bench: &mut Bench) {
    let rigs: [(u32, &str, &[u32]); 3] = [(1, "A", &[4, 8, 16, 19]), (2, "B", &[4, 8, 16]), (3, "D", &[4, 8, 16])];
    for (kind, name, ranks) in rigs {
        for &rank in ranks {
            cell!(bench, "delay table", name, format!("rank {rank}"), [rattle plain], |_, out| delay_table(
                kind, black_box(rank), &mut out.fields, &mut out.lanes, &mut out.bytes, out.counts.room()));
        }
    }
}
