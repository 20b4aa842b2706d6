//! "Exactly one letter to drop" by brute force, at ranks where all shortest words can be listed. The windows and the
//! lengths are the library's; what a shortest word is comes from its windows alone.
use crate::exhaustive::lists_over;
use crate::inputs::lanes;
use crate::sides::Sides;
use plain::{A, B, D};
use std::collections::HashMap;

pub const RIGS: [(u32, u32); 7] = [(A, 1), (A, 2), (A, 3), (A, 4), (B, 2), (B, 3), (D, 4)];

fn window(sides: &mut Sides, kind: u32, rank: u32, word: &[u8]) -> Vec<i8> {
    let answer = sides.window_of_word(kind, rank, word, lanes(kind, rank));
    sides.lanes(answer).to_vec()
}

/// A word without the letters at some places, which rise.
fn without(word: &[u8], places: &[usize]) -> Vec<u8> {
    word.iter().enumerate().filter(|(at, _)| !places.contains(at)).map(|(_, &step)| step).collect()
}

/// The shortest words with their windows, length by length: those whose window no shorter word has. A shortest word
/// without its last letter is shortest, so that each comes from one with a letter less.
pub fn shortest_words(sides: &mut Sides, kind: u32, rank: u32) -> Vec<(Vec<u8>, Vec<i8>)> {
    let straight = window(sides, kind, rank, &[]);
    let mut first_length = HashMap::from([(straight.clone(), 0)]);
    let mut found = vec![(Vec::new(), straight)];
    let mut at = 0;
    while at < found.len() {
        for step in 1..=rank as u8 {
            let mut word = found[at].0.clone();
            word.push(step);
            let shown = window(sides, kind, rank, &word);
            let least = *first_length.entry(shown.clone()).or_insert(word.len());
            // The length of a word's window is that of a shortest word with it.
            assert_eq!(sides.length_of_word(kind, rank, &word), least as i64, "length of {kind} {rank} {word:?}");
            if least == word.len() {
                found.push((word, shown));
            }
        }
        at += 1;
    }
    found
}

/// Every shortest word with every step added at either end: the length changes by one; where it becomes smaller there
/// is exactly one place whose letter can be removed instead, where it becomes greater there is none.
pub fn one_letter(sides: &mut Sides) {
    for (kind, rank) in RIGS {
        for (word, _) in shortest_words(sides, kind, rank) {
            let removed: Vec<Vec<i8>> =
                (0..word.len()).map(|place| window(sides, kind, rank, &without(&word, &[place]))).collect();
            for step in 1..=rank as u8 {
                for longer in [[&word[..], &[step]].concat(), [&[step], &word[..]].concat()] {
                    let target = window(sides, kind, rank, &longer);
                    let change = sides.length_of_window(kind, rank, &target) - word.len() as i64;
                    let places = removed.iter().filter(|shown| **shown == target).count();
                    let due = match change {
                        -1 => 1,
                        1 => 0,
                        _ => panic!("{kind} {rank} {longer:?}: the length changes by {change}"),
                    };
                    assert_eq!(places, due, "places of {kind} {rank} {word:?} for {longer:?}");
                }
            }
        }
    }
}

/// Every word of up to 6 letters: two letters can be removed together exactly when it is longer than its length.
pub fn two_letters(sides: &mut Sides) {
    for (kind, rank) in RIGS {
        let steps: Vec<u8> = (1..=rank as u8).collect();
        for length in 0..=6 {
            lists_over(&steps, length, &mut |word| {
                let shown = window(sides, kind, rank, word);
                let least = sides.length_of_word(kind, rank, word);
                let mut pairs = (0..length).flat_map(|second| (0..second).map(move |first| [first, second]));
                let two = pairs.any(|pair| window(sides, kind, rank, &without(word, &pair)) == shown);
                assert_eq!(two, least < length as i64, "two letters of {kind} {rank} {word:?}");
            });
        }
    }
}
