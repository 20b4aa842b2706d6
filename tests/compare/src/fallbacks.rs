//! Fallbacks: all pairs of windows of small ranks against all part-lists, and random words of all ranks.
use crate::exhaustive::{all_windows, plain_form};
use crate::inputs::Random;
use crate::shortest::{RIGS, shortest_words};
use crate::sides::Sides;
use std::collections::{HashMap, HashSet};

/// The windows of all part-lists of a word, letter by letter.
fn parts(kind: u32, rank: u32, word: &[u8]) -> HashSet<Vec<i8>> {
    let shown = |word: &[u8]| {
        let mut window = vec![0; 8];
        let lanes = plain::window_of_word(kind, rank, word, &mut window);
        window.truncate(lanes as usize);
        window
    };
    let mut found = HashSet::from([shown(&[])]);
    for &step in word {
        let step = shown(&[step]);
        let longer = |window: &Vec<i8>| {
            let mut product = vec![0; window.len()];
            plain::product_of_windows(kind, rank, window, &step, &mut product);
            product
        };
        let more: Vec<Vec<i8>> = found.iter().map(longer).collect();
        found.extend(more);
    }
    found
}

/// All pairs of windows, with a list of places that is long enough or one short. The windows with the verdict yes are
/// those of the part-lists of every shortest word of the present window.
pub fn pairs(sides: &mut Sides) {
    for (kind, rank) in RIGS {
        let windows = all_windows(kind, rank);
        let forms: Vec<Vec<u8>> = windows.iter().map(|window| plain_form(kind, rank, window)).collect();
        let mut below: HashMap<&[i8], HashSet<Vec<i8>>> = HashMap::new();
        for (window, present) in windows.iter().zip(&forms) {
            let mut yes = HashSet::new();
            for (other, simpler) in windows.iter().zip(&forms) {
                let least = simpler.len();
                let answer = sides.fallback(kind, rank, present, simpler, least + 1);
                if answer != plain::NO_FALLBACK {
                    assert_eq!(answer, least as i64);
                    yes.insert(other.clone());
                    if least > 0 {
                        assert_eq!(sides.fallback(kind, rank, present, simpler, least - 1), -14);
                    }
                }
            }
            below.insert(window, yes);
        }
        for (word, shown) in shortest_words(sides, kind, rank) {
            assert_eq!(parts(kind, rank, &word), below[&shown[..]], "part-lists of {kind} {rank} {word:?}");
        }
    }
}

/// Random pairs of words, half of them with a part-list of the first word's normal form as the second.
pub fn random(sides: &mut Sides, inputs: u64) {
    let mut random = Random(12);
    for _ in 0..inputs {
        let (kind, rank) = random.any_rig();
        let letters = random.letters();
        let mut present = random.word(kind, rank, letters);
        let mut simpler = if random.once_in(2) {
            let letters = random.letters().min(present.len() + 2);
            random.word(kind, rank, letters)
        } else {
            let mut form = vec![0; 4096];
            let length = plain::normal_form_of_word(kind, rank, &present, &mut form);
            form.truncate(length.max(0) as usize);
            let one_in = 1 + random.below(5);
            form.retain(|_| !random.once_in(one_in));
            form
        };
        if random.once_in(10) {
            random.damage_word(rank, &mut present);
        }
        if random.once_in(10) {
            random.damage_word(rank, &mut simpler);
        }
        let list = random.output(plain::length_of_word(kind, rank, &simpler));
        sides.fallback(kind, rank, &present, &simpler, list);
    }
}
