//! Words split by allowed steps: all windows and sets of small ranks against all pairs of words with the properties, and
//! random words and sets of all ranks.
use crate::exhaustive::{all_windows, plain_form};
use crate::inputs::{RAISED, Random, rigs};
use crate::shortest::{RIGS, shortest_words};
use crate::sides::{ROOM, Sides};
use std::collections::HashMap;

fn in_set(allowed: u64, step: u8) -> bool {
    allowed >> (step - 1) & 1 == 1
}

fn shown(kind: u32, rank: u32, word: &[u8]) -> Vec<i8> {
    let mut window = vec![0; 64];
    let lanes = plain::window_of_word(kind, rank, word, &mut window);
    window.truncate(lanes as usize);
    window
}

/// A first word and a second.
type Pair<'a> = (&'a [u8], &'a [u8]);

/// All pairs of normal forms, by the window of the first and then the second: the first over allowed steps, the second's
/// window without a shortest word that begins with an allowed step, and no letter too many in both together.
fn all_pairs<'a>(
    kind: u32,
    rank: u32,
    allowed: u64,
    forms: &'a [Vec<u8>],
    beginning: &HashMap<Vec<i8>, u64>,
) -> HashMap<Vec<i8>, Vec<Pair<'a>>> {
    let mut pairs: HashMap<Vec<i8>, Vec<Pair>> = HashMap::new();
    for second in forms.iter().filter(|form| beginning[&shown(kind, rank, form)] & allowed == 0) {
        for first in forms.iter().filter(|form| form.iter().all(|&step| in_set(allowed, step))) {
            let word = [&first[..], second].concat();
            if plain::length_of_word(kind, rank, &word) == word.len() as i64 {
                pairs.entry(shown(kind, rank, &word)).or_default().push((first, second));
            }
        }
    }
    pairs
}

/// Each window with each set: there is just one such pair, and it comes; with an output one letter short it does not.
pub fn pairs(sides: &mut Sides) {
    for (kind, rank) in RIGS {
        let windows = all_windows(kind, rank);
        let forms: Vec<Vec<u8>> = windows.iter().map(|window| plain_form(kind, rank, window)).collect();
        // The steps that begin a shortest word of each window, as bits.
        let mut beginning: HashMap<Vec<i8>, u64> = windows.iter().map(|window| (window.clone(), 0)).collect();
        for (word, window) in shortest_words(sides, kind, rank) {
            if let Some(&step) = word.first() {
                *beginning.get_mut(&window).expect("a window of this rank") |= 1 << (step - 1);
            }
        }
        for allowed in 0..1u64 << rank {
            let pairs = all_pairs(kind, rank, allowed, &forms, &beginning);
            for (window, form) in windows.iter().zip(&forms) {
                let answer = sides.split(kind, rank, allowed, form, ROOM, ROOM);
                assert_eq!(answer, form.len() as i64);
                let halves = sides.halves();
                assert_eq!(pairs[window], [halves], "kind {kind}, rank {rank}, {allowed:#b}, {form:?}");
                let (a, b) = (halves.0.len(), halves.1.len());
                assert_eq!(sides.split(kind, rank, allowed, form, a, b), answer);
                if a > 0 {
                    assert_eq!(sides.split(kind, rank, allowed, form, a - 1, b), -14);
                }
                if b > 0 {
                    assert_eq!(sides.split(kind, rank, allowed, form, a, b - 1), -14);
                }
            }
        }
    }
}

/// Words that are not shortest among them, with outputs that may be too short.
pub fn words(sides: &mut Sides) {
    for (kind, rank) in RIGS {
        let mut words = vec![vec![]];
        for _ in 0..=4 {
            for word in &words {
                for allowed in 0..1u64 << rank {
                    sides.split(kind, rank, allowed, word, 4, 2);
                }
            }
            let longer =
                |word: &Vec<u8>| (1..=rank as u8).map(|step| [&word[..], &[step]].concat()).collect::<Vec<_>>();
            words = words.iter().flat_map(longer).collect();
        }
    }
}

/// 16 comes after 5 and 6 and before 7, 8 and 14; the bits at the rank, one above it, the highest one, all.
pub fn edges(sides: &mut Sides) {
    let words: [&[u8]; 6] = [&[], &[1], &[2, 1], &[0], &[1; 4097], &[99; 4097]];
    for kind in 0..=4 {
        for rank in [0, 1, 2, 3, 4, 5, 31, 32, 33, 63, 64, 65, 255] {
            for set in [0, 1, 2, 3, 8, 1 << 31, 1 << 32, 1 << 62, 1 << 63, u64::MAX >> 1, u64::MAX] {
                for word in words {
                    for (first, second) in [(0, 0), (0, 8), (8, 0), (1, 1), (8, 8)] {
                        sides.split(kind, rank, set, word, first, second);
                    }
                    for by in RAISED {
                        sides.split(kind + by, rank, set, word, 8, 8);
                        sides.split(kind, rank + by, set, word, 8, 8);
                    }
                }
            }
        }
    }
    let mut random = Random(4);
    for (kind, rank) in rigs() {
        let all = u64::MAX >> (64 - rank);
        let word = random.word(kind, rank, 300);
        for set in [0, all, all >> 1, all & !1, 1 << (rank - 1), 1, all & 0x5555_5555_5555_5555] {
            sides.split(kind, rank, set, &word, ROOM, ROOM);
        }
        // One bit above the rank, beside all steps and alone; there is none at rank 64.
        if rank < 64 {
            assert_eq!(sides.split(kind, rank, all + 1, &word, ROOM, ROOM), -16);
            assert_eq!(sides.split(kind, rank, all | 1 << 63, &word, ROOM, ROOM), -16);
        }
        // The longest word there is, by all steps and by all but one.
        let longest = random.word(kind, rank, 4096);
        sides.split(kind, rank, all, &longest, ROOM, ROOM);
        sides.split(kind, rank, all & !(1 << random.below(rank as usize)), &longest, ROOM, ROOM);
    }
}

/// Any set, now and then with a bit that stands for no step.
fn set(random: &mut Random, rank: u32) -> u64 {
    let steps = u64::MAX >> (64 - rank.clamp(1, 64));
    let some = match random.below(4) {
        0 => random.next(),
        1 => random.next() | random.next() | random.next(),
        2 => random.next() & random.next() & random.next(),
        _ => u64::MAX,
    };
    if random.once_in(20) { some & steps | 1 << random.below(64) } else { some & steps }
}

pub fn random(sides: &mut Sides, inputs: u64) {
    let mut random = Random(23);
    for _ in 0..inputs {
        let (kind, rank) = random.any_rig();
        let letters = random.letters();
        let mut word = random.word(kind, rank, letters);
        if random.once_in(10) {
            random.damage_word(rank, &mut word);
        }
        let allowed = set(&mut random, rank);
        let answer = sides.split(kind, rank, allowed, &word, ROOM, ROOM);
        if answer >= 0 {
            let (first, second) = (sides.halves().0.len(), sides.halves().1.len());
            let (first, second) = (random.output(first as i64), random.output(second as i64));
            sides.split(kind, rank, allowed, &word, first, second);
        }
    }
}
