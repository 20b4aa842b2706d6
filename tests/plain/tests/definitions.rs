//! The plain version against the definitions themselves, at ranks where all of a group can be listed.
use plain::{A, B, D, NONE_FITS};
use std::collections::HashMap;

const RIGS: [(u32, u32); 12] =
    [(A, 1), (A, 2), (A, 3), (A, 4), (A, 5), (A, 6), (B, 2), (B, 3), (B, 4), (B, 5), (D, 4), (D, 5)];

fn window(kind: u32, rank: u32, word: &[u8]) -> Vec<i8> {
    let mut window = vec![0; 64];
    let lanes = plain::window_of_word(kind, rank, word, &mut window);
    window.truncate(lanes as usize);
    window
}

/// Each window with the shortest word that has it, and among those the first in the dictionary: all words by length,
/// at each length in dictionary order, where the first word to reach a window keeps it.
fn first_words(kind: u32, rank: u32) -> HashMap<Vec<i8>, Vec<u8>> {
    let mut found = HashMap::from([(window(kind, rank, &[]), Vec::new())]);
    let mut level: Vec<Vec<u8>> = vec![Vec::new()];
    while !level.is_empty() {
        let mut next = Vec::new();
        for word in &level {
            for step in (1..=rank).rev() {
                let mut longer = word.clone();
                longer.push(step as u8);
                if let std::collections::hash_map::Entry::Vacant(new) = found.entry(window(kind, rank, &longer)) {
                    new.insert(longer.clone());
                    next.push(longer);
                }
            }
        }
        level = next;
    }
    found
}

#[test]
fn normal_forms_are_the_first_words() {
    for (kind, rank) in RIGS {
        let found = first_words(kind, rank);
        let n = u64::from(rank);
        let factorial = |n: u64| (1..=n).product::<u64>();
        let size = match kind {
            A => factorial(n + 1),
            B => factorial(n) << n,
            _ => factorial(n) << (n - 1),
        };
        assert_eq!(found.len() as u64, size);
        for (window, word) in &found {
            let mut form = [0; 64];
            let length = plain::normal_form_of_window(kind, rank, window, &mut form);
            assert_eq!(form[..length as usize], word[..], "kind {kind}, rank {rank}, window {window:?}");
            assert_eq!(plain::length_of_window(kind, rank, window), length);
            assert_eq!(plain::crossings_of_window(kind, rank, window, &mut [0; 3]), length);
        }
    }
}

#[test]
fn none_fits_just_in_normal_forms() {
    for (kind, rank) in RIGS {
        // Each normal form, and each normal form with one step more.
        for form in first_words(kind, rank).values() {
            for step in 0..=rank {
                let mut word = form.clone();
                if step > 0 {
                    word.push(step as u8);
                }
                let mut first = [0; 64];
                let length = plain::normal_form_of_word(kind, rank, &word, &mut first);
                let normal = first[..length as usize] == word[..];
                let mut out = [0; 64];
                let quiet = (0..word.len())
                    .all(|place| plain::rewrite(kind, rank, &word, place, &mut out, &mut [0; 3]) == NONE_FITS);
                assert_eq!(quiet, normal, "kind {kind}, rank {rank}, word {word:?}");
            }
        }
    }
}

#[test]
fn rewrites_keep_the_window_and_come_earlier() {
    for (kind, rank) in RIGS {
        for form in first_words(kind, rank).values().take(500) {
            for step in 1..=rank {
                let mut word = form.clone();
                word.push(step as u8);
                for place in 0..word.len() {
                    let mut out = [0; 64];
                    let length = plain::rewrite(kind, rank, &word, place, &mut out, &mut [0; 3]);
                    if length != NONE_FITS {
                        let new = &out[..length as usize];
                        assert_eq!(window(kind, rank, new), window(kind, rank, &word));
                        assert_eq!(plain::better(kind, rank, &word, new), 2);
                    }
                }
            }
        }
    }
}

#[test]
fn rules_are_as_many_as_the_families_say() {
    for rank in 4..=64 {
        let n = usize::from(rank);
        // Family 1; pairs that commute; family 3 by i; the rest.
        let a = n + (n - 1) * (n - 2) / 2 + n * (n - 1) / 2;
        let b = n + (n - 1) * (n - 2) / 2 + (1..n - 1).map(|i| 2 * n - 2 * i - 2).sum::<usize>() + (n - 1);
        let d = n + (n - 1) * (n - 2) / 2 + (1..n - 2).map(|i| 2 * n - 2 * i - 2).sum::<usize>() + 1 + (n - 3) + 3;
        if rank < 64 {
            assert_eq!(plain::rules(A, rank).count(), a);
        }
        assert_eq!(plain::rules(B, rank).count(), b);
        assert_eq!(plain::rules(D, rank).count(), d);
    }
    assert_eq!(plain::rules(D, 4).count(), 16);
}

#[test]
fn delay_tables_count_the_windows() {
    for (kind, rank) in RIGS {
        let found = first_words(kind, rank);
        let (mut counts, mut longest, mut form) = ([0; 64], [0; 64], [0; 64]);
        let mut lengths = [0; 3];
        let greatest = plain::delay_table(kind, rank, &mut counts, &mut longest, &mut form, &mut lengths) as usize;
        let mut due = [0; 64];
        for word in found.values() {
            due[word.len()] += 1;
        }
        assert_eq!(counts, due, "kind {kind}, rank {rank}");
        let lanes = rank as usize + usize::from(kind == A);
        assert_eq!(lengths.map(|length| length as usize), [greatest + 1, lanes, greatest]);
        assert_eq!(found[&longest[..lanes]], form[..greatest]);
        assert!(found.values().filter(|word| word.len() >= greatest).count() == 1);
    }
}
