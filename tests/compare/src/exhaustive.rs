//! Everything, where the rank is small.
use crate::inputs::{lanes, rigs};
use crate::sides::{ROOM, Sides};
use plain::{A, B, D};

/// Calls `each` with all lists of a length over given values.
pub fn lists_over<T: Copy>(values: &[T], length: usize, each: &mut impl FnMut(&[T])) {
    fn go<T: Copy>(values: &[T], left: usize, list: &mut Vec<T>, each: &mut impl FnMut(&[T])) {
        if left == 0 {
            return each(list);
        }
        for &value in values {
            list.push(value);
            go(values, left - 1, list, each);
            list.pop();
        }
    }
    go(values, length, &mut Vec::new(), each);
}

/// All windows of a kind and rank.
pub fn all_windows(kind: u32, rank: u32) -> Vec<Vec<i8>> {
    let m = lanes(kind, rank);
    let mut windows: Vec<Vec<i8>> = vec![Vec::new()];
    for entry in 1..=m as i8 {
        windows = windows
            .iter()
            .flat_map(|window| (0..=window.len()).map(move |at| (window, at)))
            .flat_map(|(window, at)| {
                let signs: &[i8] = if kind == A { &[1] } else { &[1, -1] };
                signs.iter().map(move |sign| {
                    let mut window = window.clone();
                    window.insert(at, sign * entry);
                    window
                })
            })
            .collect();
    }
    if kind == D {
        windows.retain(|window| window.iter().filter(|&&entry| entry < 0).count() % 2 == 0);
    }
    windows
}

pub fn windows(sides: &mut Sides) {
    let rigs = [(A, 1..=6), (B, 2..=6), (D, 4..=6)];
    for (kind, ranks) in rigs {
        for rank in ranks {
            for window in all_windows(kind, rank) {
                let length = sides.each_length(|sides, out| sides.normal_form_of_window(kind, rank, &window, out));
                let form = plain_form(kind, rank, &window);
                assert_eq!(length, sides.length_of_window(kind, rank, &window));
                assert_eq!(length, sides.crossings_of_window(kind, rank, &window));
                sides.inverse_of_window(kind, rank, &window, window.len());
                // And back: the window of the normal form is the window asked for.
                sides.window_of_word(kind, rank, &form, window.len());
                assert_eq!(sides.lanes(window.len() as i64), window);
            }
        }
    }
}

pub fn plain_form(kind: u32, rank: u32, window: &[i8]) -> Vec<u8> {
    let mut form = vec![0; 4096];
    let length = plain::normal_form_of_window(kind, rank, window, &mut form);
    form.truncate(length as usize);
    form
}

pub fn lists(sides: &mut Sides) {
    for (kind, rank) in [(A, 1), (A, 2), (A, 3), (B, 2), (B, 3), (B, 4), (D, 4)] {
        let m = lanes(kind, rank) as i8;
        let values: Vec<i8> = (-m - 1..=m + 1).collect();
        lists_over(&values, m as usize, &mut |window| {
            sides.normal_form_of_window(kind, rank, window, 16);
            sides.length_of_window(kind, rank, window);
            sides.crossings_of_window(kind, rank, window);
            sides.inverse_of_window(kind, rank, window, window.len());
            sides.product_of_windows(kind, rank, window, window, window.len());
        });
    }
}

pub fn pairs_of_windows(sides: &mut Sides) {
    for (kind, rank) in [(A, 1), (A, 2), (A, 3), (A, 4), (B, 2), (B, 3), (D, 4)] {
        let windows = all_windows(kind, rank);
        for first in &windows {
            for second in &windows {
                sides.product_of_windows(kind, rank, first, second, first.len());
            }
        }
    }
}

pub fn words(sides: &mut Sides) {
    let rigs = [(A, 1), (A, 2), (A, 3), (A, 4), (A, 5), (B, 2), (B, 3), (B, 4), (B, 5), (D, 4), (D, 5)];
    for (kind, rank) in rigs {
        let steps: Vec<u8> = (1..=rank as u8).collect();
        for length in 0..=6 {
            lists_over(&steps, length, &mut |word| one_word(sides, kind, rank, word));
        }
        // With letters out of range.
        let above = rank as u8 + 1;
        let letters: Vec<u8> = (0..=above).collect();
        for length in 1..=4 {
            lists_over(&letters, length, &mut |word| {
                if word.contains(&0) || word.contains(&above) {
                    one_word(sides, kind, rank, word);
                }
            });
        }
    }
}

fn one_word(sides: &mut Sides, kind: u32, rank: u32, word: &[u8]) {
    sides.window_of_word(kind, rank, word, lanes(kind, rank));
    sides.length_of_word(kind, rank, word);
    sides.crossings_of_word(kind, rank, word);
    let length = sides.normal_form_of_word(kind, rank, word, 8);
    let form = sides.bytes(length).to_vec();
    if length >= 0 {
        sides.normal_form_of_word(kind, rank, word, form.len());
        if !form.is_empty() {
            sides.normal_form_of_word(kind, rank, word, form.len() - 1);
        }
    }
    sides.inverse_of_word(kind, rank, word, 8);
    sides.same((kind, rank, word), (kind, rank, &form));
    sides.better(kind, rank, word, &form);
    sides.better(kind, rank, &form, word);
    let steps = sides.rewrite_steps(kind, rank, word).max(0) as usize;
    sides.rewrite_to_end(kind, rank, word, [steps, steps, steps, form.len()]);
    for place in 0..=word.len() {
        let answer = sides.rewrite(kind, rank, word, place, word.len(), 3);
        if answer >= 0 {
            let new = sides.bytes(answer).to_vec();
            sides.rewrite(kind, rank, word, place, new.len(), 3);
            sides.rewrite(kind, rank, word, place, new.len(), 2);
            if !new.is_empty() {
                sides.rewrite(kind, rank, word, place, new.len() - 1, 3);
            }
            sides.better(kind, rank, word, &new);
        }
    }
}

pub fn pairs_of_words(sides: &mut Sides) {
    for (kind, rank, most) in [(A, 1, 6), (A, 2, 5), (A, 3, 4), (B, 2, 5), (B, 3, 4), (D, 4, 3)] {
        let steps: Vec<u8> = (1..=rank as u8).collect();
        let mut words = Vec::new();
        for length in 0..=most {
            lists_over(&steps, length, &mut |word| words.push(word.to_vec()));
        }
        for first in &words {
            for second in &words {
                sides.better(kind, rank, first, second);
                sides.same((kind, rank, first), (kind, rank, second));
                sides.product_of_words(kind, rank, first, second, ROOM.min(24));
            }
        }
    }
}

/// All pairs of short words across kinds and ranks.
pub fn pairs_across(sides: &mut Sides) {
    let rigs =
        [(A, 1, 4), (A, 2, 4), (A, 3, 4), (A, 4, 3), (B, 2, 4), (B, 3, 4), (B, 4, 3), (B, 5, 2), (D, 4, 3), (D, 5, 2)];
    let presets: Vec<(u32, u32, Vec<u8>)> = rigs
        .into_iter()
        .flat_map(|(kind, rank, most)| {
            let steps: Vec<u8> = (1..=rank as u8).collect();
            let mut words = Vec::new();
            for length in 0..=most {
                lists_over(&steps, length, &mut |word| words.push((kind, rank, word.to_vec())));
            }
            words
        })
        .collect();
    for (kind, rank, word) in &presets {
        for (other, other_rank, second) in &presets {
            sides.same((*kind, *rank, word), (*other, *other_rank, second));
        }
    }
}

/// The normal form of each window in every two rigs that have it: the presets look alike, and with step 1 added to the
/// second they do not.
pub fn alike_across(sides: &mut Sides) {
    let rigs = [(A, 3), (A, 4), (B, 4), (B, 5), (D, 4), (D, 5)];
    for (kind, rank) in rigs {
        for (other, other_rank) in rigs {
            if lanes(kind, rank) != lanes(other, other_rank) {
                continue;
            }
            for window in all_windows(kind, rank) {
                if sides.length_of_window(other, other_rank, &window) < 0 {
                    continue;
                }
                let first = plain_form(kind, rank, &window);
                let mut second = plain_form(other, other_rank, &window);
                assert_eq!(sides.same((kind, rank, &first), (other, other_rank, &second)), 1);
                second.push(1);
                assert_eq!(sides.same((kind, rank, &first), (other, other_rank, &second)), 0);
            }
        }
    }
}

/// The table of each rank that has one, with outputs that are one short, exact and longer; up to A7, B6 and D6 held to a
/// count over all windows by the library's own length call, with the longest of them and its normal form.
pub fn delay_tables(sides: &mut Sides) {
    for (kind, rank) in rigs() {
        let lanes = lanes(kind, rank);
        let greatest = sides.delay_table(kind, rank, ROOM, ROOM, ROOM);
        let need = greatest.max(0) as usize;
        for counts in [need, need + 1, need + 2] {
            for window in [lanes - 1, lanes, lanes + 1] {
                for form in [need.saturating_sub(1), need, need + 1] {
                    let due = if greatest < 0 {
                        greatest
                    } else if counts <= need || window < lanes || form < need {
                        -14
                    } else {
                        greatest
                    };
                    assert_eq!(sides.delay_table(kind, rank, counts, window, form), due, "kind {kind}, rank {rank}");
                }
            }
        }
        sides.delay_table(kind, rank, 0, 0, 0);
    }
    for (kind, ranks) in [(A, 1..=7), (B, 2..=6), (D, 4..=6)] {
        for rank in ranks {
            let greatest = sides.delay_table(kind, rank, ROOM, ROOM, ROOM);
            let counts = sides.fields(greatest + 1).to_vec();
            let longest = sides.lanes(lanes(kind, rank) as i64).to_vec();
            let form = sides.bytes(greatest).to_vec();
            let mut due = vec![0; counts.len()];
            for window in all_windows(kind, rank) {
                let length = sides.length_of_window(kind, rank, &window);
                due[length as usize] += 1;
                assert_eq!(length == greatest, window == longest, "kind {kind}, rank {rank}, window {window:?}");
            }
            assert_eq!(counts, due, "kind {kind}, rank {rank}");
            assert_eq!(form, plain_form(kind, rank, &longest));
        }
    }
}
