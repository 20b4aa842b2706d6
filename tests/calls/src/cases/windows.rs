//! Windows: each call that takes one, at the limits of kind, rank, length and entries; then pairs of windows.
use super::{GROUPS, LARGE, NO_KINDS, SMALL, farthest, lanes, ranks, shown, straight, window, word};
use crate::makers::*;
use crate::row::Row;
use plain::{A, B, D};

/// A call with a window, and whether it gives the window's kind and rank, or another window does.
type OfWindow = (fn(u32, u32, &[i8]) -> Row, bool);

const CALLS: [OfWindow; 8] = [
    (|kind, rank, window| normal_form_of_window(kind, rank, window, Exact), true),
    (|kind, rank, window| product_of_windows(kind, rank, window, &straight_or_none(kind, rank), Exact), true),
    (|kind, rank, window| product_of_windows(kind, rank, &straight_or_none(kind, rank), window, Exact), false),
    (|kind, rank, window| inverse_of_window(kind, rank, window, Exact), true),
    (length_of_window, true),
    (|kind, rank, window| crossings_of_window(kind, rank, window, Exact), true),
    (|kind, rank, window| between(kind, rank, 1, window, window, Exact), true),
    (|kind, rank, window| between(kind, rank, 1, &straight_or_none(kind, rank), window, Exact), false),
];

/// The straight window of a rank that there is.
fn straight_or_none(kind: u32, rank: u32) -> Vec<i8> {
    if (1..=3).contains(&kind) && rank <= 64 { straight(kind, rank) } else { vec![1, 2] }
}

/// Windows with one fault, some with two, and some without.
fn faults(kind: u32, rank: u32) -> Vec<Vec<i8>> {
    let right = straight(kind, rank);
    let m = right.len() as i8;
    let with = |at: usize, entry: i8| {
        let mut window = right.clone();
        window[at] = entry;
        window
    };
    let last = right.len() - 1;
    let mut windows = vec![right[1..].to_vec(), [&right[..], &[1]].concat(), vec![], vec![0; last], vec![1; 65]];
    windows.extend([0, m, m + 1, -1].map(|entry| with(0, entry)));
    windows.extend([1, -m, -m - 1, -128, 127].map(|entry| with(last, entry)));
    // An entry that is repeated, and an odd number of mirrored lanes.
    let mut two = with(0, -1);
    two[1] = 1;
    windows.push(two);
    let mut exchanged = right.clone();
    exchanged.swap(0, last);
    windows.push(exchanged);
    windows
}

fn limits((call, own): &OfWindow, rows: &mut Vec<Row>) {
    if *own {
        rows.extend(NO_KINDS.map(|kind| call(kind, 4, &[2, 1, 3, 4])));
        for kind in [A, B, D] {
            rows.extend(ranks(kind).into_iter().map(|rank| call(kind, rank, &straight_or_none(kind, rank))));
        }
        rows.extend([call(4, 0, &[0]), call(A, 0, &[0])]);
        for (kind, rank) in LARGE {
            let mut window = straight(kind, rank);
            rows.extend([call(kind, rank, &window[1..]), call(kind, rank, &[&window[..], &[65]].concat())]);
            for last in [63, -64, 65, -65] {
                window[lanes(kind, rank) - 1] = last;
                rows.push(call(kind, rank, &window));
            }
        }
    }
    for (kind, rank) in SMALL {
        rows.extend(faults(kind, rank).iter().map(|window| call(kind, rank, window)));
    }
}

/// Accepted windows: of the greatest length, and others.
fn accepted(rows: &mut Vec<Row>) {
    for (seed, (kind, rank)) in (1..).zip(GROUPS) {
        let mut windows = vec![window(kind, rank, seed), shown(kind, rank, &word(rank, 5, seed))];
        if lanes(kind, rank).is_multiple_of(2) {
            windows.push(farthest(kind, rank));
        }
        for window in &windows {
            rows.push(normal_form_of_window(kind, rank, window, Exact));
            rows.push(inverse_of_window(kind, rank, window, Exact));
            rows.push(length_of_window(kind, rank, window));
            rows.push(crossings_of_window(kind, rank, window, Exact));
            rows.push(product_of_windows(kind, rank, window, &windows[0], Exact));
            rows.push(product_of_windows(kind, rank, &windows[0], window, Exact));
        }
    }
}

/// The first window's refusal comes before the second's, whichever number is the lower.
fn orders(rows: &mut Vec<Row>) {
    let windows: [&[i8]; 4] = [&[1, 2, 3], &[1, 2, 3, 3], &[1, 2, 3, -4], &[2, 1, 4, 3]];
    for first in windows {
        for second in windows {
            rows.push(product_of_windows(D, 4, first, second, Exact));
            rows.push(between(D, 4, 0b1111, first, second, Exact));
        }
    }
}

fn rooms(rows: &mut Vec<Row>) {
    for (kind, rank) in [(A, 3), (B, 3), (D, 5)] {
        let (first, second) = (window(kind, rank, 7), window(kind, rank, 8));
        for room in [Less, More, Places(0)] {
            rows.push(normal_form_of_window(kind, rank, &first, room));
            rows.push(product_of_windows(kind, rank, &first, &second, room));
            rows.push(inverse_of_window(kind, rank, &first, room));
        }
        rows.extend([Places(0), Places(2), Places(4)].map(|room| crossings_of_window(kind, rank, &first, room)));
    }
    rows.push(normal_form_of_window(B, 64, &farthest(B, 64), Less));
}

pub fn rows() -> Vec<Row> {
    let mut rows = Vec::new();
    CALLS.iter().for_each(|call| limits(call, &mut rows));
    for part in [accepted, orders, rooms] {
        part(&mut rows);
    }
    rows
}
