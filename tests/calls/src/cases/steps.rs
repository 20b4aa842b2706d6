//! Delay tables, rewritings, fallbacks, sets of allowed steps.
use super::{GROUPS, LARGE, NO_KINDS, SMALL, WRAPPED, farthest, longest, ranks, shown, straight, window, word};
use crate::makers::*;
use crate::row::Row;
use plain::{A, B, D, MAX_LETTERS};

fn tables(rows: &mut Vec<Row>) {
    rows.extend(NO_KINDS.map(|kind| delay_table(kind, 2, [Exact; 4])));
    for (kind, last) in [(A, 19), (B, 16), (D, 16)] {
        rows.extend((0..=last + 1).chain(ranks(kind)).map(|rank| delay_table(kind, rank, [Exact; 4])));
    }
    for (kind, rank) in [(A, 3), (B, 2), (D, 4), (B, 16)] {
        for at in 0..4 {
            let of = |room| std::array::from_fn(|place| if place == at { room } else { Exact });
            rows.extend([Less, More, Places(0)].map(|room| delay_table(kind, rank, of(room))));
        }
    }
    rows.extend([delay_table(A, 20, [Places(0); 4]), delay_table(A, 64, [Places(0); 4])]);
}

fn rewrites(rows: &mut Vec<Row>) {
    let words: [(u32, u32, &[u8]); 8] = [
        (A, 4, &[1, 3, 3, 2, 1, 2, 4]),
        (A, 4, &[2, 1, 4, 3, 2, 1]),
        (B, 3, &[3, 2, 3, 2, 1, 3]),
        (B, 4, &[2, 3, 4, 3, 2, 3, 4]),
        (D, 5, &[4, 4, 2, 5, 3, 5, 1, 2]),
        (D, 4, &[2, 4, 2, 3, 4, 1]),
        (D, 5, &[3, 5, 3, 4, 5, 2]),
        (B, 2, &[1, 2, 1, 2, 2]),
    ];
    for (kind, rank, word) in words {
        rows.extend((0..word.len()).map(|place| rewrite(kind, rank, word, place, [Exact; 2])));
        rows.push(rewrite_steps(kind, rank, word));
        rows.push(rewrite_to_end(kind, rank, word, [Exact; 5]));
    }
    for (rank, letters) in [(2, 1), (2, 3), (63, 5), (2, MAX_LETTERS)] {
        let word = vec![1; letters];
        let mut places = vec![letters - 1, letters, letters + 1];
        places.extend(WRAPPED);
        rows.extend(places.into_iter().map(|place| rewrite(A, rank, &word, place, [Exact; 2])));
    }
    let ones = vec![1; MAX_LETTERS];
    rows.extend([0, MAX_LETTERS - 2].map(|place| rewrite(A, 2, &ones, place, [Exact; 2])));
    rows.push(rewrite(A, 2, &[], 0, [Exact; 2]));
    rows.extend([Less, Places(0), More].map(|room| rewrite(A, 3, &[1, 3, 3], 1, [room, Exact])));
    rows.extend([Places(2), Places(0), Places(4)].map(|room| rewrite(A, 3, &[1, 3, 3], 1, [Exact, room])));
    rows.push(rewrite(A, 3, &[1, 2], 0, [Places(0), Places(0)]));
    rows.push(rewrite(A, 3, &[1, 2], 2, [Places(0), Places(0)]));
    // Long words without a rewrite, and with one.
    for (kind, rank) in LARGE {
        let form = longest(kind, rank);
        rows.extend([rewrite_steps(kind, rank, &form), rewrite_to_end(kind, rank, &form, [Exact; 5])]);
        rows.push(rewrite(kind, rank, &form, form.len() - 1, [Exact; 2]));
    }
    let word = word(64, 60, 9);
    rows.extend([B, D].map(|kind| rewrite_to_end(kind, 64, &word, [Exact; 5])));
    rows.extend([B, D].map(|kind| rewrite_steps(kind, 64, &super::word(64, 700, 9))));
    let word = [4, 4, 2, 5, 3, 5, 1, 2];
    for at in 0..5 {
        let of = |room| std::array::from_fn(|place| if place == at { room } else { Exact });
        rows.extend([Less, More, Places(0)].map(|room| rewrite_to_end(D, 5, &word, of(room))));
    }
    rows.push(rewrite_to_end(D, 5, &word, [Places(0); 5]));
}

fn fallbacks(rows: &mut Vec<Row>) {
    let words: [(u32, u32, &[u8], &[u8]); 10] = [
        (A, 2, &[1, 2], &[1]),
        (A, 2, &[1], &[1, 2]),
        (A, 3, &[1, 2, 3], &[1, 3]),
        (A, 3, &[1, 2, 3], &[3]),
        (A, 3, &[3, 2, 1], &[2]),
        (A, 3, &[1, 2, 3], &[2, 1]),
        (B, 3, &[3, 2, 1], &[3, 1]),
        (B, 3, &[3, 2, 1, 1], &[2]),
        (D, 5, &[5, 3, 2, 1], &[5, 2]),
        (D, 5, &[1, 2, 3, 5, 4], &[1, 3, 4]),
    ];
    for (kind, rank, present, simpler) in words {
        rows.push(fallback(kind, rank, present, simpler, Exact));
        rows.push(fallback(kind, rank, simpler, present, Exact));
        rows.extend([Less, More, Places(0)].map(|room| fallback(kind, rank, present, simpler, room)));
    }
    for (kind, rank) in LARGE {
        let form = longest(kind, rank);
        rows.push(fallback(kind, rank, &form, &form, Exact));
        rows.push(fallback(kind, rank, &form[1..], &form, Exact));
        rows.push(fallback(kind, rank, &[1, rank as u8], &[rank as u8], Exact));
    }
    rows.push(fallback(B, 64, &longest(B, 64), &longest(B, 64), Less));
}

/// Sets with each step by itself, with steps above the rank, and of several steps.
fn sets(rows: &mut Vec<Row>) {
    for step in 1..=64u8 {
        let bit = 1 << (step - 1);
        let from = window(D, 64, u64::from(step));
        rows.push(split(B, 64, bit, &[step, 5, step], [Exact; 3]));
        if [3, 4, 8, 9, 16, 17, 31, 32, 33, 34, 48, 63, 64].contains(&step) {
            rows.push(split(A, 2, bit | 1, &[1], [Exact; 3]));
            rows.push(between(B, 64, bit, &straight(B, 64), &shown(B, 64, &[step]), Exact));
        }
        if step % 8 == 0 {
            let mut to = vec![0; 64];
            plain::product_of_windows(D, 64, &from, &shown(D, 64, &[step]), &mut to);
            rows.push(between(D, 64, bit, &from, &to, Exact));
            rows.push(between(D, 64, bit >> 1, &from, &to, Exact));
            rows.push(between(B, 5, bit, &straight(B, 5), &straight(B, 5), Exact));
        }
    }
    for (kind, rank) in LARGE {
        let top = 1 << (rank - 1);
        let word = word(rank, 80, 3);
        for allowed in [0, 1, top, top | 1, top | top >> 1, 0b1001 | top | top >> 9, 0xf] {
            rows.push(split(kind, rank, allowed, &word, [Exact; 3]));
        }
        let all = u64::MAX >> (64 - rank);
        // All steps but one or two, every other step.
        for locked in [1, top, 1 << 31, 1 << 32, 3 << 31, 0x5555_5555_5555_5555 & all] {
            let allowed = all & !locked;
            let steps: Vec<u8> = word.iter().copied().filter(|step| allowed >> (step - 1) & 1 == 1).collect();
            let (from, mut to) = (window(kind, rank, locked), straight(kind, rank));
            plain::product_of_windows(kind, rank, &from, &shown(kind, rank, &steps), &mut to);
            rows.push(split(kind, rank, allowed, &word, [Exact; 3]));
            rows.push(between(kind, rank, allowed, &from, &to, Exact));
        }
        rows.push(split(kind, rank, all & !1, &longest(kind, rank), [Exact; 3]));
        rows.push(split(kind, rank, all, &word, [Exact; 3]));
        rows.push(split(kind, rank, 0, &longest(kind, rank), [Exact; 3]));
        rows.push(split(kind, rank, all, &longest(kind, rank), [Exact; 3]));
        rows.push(between(kind, rank, all, &straight(kind, rank), &farthest(kind, rank), Exact));
        let (from, to) = (window(kind, rank, 4), window(kind, rank, 5));
        rows.extend([between(kind, rank, all, &from, &to, Exact), between(kind, rank, all, &to, &from, Exact)]);
        rows.push(between(kind, rank, 3, &from, &to, Exact));
    }
    rows.extend([u64::MAX, 1 << 63, u64::MAX >> 1].map(|allowed| split(A, 63, allowed, &[63, 62], [Exact; 3])));
    rows.push(split(B, 64, u64::MAX, &longest(B, 64), [Less, Exact, Exact]));
    rows.push(split(B, 64, 0, &longest(B, 64), [Exact, Less, Exact]));
    rows.push(between(B, 64, u64::MAX, &straight(B, 64), &farthest(B, 64), Less));
}

fn small_sets(rows: &mut Vec<Row>) {
    for (kind, rank) in SMALL {
        for allowed in 0..1u64 << rank {
            let word = word(rank, 6, allowed);
            let (from, to) = (window(kind, rank, allowed), window(kind, rank, allowed + 20));
            rows.push(split(kind, rank, allowed, &word, [Exact; 3]));
            rows.extend([
                between(kind, rank, allowed, &from, &to, Exact),
                between(kind, rank, allowed, &to, &from, Exact),
            ]);
        }
    }
    for (seed, (kind, rank)) in (1..).zip(GROUPS) {
        let allowed = 0b1011 & (u64::MAX >> (64 - rank));
        let from = window(kind, rank, seed);
        let mut to = vec![0; from.len()];
        let steps: Vec<u8> = word(4, 9, seed).into_iter().filter(|step| allowed >> (step - 1) & 1 == 1).collect();
        plain::product_of_windows(kind, rank, &from, &shown(kind, rank, &steps), &mut to);
        rows.extend([between(kind, rank, allowed, &from, &to, Exact), between(kind, rank, allowed, &to, &from, Exact)]);
    }
    // 6 before 16 before 7 to 11 before 19.
    rows.push(split(4, 2, 4, &[0], [Exact; 3]));
    rows.push(split(A, 64, u64::MAX, &[0], [Exact; 3]));
    rows.push(split(A, 2, 4, &[0], [Exact; 3]));
    rows.push(split(A, 2, 4, &[1; 4097], [Exact; 3]));
    rows.push(between(4, 2, 4, &[1, 2], &[1, 2], Exact));
    rows.push(between(A, 64, u64::MAX, &[1, 2], &[1, 2], Exact));
    rows.push(between(A, 2, 4, &[1, 2], &[1, 2], Exact));
    rows.push(between(A, 2, 1, &[1, 2, 3], &[1, 3, 2], Places(0)));
    for at in 0..3 {
        let of = |room| std::array::from_fn(|place| if place == at { room } else { Exact });
        rows.extend([Less, More, Places(0)].map(|room| split(D, 5, 0b111, &[3, 1, 2, 4, 5, 3], of(room))));
    }
    rows.extend([Less, More, Places(0)].map(|room| between(D, 4, 15, &window(D, 4, 1), &window(D, 4, 2), room)));
}

pub fn rows() -> Vec<Row> {
    let mut rows = Vec::new();
    for part in [tables, rewrites, fallbacks, sets, small_sets] {
        part(&mut rows);
    }
    rows
}
