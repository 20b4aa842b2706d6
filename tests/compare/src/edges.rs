//! The edges of each range, and the order of the checks.
use crate::books::record;
use crate::inputs::{RAISED, Random, lanes, rigs};
use crate::sides::{ROOM, Sides};
use winnathey::Edition::{First, Second};

/// Words and windows that each call gets here.
fn every_call(sides: &mut Sides, kind: u32, rank: u32, word: &[u8], window: &[i8], out: usize) {
    sides.window_of_word(kind, rank, word, out.min(80));
    sides.normal_form_of_word(kind, rank, word, out);
    sides.normal_form_of_window(kind, rank, window, out);
    sides.product_of_words(kind, rank, word, word, out);
    sides.product_of_windows(kind, rank, window, window, out.min(80));
    sides.inverse_of_word(kind, rank, word, out);
    sides.inverse_of_window(kind, rank, window, out.min(80));
    sides.length_of_word(kind, rank, word);
    sides.length_of_window(kind, rank, window);
    sides.crossings_of_word(kind, rank, word);
    sides.crossings_of_window(kind, rank, window);
    sides.delay_table(kind, rank, out, out.min(80), out);
    sides.same((kind, rank, word), (kind, rank, word));
    sides.same((2, 2, &[1]), (kind, rank, word));
    sides.better(kind, rank, word, word);
    sides.rewrite(kind, rank, word, 0, out, 3);
    to_end(sides, kind, rank, word, out);
    sides.fallback(kind, rank, word, &[1], out);
    sides.fallback(kind, rank, &[1], word, out);
    sides.between(kind, rank, 1, window, window, out);
    sides.append(First, &[0, 0], kind, rank, word, out);
    sides.append(Second, &[0, 0], kind, rank, word, out);
    // A record of this kind and rank in a book, right or wrong.
    let (Ok(kind), Ok(rank)) = (kind.try_into(), rank.try_into()) else { return };
    for edition in [First, Second] {
        let mut book = record(edition, kind, rank, word);
        book.extend([0, 0, 1, 0]);
        sides.preset(edition, &book, 0, 4);
        sides.convert(edition, &book, book.len() + 1);
    }
}

/// At high ranks a random word of thousands of letters takes hundreds of thousands of steps, which would be long to search
/// for; there the right letters are all 1 here, and `traces` has some random ones.
fn to_end(sides: &mut Sides, kind: u32, rank: u32, word: &[u8], out: usize) {
    let in_range = |letter: u8| letter > 0 && u32::from(letter) <= rank;
    let ones = |&letter: &u8| if in_range(letter) { 1 } else { letter };
    let few: Vec<u8> = if rank > 8 && word.len() > 300 { word.iter().map(ones).collect() } else { word.to_vec() };
    sides.rewrite_steps(kind, rank, &few);
    sides.rewrite_to_end(kind, rank, &few, [out; 4]);
}

pub fn kinds_and_ranks(sides: &mut Sides) {
    for kind in 0..=255 {
        for rank in 0..=255 {
            let window: Vec<i8> = (1..=lanes(kind, rank).min(127) as i8).collect();
            every_call(sides, kind, rank, &[1, rank.max(1) as u8], &window, 64);
        }
    }
}

/// Kinds and ranks that are no byte, with words and windows that are right for their lowest bytes.
pub fn no_bytes(sides: &mut Sides) {
    for (kind, rank) in rigs() {
        let word = [1, rank as u8];
        let window: Vec<i8> = (1..=lanes(kind, rank) as i8).collect();
        let mut pair = |kind: u32, rank: u32, due: i64| {
            every_call(sides, kind, rank, &word, &window, 64);
            assert_eq!(sides.length_of_word(kind, rank, &word), due, "kind {kind}, rank {rank}");
            assert_eq!(sides.same((2, 2, &[1]), (kind, rank, &word)), due, "kind {kind}, rank {rank} as the second");
        };
        for by in RAISED {
            pair(kind + by, rank, -5);
            pair(kind, rank + by, -6);
            for other in RAISED {
                pair(kind + by, rank + other, -5);
            }
        }
        pair(u32::MAX, rank, -5);
        pair(kind, u32::MAX, -6);
        pair(u32::MAX, u32::MAX, -5);
    }
}

pub fn letters(sides: &mut Sides) {
    for (kind, rank) in rigs() {
        let n = rank as u8;
        for letter in 0..=255 {
            for word in [&[letter][..], &[1, letter, 1], &[letter, n, letter, n], &[n, n, n, letter]] {
                sides.window_of_word(kind, rank, word, 64);
                sides.normal_form_of_word(kind, rank, word, 8);
                sides.rewrite(kind, rank, word, word.len() - 1, 8, 3);
                sides.rewrite(kind, rank, word, 0, 8, 3);
                sides.product_of_words(kind, rank, &[1], word, 8);
                sides.better(kind, rank, word, &[1]);
                sides.append(First, &[0, 0], kind, rank, word, 20);
                sides.append(Second, &[0, 0], kind, rank, word, 20);
            }
        }
        let straight: Vec<i8> = (1..=lanes(kind, rank) as i8).collect();
        let mut random = Random(rank.into());
        for length in [4095, 4096, 4097, 4098] {
            let mut word = random.word(kind, rank, length);
            word.resize(length, 1);
            every_call(sides, kind, rank, &word, &straight, ROOM);
            sides.rewrite(kind, rank, &word, length - 1, ROOM, 3);
            sides.rewrite(kind, rank, &word, length - 2, ROOM, 3);
            sides.rewrite(kind, rank, &word, length, ROOM, 3);
            // A bad letter as well, at either end: 8 only if the length is right.
            word[0] = 0;
            every_call(sides, kind, rank, &word, &straight, ROOM);
            word[0] = 1;
            word[length - 1] = n + 1;
            every_call(sides, kind, rank, &word, &straight, ROOM);
        }
        for place in [0, 1, 2, 3, 4, 1 << 32, usize::MAX - 1, usize::MAX] {
            sides.rewrite(kind, rank, &[1, 1, 1], place, 8, 3);
            sides.rewrite(kind, rank, &[], place, 8, 3);
        }
    }
    // Far beyond the limit.
    for length in [65535, 65536, 65537, 1 << 20] {
        every_call(sides, 2, 2, &vec![1; length], &[1, 2], ROOM);
    }
}

pub fn entries(sides: &mut Sides) {
    for (kind, rank) in rigs() {
        let m = lanes(kind, rank);
        for length in 0..=m + 3 {
            let window: Vec<i8> = (1..=length as i8).collect();
            sides.normal_form_of_window(kind, rank, &window, 8);
            sides.product_of_windows(kind, rank, &window, &window, 80);
            sides.inverse_of_window(kind, rank, &window, 80);
            sides.length_of_window(kind, rank, &window);
        }
        sides.length_of_window(kind, rank, &vec![1; 300]);
        sides.length_of_window(kind, rank, &vec![1; 256 + m]);
        let straight: Vec<i8> = (1..=m as i8).collect();
        for at in 0..m {
            for value in i8::MIN..=i8::MAX {
                let mut window = straight.clone();
                window[at] = value;
                sides.length_of_window(kind, rank, &window);
                if rank < 7 || at == 0 || at == m - 1 {
                    sides.normal_form_of_window(kind, rank, &window, 4096);
                    sides.inverse_of_window(kind, rank, &window, 80);
                    sides.product_of_windows(kind, rank, &straight, &window, m);
                    sides.product_of_windows(kind, rank, &window, &straight, m);
                }
            }
        }
    }
}

pub fn order_of_checks(sides: &mut Sides) {
    // Each part right, wrong in one way, or wrong in two.
    let words: [&[u8]; 6] = [&[], &[1], &[1, 2], &[0], &[1; 4097], &[99; 4097]];
    let windows: [&[i8]; 12] = [
        &[1, 2, 3, 4],
        &[4, 3, 2, 1],
        &[-1, -2, 3, 4],
        &[-1, 2, 3, 4],
        &[-1, 2, 2, 4],
        &[0, 2, 3, 4],
        &[-5, 2, 3, 4],
        &[-128, -2, -3, 4],
        &[1, 2, 3],
        &[-1, 2, 3],
        &[0, 0, 0, 0, 0],
        &[],
    ];
    let books: [&[u8]; 12] = [
        &[],
        &[0],
        &[0, 0],
        &[1, 0],
        &[0, 0, 0],
        &[2, 4, 1, 0, 9, 0, 0, 1, 0],
        &[2, 4, 1, 0, 1, 0, 0, 1, 0],
        &[9, 0, 1, 0, 0, 0, 0, 1, 0],
        &[2, 4, 4, 1, 0, 9, 0, 0, 1, 0],
        &[2, 4, 5, 1, 0, 9, 0, 0, 1, 0],
        &[2, 4, 4, 1, 0, 1, 0, 0, 1, 0],
        &[2, 99, 5, 1, 0, 9, 0, 0, 1, 0],
    ];
    for kind in 0..=4 {
        for rank in [0, 1, 3, 4, 31, 32, 33, 63, 64, 65] {
            for first in words {
                for second in words {
                    for out in [0, 1, 2, 8] {
                        sides.product_of_words(kind, rank, first, second, out);
                    }
                    sides.better(kind, rank, first, second);
                    for (kind2, rank2) in [(kind, rank), (0, 4), (2, 0), (2, 4), (3, 4)] {
                        sides.same((kind, rank, first), (kind2, rank2, second));
                        sides.same((kind2, rank2, second), (kind, rank, first));
                    }
                }
                for out in [0, 1, 2, 8] {
                    for place in [0, 1, 2, 4096, 4097] {
                        for rule in 0..=4 {
                            sides.rewrite(kind, rank, first, place, out, rule);
                        }
                    }
                    sides.inverse_of_word(kind, rank, first, out);
                    sides.window_of_word(kind, rank, first, out);
                }
                for book in books {
                    for out in [0, 7, 8, 9, 10, 20] {
                        sides.append(First, book, kind, rank, first, out);
                        sides.append(Second, book, kind, rank, first, out);
                    }
                }
            }
            for first in windows {
                for second in windows {
                    for out in [0, 3, 4, 5] {
                        sides.product_of_windows(kind, rank, first, second, out);
                        for allowed in [0, 1, 7, 15, 16, 1 << 63, u64::MAX] {
                            sides.between(kind, rank, allowed, first, second, out);
                        }
                    }
                }
                for out in [0, 3, 4, 5, 40] {
                    sides.inverse_of_window(kind, rank, first, out);
                    sides.normal_form_of_window(kind, rank, first, out);
                }
            }
        }
    }
    for book in books {
        for number in [0, 1, 2, usize::MAX] {
            for fields in 0..=6 {
                sides.preset(First, book, number, fields);
                sides.preset(Second, book, number, fields);
            }
        }
        sides.book_check(First, book);
        sides.book_check(Second, book);
        for out in 0..=11 {
            sides.convert(First, book, out);
            sides.convert(Second, book, out);
        }
    }
}
