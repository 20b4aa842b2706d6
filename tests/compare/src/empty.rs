//! The book of no bytes, which has no presets, and the books of one byte, which are refused.
use crate::inputs::rigs;
use crate::sides::Sides;
use winnathey::Edition::{self, First, Second};

pub fn run(sides: &mut Sides) {
    for edition in [First, Second] {
        reading(sides, edition);
        appending(sides, edition);
        converting(sides, edition);
        for byte in 0..=255 {
            one_byte(sides, edition, byte);
        }
    }
}

const NUMBERS: [usize; 5] = [0, 1, 2, 65_535, usize::MAX];

fn reading(sides: &mut Sides, edition: Edition) {
    assert_eq!(sides.book_check(edition, &[]), 0);
    for number in NUMBERS {
        for fields in 0..=11 {
            // Check 4 comes before the output's.
            assert_eq!(sides.preset(edition, &[], number, fields), -4);
            assert_eq!(sides.presets(edition, &[], number, fields), -4);
        }
    }
}

/// Appending gives what it gives to the book of two zeros, refusals included.
fn appending(sides: &mut Sides, edition: Edition) {
    let wrong = [(0, 1), (4, 2), (257, 2), (1, 0), (2, 1), (3, 3), (1, 64), (2, 65), (2, 258), (u32::MAX, u32::MAX)];
    for (kind, rank) in rigs().chain(wrong) {
        for word in [&[][..], &[1], &[1, 2, 1], &[0], &[65], &[1; 4_096], &[1; 4_097], &[0; 4_097]] {
            let due = sides.append(edition, &[0, 0], kind, rank, word, 4_200);
            let book = sides.bytes(due).to_vec();
            assert_eq!(sides.append(edition, &[], kind, rank, word, 4_200), due);
            assert_eq!(sides.bytes(due), book);
            for out in [0, 2, book.len().saturating_sub(1), book.len()] {
                let due = if due < 0 || out == book.len() { due } else { -14 };
                assert_eq!(sides.append(edition, &[], kind, rank, word, out), due);
            }
            if due >= 0 {
                assert_eq!(sides.book_check(edition, &book), 1);
                assert_eq!(sides.preset(edition, &book, 0, 4), 4);
                let letters = book.len() - 4 - word.len();
                assert_eq!(sides.fields(4), [kind.into(), rank.into(), letters as u64, word.len() as u64]);
            }
        }
    }
}

fn converting(sides: &mut Sides, edition: Edition) {
    for out in 0..=9 {
        assert_eq!(sides.convert(edition, &[], out), 0);
        let two_zeros = sides.convert(edition, &[0, 0], out);
        assert_eq!(two_zeros, if out < 2 { -14 } else { 2 });
        assert!(two_zeros < 0 || sides.bytes(2) == [0, 0]);
    }
}

fn one_byte(sides: &mut Sides, edition: Edition, byte: u8) {
    let book = [byte];
    assert_eq!(sides.book_check(edition, &book), -1);
    for number in NUMBERS {
        for fields in [0, 4, 5, 10] {
            assert_eq!(sides.preset(edition, &book, number, fields), -1);
            assert_eq!(sides.presets(edition, &book, number, fields), -1);
        }
    }
    for (kind, rank) in [(2, 2), (0, 2), (2, 0)] {
        for word in [&[][..], &[1, 2], &[0], &[1; 4_097]] {
            for out in [0, 20] {
                assert_eq!(sides.append(edition, &book, kind, rank, word, out), -1);
            }
        }
    }
    for out in 0..=3 {
        assert_eq!(sides.convert(edition, &book, out), -1);
    }
}
