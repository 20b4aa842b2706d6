//! Kind A at rank 1: it is not appended, and books that hold it are as any other.
use crate::books::{EXAMPLE, SECOND_EXAMPLE, book_with, record};
use crate::conversions::there_and_back;
use crate::sides::{ROOM, Sides};
use winnathey::Edition::{self, First, Second};

pub fn run(sides: &mut Sides) {
    for edition in [First, Second] {
        appending(sides, edition);
        holding(sides, edition);
    }
}

/// A book of one record whose word is too long to be read, so that its length is free.
fn book_of(edition: Edition, length: usize) -> Vec<u8> {
    let rest = record(edition, 2, 2, &[]).len() + 4;
    book_with([record(edition, 2, 2, &vec![1; length - rest])].into_iter())
}

/// Refused 21 after the book's checks and 5 to 8, and before 13 and 14.
fn appending(sides: &mut Sides, edition: Edition) {
    let example = if edition == First { EXAMPLE } else { SECOND_EXAMPLE };
    let holding = book_with([record(edition, 1, 1, &[1])].into_iter());
    let (room, full, over) = (book_of(edition, 61_000), book_of(edition, 65_535), book_of(edition, 65_536));
    let books: [(&[u8], i64); 10] = [
        (&[], 0),
        (&[0, 0], 0),
        (example, 0),
        (&holding, 0),
        (&room, 0),
        (&full, 0),
        (&over, -1),
        (&[0], -1),
        (&[1, 0], -2),
        (&[0, 0, 0], -3),
    ];
    let long = [1; 4_097];
    let words: [(&[u8], i64); 8] = [
        (&[], -21),
        (&[1], -21),
        (&[1, 1, 1], -21),
        (&long[1..], -21),
        (&long, -7),
        (&[2], -8),
        (&[1, 0], -8),
        (&[0; 4_097], -7),
    ];
    for (book, refused) in books {
        for (word, due) in words {
            let due = if refused < 0 { refused } else { due };
            let need = book.len() + word.len() + 6;
            for out in [0, need, need + 1, need + ROOM] {
                assert_eq!(sides.append(edition, book, 1, 1, word, out), due);
            }
            // Kinds and ranks next to it, and those that would be it in fewer bits.
            for (kind, rank) in [(1, 0), (1, 2), (2, 1), (2, 2), (3, 1), (0, 1), (257, 1), (1, 257), (257, 257)] {
                let answer = sides.append(edition, book, kind, rank, word, need + ROOM);
                assert_ne!(answer, -21);
            }
        }
    }
}

/// Books of up to four records with rank 1 at any place: read, converted and appended to.
fn holding(sides: &mut Sides, edition: Edition) {
    let records = [
        record(edition, 1, 1, &[]),
        record(edition, 1, 1, &[1, 1, 1]),
        record(edition, 1, 1, &[1; 300]),
        record(edition, 1, 2, &[2]),
        record(edition, 2, 2, &[1, 2]),
        record(edition, 3, 4, &[4, 3]),
    ];
    for first in &records {
        for second in &records {
            for third in &records {
                for fourth in &records {
                    let book = book_with([first, second, third, fourth].into_iter().cloned());
                    assert!(there_and_back(sides, edition, &book) > 0);
                    for number in 0..4 {
                        assert_eq!(sides.preset(edition, &book, number, 4), 4);
                    }
                    let need = book.len() + record(edition, 2, 2, &[1]).len() + 2;
                    assert_eq!(sides.append(edition, &book, 2, 2, &[1], need), need as i64);
                    assert_eq!(sides.append(edition, &book, 1, 1, &[1], need), -21);
                }
            }
        }
    }
    // A wrong letter is refused as before, also at rank 1.
    let wrong = book_with([record(edition, 1, 1, &[1]), record(edition, 1, 1, &[2])].into_iter());
    assert_eq!(sides.preset(edition, &wrong, 0, 4), 4);
    assert_eq!(sides.preset(edition, &wrong, 1, 4), -8);
    assert_eq!(there_and_back(sides, edition, &wrong), -8);
}
