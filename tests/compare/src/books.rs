//! Preset books of both editions.
use crate::conversions::{converted_length, other};
use crate::inputs::{Random, lanes};
use crate::sides::Sides;
use winnathey::Edition::{self, First, Second};

pub const EXAMPLE: &[u8] = &[2, 2, 4, 0, 1, 2, 1, 2, 3, 5, 6, 0, 5, 2, 3, 5, 1, 2, 0, 0, 8, 0, 2, 0];
/// Its presets in the second edition.
pub const SECOND_EXAMPLE: &[u8] = &[2, 2, 2, 4, 0, 1, 2, 1, 2, 3, 5, 5, 6, 0, 5, 2, 3, 5, 1, 2, 0, 0, 9, 0, 2, 0];

/// The bytes of a record before its letters.
fn head(edition: Edition) -> usize {
    match edition {
        First => 4,
        Second => 5,
    }
}

/// A record, with the lane count that kind and rank make where the edition has one.
pub fn record(edition: Edition, kind: u8, rank: u8, word: &[u8]) -> Vec<u8> {
    let mut record = vec![kind, rank];
    if edition == Second {
        record.push(lanes(kind.into(), rank.into()) as u8);
    }
    record.extend((word.len() as u16).to_le_bytes());
    record.extend(word);
    record
}

/// All calls on one book, read in one edition.
fn one_book(sides: &mut Sides, edition: Edition, book: &[u8]) {
    let count = sides.book_check(edition, book);
    let last = count.clamp(0, 40) as usize;
    for number in (0..last + 2).chain([usize::MAX]) {
        sides.preset(edition, book, number, 4);
    }
    sides.preset(edition, book, 0, 3);
    sides.preset(edition, book, 0, 5);
    for first in [0, 1, last, usize::MAX] {
        for fields in [0, 4, 5, 9, 5 * last, 5 * last + 5] {
            sides.presets(edition, book, first, fields);
        }
    }
    let need = book.len().max(2) + head(edition) + 4;
    sides.append(edition, book, 3, 4, &[4, 3], need);
    sides.append(edition, book, 3, 4, &[4, 3], need - 1);
    let need = converted_length(edition, book.len(), count.max(0) as usize);
    sides.convert(edition, book, need);
    sides.convert(edition, book, need.saturating_sub(1));
}

pub fn examples(sides: &mut Sides) {
    held_to_values(sides);
    for edition in [First, Second] {
        let example = if edition == First { EXAMPLE } else { SECOND_EXAMPLE };
        for fields in 0..17 {
            sides.preset(edition, example, 0, fields);
            for first in 0..4 {
                sides.presets(edition, example, first, fields);
            }
        }
        for out in 0..40 {
            sides.append(edition, example, 1, 2, &[1, 1], out);
            sides.convert(edition, example, out);
        }
        for at in 0..example.len() {
            for value in 0..=255 {
                let mut book = example.to_vec();
                book[at] = value;
                one_book(sides, edition, &book);
            }
        }
        for start in 0..=example.len() {
            for end in start..=example.len() {
                one_book(sides, edition, &example[start..end]);
            }
            for value in 0..=255 {
                let mut book = example.to_vec();
                book.insert(start, value);
                one_book(sides, edition, &book);
            }
        }
        // All books of two and three bytes with small numbers, and all of two bytes.
        for low in 0..=255 {
            for high in 0..=255 {
                sides.book_check(edition, &[low, high]);
                sides.preset(edition, &[low, high], 0, 4);
                sides.append(edition, &[low, high], 1, 2, &[], 9);
                sides.convert(edition, &[low, high], 2);
                sides.book_check(edition, &[low, high, 0]);
                sides.book_check(edition, &[0, 0, 0, 0, low, high, 1, 0]);
                sides.book_check(edition, &[1, 1, low, high, 0, 0, 1, 0]);
                sides.book_check(edition, &[1, 1, 2, low, high, 0, 0, 1, 0]);
            }
        }
        // Read as the other edition.
        one_book(sides, other(edition), example);
    }
}

fn held_to_values(sides: &mut Sides) {
    for (edition, example, starts) in [(First, EXAMPLE, [4, 12]), (Second, SECOND_EXAMPLE, [5, 14])] {
        assert_eq!(sides.book_check(edition, example), 2);
        assert_eq!(sides.preset(edition, example, 0, 4), 4);
        assert_eq!(sides.fields(4), [2, 2, starts[0], 4]);
        assert_eq!(sides.preset(edition, example, 1, 4), 4);
        assert_eq!(sides.fields(4), [3, 5, starts[1], 6]);
        assert_eq!(sides.preset(edition, example, 2, 4), -4);
        // The example is what two appends make.
        let answer = sides.append(edition, &[0, 0], 2, 2, &[1, 2, 1, 2], 13);
        let one = sides.bytes(answer).to_vec();
        let answer = sides.append(edition, &one, 3, 5, &[5, 2, 3, 5, 1, 2], 26);
        assert_eq!(sides.bytes(answer), example);

        assert_eq!(sides.presets(edition, example, 0, 10), 2);
        assert_eq!(sides.fields(10), [0, 2, 2, starts[0], 4, 0, 3, 5, starts[1], 6]);
        assert_eq!(sides.presets(edition, example, 0, 9), 1);
        assert_eq!(sides.presets(edition, example, 1, 9), 1);
        assert_eq!(sides.fields(5), [0, 3, 5, starts[1], 6]);
        assert_eq!(sides.presets(edition, example, 2, 4), -4);
        assert_eq!(sides.presets(edition, example, 1, 4), -14);
        // A letter above the rank in the first record: refused 8, and the second as before.
        let mut damaged = example.to_vec();
        damaged[head(edition)] = 3;
        assert_eq!(sides.presets(edition, &damaged, 0, 10), 2);
        assert_eq!(sides.fields(10), [8, 0, 0, 0, 0, 0, 3, 5, starts[1], 6]);
    }
    // The lane count is checked right after the rank: n + 1 in kind A, n in B and D.
    for (kind, ranks) in [(1, [1, 31, 32, 63]), (2, [2, 32, 33, 64]), (3, [4, 32, 33, 64])] {
        for rank in ranks {
            for count in 0..=255 {
                let mut book = record(Second, kind, rank, &[rank]);
                book[2] = count;
                book.extend([0, 0, 1, 0]);
                let due = if usize::from(count) == lanes(kind.into(), rank.into()) { 4 } else { -17 };
                assert_eq!(sides.preset(Second, &book, 0, 4), due);
                book[5] = 0;
                assert_eq!(sides.preset(Second, &book, 0, 4), if due == 4 { -8 } else { due });
                book[1] = 65;
                assert_eq!(sides.preset(Second, &book, 0, 4), -6);
            }
        }
    }
    // The ranges of the two editions.
    for (kind, rank) in crate::inputs::rigs() {
        let (kind, rank) = (kind as u8, rank as u8);
        let due = if lanes(kind.into(), rank.into()) > 32 { -6 } else { 4 };
        for (edition, due) in [(First, due), (Second, 4)] {
            let mut book = record(edition, kind, rank, &[rank]);
            book.extend([0, 0, 1, 0]);
            assert_eq!(sides.preset(edition, &book, 0, 4), due);
            let length = sides.append(edition, &[0, 0], kind.into(), rank.into(), &[rank], 10);
            let due = match (kind, rank, due) {
                (1, 1, _) => -21,
                (_, _, 4) => book.len() as i64,
                _ => -6,
            };
            assert_eq!(length, due);
        }
    }
}

/// The bytes of a book with these records.
pub fn book_with(records: impl Iterator<Item = Vec<u8>>) -> Vec<u8> {
    let mut book = Vec::new();
    let mut offsets = Vec::new();
    let mut count = 0u16;
    for record in records {
        offsets.extend((book.len() as u16).to_le_bytes());
        book.extend(record);
        count += 1;
    }
    book.extend(offsets);
    book.extend(count.to_le_bytes());
    book
}

/// A book of random records, of which now and then one holds a wrong preset or a wrong lane count.
pub fn random_book(random: &mut Random, edition: Edition, records: usize, letters: usize) -> Vec<u8> {
    book_with((0..records).map(|_| {
        let (kind, rank) = random.byte_rig();
        let count = random.below(letters + 1);
        let mut word = random.word(kind, rank, count);
        random.damage_word(rank, &mut word);
        let mut record = record(edition, kind as u8, rank as u8, &word);
        if edition == Second && random.once_in(20) {
            record[2] = if random.once_in(2) { rank as u8 } else { random.byte() };
        }
        record
    }))
}

/// Changes a byte or two, or the length.
pub fn damage_book(random: &mut Random, book: &mut Vec<u8>) {
    for _ in 0..1 + random.below(2) {
        if book.is_empty() {
            return;
        }
        // The trailer and the heads are where it matters.
        let at = if random.once_in(2) {
            book.len() - 1 - random.below(book.len().min(12))
        } else {
            random.below(book.len())
        };
        match random.below(6) {
            0 => book[at] = random.byte(),
            1 => book[at] = book[at].wrapping_add(1),
            2 => book[at] = book[at].wrapping_sub(1),
            3 => book.insert(at, random.byte()),
            4 => {
                book.remove(at);
            }
            _ => book.truncate(at),
        }
    }
}

/// A book of `length` bytes in all: records of 4,096 letters, then one that fills the rest.
fn book_of(edition: Edition, length: usize) -> Vec<u8> {
    let mut records = Vec::new();
    let mut left = length - 2;
    let added = head(edition) + 2;
    while left > 0 {
        let letters = if left > 4096 + 2 * added { 4096 } else { left - added };
        let word: Vec<u8> = (0..letters).map(|at| (at % 7) as u8 + 1).collect();
        records.push(record(edition, 2, 7, &word));
        left -= letters + added;
    }
    book_with(records.into_iter())
}

pub fn others(sides: &mut Sides) {
    let mut random = Random(9);
    for round in 0..20_000 {
        let edition = if round % 2 == 0 { First } else { Second };
        let records = random.below(6);
        let mut book = random_book(&mut random, edition, records, if round % 20 < 2 { 4096 } else { 12 });
        book.truncate(70_000);
        one_book(sides, edition, &book);
        damage_book(&mut random, &mut book);
        one_book(sides, edition, &book);
    }
    full(sides, &mut random, First);
    full(sides, &mut random, Second);
}

fn full(sides: &mut Sides, random: &mut Random, edition: Edition) {
    let added = head(edition) + 2;
    // Up to the last byte that fits, and beyond.
    for length in 65_500..65_540 {
        let book = book_of(edition, length);
        assert_eq!(book.len(), length);
        one_book(sides, edition, &book);
        for letters in 0..40 {
            let word = vec![1; letters];
            let answer = sides.append(edition, &book, 1, 2, &word, 65_600);
            let due = if length > 65_535 {
                -1
            } else if length + added + letters > 65_535 {
                -13
            } else {
                (length + added + letters) as i64
            };
            assert_eq!(answer, due);
        }
    }
    for length in [61_433, 61_434, 61_435, 61_436] {
        let book = book_of(edition, length - head(edition) + 4);
        for out in [0, 65_534, 65_535, 65_536] {
            sides.append(edition, &book, 3, 9, &[9; 4096], out);
            sides.append(edition, &book, 3, 9, &[9; 4097], out);
            sides.append(edition, &book, 3, 9, &[10; 4096], out);
        }
    }
    // As many records as a book can hold: nothing but heads, now and then a wrong one.
    let most = (65_535 - 2) / added;
    let heads = book_with((0..most).map(|_| {
        let (kind, rank) = random.byte_rig();
        record(edition, kind as u8, rank as u8, &[])
    }));
    assert_eq!(sides.book_check(edition, &heads), most as i64);
    for number in [0, 1, 5_000, most - 2, most - 1, most] {
        sides.preset(edition, &heads, number, 4);
    }
    for first in [0, 1, 5_000, most - 2, most - 1, most] {
        for fields in [4, 5, 5 * most - 1, 5 * most, 5 * most + 7] {
            let answer = sides.presets(edition, &heads, first, fields);
            let due = match (most.saturating_sub(first), fields / 5) {
                (0, _) => -4,
                (_, 0) => -14,
                (left, room) => left.min(room) as i64,
            };
            assert_eq!(answer, due);
        }
    }
    one_book(sides, edition, &heads);
}
