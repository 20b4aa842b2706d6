//! Books of both editions.
use super::{NO_KINDS, WRAPPED};
use crate::makers::*;
use crate::row::Row;
use plain::{A, B, D, MAX_BOOK, MAX_LETTERS};

/// A record: kind, rank, lane count, of which the first edition has none, and word. It need not be right.
type Record = (u8, u8, u8, Vec<u8>);

/// A record with the lane count of its kind and rank.
fn record(kind: u32, rank: u32, word: &[u8]) -> Record {
    (kind as u8, rank as u8, super::lanes(kind, rank) as u8, word.to_vec())
}

/// The book with these records.
fn book(second: bool, records: &[Record]) -> Vec<u8> {
    let (mut bytes, mut starts) = (Vec::new(), Vec::new());
    for (kind, rank, lanes, word) in records {
        starts.push(bytes.len() as u16);
        bytes.extend([*kind, *rank]);
        bytes.extend(second.then_some(*lanes));
        bytes.extend((word.len() as u16).to_le_bytes());
        bytes.extend(word);
    }
    starts.push(records.len() as u16);
    bytes.extend(starts.iter().flat_map(|start| start.to_le_bytes()));
    bytes
}

fn two() -> [Record; 2] {
    [record(B, 2, &[1, 2, 1, 2]), record(D, 5, &[5, 2, 3, 5, 1, 2])]
}

/// Records with one fault or two, and right ones at the limits.
fn records(second: bool) -> Vec<Record> {
    let mut records: Vec<Record> = [0, 4, 255].map(|kind| record(kind, 2, &[1])).to_vec();
    for kind in [A, B, D] {
        let ends = if second { [63, 64, 65] } else { [31, 32, 33] };
        records.extend(
            [0, 1, 3, 255]
                .into_iter()
                .chain(ends)
                .map(|rank| (kind as u8, rank as u8, (rank + u32::from(kind == A)) as u8, vec![1])),
        );
    }
    for (kind, rank) in [(A, 2), (B, 3), (D, 4), (B, 32)] {
        let n = rank as u8;
        records.extend([vec![n, 1], vec![1, n + 1], vec![0], vec![255], vec![]].map(|word| record(kind, rank, &word)));
    }
    records.extend(
        [vec![1; MAX_LETTERS], vec![1; MAX_LETTERS + 1], vec![0; MAX_LETTERS + 1]].map(|word| record(A, 2, &word)),
    );
    if second {
        // 6 before 17, 17 before 7 and 8.
        records.extend([
            (1, 2, 2, vec![1]),
            (1, 2, 4, vec![]),
            (2, 2, 3, vec![1]),
            (3, 4, 0, vec![1]),
            (3, 4, 255, vec![]),
        ]);
        records.extend([(4, 2, 9, vec![0]), (1, 64, 9, vec![0]), (1, 2, 9, vec![0]), (1, 2, 9, vec![1; 4097])]);
        // 32 lanes and one more, 8 before 18.
        records.extend([
            record(A, 31, &[1]),
            record(A, 32, &[1]),
            record(B, 33, &[33]),
            record(D, 33, &[]),
            record(B, 33, &[34]),
        ]);
    }
    records
}

/// A book of so many bytes, of records of 4,096 letters and a last one.
fn large(second: bool, bytes: usize) -> Vec<u8> {
    let head = if second { 7 } else { 6 };
    let (whole, left) = ((bytes - 2 - head) / (MAX_LETTERS + head), (bytes - 2 - head) % (MAX_LETTERS + head));
    let mut records = vec![record(A, 2, &[1; MAX_LETTERS]); whole];
    records.push(record(A, 2, &vec![2; left]));
    let book = book(second, &records);
    assert_eq!(book.len(), bytes);
    book
}

fn checks(second: bool, rows: &mut Vec<Row>) {
    let small: [&[u8]; 10] =
        [&[], &[0], &[1], &[0, 0], &[1, 0], &[0, 1], &[255, 255], &[0, 0, 0], &[0, 0, 1, 0], &[0, 0, 0, 0, 1, 0]];
    rows.extend(small.map(|book| book_check(second, book)));
    rows.extend([MAX_BOOK, MAX_BOOK + 1, MAX_BOOK + 2, 70_000].map(|bytes| book_check(second, &vec![0; bytes])));
    rows.extend([MAX_BOOK - 1, MAX_BOOK].map(|bytes| book_check(second, &large(second, bytes))));
    let mut over = large(second, MAX_BOOK);
    over.push(0);
    rows.push(book_check(second, &over));
    let right = book(second, &two());
    rows.push(book_check(second, &right));
    // Of the other edition.
    rows.push(book_check(second, &book(!second, &two())));
    // Each byte of the trailer, and of the first letter count, one higher.
    for at in (right.len() - 6..right.len()).chain(2..5) {
        let mut changed = right.clone();
        changed[at] = changed[at].wrapping_add(1);
        rows.push(book_check(second, &changed));
    }
    for book in [&[0][..], &[1, 0], &[0, 0, 0], &[1; MAX_BOOK + 1]] {
        rows.extend([preset(second, book, 9, Exact), presets(second, book, 9, Exact), convert(second, book, Exact)]);
        rows.push(append(second, book, 0, 0, &[0], Exact));
    }
}

fn reading(second: bool, rows: &mut Vec<Row>) {
    let right = book(second, &two());
    for number in [0, 1, 2, 3, 256].into_iter().chain(WRAPPED) {
        rows.push(preset(second, &right, number, Exact));
        rows.push(presets(second, &right, number, Exact));
    }
    rows.extend([&[][..], &[0, 0]].map(|book| preset(second, book, 0, Exact)));
    rows.extend([&[][..], &[0, 0]].map(|book| presets(second, book, 0, Exact)));
    rows.extend([Places(0), Less, More].map(|room| preset(second, &right, 1, room)));
    rows.extend([0, 4, 5, 9, 10, 11].map(|places| presets(second, &right, 0, Places(places))));
    rows.extend([0, 4, 5].map(|places| presets(second, &right, 1, Places(places))));
    rows.push(presets(second, &right, 2, Places(0)));
    let all = records(second);
    for wrong in &all {
        let [first, last] = two();
        let with = book(second, &[first.clone(), wrong.clone(), last]);
        rows.push(preset(second, &with, 1, Exact));
        rows.push(convert(second, &book(second, &[first, wrong.clone()]), Exact));
    }
    // One list with all of them.
    let short: Vec<Record> = all.into_iter().filter(|(_, _, _, word)| word.len() < 9).collect();
    let listed = book(second, &short);
    rows.extend([0, 1, short.len() - 1, short.len()].map(|first| presets(second, &listed, first, Exact)));
    // Of two refused records the first counts.
    let (eight, five) = (record(A, 2, &[3]), record(4, 2, &[1]));
    rows.push(convert(second, &book(second, &[eight.clone(), five.clone()]), Exact));
    rows.push(convert(second, &book(second, &[five, eight]), Exact));
    let full = large(second, MAX_BOOK);
    rows.extend([0, 14, 15, 16].map(|number| preset(second, &full, number, Exact)));
    rows.push(presets(second, &full, 0, Exact));
}

/// As many presets as a book can have.
fn many(second: bool, rows: &mut Vec<Row>) {
    let count = (MAX_BOOK - 2) / if second { 7 } else { 6 };
    let most = book(second, &vec![record(B, 2, &[]); count]);
    rows.push(book_check(second, &most));
    rows.push(preset(second, &most, count - 1, Exact));
    rows.push(preset(second, &most, count, Exact));
    rows.push(presets(second, &most, count - 3, Exact));
    rows.push(append(second, &most, B, 2, &[], Exact));
}

fn writing(second: bool, rows: &mut Vec<Row>) {
    let (right, mixed) = (book(second, &two()), book(second, &records(second)[..9]));
    for old in [&[][..], &[0, 0], &right, &mixed] {
        rows.push(append(second, old, D, 4, &[4, 3, 1], Exact));
        rows.push(append(second, old, A, 1, &[], Exact));
        rows.push(append(second, old, A, 1, &[2], Exact));
        rows.push(append(second, old, A, 31, &[31], Exact));
    }
    rows.extend([Less, More, Places(0)].map(|room| append(second, &right, B, 2, &[1, 2], room)));
    rows.extend([Less, More, Places(0)].map(|room| convert(second, &right, room)));
    rows.extend(NO_KINDS.map(|kind| append(second, &right, kind, 5, &[1], Exact)));
    // The ranks at which the first edition ends.
    for (kind, rank) in [(A, 31), (A, 32), (B, 32), (B, 33), (D, 32), (D, 33)] {
        rows.push(append(second, &right, kind, rank, &[rank as u8, 1], Exact));
    }
    rows.push(append(second, &right, B, 2, &[1; 4097], Exact));
    // Up to the last byte: head, offset and letters.
    let head = if second { 7 } else { 6 };
    for letters in [0, 9, MAX_LETTERS] {
        let old = large(second, MAX_BOOK - head - letters);
        rows.push(append(second, &old, A, 2, &vec![1; letters], Exact));
        rows.push(append(second, &old, A, 2, &vec![1; letters], Less));
        if letters < MAX_LETTERS {
            rows.push(append(second, &old, A, 2, &vec![1; letters + 1], Exact));
        }
        rows.push(append(second, &old, A, 2, &vec![3; letters + 1], Exact));
    }
    rows.push(append(second, &large(second, MAX_BOOK), A, 1, &[], Exact));
}

fn converting(rows: &mut Vec<Row>) {
    // 16 records grow by 16 bytes.
    for bytes in [MAX_BOOK - 16, MAX_BOOK - 15, MAX_BOOK] {
        rows.push(convert(false, &large(false, bytes), Exact));
        rows.push(convert(true, &large(true, bytes), Exact));
    }
    rows.push(convert(false, &large(false, MAX_BOOK - 16), Less));
    for second in [false, true] {
        rows.extend([&[][..], &[0, 0]].map(|book| convert(second, book, Exact)));
        rows.push(convert(second, &[0, 0], Less));
        rows.push(convert(second, &book(!second, &two()), Exact));
    }
}

pub fn rows() -> Vec<Row> {
    let mut rows = Vec::new();
    for part in [checks, reading, many, writing] {
        for second in [false, true] {
            part(second, &mut rows);
        }
    }
    converting(&mut rows);
    rows
}
