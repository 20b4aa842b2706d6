//! Books from one edition to the other, and back.
use crate::books::{EXAMPLE, SECOND_EXAMPLE, book_with, damage_book, record};
use crate::inputs::{Random, lanes, rigs};
use crate::sides::Sides;
use winnathey::Edition::{self, First, Second};

pub fn run(sides: &mut Sides) {
    examples(sides);
    faults_of_one_record(sides);
    faults_of_three_records(sides);
    sizes(sides);
    let mut random = Random(10);
    for round in 0..20_000 {
        let edition = if round % 2 == 0 { First } else { Second };
        let mut book = random_book(&mut random, edition, if round % 40 < 2 { 4096 } else { 12 });
        there_and_back(sides, edition, &book);
        damage_book(&mut random, &mut book);
        there_and_back(sides, edition, &book);
    }
}

pub fn other(edition: Edition) -> Edition {
    match edition {
        First => Second,
        Second => First,
    }
}

/// How long a book of so many records is in the other edition: each record gets its lane count or loses it.
pub fn converted_length(edition: Edition, length: usize, records: usize) -> usize {
    match edition {
        First => length + records,
        Second => length.saturating_sub(records),
    }
}

/// Kind, rank and letters of each preset of a book, or its refusal.
fn presets(sides: &mut Sides, edition: Edition, book: &[u8], count: usize) -> Vec<(u64, u64, u64, Vec<u8>)> {
    if count == 0 {
        return Vec::new();
    }
    assert_eq!(sides.presets(edition, book, 0, 5 * count), count as i64);
    let (rows, _) = sides.fields(5 * count as i64).as_chunks::<5>();
    rows.iter()
        .map(|&[refused, kind, rank, at, letters]| {
            (refused, kind, rank, book[at as usize..(at + letters) as usize].to_vec())
        })
        .collect()
}

/// Converts a book with outputs of every interesting length. An accepted one gives a book with the same presets in the
/// same order, and that book gives the bytes of the first again.
pub fn there_and_back(sides: &mut Sides, edition: Edition, book: &[u8]) -> i64 {
    let count = sides.book_check(edition, book).max(0) as usize;
    let need = converted_length(edition, book.len(), count);
    for out in [0, need.saturating_sub(1), need + 1, need + 50] {
        sides.convert(edition, book, out);
    }
    let answer = sides.convert(edition, book, need);
    if answer >= 0 {
        assert_eq!(answer, need as i64);
        let new = sides.bytes(answer).to_vec();
        assert_eq!(sides.book_check(other(edition), &new), count as i64);
        let before = presets(sides, edition, book, count);
        let after = presets(sides, other(edition), &new, count);
        assert!(before == after, "the presets of {book:?} and {new:?}");
        let back = sides.convert(other(edition), &new, book.len());
        assert_eq!(sides.bytes(back), book);
    }
    answer
}

fn examples(sides: &mut Sides) {
    for (edition, example, new) in [(First, EXAMPLE, SECOND_EXAMPLE), (Second, SECOND_EXAMPLE, EXAMPLE)] {
        assert_eq!(there_and_back(sides, edition, example), new.len() as i64);
        let answer = sides.convert(edition, example, 40);
        assert_eq!(sides.bytes(answer), new);
        // Read as the other edition: the second offset is not where the first record ends.
        assert_eq!(there_and_back(sides, other(edition), example), -3);
        assert_eq!(there_and_back(sides, edition, &[0, 0]), 2);
        assert_eq!(sides.convert(edition, &[0, 0], 1), -14);
    }
    // Each rank: the second edition takes all, the first those of up to 32 lanes.
    for (kind, rank) in rigs() {
        let wide = lanes(kind, rank) > 32;
        for (edition, refused) in [(First, -6), (Second, -18)] {
            for word in [&[][..], &[rank as u8], &[1; 300]] {
                let book = book_with([record(edition, kind as u8, rank as u8, word)].into_iter());
                let due = if wide { refused } else { converted_length(edition, book.len(), 1) as i64 };
                assert_eq!(there_and_back(sides, edition, &book), due);
            }
        }
    }
}

/// What a record can have wrong; in `FAULTS` all of them at once.
const KIND: usize = 1;
const RANK: usize = 2;
const LANES: usize = 4;
const LONG: usize = 8;
const LETTER: usize = 16;
const WIDE: usize = 32;
const FAULTS: usize = 64;

/// A record with some faults, and the refusal that comes first when its book is converted, or 0. The lane count is not
/// wrong in the first edition, which has none.
fn faulty(edition: Edition, faults: usize) -> (Vec<u8>, i64) {
    let has = |fault: usize| faults & fault > 0;
    let rank = if has(RANK) { 65 } else { 5 + 35 * u8::from(has(WIDE)) };
    let mut word = vec![5; if has(LONG) { 4097 } else { 3 }];
    word[1] = 5 * u8::from(!has(LETTER));
    let mut record = record(edition, if has(KIND) { 4 } else { 2 }, rank, &word);
    if has(LANES) && edition == Second {
        record[2] += 1;
    }
    let order = match edition {
        First => [(KIND, 5), (RANK | WIDE, 6), (LONG, 7), (LETTER, 8), (0, 0), (0, 0)],
        Second => [(KIND, 5), (RANK, 6), (LANES, 17), (LONG, 7), (LETTER, 8), (WIDE, 18)],
    };
    let first = order.into_iter().find(|&(fault, _)| has(fault));
    (record, first.map_or(0, |(_, number)| number))
}

/// A record with each set of faults, alone, and after a right one: the first of its checks counts.
fn faults_of_one_record(sides: &mut Sides) {
    for edition in [First, Second] {
        for faults in 0..FAULTS {
            let (wrong, due) = faulty(edition, faults);
            let (right, _) = faulty(edition, 0);
            for records in [vec![wrong.clone()], vec![right, wrong]] {
                let book = book_with(records.into_iter());
                let answer = there_and_back(sides, edition, &book);
                assert_eq!(answer.min(0), -due, "faults {faults:b}");
            }
        }
    }
}

/// Three records, each right or with one fault: the first wrong record counts, and not the lowest number.
fn faults_of_three_records(sides: &mut Sides) {
    let single = [0, KIND, RANK, LANES, LONG, LETTER, WIDE];
    for edition in [First, Second] {
        for first in single {
            for second in single {
                for third in single {
                    let records = [first, second, third].map(|fault| faulty(edition, fault));
                    let due = records.iter().map(|&(_, refused)| -refused).find(|&answer| answer < 0).unwrap_or(0);
                    let book = book_with(records.into_iter().map(|(record, _)| record));
                    assert_eq!(sides.convert(edition, &book, 13_000).min(0), due);
                    assert_eq!(sides.convert(edition, &book, 0), if due < 0 { due } else { -14 });
                }
            }
        }
    }
}

/// A book of so many records that has so many bytes in the second edition.
fn book_of(edition: Edition, records: usize, length: usize) -> Vec<u8> {
    let letters = length - 2 - 7 * records;
    let (each, more) = (letters / records, letters % records);
    book_with((0..records).map(|at| {
        let word: Vec<u8> = (0..each + usize::from(at < more)).map(|at| (at % 7) as u8 + 1).collect();
        record(edition, 2, 7, &word)
    }))
}

/// Around 65,535 bytes, from few long records to nothing but heads.
fn sizes(sides: &mut Sides) {
    for records in [16, 17, 100, 1_000, 4_000, 9_000, 9_360, 9_361] {
        for length in 65_530..=65_540 {
            let fits = length <= 65_535;
            let first = book_of(First, records, length);
            assert_eq!(first.len(), length - records);
            assert_eq!(there_and_back(sides, First, &first), if fits { length as i64 } else { -13 });
            let second = book_of(Second, records, length);
            assert_eq!(second.len(), length);
            assert_eq!(there_and_back(sides, Second, &second), if fits { first.len() as i64 } else { -1 });
            // A wrong kind in the last record comes before the limit, and the limit before the output's length.
            let mut wrong = first.clone();
            let last = first.len() - 4;
            let offset = usize::from(u16::from_le_bytes([wrong[last], wrong[last + 1]]));
            wrong[offset] = 0;
            assert_eq!(sides.convert(First, &wrong, 65_600), -5);
            assert_eq!(sides.convert(First, &first, 65_529), if fits { -14 } else { -13 });
        }
    }
    // The most records: the first edition has room for more than the second.
    for (edition, records, due) in
        [(First, 9_361, 65_529), (First, 9_362, -13), (First, 10_922, -13), (Second, 9_361, 56_168)]
    {
        let heads = book_with((0..records).map(|_| record(edition, 1, 2, &[])));
        assert_eq!(there_and_back(sides, edition, &heads), due);
    }
    // Full in the first edition.
    for length in 65_530..=65_540 {
        let book = book_of(First, 20, length + 20);
        assert_eq!(book.len(), length);
        assert_eq!(there_and_back(sides, First, &book), if length > 65_535 { -1 } else { -13 });
    }
}

/// A book of records that can be converted, of which now and then one has a fault.
fn random_book(random: &mut Random, edition: Edition, letters: usize) -> Vec<u8> {
    let records = random.below(7);
    let faults = if random.once_in(3) { 1 + random.below(2) } else { 0 };
    let wrong: Vec<usize> = (0..faults).map(|_| random.below(records)).collect();
    book_with((0..records).map(|at| {
        if wrong.contains(&at) {
            return faulty(edition, random.below(FAULTS)).0;
        }
        let (kind, rank) = loop {
            let (kind, rank) = random.rig();
            if lanes(kind, rank) <= 32 {
                break (kind, rank);
            }
        };
        let count = random.below(letters + 1);
        let word = random.word(kind, rank, count);
        record(edition, kind as u8, rank as u8, &word)
    }))
}
