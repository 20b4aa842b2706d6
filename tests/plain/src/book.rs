//! Preset books of both editions: checks 1 to 4, reading by number, appending, turning one edition into the other.
use crate::checks::{check_rank, check_word};
use crate::{A, B, D, MAX_BOOK, Refusal, coded, front, lanes};

#[derive(Clone, Copy, PartialEq)]
enum Edition {
    First,
    Second,
}

use Edition::{First, Second};

impl Edition {
    /// The bytes of a record before its letters; the letter count is in the last two.
    fn head(self) -> usize {
        match self {
            First => 4,
            Second => 5,
        }
    }

    fn other(self) -> Edition {
        match self {
            First => Second,
            Second => First,
        }
    }

    /// Checks 5 and 6 of a record: the first edition keeps ranges of its own. Hands back the rank as a byte.
    fn check_rank(self, kind: u32, rank: u32) -> Result<u8, Refusal> {
        if self == Second {
            return check_rank(kind, rank);
        }
        let ranks = match kind {
            A => 1..=31,
            B => 2..=32,
            D => 4..=32,
            _ => return Err(5),
        };
        if ranks.contains(&rank) { Ok(rank as u8) } else { Err(6) }
    }
}

/// The two-byte number at a byte.
fn two(bytes: &[u8], at: usize) -> usize {
    usize::from(u16::from_le_bytes([bytes[at], bytes[at + 1]]))
}

/// The count and the byte where the trailer begins. Checks 1 and 2. A book of no bytes has no presets.
fn trailer(book: &[u8]) -> Result<(usize, usize), Refusal> {
    if book.is_empty() {
        return Ok((0, 0));
    }
    if book.len() == 1 || book.len() > MAX_BOOK {
        return Err(1);
    }
    let count = two(book, book.len() - 2);
    match book.len().checked_sub(2 * count + 2) {
        Some(start) => Ok((count, start)),
        None => Err(2),
    }
}

/// The same with check 3: the records stand one after the other from byte 0 to the trailer.
fn check(edition: Edition, book: &[u8]) -> Result<(usize, usize), Refusal> {
    let (count, start) = trailer(book)?;
    let (records, rest) = book.split_at(start);
    let (offsets, _) = rest.as_chunks::<2>();
    let head = edition.head();
    let mut end = 0;
    for &offset in &offsets[..count] {
        if usize::from(u16::from_le_bytes(offset)) != end || records.len() - end < head {
            return Err(3);
        }
        end += head + two(records, end + head - 2);
        if end > records.len() {
            return Err(3);
        }
    }
    if end == start { Ok((count, start)) } else { Err(3) }
}

/// The number of presets.
fn count(edition: Edition, book: &[u8]) -> i64 {
    coded(check(edition, book).map(|(count, _)| count))
}

/// Kind, rank, where the letters begin and how many they are, of the preset whose offset is at a byte. Checks 5 to 8, and
/// 17 after 6.
fn read(edition: Edition, book: &[u8], offset: usize) -> Result<[u64; 4], Refusal> {
    let record = two(book, offset);
    let (kind, rank) = (book[record], book[record + 1]);
    let at = record + edition.head();
    let letters = two(book, at - 2);
    edition.check_rank(kind.into(), rank.into())?;
    if edition == Second && usize::from(book[record + 2]) != lanes(kind.into(), rank) {
        return Err(17);
    }
    check_word(rank, &book[at..at + letters])?;
    Ok([kind.into(), rank.into(), at as u64, letters as u64])
}

/// A preset in `fields`, as 4 numbers.
fn one(edition: Edition, book: &[u8], number: usize, fields: &mut [u64]) -> i64 {
    coded((|| {
        let (count, start) = check(edition, book)?;
        if number >= count {
            return Err(4);
        }
        let found = read(edition, book, start + 2 * number)?;
        front(fields, 4)?.copy_from_slice(&found);
        Ok(4)
    })())
}

/// The presets from `first` on that there is room for, each as its refusal or 0 and 4 numbers. Answers how many.
fn run(edition: Edition, book: &[u8], first: usize, fields: &mut [u64]) -> i64 {
    coded((|| {
        let (count, start) = check(edition, book)?;
        if first >= count {
            return Err(4);
        }
        let (rows, _) = fields.as_chunks_mut::<5>();
        if rows.is_empty() {
            return Err(14);
        }
        let written = rows.len().min(count - first);
        for (row, number) in rows.iter_mut().zip(first..count) {
            *row = match read(edition, book, start + 2 * number) {
                Ok([kind, rank, at, letters]) => [0, kind, rank, at, letters],
                Err(k) => [k as u64, 0, 0, 0, 0],
            };
        }
        Ok(written)
    })())
}

/// A record's head in the front of five bytes, and its length. The letter count has been checked to fit.
fn head_of(edition: Edition, kind: u8, rank: u8, letters: usize) -> ([u8; 5], usize) {
    let [low, high] = (letters as u16).to_le_bytes();
    match edition {
        First => ([kind, rank, low, high, 0], 4),
        Second => ([kind, rank, lanes(kind.into(), rank) as u8, low, high], 5),
    }
}

/// Writes the book with one record more. Kind A at rank 1 is read and converted, but no longer appended.
fn longer(edition: Edition, book: &[u8], kind: u32, rank: u32, word: &[u8], out: &mut [u8]) -> i64 {
    coded((|| {
        let (count, start) = check(edition, book)?;
        let rank = edition.check_rank(kind, rank)?;
        check_word(rank, word)?;
        if kind == A && rank == 1 {
            return Err(21);
        }
        let book = if book.is_empty() { &[0, 0] } else { book };
        let length = book.len() + edition.head() + word.len() + 2;
        if length > MAX_BOOK {
            return Err(13);
        }
        let out = front(out, length)?;
        // At most 65,535 bytes, so each of these fits in two.
        let offset = (start as u16).to_le_bytes();
        let count_now = (count as u16 + 1).to_le_bytes();
        let (head, size) = head_of(edition, kind as u8, rank, word.len());
        let (records, offsets) = (&book[..start], &book[start..book.len() - 2]);
        let parts: [&[u8]; 6] = [records, &head[..size], word, offsets, &offset, &count_now];
        let mut rest = out;
        for part in parts {
            let (here, after) = rest.split_at_mut(part.len());
            here.copy_from_slice(part);
            rest = after;
        }
        Ok(length)
    })())
}

/// The most lanes of a first-edition record.
const FIRST_LANES: usize = 32;

/// Writes the book in the other edition. Each record is checked before anything is written, and 18 comes after its 8.
fn converted(edition: Edition, book: &[u8], out: &mut [u8]) -> i64 {
    coded((|| {
        let (count, start) = check(edition, book)?;
        if book.is_empty() {
            return Ok(0);
        }
        for number in 0..count {
            let [kind, rank, ..] = read(edition, book, start + 2 * number)?;
            if edition == Second && lanes(kind as u32, rank as u8) > FIRST_LANES {
                return Err(18);
            }
        }
        // The lane count comes to each record or goes from it.
        let length = match edition {
            First => book.len() + count,
            Second => book.len() - count,
        };
        if length > MAX_BOOK {
            return Err(13);
        }
        let (records, trailer) = front(out, length)?.split_at_mut(length - 2 * count - 2);
        let (numbers, _) = trailer.as_chunks_mut::<2>();
        let mut end = 0;
        for (number, offset) in numbers[..count].iter_mut().enumerate() {
            *offset = (end as u16).to_le_bytes();
            let record = two(book, start + 2 * number);
            let at = record + edition.head();
            let letters = two(book, at - 2);
            let (head, size) = head_of(edition.other(), book[record], book[record + 1], letters);
            records[end..end + size].copy_from_slice(&head[..size]);
            end += size;
            records[end..end + letters].copy_from_slice(&book[at..at + letters]);
            end += letters;
        }
        numbers[count] = (count as u16).to_le_bytes();
        Ok(length)
    })())
}

pub fn book_check(book: &[u8]) -> i64 {
    count(First, book)
}

pub fn preset(book: &[u8], number: usize, fields: &mut [u64]) -> i64 {
    one(First, book, number, fields)
}

pub fn presets(book: &[u8], first: usize, fields: &mut [u64]) -> i64 {
    run(First, book, first, fields)
}

pub fn append(book: &[u8], kind: u32, rank: u32, word: &[u8], out: &mut [u8]) -> i64 {
    longer(First, book, kind, rank, word, out)
}

pub fn second_book_check(book: &[u8]) -> i64 {
    count(Second, book)
}

pub fn second_preset(book: &[u8], number: usize, fields: &mut [u64]) -> i64 {
    one(Second, book, number, fields)
}

pub fn second_presets(book: &[u8], first: usize, fields: &mut [u64]) -> i64 {
    run(Second, book, first, fields)
}

pub fn second_append(book: &[u8], kind: u32, rank: u32, word: &[u8], out: &mut [u8]) -> i64 {
    longer(Second, book, kind, rank, word, out)
}

pub fn to_second(book: &[u8], out: &mut [u8]) -> i64 {
    converted(First, book, out)
}

pub fn to_first(book: &[u8], out: &mut [u8]) -> i64 {
    converted(Second, book, out)
}
