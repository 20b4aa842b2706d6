//! All presets of a book at once.
use super::{Preset, answered, lent};
use crate::{Edition, MAX_BOOK, Refusal, raw};
use alloc::vec;

/// The presets of a book in their order: each as [`preset`](super::preset) gives it, or its own refusal, 5 to 8 or
/// 17. The book is read once, by one call of the library. Refusals 1 to 3, of the book; one without presets gives
/// none, as does one of no bytes.
///
/// ```
/// use winnathey::lent::{Edition, Kind, Preset, presets};
///
/// // B2 with the word 1 2 1 2, and D5 with the letter 9.
/// let book = [2, 2, 4, 0, 1, 2, 1, 2, 3, 5, 1, 0, 9, 0, 0, 8, 0, 2, 0];
/// let mut read = presets(Edition::First, &book)?;
/// assert_eq!(read.len(), 2);
/// assert_eq!(read.next(), Some(Ok(Preset { kind: Kind::B, rank: 2, word: &[1, 2, 1, 2] })));
/// assert_eq!(read.next().unwrap().unwrap_err().number(), 8);
/// assert_eq!(read.next(), None);
///
/// let right: Vec<Preset> = presets(Edition::First, &book)?.flatten().collect();
/// assert_eq!(right.len(), 1);
/// # Ok::<(), winnathey::Refusal>(())
/// ```
pub fn presets(edition: Edition, book: &[u8]) -> Result<Presets<'_>, Refusal> {
    // Room for all: a record and its offset have six bytes at least.
    let mut rows = vec![[0; 5]; book.len().min(MAX_BOOK) / 6];
    let fields = rows.as_flattened_mut();
    let answer = match edition {
        Edition::First => raw::presets(book, 0, fields),
        Edition::Second => raw::second_presets(book, 0, fields),
    };
    let count = match answer {
        // The book has no preset 0.
        -4 => 0,
        answer => answered(answer)?,
    };
    rows.truncate(count);
    Ok(Presets { book, rows: rows.into_iter() })
}

/// What [`presets`] gives.
#[derive(Clone, Debug)]
pub struct Presets<'a> {
    book: &'a [u8],
    rows: vec::IntoIter<[u64; 5]>,
}

impl<'a> Iterator for Presets<'a> {
    type Item = Result<Preset<'a>, Refusal>;

    fn next(&mut self) -> Option<Self::Item> {
        self.nth(0)
    }

    fn nth(&mut self, n: usize) -> Option<Self::Item> {
        let [refused, kind, rank, start, letters] = self.rows.nth(n)?;
        Some(match refused {
            0 => Ok(lent(self.book, [kind, rank, start, letters])),
            number => Err(Refusal::answered(-(number as i64))),
        })
    }

    fn size_hint(&self) -> (usize, Option<usize>) {
        self.rows.size_hint()
    }
}

impl ExactSizeIterator for Presets<'_> {}
