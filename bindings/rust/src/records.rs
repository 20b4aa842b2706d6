//! Whole records of a book: an edit splices them and leaves their bytes as they are, so that each reads as before, one of
//! kind A and rank 1 or a refused one too. Only a preset that is added is made a record, by the library's append.
use crate::{Edition, MAX_BOOK, MAX_WORD, Refusal, lent};
use alloc::vec::Vec;

/// Bytes of an offset, and of the count.
const NUMBER: usize = 2;
/// What the library puts behind the only record of a book: its offset, and the count.
const TRAILER: usize = 2 * NUMBER;
/// Bytes of a record before its letters, at most.
const HEAD: usize = 5;

/// The records of a book one after the other, and where each begins.
pub(crate) struct Records {
    bytes: Vec<u8>,
    starts: Vec<usize>,
}

impl Records {
    /// The records of a book that passes checks 1 to 3 and has so many presets.
    pub(crate) fn of(book: &[u8], presets: usize) -> Records {
        let end = book.len().saturating_sub(NUMBER * (presets + 1));
        let (bytes, trailer) = book.split_at(end);
        let offset = |two: &[u8]| usize::from(u16::from_le_bytes([two[0], two[1]]));
        Records { bytes: bytes.to_vec(), starts: trailer.chunks_exact(NUMBER).take(presets).map(offset).collect() }
    }

    pub(crate) fn len(&self) -> usize {
        self.starts.len()
    }

    /// Where a record begins; for the number behind the last one, where they end.
    fn start(&self, number: usize) -> usize {
        self.starts.get(number).copied().unwrap_or(self.bytes.len())
    }

    /// Takes out the record with this number, which there is.
    pub(crate) fn remove(&mut self, number: usize) -> Vec<u8> {
        let (start, end) = (self.start(number), self.start(number + 1));
        self.starts.remove(number);
        self.starts[number..].iter_mut().for_each(|later| *later -= end - start);
        self.bytes.drain(start..end).collect()
    }

    /// Puts a record before the one with this number, or behind the last. Refusal 13.
    pub(crate) fn insert(&mut self, number: usize, record: &[u8]) -> Result<(), Refusal> {
        if self.bytes.len() + record.len() + NUMBER * (self.len() + 2) > MAX_BOOK {
            return Err(Refusal::BookFull);
        }
        let start = self.start(number);
        self.bytes.splice(start..start, record.iter().copied());
        self.starts[number..].iter_mut().for_each(|later| *later += record.len());
        self.starts.insert(number, start);
        Ok(())
    }

    /// Puts a record behind the last. Refusal 13.
    pub(crate) fn push(&mut self, record: &[u8]) -> Result<(), Refusal> {
        self.insert(self.len(), record)
    }

    /// The book with these records: offsets and count are made anew.
    pub(crate) fn into_book(mut self) -> Vec<u8> {
        let count = self.len();
        for number in self.starts.into_iter().chain([count]) {
            self.bytes.extend((number as u16).to_le_bytes());
        }
        self.bytes
    }
}

/// Room for a book of one preset.
pub(crate) type Work = [u8; HEAD + MAX_WORD + TRAILER];

pub(crate) fn work() -> Work {
    [0; HEAD + MAX_WORD + TRAILER]
}

/// The record of a preset, as the library appends it to a book of no bytes. Refusals 5 to 8, 21.
pub(crate) fn record<'a>(edition: Edition, preset: lent::Preset, work: &'a mut Work) -> Result<&'a [u8], Refusal> {
    let length = lent::append(edition, &[], preset, work)?;
    Ok(&work[..length - TRAILER])
}
