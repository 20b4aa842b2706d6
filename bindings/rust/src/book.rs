//! Books as values.
use crate::lent;
use crate::records::{self, Records};
use crate::{Edition, Group, Kind, MAX_BOOK, Refusal};
use alloc::vec::Vec;
use core::error::Error;
use core::fmt;

/// A preset book: its edition, and bytes that pass checks 1 to 3.
///
/// ```
/// use winnathey::{Book, Edition};
///
/// let mut book = Book::new(Edition::First);
/// book.append("B2".parse()?, &[1, 2, 1, 2])?;
/// assert_eq!(book.len(), 1);
/// for preset in &book {
///     let preset = preset?;
///     println!("{}{}: {:?}", preset.kind, preset.rank, preset.word);
/// }
/// let second = book.convert()?;
/// assert_eq!(second.as_bytes(), [2, 2, 2, 4, 0, 1, 2, 1, 2, 0, 0, 1, 0]);
/// # Ok::<(), Box<dyn std::error::Error>>(())
/// ```
#[derive(Clone, PartialEq, Eq, Hash, Debug)]
pub struct Book {
    edition: Edition,
    bytes: Vec<u8>,
    presets: usize,
}

/// A preset of a book, or for one. Whether its rank and its word are right a book checks that takes it.
#[derive(Clone, Copy, PartialEq, Eq, Hash, Debug)]
pub struct Preset<'a> {
    /// Its kind.
    pub kind: Kind,
    /// Its rank.
    pub rank: u8,
    /// Its word, which is a part of the book that it is from.
    pub word: &'a [u8],
}

impl<'a> Preset<'a> {
    /// Its group. Refusal 6.
    pub fn group(self) -> Result<Group, Refusal> {
        Group::new(self.kind, self.rank)
    }

    /// A preset that the library found: its kind is one.
    fn of(found: lent::Preset<'a>) -> Result<Preset<'a>, Refusal> {
        let kind = Kind::try_from(found.kind.0).map_err(|_| Refusal::Kind)?;
        Ok(Preset { kind, rank: found.rank, word: found.word })
    }

    fn lent(self) -> lent::Preset<'a> {
        lent::Preset { kind: self.kind.into(), rank: self.rank, word: self.word }
    }
}

/// Which of several presets was refused, and why.
#[derive(Clone, Copy, PartialEq, Eq, Hash, Debug)]
pub struct RefusedPreset {
    /// The place of the preset in the list, which counts from 0.
    pub place: usize,
    /// Why it was refused.
    pub refusal: Refusal,
}

impl fmt::Display for RefusedPreset {
    fn fmt(&self, f: &mut fmt::Formatter<'_>) -> fmt::Result {
        write!(f, "preset {} of the list: {}", self.place, self.refusal)
    }
}

impl Error for RefusedPreset {
    fn source(&self) -> Option<&(dyn Error + 'static)> {
        Some(&self.refusal)
    }
}

impl Book {
    /// A book without presets.
    pub fn new(edition: Edition) -> Book {
        Book { edition, bytes: Vec::new(), presets: 0 }
    }

    /// The book with these bytes. Refusals 1 to 3.
    pub fn from_bytes(edition: Edition, bytes: impl Into<Vec<u8>>) -> Result<Book, Refusal> {
        let bytes = bytes.into();
        let presets = lent::book_check(edition, &bytes)?;
        Ok(Book { edition, bytes, presets })
    }

    /// The book with these records, which the library checks.
    fn of(edition: Edition, records: Records) -> Book {
        Book::from_bytes(edition, records.into_book()).expect("whole records make a book")
    }

    /// The edition.
    pub fn edition(&self) -> Edition {
        self.edition
    }

    /// The bytes, as they are stored in a file.
    pub fn as_bytes(&self) -> &[u8] {
        &self.bytes
    }

    /// The bytes, as they are stored in a file.
    pub fn into_bytes(self) -> Vec<u8> {
        self.bytes
    }

    /// How many presets it has, right or refused.
    pub fn len(&self) -> usize {
        self.presets
    }

    /// Whether it has none.
    pub fn is_empty(&self) -> bool {
        self.presets == 0
    }

    /// The preset with this number, from 0. Refusals 4 to 8, and in the second edition 17.
    pub fn preset(&self, number: usize) -> Result<Preset<'_>, Refusal> {
        Preset::of(lent::preset(self.edition, &self.bytes, number)?)
    }

    /// The presets in their order, each with its own refusal if it has one: 5 to 8, and in the second edition 17.
    pub fn iter(&self) -> Presets<'_> {
        let presets = lent::presets(self.edition, &self.bytes);
        Presets { presets: presets.expect("the book passes checks 1 to 3") }
    }

    /// Appends a preset. If it is refused the book is as it was. Refusals 5 to 8, 21, 13.
    pub fn append(&mut self, group: Group, word: &[u8]) -> Result<(), Refusal> {
        let added = lent::Preset { kind: group.kind().into(), rank: group.rank(), word };
        // The longest record and its offset have fewer bytes, and so has the count of a book of no bytes.
        let room = (self.bytes.len() + word.len() + 9).min(MAX_BOOK);
        let mut bytes = alloc::vec![0; room];
        let length = lent::append(self.edition, &self.bytes, added, &mut bytes)?;
        bytes.truncate(length);
        self.bytes = bytes;
        self.presets += 1;
        Ok(())
    }

    /// Appends presets in their order, in one pass: the book is copied once, however many they are. If one is refused the
    /// book is as it was. Each is made a record by the library's append. Refusals 5 to 8, 21, 13 of each.
    ///
    /// ```
    /// # use winnathey::{Book, Edition, Kind, Preset, Refusal, RefusedPreset};
    /// let mut book = Book::new(Edition::First);
    /// let preset = Preset { kind: Kind::B, rank: 2, word: &[1, 2, 1, 2] };
    /// book.append_all([preset, Preset { kind: Kind::D, rank: 5, word: &[5, 2, 3, 5, 1, 2] }])?;
    /// assert_eq!(book.len(), 2);
    ///
    /// let refused = book.append_all([preset, Preset { rank: 1, ..preset }]).unwrap_err();
    /// assert_eq!(refused, RefusedPreset { place: 1, refusal: Refusal::Rank });
    /// assert_eq!(book.len(), 2);
    /// # Ok::<(), RefusedPreset>(())
    /// ```
    pub fn append_all<'p>(&mut self, presets: impl IntoIterator<Item = Preset<'p>>) -> Result<(), RefusedPreset> {
        let mut records = Records::of(&self.bytes, self.presets);
        let mut work = records::work();
        for (place, preset) in presets.into_iter().enumerate() {
            let added = records::record(self.edition, preset.lent(), &mut work).and_then(|record| records.push(record));
            added.map_err(|refusal| RefusedPreset { place, refusal })?;
        }
        if records.len() > self.presets {
            *self = Book::of(self.edition, records);
        }
        Ok(())
    }

    /// Takes a preset out; those behind it get numbers lower by one. All others, refused ones among them, read as before.
    /// Refusal 4.
    ///
    /// ```
    /// # use winnathey::{Book, Edition};
    /// let mut book = Book::new(Edition::First);
    /// book.append("B2".parse()?, &[1, 2, 1, 2])?;
    /// book.append("D5".parse()?, &[5, 2])?;
    /// book.remove(0)?;
    /// assert_eq!((book.len(), book.preset(0)?.word), (1, &[5, 2][..]));
    /// # Ok::<(), Box<dyn std::error::Error>>(())
    /// ```
    pub fn remove(&mut self, number: usize) -> Result<(), Refusal> {
        let mut records = self.records_with(number)?;
        records.remove(number);
        *self = Book::of(self.edition, records);
        Ok(())
    }

    /// Puts a preset in the place of another. All others, refused ones among them, read as before. Refusals 4 to 8, 21, 13.
    ///
    /// ```
    /// # use winnathey::{Book, Edition};
    /// let mut book = Book::new(Edition::First);
    /// book.append("B2".parse()?, &[1, 2, 1, 2])?;
    /// book.replace(0, "B2".parse()?, &[2, 1, 2, 1])?;
    /// assert_eq!((book.len(), book.preset(0)?.word), (1, &[2, 1, 2, 1][..]));
    /// # Ok::<(), Box<dyn std::error::Error>>(())
    /// ```
    pub fn replace(&mut self, number: usize, group: Group, word: &[u8]) -> Result<(), Refusal> {
        let mut records = self.records_with(number)?;
        let mut work = records::work();
        let added = lent::Preset { kind: group.kind().into(), rank: group.rank(), word };
        let record = records::record(self.edition, added, &mut work)?;
        records.remove(number);
        records.insert(number, record)?;
        *self = Book::of(self.edition, records);
        Ok(())
    }

    /// Moves a preset to another number; those between move up or down by one. All others, refused ones among them, read
    /// as before. Refusal 4, of either number.
    ///
    /// ```
    /// # use winnathey::{Book, Edition};
    /// let mut book = Book::new(Edition::First);
    /// for word in [[1], [2], [3]] {
    ///     book.append("D5".parse()?, &word)?;
    /// }
    /// book.move_to(2, 0)?;
    /// let words: Vec<_> = book.iter().flatten().map(|preset| preset.word[0]).collect();
    /// assert_eq!(words, [3, 1, 2]);
    /// # Ok::<(), Box<dyn std::error::Error>>(())
    /// ```
    pub fn move_to(&mut self, from: usize, to: usize) -> Result<(), Refusal> {
        let mut records = self.records_with(from)?;
        if to >= self.presets {
            return Err(Refusal::PresetNumber);
        }
        let record = records.remove(from);
        records.insert(to, &record)?;
        *self = Book::of(self.edition, records);
        Ok(())
    }

    /// The records, if the book has a preset with this number.
    fn records_with(&self, number: usize) -> Result<Records, Refusal> {
        if number < self.presets { Ok(Records::of(&self.bytes, self.presets)) } else { Err(Refusal::PresetNumber) }
    }

    /// The same presets in a book of the other edition. Refusals of each record in order, 5 to 8, from the second edition
    /// 17 and 18 too; then 13.
    pub fn convert(&self) -> Result<Book, Refusal> {
        let mut bytes = alloc::vec![0; MAX_BOOK];
        let length = lent::convert(self.edition, &self.bytes, &mut bytes)?;
        bytes.truncate(length);
        let edition = match self.edition {
            Edition::First => Edition::Second,
            Edition::Second => Edition::First,
        };
        Book::from_bytes(edition, bytes)
    }
}

/// The presets of a [`Book`].
#[derive(Clone, Debug)]
pub struct Presets<'a> {
    presets: lent::Presets<'a>,
}

impl<'a> Iterator for Presets<'a> {
    type Item = Result<Preset<'a>, Refusal>;

    fn next(&mut self) -> Option<Self::Item> {
        self.presets.next().map(|found| found.and_then(Preset::of))
    }

    fn size_hint(&self) -> (usize, Option<usize>) {
        self.presets.size_hint()
    }
}

impl ExactSizeIterator for Presets<'_> {}

impl<'a> IntoIterator for &'a Book {
    type Item = Result<Preset<'a>, Refusal>;
    type IntoIter = Presets<'a>;

    fn into_iter(self) -> Presets<'a> {
        self.iter()
    }
}
