//! Books as they were read, and what the other edition makes of the same bytes.
use crate::failure::{Failure, STANDARD_INPUT};
use crate::json::{self, Value};
use crate::library::{self, Edition, Preset, Refusal};
use crate::out::Out;
use crate::text;
use crate::{culprit, files};
use std::path::Path;

pub struct Book {
    pub edition: Edition,
    pub bytes: Vec<u8>,
    /// Its file, to be shown.
    pub file: String,
    /// The same for JSON.
    pub named: Value,
}

pub fn name(edition: Edition) -> &'static str {
    match edition {
        Edition::First => "first",
        Edition::Second => "second",
    }
}

pub fn other(edition: Edition) -> Edition {
    match edition {
        Edition::First => Edition::Second,
        Edition::Second => Edition::First,
    }
}

/// Whether the bytes are a book whose records are all right, with a preset at least.
fn is_right(edition: Edition, bytes: &[u8]) -> bool {
    library::presets(edition, bytes).is_ok_and(|presets| !presets.is_empty() && presets.iter().all(Result::is_ok))
}

/// What a file reads as, for somebody who has not named the edition.
pub fn reads_as(path: &Path) -> &'static str {
    // A pipe would lose what is read here.
    if files::is_standard(path) || !path.is_file() {
        return "";
    }
    let bytes = files::read_book(path).unwrap_or_default();
    match [Edition::First, Edition::Second].map(|edition| is_right(edition, &bytes)) {
        [true, true] => " (its bytes are right as either, with other presets)",
        [true, false] => " (its bytes are a right book of the first alone)",
        [false, true] => " (its bytes are a right book of the second alone)",
        [false, false] => "",
    }
}

/// A file that is read, or standard input, to be shown and for JSON.
pub fn source(path: &Path) -> (String, Value) {
    if files::is_standard(path) {
        (STANDARD_INPUT.to_string(), STANDARD_INPUT.into())
    } else {
        (text::file(path), json::file(path))
    }
}

impl Book {
    pub fn new(edition: Edition, bytes: Vec<u8>, path: &Path) -> Book {
        let (file, named) = source(path);
        Book { edition, bytes, file, named }
    }

    /// What to say where the bytes are a right book of the other edition alone.
    pub fn hint(&self) -> Option<String> {
        let other = other(self.edition);
        (!is_right(self.edition, &self.bytes) && is_right(other, &self.bytes)).then(|| {
            let name = name(other);
            format!("this is a right book of the {name} edition: --edition {name}")
        })
    }

    /// Warns where the other edition reads the bytes too.
    pub fn warn(&self, out: &mut Out) {
        let (here, there) = (name(self.edition), name(other(self.edition)));
        if is_right(self.edition, &self.bytes) && is_right(other(self.edition), &self.bytes) {
            out.warn(format!(
                "{}: these bytes are a right book of the {there} edition too, with other presets; read here as the \
                 {here}, go by how the book was written",
                self.file
            ));
        }
    }

    /// The same, and where only the other edition reads them.
    pub fn warn_always(&self, out: &mut Out) {
        self.warn(out);
        if let Some(hint) = self.hint() {
            out.warn(format!("{}: {hint}", self.file));
        }
    }

    /// A refusal of the book as a whole.
    pub fn refused(&self, refusal: Refusal) -> Failure {
        let bytes = self.bytes.len();
        let culprit = self.hint().or_else(|| match refusal.number() {
            1 if bytes > library::MAX_BOOK => Some(format!("{} has more than 65,535 bytes", self.file)),
            1 => Some(format!("{} has {}", self.file, text::counted(bytes, "byte"))),
            2 => Some(format!("{} is cut off, or no book: it has {}", self.file, text::counted(bytes, "byte"))),
            3 => Some(format!("{} is damaged, or no book of the {} edition", self.file, name(self.edition))),
            _ => None,
        });
        Failure::Refused(refusal, culprit)
    }

    pub fn count(&self) -> Result<usize, Failure> {
        library::book_check(self.edition, &self.bytes).map_err(|refusal| self.refused(refusal))
    }

    pub fn presets(&self) -> Result<Vec<Result<Preset<'_>, Refusal>>, Failure> {
        library::presets(self.edition, &self.bytes).map_err(|refusal| self.refused(refusal))
    }

    pub fn preset(&self, number: usize) -> Result<Preset<'_>, Failure> {
        library::preset(self.edition, &self.bytes, number).map_err(|refusal| self.refused_preset(number, refusal))
    }

    /// The refusal of a preset by its number.
    pub fn refused_preset(&self, number: usize, refusal: Refusal) -> Failure {
        match refusal.number() {
            1..=3 => self.refused(refusal),
            4 => Failure::refused(refusal, culprit::number(self.count().unwrap_or(0))),
            _ => Failure::Presets(vec![(number, refusal, self.record(number, refusal))], self.hint()),
        }
    }

    /// What is wrong in a record.
    pub fn record(&self, number: usize, refusal: Refusal) -> Option<String> {
        let head = self.head(number)?;
        let (kind, rank) = (head[0], head[1]);
        match refusal.number() {
            5 => Some(format!("its kind is {kind}")),
            6 => Some(format!("its kind is {kind} and its rank {rank}")),
            17 => Some(format!("its rank is {rank} and its lane count {}", head[2])),
            8 => self.letter(number, rank),
            _ => None,
        }
    }

    /// The bytes of a record, which need not be right.
    pub fn record_bytes(&self, number: usize) -> Option<&[u8]> {
        let count = self.count().ok()?;
        let end =
            if number + 1 < count { self.start(number + 1)? } else { self.bytes.len().checked_sub(2 + 2 * count)? };
        self.bytes.get(self.start(number)?..end)
    }

    /// Where a record begins: the offsets stand before the count at the end.
    fn start(&self, number: usize) -> Option<usize> {
        let count = self.count().ok()?;
        let at = self.bytes.len().checked_sub(2 + 2 * count)? + 2 * number;
        let offset = self.bytes.get(at..at + 2)?;
        Some(usize::from(u16::from_le_bytes([offset[0], offset[1]])))
    }

    fn head(&self, number: usize) -> Option<&[u8]> {
        let start = self.start(number)?;
        self.bytes.get(start..start + self.head_length())
    }

    fn head_length(&self) -> usize {
        if self.edition == Edition::First { 4 } else { 5 }
    }

    /// The first letter of a record that is no step.
    fn letter(&self, number: usize, rank: u8) -> Option<String> {
        let start = self.start(number)? + self.head_length();
        let count = &self.bytes[start - 2..start];
        let letters = self.bytes.get(start..start + usize::from(u16::from_le_bytes([count[0], count[1]])))?;
        let place = letters.iter().position(|letter| *letter == 0 || *letter > rank)?;
        Some(format!("its {} letter is {}: the steps are 1 to {rank}", text::ordinal(place + 1), letters[place]))
    }
}
