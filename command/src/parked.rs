//! The names beside a book while its presets get other numbers. Two files cannot be replaced at once: the old names
//! are parked in `BOOK.names~`, behind a line that has the hashes of the old and the new book and the change. So
//! whoever is cut off, the book itself tells which names fit it, and the next change puts them back.
use crate::failure::Failure;
use crate::files::{self, Ready};
use crate::names::{self, Names};
use crate::{sha256, text};
use std::fs;
use std::io::ErrorKind;
use std::path::Path;

/// What a change makes of the presets' numbers.
#[derive(Clone, Copy, PartialEq, Eq, Debug)]
pub enum Renumbering {
    Kept,
    Removed(usize),
    Moved(usize, usize),
}

impl Renumbering {
    /// The number that a preset has then.
    pub fn of(self, old: usize) -> Option<usize> {
        match self {
            Renumbering::Kept => Some(old),
            Renumbering::Removed(number) if old == number => None,
            Renumbering::Removed(number) => Some(if old > number { old - 1 } else { old }),
            Renumbering::Moved(from, to) => Some(match old {
                old if old == from => to,
                old if from < old && old <= to => old - 1,
                old if to <= old && old < from => old + 1,
                old => old,
            }),
        }
    }
}

/// The names of a book, and what a change makes of them.
#[derive(Clone, PartialEq, Eq, Debug)]
pub struct Parked {
    /// The hashes of the book before and after the change.
    before: String,
    after: String,
    /// How many presets the book had.
    count: usize,
    numbers: Renumbering,
    /// The names before the change, as they stood there.
    old: Vec<u8>,
}

const FRONT: &str = "# winnathey parked these names:";

impl Parked {
    pub fn new(before: &[u8], after: &[u8], count: usize, numbers: Renumbering, old: Vec<u8>) -> Parked {
        Parked { before: sha256::hex(before), after: sha256::hex(after), count, numbers, old }
    }

    /// The file's bytes.
    pub fn written(&self) -> Vec<u8> {
        let Parked { before, after, count, .. } = self;
        let change = match self.numbers {
            Renumbering::Kept => "kept".to_string(),
            Renumbering::Removed(number) => format!("removed {number}"),
            Renumbering::Moved(from, to) => format!("moved {from} {to}"),
        };
        let line = format!("{FRONT} book SHA-256 {before} becomes {after}, presets {count}, {change}\n");
        [line.as_bytes(), &self.old].concat()
    }

    /// None where no such line is in front: an editor's copy, say.
    pub fn parse(bytes: &[u8]) -> Option<Parked> {
        let end = bytes.iter().position(|&byte| byte == b'\n')?;
        let line = std::str::from_utf8(&bytes[..end]).ok()?.strip_prefix(FRONT)?;
        let words: Vec<&str> = line.split_whitespace().collect();
        let ["book", "SHA-256", before, "becomes", after, "presets", count, change @ ..] = &words[..] else {
            return None;
        };
        let numbers = match change {
            ["kept"] => Renumbering::Kept,
            ["removed", number] => Renumbering::Removed(number.parse().ok()?),
            ["moved", from, to] => Renumbering::Moved(from.parse().ok()?, to.parse().ok()?),
            _ => return None,
        };
        let parked = Parked {
            before: before.to_string(),
            after: after.strip_suffix(',')?.to_string(),
            count: count.strip_suffix(',')?.parse().ok()?,
            numbers,
            old: bytes[end + 1..].to_vec(),
        };
        (parked.written() == bytes).then_some(parked)
    }

    /// The names after the change.
    pub fn after(&self) -> Result<Vec<u8>, (usize, String)> {
        let new = |old| if old < self.count { self.numbers.of(old) } else { None };
        Ok(Names::parse(&self.old)?.renumbered(new).written())
    }

    /// The names that fit a book, and whether these are the new ones; none where it is neither the old book nor the
    /// new one.
    pub fn fitting(&self, book: &[u8]) -> Option<(Vec<u8>, bool)> {
        let hash = sha256::hex(book);
        if hash == self.before {
            return Some((self.old.clone(), false));
        }
        if hash == self.after { self.after().ok().map(|names| (names, true)) } else { None }
    }
}

/// What a change that was cut off parked beside a book; none where there is no such file, or another program's.
pub fn beside(book: &Path) -> Option<Parked> {
    let path = names::aside(book);
    let is_file = fs::symlink_metadata(&path).is_ok_and(|found| found.is_file());
    is_file.then(|| names::bytes_of(&path).ok()).flatten().and_then(|bytes| Parked::parse(&bytes))
}

/// The names that `settle` would put back, of a change that was cut off.
pub fn waiting(book: &Path, bytes: &[u8]) -> Option<Vec<u8>> {
    let (names, _) = beside(book)?.fitting(bytes)?;
    let path = names::beside(book);
    let is_missing = fs::symlink_metadata(&path).is_err_and(|error| error.kind() == ErrorKind::NotFound);
    (is_missing || names::bytes_beside(&path).is_ok_and(|now| now == names)).then_some(names)
}

/// Finishes a change of names that was cut off, or rolls it back, as the book tells, under its lock; says what was done.
/// Names that fit no such book, or beside which others stand, are left.
pub fn settle(book: &Path, bytes: &[u8]) -> Result<Option<String>, Failure> {
    let Some((names, is_new)) = beside(book).and_then(|parked| parked.fitting(bytes)) else { return Ok(None) };
    let (path, aside) = (names::beside(book), names::aside(book));
    let told = if fs::symlink_metadata(&path).is_err_and(|error| error.kind() == ErrorKind::NotFound) {
        Ready::like(&path, &names, &aside)?.place()?;
        let told = if is_new { "get their new numbers" } else { "are back as they were" };
        format!("a change was cut off: the names in '{}' {told}", text::file(&path))
    } else if names::bytes_beside(&path).is_ok_and(|now| now == names) {
        format!("a change was cut off: the names in '{}' are right", text::file(&path))
    } else {
        return Ok(None);
    };
    fs::remove_file(&aside).map_err(|error| Failure::file(&aside, error))?;
    files::settled(&path)?;
    Ok(Some(told))
}

#[cfg(test)]
mod tests {
    use super::*;

    #[test]
    fn numbers_follow_the_presets() {
        for from in 0..5 {
            for to in 0..5 {
                let mut presets: Vec<usize> = (0..5).collect();
                let moved = presets.remove(from);
                presets.insert(to, moved);
                for old in 0..5 {
                    let new = Renumbering::Moved(from, to).of(old).unwrap();
                    assert_eq!(presets[new], old, "{from} to {to}");
                }
            }
            let presets: Vec<usize> = (0..5).filter(|&preset| preset != from).collect();
            for old in 0..5 {
                assert_eq!(Renumbering::Removed(from).of(old).map(|new| presets[new]), (old != from).then_some(old));
            }
        }
    }

    #[test]
    fn parked_names_are_read_again() {
        let old = b"\xef\xbb\xbfpreset 0 a\r\npreset 2 c\npreset 7 gone".to_vec();
        for numbers in [Renumbering::Kept, Renumbering::Removed(0), Renumbering::Moved(2, 0)] {
            let parked = Parked::new(b"old", b"new", 3, numbers, old.clone());
            assert_eq!(Parked::parse(&parked.written()), Some(parked.clone()));
            assert_eq!(parked.fitting(b"old"), Some((old.clone(), false)));
            assert!(parked.fitting(b"new").is_some_and(|(_, is_new)| is_new) && parked.fitting(b"other").is_none());
        }
        let removed = Parked::new(b"old", b"new", 3, Renumbering::Removed(0), old.clone());
        assert_eq!(removed.after().unwrap(), b"preset 1 c\r\n");
        for wrong in [&b""[..], b"preset 0 a\n", b"# winnathey parked these names: book\n", &old] {
            assert_eq!(Parked::parse(wrong), None);
        }
        let mut longer = removed.written();
        longer.insert(FRONT.len(), b' ');
        assert_eq!(Parked::parse(&longer), None);
    }
}
