//! The files of names: beside a book, or one that was asked for.
use super::Names;
use crate::books::Book;
use crate::failure::Failure;
use crate::out::Out;
use crate::{parked, text};
use std::ffi::OsString;
use std::fs::{self, File};
use std::io::{ErrorKind, Read};
use std::path::{Path, PathBuf};

const MOST_BYTES: u64 = 1 << 20;
/// More than the line in front of parked names.
const LINE: u64 = 1 << 10;

/// Where a book's names are: of a link, beside the book that it leads to, whichever way that is changed.
pub fn beside(book: &Path) -> PathBuf {
    with(book, ".names")
}

/// Where they are put aside while their numbers change.
pub fn aside(book: &Path) -> PathBuf {
    with(book, ".names~")
}

fn with(book: &Path, ending: &str) -> PathBuf {
    let target = if book.is_symlink() { fs::canonicalize(book).ok() } else { None };
    let mut name = OsString::from(target.as_deref().unwrap_or(book));
    name.push(ending);
    PathBuf::from(name)
}

/// A file of names that was asked for.
pub fn read(path: &Path) -> Result<Names, Failure> {
    parsed_file(path, &bytes_of(path)?)
}

/// The bytes of a file of names, or that it is too long. The parked names have a line more.
pub fn bytes_of(path: &Path) -> Result<Vec<u8>, Failure> {
    let mut bytes = Vec::new();
    let read = File::open(path).and_then(|file| file.take(MOST_BYTES + LINE).read_to_end(&mut bytes));
    read.map_err(|error| Failure::file(path, error))?;
    if bytes.len() as u64 >= MOST_BYTES + LINE {
        return Err(too_long(path));
    }
    Ok(bytes)
}

/// The same of one beside a book, which nobody asked for: a pipe there would be waited for.
pub fn bytes_beside(path: &Path) -> Result<Vec<u8>, Failure> {
    let found = fs::metadata(path).map_err(|error| Failure::file(path, error))?;
    if !found.is_file() {
        return Err(Failure::Unwilling(format!("'{}' is no file: rename or remove it", text::file(path))));
    }
    bytes_of(path)
}

fn too_long(path: &Path) -> Failure {
    Failure::Unwilling(format!("'{}' has more than 1 MiB", text::file(path)))
}

pub fn parsed_file(path: &Path, bytes: &[u8]) -> Result<Names, Failure> {
    if bytes.len() as u64 > MOST_BYTES {
        return Err(too_long(path));
    }
    Names::parse(bytes)
        .map_err(|(line, problem)| Failure::Unwilling(format!("'{}', line {line}: {problem}", text::file(path))))
}

/// The names beside a book, none where there is no such file. Where it is wrong that is said, and no name is used.
pub fn of_book(path: &Path, book: &Book, out: &mut Out) -> Names {
    let file = beside(path);
    let read = match fs::metadata(&file) {
        Err(error) if error.kind() == ErrorKind::NotFound => Ok(cut_off(path, &book.bytes, out)),
        _ => bytes_beside(&file).and_then(|bytes| parsed_file(&file, &bytes)),
    };
    let names = read.unwrap_or_else(|failure| {
        out.warn(format!("no names: {}", failure.in_a_line()));
        Names::default()
    });
    if let Some(past) = book.count().ok().and_then(|count| names.past_the_end(count)) {
        let file = text::file(&file);
        out.warn(format!("'{file}' names {past}, which the book does not have: the next change drops that"));
    }
    names
}

/// The names that a change left that was cut off, if the book tells which fit it.
fn cut_off(path: &Path, book: &[u8], out: &mut Out) -> Names {
    let aside = aside(path);
    let name = text::file(&aside);
    if let Some((names, _)) = parked::beside(path).and_then(|parked| parked.fitting(book)) {
        out.warn(format!("a change was cut off: these names are out of '{name}', and the next change puts them back"));
        return Names::parse(&names).unwrap_or_default();
    }
    if fs::metadata(&aside).is_ok() {
        out.warn(format!("'{name}' was left by a change that was cut off: its names may not fit the book"));
    }
    Names::default()
}
