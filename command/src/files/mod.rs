//! Books, pictures and sheets on files.
mod carried;
mod locked;
mod once;
mod part;
mod sort;
mod wait;

pub use locked::{Locked, Ready, may_place_new, place_new, read_together, settled, take_away};
pub use once::read_twice;
pub use sort::Sort;
pub use wait::at_most as wait_at_most;

use crate::failure::{Failure, STANDARD_INPUT, STANDARD_OUTPUT};
use crate::library::MAX_BOOK;
use crate::{system, text};
use std::fs::{self, File, OpenOptions};
use std::io::{self, ErrorKind, Read, Write};
use std::os::unix::fs::{FileTypeExt, MetadataExt};
use std::path::Path;

pub fn is_standard(path: &Path) -> bool {
    path == Path::new("-")
}

/// The bytes of a book, as many as tell whether it is too long.
pub fn read_book(path: &Path) -> Result<Vec<u8>, Failure> {
    let mut book = Vec::new();
    let limit = MAX_BOOK as u64 + 1;
    if is_standard(path) {
        let named = |error| Failure::Stream(STANDARD_INPUT, error);
        if !system::was_open(0) {
            return Err(named(io::Error::new(ErrorKind::NotConnected, "it is closed")));
        }
        io::stdin().lock().take(limit).read_to_end(&mut book).map_err(named)?;
    } else {
        let file = File::open(path).map_err(|error| Failure::file(path, error))?;
        file.take(limit).read_to_end(&mut book).map_err(|error| Failure::file(path, error))?;
    }
    Ok(book)
}

/// The same while nobody replaces the book.
pub fn read_locked(path: &Path) -> Result<Vec<u8>, Failure> {
    if is_standard(path) { read_book(path) } else { read_together(path, || read_book(path)) }
}

/// Whether what is read, standard input too, is the file that is to be written.
pub fn is_one_file(read: &Path, written: &Path) -> bool {
    let from = if is_standard(read) {
        once::standard_input().ok().filter(fs::Metadata::is_file)
    } else {
        fs::metadata(read).ok()
    };
    let to = if is_standard(written) { None } else { fs::metadata(written).ok() };
    let place = |file: fs::Metadata| (file.dev(), file.ino());
    from.map(place).is_some_and(|found| to.map(place) == Some(found))
}

/// Whether a file may be started, before anything is done.
pub fn may_create(path: &Path) -> Result<(), Failure> {
    if fs::metadata(path).is_ok() {
        let name = text::file(path);
        return Err(Failure::Unwilling(format!("'{name}' exists: --new is for a book that does not")));
    }
    may_write(path, Sort::Book, false)
}

/// Whether a file may be written, before anything is done: an existing one is replaced only if it is of the same sort
/// and that was asked for.
pub fn may_write(path: &Path, sort: Sort, force: bool) -> Result<(), Failure> {
    if is_standard(path) {
        return Ok(());
    }
    let name = text::file(path);
    let old = match fs::symlink_metadata(path) {
        Err(error) if error.kind() == ErrorKind::NotFound => return Ok(()),
        found => found.map_err(|error| Failure::file(path, error))?,
    };
    if old.is_symlink() && fs::metadata(path).is_err_and(|error| error.kind() == ErrorKind::NotFound) {
        return Err(Failure::Unwilling(format!("'{name}' is a link that leads to nothing: no file is written there")));
    }
    // A device or a pipe has nothing to lose.
    if !fs::metadata(path).map_err(|error| Failure::file(path, error))?.is_file() {
        return Ok(());
    }
    let mut bytes = Vec::new();
    let read = File::open(path).and_then(|file| file.take(MAX_BOOK as u64 + 1).read_to_end(&mut bytes));
    read.map_err(|error| Failure::file(path, error))?;
    if !sort.fits(&bytes) {
        return Err(Failure::Unwilling(format!(
            "'{name}' is {}, and is not replaced by {}",
            Sort::of(&bytes),
            sort.name()
        )));
    }
    if !force {
        return Err(Failure::Unwilling(format!("'{name}' exists: --force replaces it")));
    }
    Ok(())
}

/// What `write` would check, without writing.
pub fn could_write(path: &Path, sort: Sort, force: bool) -> Result<(), Failure> {
    may_write(path, sort, force)?;
    match fs::metadata(path) {
        Err(_) => may_place_new(path),
        // What cannot be opened to be written is not changed by trying; a pipe would be waited for.
        Ok(old) if old.is_dir() || old.file_type().is_socket() => {
            OpenOptions::new().write(true).open(path).map(drop).map_err(|error| Failure::file(path, error))
        }
        Ok(old) if !old.is_file() => system::may_write(path).map_err(|error| Failure::file(path, error)),
        Ok(_) => Locked::look(path).map(drop),
    }
}

/// Writes a whole file, or standard output for `-`. A reader that goes away before it has all of it is a failure: what
/// it has is no file of that sort.
pub fn write(path: &Path, bytes: &[u8], sort: Sort, force: bool, out: &mut dyn Write) -> Result<(), Failure> {
    if is_standard(path) {
        let written = out.write_all(bytes).and_then(|()| out.flush());
        return written.map_err(|error| Failure::Stream(STANDARD_OUTPUT, error));
    }
    may_write(path, sort, force)?;
    match fs::metadata(path) {
        Err(_) => place_new(path, bytes),
        Ok(old) if !old.is_file() => {
            let written = OpenOptions::new().write(true).open(path).and_then(|mut to| to.write_all(bytes));
            written.map_err(|error| Failure::file(path, error))
        }
        Ok(_) => Locked::open(path)?.replace(bytes),
    }
}
