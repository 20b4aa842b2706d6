//! Unfinished files: beside the file whose name they get when they are whole. Whoever is ended by a signal takes its
//! own away; what a dead process left is taken away by the next one that writes in the folder. A name shows by a hash
//! that this program made it, so that nobody else's file is touched, and a lock shows that its maker lives.
use super::locked::point;
use crate::system::{self, RemovedOnSignal};
use crate::{sha256, text};
use std::ffi::{CString, OsStr};
use std::fs::{self, File, OpenOptions};
use std::io::{self, ErrorKind};
use std::os::unix::ffi::OsStrExt;
use std::os::unix::fs::{MetadataExt, OpenOptionsExt};
use std::path::{Path, PathBuf};
use std::sync::atomic::{AtomicU64, Ordering};
use std::time::{SystemTime, UNIX_EPOCH};

const FRONT: &str = ".winnathey-";
const END: &str = ".part";
/// The digits of each of the two numbers in a name.
const DIGITS: usize = 16;

pub struct Part {
    pub file: File,
    unfinished: Unfinished,
}

/// Its name, which goes when this is dropped.
struct Unfinished {
    path: PathBuf,
    removed_on_signal: Option<RemovedOnSignal>,
}

impl Part {
    /// An empty file in the folder of the one whose name it gets, locked.
    pub fn beside(target: &Path, mode: u32) -> io::Result<Part> {
        remove_stale(target);
        point();
        loop {
            let path = target.with_file_name(new_name());
            let (file, removed_on_signal) =
                system::removed_on_signal(CString::new(path.as_os_str().as_bytes())?, || {
                    OpenOptions::new().write(true).create_new(true).mode(mode).open(&path)
                })?;
            let unfinished = Unfinished { path, removed_on_signal: Some(removed_on_signal) };
            point();
            file.lock()?;
            // Before it was locked somebody may have taken it for a dead one's.
            if leads_to(&unfinished.path, &file) {
                return Ok(Part { file, unfinished });
            }
        }
    }

    /// Takes another file's place; still locked.
    pub fn replace(self, target: &Path) -> io::Result<File> {
        fs::rename(&self.unfinished.path, target)?;
        self.unfinished.has_its_name();
        Ok(self.file)
    }

    /// Gets a name, unless another file has it. If the file system has no such rename, a second name does it: cut
    /// off before the first is gone, the file has two until somebody writes in the folder.
    pub fn name(self, target: &Path) -> io::Result<File> {
        match system::rename_to_new(&self.unfinished.path, target) {
            Err(error) if matches!(error.kind(), ErrorKind::InvalidInput | ErrorKind::Unsupported) => {
                fs::hard_link(&self.unfinished.path, target)?;
            }
            Err(error) => return Err(error),
            Ok(()) => self.unfinished.has_its_name(),
        }
        Ok(self.file)
    }
}

impl Unfinished {
    fn has_its_name(mut self) {
        self.removed_on_signal = None;
    }
}

impl Drop for Unfinished {
    fn drop(&mut self) {
        if self.removed_on_signal.is_some() {
            let _ = fs::remove_file(&self.path);
        }
    }
}

/// A name that no other unfinished file has: a number, and its hash.
pub fn new_name() -> String {
    static MADE: AtomicU64 = AtomicU64::new(0);
    let now = SystemTime::now().duration_since(UNIX_EPOCH).map_or(0, |since| since.as_nanos());
    let seed = format!("{} {} {now}", std::process::id(), MADE.fetch_add(1, Ordering::Relaxed));
    let number = &sha256::hex(seed.as_bytes())[..DIGITS];
    format!("{FRONT}{number}-{}{END}", hash(number))
}

fn hash(number: &str) -> String {
    sha256::hex(format!("an unfinished file of winnathey {number}").as_bytes())[..DIGITS].to_string()
}

/// Whether this program made the name.
fn is_ours(name: &OsStr) -> bool {
    let numbers = name.to_str().and_then(|name| name.strip_prefix(FRONT)?.strip_suffix(END)?.split_once('-'));
    numbers.is_some_and(|(number, found)| number.len() == DIGITS && found == hash(number))
}

/// Removes what dead processes left beside a file.
pub fn remove_stale(target: &Path) {
    let Ok(entries) = fs::read_dir(text::folder(target)) else { return };
    for entry in entries.flatten().filter(|entry| is_ours(&entry.file_name())) {
        // Who writes it holds the lock.
        let is_file = entry.file_type().is_ok_and(|sort| sort.is_file());
        let Some(file) = is_file.then(|| File::open(entry.path()).ok()).flatten() else { continue };
        if file.try_lock().is_ok() && leads_to(&entry.path(), &file) {
            let _ = fs::remove_file(entry.path());
        }
    }
}

pub fn leads_to(path: &Path, file: &File) -> bool {
    let place = |metadata: fs::Metadata| (metadata.dev(), metadata.ino());
    fs::symlink_metadata(path).map(place).ok().is_some_and(|found| file.metadata().map(place).ok() == Some(found))
}

#[cfg(test)]
mod tests {
    use super::*;

    #[test]
    fn names_are_told_from_others() {
        let (first, second) = (new_name(), new_name());
        assert!(is_ours(OsStr::new(&first)) && is_ours(OsStr::new(&second)) && first != second);
        let other = first.replace(&first[FRONT.len()..FRONT.len() + 4], "zzzz");
        for name in [".p.book.part", ".winnathey-.part", ".winnathey-1-2.part", &other, &format!("{first}~")] {
            assert!(!is_ours(OsStr::new(name)), "{name}");
        }
    }
}
