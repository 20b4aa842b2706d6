//! A file that is replaced: read and written under one lock, so that no change is lost; whole or not at all, so that
//! whoever is cut off leaves the old file or the new one.
use super::carried::Carried;
use super::part::{self, Part};
use super::wait::{self, Lock};
use crate::failure::Failure;
use crate::library::MAX_BOOK;
use crate::{system, text};
use std::fs::{self, File, Metadata, OpenOptions};
use std::io::{self, ErrorKind, Read, Write};
use std::os::unix::ffi::OsStrExt;
use std::os::unix::fs::{MetadataExt, PermissionsExt};
use std::path::{Path, PathBuf};

pub struct Locked {
    /// As it was named.
    name: PathBuf,
    /// The file that the name leads to: a link stays.
    target: PathBuf,
    /// Locked until this is dropped.
    file: File,
    /// Opened before anything is written, so that nothing has to be opened behind the rename.
    folder: File,
    old: Metadata,
    carried: Carried,
    pub bytes: Vec<u8>,
}

impl Locked {
    /// Waits for the lock and reads the file, of a long one the front. The lock is the file's own: whoever replaced it
    /// meanwhile has left the lock with the old file, and then the new one is locked.
    pub fn open(path: &Path) -> Result<Locked, Failure> {
        Locked::with(path, Lock::Exclusive)
    }

    /// The same for a dry run: others may still read the file, and nothing in its folder changes.
    pub fn look(path: &Path) -> Result<Locked, Failure> {
        let locked = Locked::with(path, Lock::Shared)?;
        system::may_write(text::folder(&locked.target)).map_err(|error| Failure::file(path, error))?;
        locked.carried.may_be_given(path)?;
        Ok(locked)
    }

    fn with(path: &Path, lock: Lock) -> Result<Locked, Failure> {
        let failed = |error| Failure::file(path, error);
        let target = fs::canonicalize(path).map_err(failed)?;
        let folder = folder_of(path, &target)?;
        if lock == Lock::Exclusive {
            // A second name of the file may be among what a dead process left.
            part::remove_stale(&target);
        }
        loop {
            may_replace(path, &fs::metadata(&target).map_err(failed)?)?;
            let mut file = OpenOptions::new().read(true).write(true).open(&target).map_err(failed)?;
            wait::lock(&file, path, lock)?;
            let old = file.metadata().map_err(failed)?;
            if !fs::metadata(&target).is_ok_and(|now| is_one(&old, &now)) {
                continue;
            }
            may_replace(path, &old)?;
            let carried = Carried::of(&file).map_err(failed)?;
            let bytes = front(&mut file).map_err(failed)?;
            return Ok(Locked { name: path.to_path_buf(), target, file, folder, old, carried, bytes });
        }
    }

    /// Puts other bytes in the file's place, unless somebody changed it who knows nothing of the lock.
    pub fn replace(self, bytes: &[u8]) -> Result<(), Failure> {
        self.replace_around(bytes, || Ok(()), || ())?.settle()
    }

    /// The same; when all is written and only the new name is missing, something else is done first, and undone where
    /// that fails. The new file was locked before it got the name: whoever comes next waits until it is dropped. A
    /// failure leaves the old file.
    pub fn replace_around(
        self,
        bytes: &[u8],
        before: impl FnOnce() -> Result<(), Failure>,
        undo: impl FnOnce(),
    ) -> Result<New, Failure> {
        let part = written(&self.target, bytes, &self.carried, &self.name)?;
        let failed = |error| Failure::file(&self.name, error);
        let placed = self.unchanged().and_then(|()| before()).and_then(|()| part.replace(&self.target).map_err(failed));
        let file = placed.inspect_err(|_| undo())?;
        point();
        Ok(New { name: self.name, folder: self.folder, _file: file })
    }

    /// Brings the name of another file in the folder to the disk.
    pub fn settle_beside(&self, file: &Path) -> Result<(), Failure> {
        self.folder.sync_all().map_err(|error| Failure::not_on_disk(file, &error))
    }

    /// Looks whether the name still leads to the file with the bytes that were read.
    fn unchanged(&self) -> Result<(), Failure> {
        let now = fs::metadata(&self.target).ok();
        let changed = || -> io::Result<bool> {
            let now = File::open(&self.target).and_then(|mut file| front(&mut file))?;
            Ok(now != self.bytes)
        };
        let is_same = |now: &Metadata| is_one(&self.old, now) && now.len() == self.old.len();
        if !now.is_some_and(|now| is_same(&now)) || !self.carried.is_of(&self.file) || changed().unwrap_or(true) {
            return Err(changed_meanwhile(&self.name));
        }
        Ok(())
    }
}

/// A new file beside the old one, whole and on the disk, with what is carried over of the old one.
fn written(target: &Path, bytes: &[u8], old: &Carried, name: &Path) -> Result<Part, Failure> {
    let failed = |error| Failure::file(name, error);
    // Nobody else reads it before it has the old one's mode.
    let part = Part::beside(target, 0o600).map_err(failed)?;
    let mut file = &part.file;
    point();
    let (front, rest) = bytes.split_at(bytes.len() / 2);
    file.write_all(front).map_err(failed)?;
    point();
    file.write_all(rest).map_err(failed)?;
    point();
    old.give(file, name)?;
    point();
    file.sync_all().map_err(failed)?;
    point();
    Ok(part)
}

/// A file beside the one whose place it takes later, under the lock of the book that both belong to.
pub struct Ready {
    path: PathBuf,
    part: Part,
}

impl Ready {
    /// A link stays, and so does what its owner protected.
    pub fn beside(path: &Path, bytes: &[u8]) -> Result<Ready, Failure> {
        Ready::may_be_beside(path)?;
        Ready::like(path, bytes, path)
    }

    /// Whether there could be one, as far as that shows without writing.
    pub fn could_be_beside(path: &Path) -> Result<(), Failure> {
        Ready::may_be_beside(path)?;
        carried_of(path)?.may_be_given(path)
    }

    fn may_be_beside(path: &Path) -> Result<(), Failure> {
        let old = fs::symlink_metadata(path).map_err(|error| Failure::file(path, error))?;
        if old.is_symlink() {
            let name = text::file(path);
            return Err(Failure::Unwilling(format!(
                "'{name}' is a link, which a new file would not be: put a file in its place, or use -o"
            )));
        }
        may_replace(path, &old)
    }

    /// With what is carried over of another file.
    pub fn like(path: &Path, bytes: &[u8], old: &Path) -> Result<Ready, Failure> {
        Ok(Ready { path: path.to_path_buf(), part: written(path, bytes, &carried_of(old)?, path)? })
    }

    /// Gives it the name, which nobody has.
    pub fn place(self) -> Result<(), Failure> {
        self.part.name(&self.path).map_err(|error| Failure::file(&self.path, error))?;
        point();
        Ok(())
    }

    /// Puts it in the place of a file with these bytes.
    pub fn replace(self, old: &[u8]) -> Result<(), Failure> {
        let failed = |error| Failure::file(&self.path, error);
        if !File::open(&self.path).is_ok_and(|mut file| has(&mut file, old)) {
            return Err(changed_meanwhile(&self.path));
        }
        self.part.replace(&self.path).map_err(failed)?;
        point();
        Ok(())
    }
}

fn carried_of(path: &Path) -> Result<Carried, Failure> {
    File::open(path).and_then(|file| Carried::of(&file)).map_err(|error| Failure::file(path, error))
}

/// Removes a file with these bytes, which are kept elsewhere. It goes by another name first, so that one that somebody
/// changes at this moment comes back.
pub fn take_away(path: &Path, bytes: &[u8]) -> Result<(), Failure> {
    let failed = |error| Failure::file(path, error);
    let away = path.with_file_name(part::new_name());
    let mut file = File::open(path).map_err(failed)?;
    // Until it is looked at, it is no dead one's.
    file.lock().map_err(failed)?;
    fs::rename(path, &away).map_err(failed)?;
    point();
    if !part::leads_to(&away, &file) || !has(&mut file, bytes) {
        system::rename_to_new(&away, path).map_err(failed)?;
        return Err(changed_meanwhile(path));
    }
    fs::remove_file(&away).map_err(failed)?;
    point();
    Ok(())
}

fn changed_meanwhile(path: &Path) -> Failure {
    Failure::Unwilling(format!("'{}' changed meanwhile: nothing is written; try again", text::file(path)))
}

/// Brings a change of names in a file's folder to the disk.
pub fn settled(path: &Path) -> Result<(), Failure> {
    folder_of(path, path)?.sync_all().map_err(|error| Failure::not_on_disk(path, &error))
}

/// A file that has taken another one's place.
pub struct New {
    name: PathBuf,
    folder: File,
    /// Locked until this is dropped.
    _file: File,
}

impl New {
    /// Brings the change of names to the disk; only then is it to be acknowledged.
    pub fn settle(self) -> Result<(), Failure> {
        self.folder.sync_all().map_err(|error| Failure::not_on_disk(&self.name, &error))?;
        point();
        Ok(())
    }
}

fn is_one(first: &Metadata, second: &Metadata) -> bool {
    (first.dev(), first.ino()) == (second.dev(), second.ino())
}

/// Something read together with a file while nobody replaces it. If a file cannot be locked it is read as it is; a
/// pipe can be opened only once.
pub fn read_together<T>(path: &Path, mut read: impl FnMut() -> Result<T, Failure>) -> Result<T, Failure> {
    loop {
        if !path.is_file() {
            return read();
        }
        let Ok(file) = File::open(path) else { return read() };
        let locked = match wait::lock(&file, path, Lock::Shared) {
            Err(failure @ Failure::Unwilling(_)) => return Err(failure),
            locked => locked.is_ok(),
        };
        let now = fs::metadata(path);
        if !locked || file.metadata().is_ok_and(|held| now.is_ok_and(|now| is_one(&held, &now))) {
            return read();
        }
    }
}

/// As many bytes as tell whether it is a book.
fn front(file: &mut File) -> io::Result<Vec<u8>> {
    let mut bytes = Vec::new();
    file.take(MAX_BOOK as u64 + 1).read_to_end(&mut bytes)?;
    Ok(bytes)
}

/// Whether these are all the bytes of a file.
fn has(file: &mut File, bytes: &[u8]) -> bool {
    let mut now = Vec::new();
    file.take(bytes.len() as u64 + 1).read_to_end(&mut now).is_ok() && now == bytes
}

/// What the owner protected stays, and so do several names of one file, which a new file would part.
fn may_replace(path: &Path, old: &Metadata) -> Result<(), Failure> {
    let name = text::file(path);
    let unwilling = if !old.is_file() {
        format!("'{name}' is no file that could be replaced")
    } else if old.permissions().mode() & 0o222 == 0 {
        format!("'{name}' is write-protected: chmod u+w allows a change, -o writes another file")
    } else if old.nlink() > 1 {
        format!("'{name}' has {} names (hard links), which a new file would part: -o writes another file", old.nlink())
    } else {
        return Ok(());
    };
    Err(Failure::Unwilling(unwilling))
}

/// The folder of a file, opened: a change of names there can be brought to the disk.
fn folder_of(name: &Path, target: &Path) -> Result<File, Failure> {
    File::open(text::folder(target)).map_err(|error| match error.kind() {
        ErrorKind::PermissionDenied => Failure::Unwilling(format!(
            "'{}': its folder may not be read, so that nobody could tell whether a change is on the disk: nothing is \
             written; chmod u+r for the folder allows it",
            text::file(name)
        )),
        _ => Failure::file(name, error),
    })
}

/// Whether a file that does not exist could be written, as far as that shows without writing.
pub fn may_place_new(path: &Path) -> Result<(), Failure> {
    folder_for_new(path)?;
    system::may_write(text::folder(path)).map_err(|error| Failure::file(path, error))
}

fn folder_for_new(path: &Path) -> Result<File, Failure> {
    // A slash at the end, or a dot behind one, is not seen in the name.
    let last = path.as_os_str().as_bytes().rsplit(|&byte| byte == b'/').next();
    if path.file_name().is_none_or(|name| Some(name.as_bytes()) != last) {
        return Err(Failure::file(path, io::Error::new(ErrorKind::InvalidInput, "this is no name for a file")));
    }
    folder_of(path, path)
}

/// Writes a file that must not exist yet: beside its name first, so that it is whole when it gets the name.
pub fn place_new(path: &Path, bytes: &[u8]) -> Result<(), Failure> {
    let folder = folder_for_new(path)?;
    let placed = || -> io::Result<File> {
        // With the mode that a new file gets.
        let part = Part::beside(path, 0o666)?;
        (&part.file).write_all(bytes)?;
        part.file.sync_all()?;
        point();
        part.name(path)
    };
    let _file = placed().map_err(|error| match error.kind() {
        ErrorKind::AlreadyExists => Failure::Unwilling(format!("'{}' exists: nothing is written", text::file(path))),
        _ => Failure::file(path, error),
    })?;
    point();
    folder.sync_all().map_err(|error| Failure::not_on_disk(path, &error))?;
    point();
    Ok(())
}

#[cfg(not(test))]
pub fn point() {}

#[cfg(test)]
pub use tests::point;

#[cfg(test)]
mod tests {
    use super::*;
    use std::env;
    use std::process::Command;
    use std::sync::atomic::{AtomicUsize, Ordering};

    /// At which point a run is cut off.
    const CUT: &str = "WINNATHEY_TEST_CUT_OFF_AT";
    const FOLDER: &str = "WINNATHEY_TEST_FOLDER";
    static POINTS: AtomicUsize = AtomicUsize::new(0);

    /// A point in the writing; the program ends at the one that is named, without a word and with nothing tidied up.
    pub fn point() {
        let number = POINTS.fetch_add(1, Ordering::Relaxed) + 1;
        if env::var(CUT).is_ok_and(|at| at == number.to_string()) {
            std::process::abort();
        }
    }

    fn scratch(name: &str) -> PathBuf {
        let folder = env::temp_dir().join(format!("winnathey-{name}-{}", std::process::id()));
        let _ = fs::remove_dir_all(&folder);
        fs::create_dir(&folder).unwrap();
        folder
    }

    /// Runs this program's test again, to be cut off at a point; tells whether it came to its end.
    fn again(test: &str, folder: &Path, cut: usize) -> bool {
        let run = Command::new(env::current_exe().unwrap())
            .args(["--exact", test, "--quiet"])
            .env(CUT, cut.to_string())
            .env(FOLDER, folder)
            .output()
            .unwrap();
        run.status.success()
    }

    #[test]
    fn cut_off_at_every_write_the_old_or_the_new_file_is_whole() {
        if let Some(folder) = env::var_os(FOLDER) {
            let locked = Locked::open(&PathBuf::from(folder).join("book")).ok().unwrap();
            let longer = [locked.bytes.as_slice(), b"+"].concat();
            assert!(locked.replace(&longer).is_ok());
            return;
        }
        let folder = scratch("replaced");
        let book = folder.join("book");
        fs::write(&book, b"old").unwrap();
        let mut acknowledged = 0;
        for cut in 1.. {
            let before = fs::read(&book).unwrap();
            let ended =
                again("files::locked::tests::cut_off_at_every_write_the_old_or_the_new_file_is_whole", &folder, cut);
            let after = fs::read(&book).unwrap();
            assert!(after == before || after == [before.as_slice(), b"+"].concat(), "cut off at {cut}");
            assert!(!ended || after != before, "acknowledged and lost at {cut}");
            acknowledged += usize::from(ended);
            if ended {
                assert!(cut > 8, "only {cut} points");
                break;
            }
        }
        assert_eq!(acknowledged, 1);
        fs::remove_dir_all(folder).unwrap();
    }

    #[test]
    fn cut_off_at_every_write_a_new_file_is_whole_or_missing() {
        if let Some(folder) = env::var_os(FOLDER) {
            assert!(place_new(&PathBuf::from(folder).join("book"), b"whole").is_ok());
            return;
        }
        let folder = scratch("new");
        let book = folder.join("book");
        for cut in 1.. {
            let _ = fs::remove_file(&book);
            let ended =
                again("files::locked::tests::cut_off_at_every_write_a_new_file_is_whole_or_missing", &folder, cut);
            assert!(fs::read(&book).map_or(!ended, |bytes| bytes == b"whole"), "cut off at {cut}");
            if ended {
                assert!(cut > 3, "only {cut} points");
                break;
            }
        }
        fs::remove_dir_all(folder).unwrap();
    }

    #[test]
    fn a_file_that_changed_meanwhile_is_not_replaced() {
        let folder = scratch("changed");
        let book = folder.join("book");
        fs::write(&book, b"old").unwrap();
        for change in [b"new".as_slice(), b"longer"] {
            let locked = Locked::open(&book).ok().unwrap();
            fs::write(&book, change).unwrap();
            assert!(locked.replace(b"mine").is_err());
            assert_eq!(fs::read(&book).unwrap(), change);
        }
        let locked = Locked::open(&book).ok().unwrap();
        fs::rename(&book, folder.join("away")).unwrap();
        fs::write(&book, b"longer").unwrap();
        assert!(locked.replace(b"mine").is_err());
        assert_eq!(fs::read(&book).unwrap(), b"longer");
        assert_eq!(fs::read_dir(&folder).unwrap().count(), 2);
        fs::remove_dir_all(folder).unwrap();
    }

    #[test]
    fn a_new_file_takes_no_other_ones_place() {
        let folder = scratch("exists");
        let book = folder.join("book");
        assert!(place_new(&book, b"mine").is_ok() && place_new(&book, b"other").is_err());
        assert_eq!(fs::read(&book).unwrap(), b"mine");
        assert_eq!(fs::read_dir(&folder).unwrap().count(), 1);
        fs::remove_dir_all(folder).unwrap();
    }
}
