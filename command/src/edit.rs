//! Books that are changed: where the old one is read and where the new one goes.
use crate::acknowledged::acknowledged;
use crate::args::Args;
use crate::books::Book;
use crate::dry_run::Measured;
use crate::failure::Failure;
use crate::files::{self, Locked, Ready, Sort};
use crate::json::Value;
use crate::library::{self, Edition, MAX_BOOK};
use crate::names::{self, Names};
use crate::out::Out;
use crate::parked::{self, Parked, Renumbering};
use crate::table::Verdict;
use crate::{system, text};
use std::fs;
use std::io::ErrorKind;
use std::path::{Path, PathBuf};

/// Where the new book goes.
enum To {
    InPlace,
    New,
    Output(PathBuf),
}

pub struct Edit {
    from: PathBuf,
    to: To,
    edition: Edition,
    force: bool,
    dry_run: bool,
    /// The most bytes of the new book.
    pub room: usize,
    /// Whether it can start a book.
    starts: bool,
}

/// A change of a book: the new bytes, and the number that each preset has then, where numbers change.
pub struct Change {
    pub bytes: Vec<u8>,
    pub edition: Edition,
    pub numbers: Renumbering,
    /// What the change was, in a line and for JSON.
    pub told: String,
    pub fields: Vec<(&'static str, Value)>,
}

impl Edit {
    /// By the operand BOOK and the options. Nothing is read or written yet.
    pub fn named(args: &mut Args) -> Result<Edit, Failure> {
        let from = PathBuf::from(args.next("BOOK")?);
        let standard = files::is_standard(&from);
        let to = match (args.path("-o"), args.flag("--in-place"), args.flag("--new")) {
            (None, false, false) => {
                let new = if args.subcommand.has("--new") { "; --new starts a book" } else { "" };
                return Err(args.usage(format!(
                    "name the new book's file, -o FILE, or let it take BOOK's place, --in-place{new}"
                )));
            }
            (None, true, false) if standard => return Err(args.usage("standard input has no place to put a book in")),
            (None, true, false) => To::InPlace,
            (None, false, true) if standard => return Err(args.usage("--new needs a file")),
            (None, false, true) => To::New,
            (Some(to), false, false) if files::is_one_file(&from, &to) => {
                let instead = if standard { "" } else { ": use --in-place" };
                return Err(args.usage(format!("{} is BOOK itself{instead}", text::file(&to))));
            }
            (Some(to), false, false) => To::Output(to),
            _ => return Err(args.usage("either -o or --in-place or --new")),
        };
        let wants_output = ["--json", "--dry-run"].into_iter().find(|option| args.flag(option));
        if let Some(option) = wants_output.filter(|_| matches!(&to, To::Output(to) if files::is_standard(to))) {
            return Err(args.usage(format!("-o - and {option} both want standard output")));
        }
        let room = args.count("--at-most")?.unwrap_or(MAX_BOOK).min(MAX_BOOK);
        let edition = args.edition(&from)?;
        let (force, dry_run) = (args.flag("--force"), args.flag("--dry-run"));
        Ok(Edit { from, to, edition, force, dry_run, room, starts: args.subcommand.has("--new") })
    }

    pub fn edition(&self) -> Edition {
        self.edition
    }

    /// Reads the book, changes it and writes the new one, under a lock where it takes the old one's place.
    pub fn run(
        &self,
        subcommand: &'static str,
        change: impl FnOnce(&Book) -> Result<Change, Failure>,
        out: &mut Out,
    ) -> Result<Verdict, Failure> {
        let open = |bytes| Book::new(self.edition, bytes, &self.from);
        let (change, old, file) = match &self.to {
            To::InPlace => {
                let opened = if self.dry_run { Locked::look(&self.from) } else { Locked::open(&self.from) };
                let mut locked = opened.map_err(|failure| self.missing(failure))?;
                let is_settled = self.settled(&locked, out)?;
                let book = open(std::mem::take(&mut locked.bytes));
                let (change, old) = self.changed(&book, change, out)?;
                locked.bytes = book.bytes;
                if is_settled {
                    self.replaced(locked, &change, out)?;
                }
                (change, old, Some(&self.from))
            }
            To::New => {
                files::may_create(&self.from)?;
                let (change, old) = self.changed(&open(Vec::new()), change, out)?;
                if self.dry_run {
                    files::may_place_new(&self.from)?;
                } else {
                    files::place_new(&self.from, &change.bytes)?;
                }
                self.warn_of_names(out);
                (change, old, Some(&self.from))
            }
            To::Output(to) => {
                files::may_write(to, Sort::Book, self.force)?;
                let (change, old) = self.changed(&open(files::read_locked(&self.from)?), change, out)?;
                if self.dry_run {
                    files::could_write(to, Sort::Book, self.force)?;
                } else {
                    files::write(to, &change.bytes, Sort::Book, self.force, out)?;
                }
                (change, old, (!files::is_standard(to)).then_some(to))
            }
        };
        if let Some(file) = file {
            let said = acknowledged(subcommand, file, &change, old.as_ref(), out);
            said.map_err(|failure| if self.dry_run { failure } else { failure.unsaid(file) })?;
        }
        Ok(Verdict::Answer)
    }

    /// A book that is not there could be started.
    fn missing(&self, failure: Failure) -> Failure {
        match failure {
            Failure::File(path, error) if error.kind() == ErrorKind::NotFound => {
                let name = text::file(&path);
                if self.from.is_symlink() {
                    Failure::Unwilling(format!("'{name}' is a link that leads to nothing"))
                } else if self.starts {
                    Failure::Unwilling(format!("'{name}' does not exist: --new in place of --in-place starts it"))
                } else {
                    Failure::File(path, error)
                }
            }
            other => other,
        }
    }

    /// The change and, for a dry run, the book before. A book that only the other edition reads is left alone: what
    /// would be written fits neither.
    fn changed(
        &self,
        book: &Book,
        change: impl FnOnce(&Book) -> Result<Change, Failure>,
        out: &mut Out,
    ) -> Result<(Change, Option<Measured>), Failure> {
        book.warn(out);
        if let (Ok(_), Some(hint)) = (book.count(), book.hint()) {
            return Err(Failure::Unwilling(format!("{}: {hint}; nothing is written", book.file)));
        }
        let change = change(book)?;
        let old = if self.dry_run { Some(Measured::book(&book.bytes, book.count()?)) } else { None };
        Ok((change, old))
    }

    /// Names that a change left that was cut off fit again, before anything is changed. False if a dry run leaves them:
    /// what becomes of them then is not known yet.
    fn settled(&self, locked: &Locked, out: &mut Out) -> Result<bool, Failure> {
        if self.dry_run && parked::waiting(&self.from, &locked.bytes).is_some() {
            let aside = text::file(&names::aside(&self.from));
            out.warn(format!("a change was cut off: the next one puts the names in '{aside}' back first"));
            return Ok(false);
        }
        if !self.dry_run
            && let Some(told) = parked::settle(&self.from, &locked.bytes)?
        {
            out.warn(told);
        }
        Ok(true)
    }

    fn put(&self, locked: Locked, bytes: &[u8]) -> Result<(), Failure> {
        if self.dry_run { Ok(()) } else { locked.replace(bytes) }
    }

    /// Names of presets that the book does not have go, or a preset that comes would have them.
    fn replaced(&self, locked: Locked, change: &Change, out: &mut Out) -> Result<(), Failure> {
        let beside = names::beside(&self.from);
        if change.numbers != Renumbering::Kept {
            return self.renumbered(locked, change, &beside, out);
        }
        let names = names_with_numbers(&beside).unwrap_or_else(|failure| {
            out.warn(format!("no names: {}", failure.in_a_line()));
            None
        });
        let count = library::book_check(self.edition, &locked.bytes)?;
        let past = names.and_then(|(names, old)| names.past_the_end(count).map(|past| (names, old, past)));
        let Some((names, old, past)) = past else { return self.put(locked, &change.bytes) };
        let kept = names.renumbered(|number| (number < count).then_some(number)).written();
        let file = text::file(&beside);
        let has_to = |failure: Failure| {
            let told = failure.in_a_line();
            Failure::Unwilling(format!(
                "'{file}' names {past}, which the book does not have, and has to drop that: {told}"
            ))
        };
        if self.dry_run {
            Ready::could_be_beside(&beside).map_err(has_to)?;
            out.warn(format!("'{file}' would drop {past}, which the book does not have"));
            return Ok(());
        }
        let ready = Ready::beside(&beside, &kept).map_err(has_to)?;
        // They fit the old book as well as the new one.
        let new = locked.replace_around(&change.bytes, || ready.replace(&old), || ())?;
        out.warn(format!("'{file}' drops {past}, which the book did not have"));
        new.settle()
    }

    /// Names whose presets get other numbers are parked first, so that they never stand beside a book that they do
    /// not fit.
    fn renumbered(&self, locked: Locked, change: &Change, beside: &Path, out: &mut Out) -> Result<(), Failure> {
        let aside = names::aside(&self.from);
        if fs::symlink_metadata(&aside).is_ok() {
            let name = text::file(&aside);
            return Err(Failure::Unwilling(format!(
                "'{name}' was left by an editor or by a change that was cut off, and the presets' numbers change: \
                 rename or remove it first"
            )));
        }
        let read = names_with_numbers(beside).map_err(|failure| {
            let told = failure.in_a_line();
            Failure::Unwilling(format!("the presets' numbers change, and their names cannot be read: {told}"))
        })?;
        let Some((names, old)) = read else { return self.put(locked, &change.bytes) };
        if self.dry_run {
            Ready::could_be_beside(beside)?;
            let past = names.past_the_end(library::book_check(self.edition, &locked.bytes)?);
            if let Some(past) = past {
                out.warn(format!("'{}' would drop {past}, which the book does not have", text::file(beside)));
            }
            return Ok(());
        }
        let before = locked.bytes.clone();
        let count = library::book_check(self.edition, &before)?;
        let parked = Parked::new(&before, &change.bytes, count, change.numbers, old.clone());
        let after = parked.after().map_err(|(_, problem)| Failure::Unwilling(problem))?;
        let ready = Ready::beside(beside, &after)?;
        let parking = Ready::like(&aside, &parked.written(), beside)?;
        let park = || parking.place().and_then(|()| system::undisturbed(|| files::take_away(beside, &old)));
        // The first failure is the one to tell; where this one fails too the next change tries again.
        let undo = || drop(parked::settle(&self.from, &before));
        // Held until the names are there: nobody reads or changes the new book without them.
        let new = locked.replace_around(&change.bytes, park, undo)?;
        if let Some(past) = names.past_the_end(count) {
            out.warn(format!("'{}' drops {past}, which the book did not have", text::file(beside)));
        }
        // The book is written, so that what fails now is no failure of the change.
        let removed = || fs::remove_file(&aside).map_err(|error| Failure::file(&aside, error));
        if let Err(failure) = ready.place().and_then(|()| removed()) {
            let (aside, told) = (text::file(&aside), failure.in_a_line());
            let failed = format!("its names are in '{aside}', and the next change puts them back: {told}");
            return Err(Failure::Written(self.from.clone(), failed));
        }
        new.settle()
    }

    /// A book that is started beside names that were there before it.
    fn warn_of_names(&self, out: &mut Out) {
        let beside = names::beside(&self.from);
        if let Some(named) = names_with_numbers(&beside).ok().flatten().and_then(|(names, _)| names.past_the_end(0)) {
            out.warn(format!("'{}' was there before the book, and names {named}", text::file(&beside)));
        }
    }
}

/// The names beside a book and their bytes, if there are any that depend on its presets' numbers.
fn names_with_numbers(beside: &Path) -> Result<Option<(Names, Vec<u8>)>, Failure> {
    if fs::metadata(beside).is_err_and(|error| error.kind() == ErrorKind::NotFound) {
        return Ok(None);
    }
    let bytes = names::bytes_beside(beside)?;
    let names = names::parsed_file(beside, &bytes)?;
    Ok(names.any_preset().then_some((names, bytes)))
}
