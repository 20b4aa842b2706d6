//! The presets that are asked about: typed, as a window, or out of a book.
use crate::args::{Args, Numbers};
use crate::books::Book;
use crate::culprit::Given;
use crate::failure::Failure;
use crate::library::Preset;
use crate::names::{self, Names};
use crate::out::Out;
use crate::typed::{Asked, Origin, TypedRig, Word};
use crate::{files, library};
use std::path::Path;

/// The names of the option `--names`.
fn named(args: &Args) -> Result<Names, Failure> {
    args.path("--names").map_or(Ok(Names::default()), |path| names::read(&path))
}

/// One preset: RIG and WORD, or a preset of a book; no operand is left.
pub fn preset(args: &mut Args, out: &mut Out) -> Result<Asked, Failure> {
    if args.flag("--book") {
        args.done()?;
        let numbers = args.preset_numbers()?;
        let [number] = numbers[..] else {
            return Err(args.usage("name the preset of the book: --preset N"));
        };
        return from_book(args, number, out);
    }
    no_preset_alone(args)?;
    let rig = args.rig()?;
    let numbers = args.word("WORD")?;
    of_numbers(rig, numbers, named(args)?)
}

fn no_preset_alone(args: &Args) -> Result<(), Failure> {
    if args.preset_numbers()?.is_empty() { Ok(()) } else { Err(args.usage("--preset needs --book FILE")) }
}

/// A book and its names: those of `--names`, or those beside it. Nobody changes either between the two.
pub fn book(args: &Args, path: &Path, out: &mut Out) -> Result<(Book, Names), Failure> {
    let edition = args.edition(path)?;
    if files::is_standard(path) || args.flag("--names") {
        return Ok((Book::new(edition, files::read_locked(path)?, path), named(args)?));
    }
    files::read_together(path, || {
        let book = Book::new(edition, files::read_book(path)?, path);
        let names = names::of_book(path, &book, out);
        Ok((book, names))
    })
}

/// A preset of the book of `--book`, by its number.
fn from_book(args: &Args, number: usize, out: &mut Out) -> Result<Asked, Failure> {
    let path = args.path("--book").unwrap_or_default();
    let (book, names) = book(args, &path, out)?;
    book.warn(out);
    let Preset { rig, word } = book.preset(number)?;
    let origin = Origin::Book { file: book.file.clone(), named: book.named.clone(), number };
    let word = Word::known(word, &format!("preset {number}"));
    Ok(Asked { rig: TypedRig::known(rig), word, origin, names })
}

/// A word as it is, or a window by its normal form.
pub fn of_numbers(rig: TypedRig, numbers: Numbers, names: Names) -> Result<Asked, Failure> {
    match numbers {
        Numbers::Word(word) => Ok(Asked { rig, word, origin: Origin::Typed, names }),
        Numbers::Window(window) => {
            let given = Given { rig: Some(&rig), windows: &[&window], ..Given::default() };
            let form =
                library::normal_form_of_window(rig.rig, &window.entries).map_err(|refusal| given.refused(refusal))?;
            let word = Word::known(&form, &window.name);
            Ok(Asked { rig, word, origin: Origin::Window(window.entries), names })
        }
    }
}

/// Whether the second preset may have a rig of its own.
#[derive(Clone, Copy, PartialEq, Eq)]
pub enum SecondRig {
    Own,
    TheFirsts,
}

/// Two presets, each typed or out of the book of `--book`: the first by the first `--preset`, the second by the second.
pub fn pair(args: &mut Args, names: [&str; 2], second: SecondRig, out: &mut Out) -> Result<(Asked, Asked), Failure> {
    let numbers = args.preset_numbers()?;
    let given = named(args)?;
    let one = match numbers.first() {
        Some(&number) if args.flag("--book") => from_book(args, number, out)?,
        Some(_) => return Err(args.usage("--preset needs --book FILE")),
        None if args.flag("--book") => return Err(args.usage("name the preset of the book: --preset N")),
        None => {
            let rig = args.rig()?;
            let numbers = args.next_word(names[0])?;
            of_numbers(rig, numbers, given.clone())?
        }
    };
    let other = match numbers.get(1) {
        Some(&number) => from_book(args, number, out)?,
        None => {
            let own = second == SecondRig::Own && (args.rig_is_next() || args.operands() > 1);
            let rig = if own { args.rig()? } else { one.rig.clone() };
            let numbers = args.next_word(names[1])?;
            of_numbers(rig, numbers, given)?
        }
    };
    args.done_with("; each word is one argument, as '1 2' or 1,2")?;
    if second == SecondRig::TheFirsts && one.rig() != other.rig() {
        return Err(args.usage(format!("both presets need one rig, not {} and {}", one.rig(), other.rig())));
    }
    Ok((one, other))
}

impl Asked {
    /// A refusal of a call on this preset, with its culprit.
    pub fn refused(&self, refusal: library::Refusal) -> Failure {
        Given { rig: Some(&self.rig), words: &[&self.word], ..Given::default() }.refused(refusal)
    }

    /// The word's window.
    pub fn window(&self) -> Result<Vec<i8>, Failure> {
        library::window(self.rig(), self.letters()).map_err(|refusal| self.refused(refusal))
    }

    /// Its normal form.
    pub fn form(&self) -> Result<Vec<u8>, Failure> {
        library::normal_form(self.rig(), self.letters()).map_err(|refusal| self.refused(refusal))
    }
}
