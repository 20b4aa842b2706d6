//! `list`: the presets of a book.
use crate::args::Args;
use crate::books::{self, Book};
use crate::failure::{self, Failure, STANDARD_OUTPUT};
use crate::json::{Value, list};
use crate::library::{self, Preset, Refusal};
use crate::names::Names;
use crate::out::Out;
use crate::table::{self, Subcommand, Verdict};
use crate::{asked, files, text, typed};
use std::io::Write;
use std::path::Path;

pub const SUBCOMMAND: Subcommand = Subcommand {
    name: "list",
    group: table::BOOKS,
    about: "the presets of a book, stored words beside their normal forms",
    usages: &["BOOK --edition EDITION"],
    text: "Each preset with its number, its name if it has one, rig, stored word, normal form and what it shows. A \
           record that is refused is reported with its number and meaning; the exit status is 0 if the book could be \
           listed, refused records included.\n\nWith --lines, a line for each preset as the verified listing program \
           prints it: number, kind, rank, length, normal form, what it shows, or '0 refused 8'.\n\nWith --words, a \
           line for each preset as append --from takes it: rig and stored word, 'D5 4 4 2 5'. A refused record is a \
           comment there and reported on standard error, and the exit status is then 1: not all is exported. It is 1 too \
           if the reader goes away before the last line.",
    operands: &[table::BOOK],
    options: &[table::EDITION, table::TIMEOUT, table::ONE_PRESET, table::LINES, table::LINES_OF_WORDS, table::NAMES],
    examples: &[
        "winnathey list presets.book --edition first",
        "winnathey list presets.book --edition first --words >presets.txt",
    ],
    json: &[&[
        ("book", "the file of the book"),
        ("edition", "first or second"),
        ("count", "how many presets it has"),
        ("presets", "of each: number, name if it has one, rig, word, normal_form, window, or refused"),
        ("lines", "with --words, in place of presets: the lines"),
    ]],
    paged: true,
    run,
};

fn run(mut args: Args, out: &mut Out) -> Result<Verdict, Failure> {
    let path = args.next("BOOK")?;
    args.done()?;
    let path = Path::new(&path);
    let number = args.count("--preset")?;
    if out.json && args.flag("--lines") {
        return Err(args.usage("either --lines or --json"));
    }
    if args.flag("--words") && args.flag("--lines") {
        return Err(args.usage("either --words or --lines"));
    }
    // The listing program knows no names, and neither does a line of words.
    let (book, names) = if args.flag("--lines") || args.flag("--words") {
        (Book::new(args.edition(path)?, files::read_locked(path)?, path), Names::default())
    } else {
        asked::book(&args, path, out)?
    };
    let presets: Vec<_> = match number {
        Some(number) => vec![(number, Ok(book.preset(number)?))],
        None => book.presets()?.into_iter().enumerate().collect(),
    };
    if args.flag("--lines") {
        return lines(&presets, number.is_some(), out);
    }
    book.warn_always(out);
    if args.flag("--words") {
        return words(&book, &presets, out);
    }
    if out.json {
        return in_json(&book, &presets, &names, out);
    }
    let count = text::counted(book.count()?, "preset");
    writeln!(out, "{}, {} edition: {count}", book.file, books::name(book.edition))?;
    for (number, preset) in &presets {
        match preset {
            Ok(preset) => told(*number, preset, &names, out)?,
            Err(refusal) => {
                let culprit = book.record(*number, *refusal).map_or(String::new(), |culprit| format!("; {culprit}"));
                writeln!(out, "{}: {refusal}{culprit}", headed(*number, &names))?;
            }
        }
    }
    Ok(Verdict::Answer)
}

type Read<'a> = (usize, Result<Preset<'a>, Refusal>);

/// A preset's number and name.
fn headed(number: usize, names: &Names) -> String {
    names.preset(number).map_or(number.to_string(), |name| format!("{number} {name}"))
}

fn told(number: usize, preset: &Preset, names: &Names, out: &mut Out) -> Result<(), Failure> {
    let Preset { rig, word } = *preset;
    let (form, window) = (library::normal_form(rig, word)?, library::window(rig, word)?);
    let head = out.style.bold(&headed(number, names));
    writeln!(out, "{head}: {rig}")?;
    let letters = |word: &[u8]| text::counted(word.len(), "letter");
    if form == word {
        writeln!(out, "  word         {} ({}, its own normal form)", text::word(word), letters(word))?;
    } else {
        writeln!(out, "  word         {} ({})", text::word(word), letters(word))?;
        writeln!(out, "  normal form  {} ({})", text::word(&form), letters(&form))?;
    }
    Ok(writeln!(out, "  shows        {}", text::spaced(&window))?)
}

/// The lines of the listing program.
fn lines(presets: &[Read], alone: bool, out: &mut Out) -> Result<Verdict, Failure> {
    if !alone {
        writeln!(out, "presets {}", presets.len())?;
    }
    for (number, preset) in presets {
        match preset {
            Err(refusal) => writeln!(out, "{number} refused {}", refusal.number())?,
            Ok(preset) => {
                let Preset { rig, word } = *preset;
                let form = library::normal_form(rig, word)?;
                write!(out, "{number} {} {} {}:", rig.kind, rig.rank, form.len())?;
                form.iter().try_for_each(|letter| write!(out, " {letter}"))?;
                writeln!(out, " | {}", text::spaced(&library::window(rig, word)?))?;
            }
        }
    }
    Ok(Verdict::Answer)
}

/// The lines that `append --from` takes. A refused record is a comment, and the end a failure that names it.
fn words(book: &Book, presets: &[Read], out: &mut Out) -> Result<Verdict, Failure> {
    let (mut lines, mut refused) = (Vec::new(), Vec::new());
    for (number, preset) in presets {
        match preset {
            Ok(Preset { rig, word }) => lines.push(format!("{rig} {}", text::word(word))),
            Err(refusal) => {
                let culprit = book.record(*number, *refusal);
                let told = culprit.as_ref().map_or(String::new(), |culprit| format!("; {culprit}"));
                lines.push(format!("# preset {number}: {refusal}{told}"));
                refused.push((*number, *refusal, culprit));
            }
        }
    }
    let written = if out.json && refused.is_empty() {
        out.answer("list", listed(book, ("lines", list(lines)))?)
    } else if !out.json {
        lines.iter().try_for_each(|line| writeln!(out, "{line}"))
    } else {
        Ok(())
    };
    // A part of the lines is another book, so that a program that goes away has not got what was asked for; somebody
    // at a pager has.
    let is_export = !out.paged;
    written.and_then(|()| out.flush()).map_err(|error| match is_export {
        true => Failure::Stream(STANDARD_OUTPUT, error),
        false => Failure::from(error),
    })?;
    if refused.is_empty() { Ok(Verdict::Answer) } else { Err(Failure::Presets(refused, None)) }
}

/// The fields of an answer.
fn listed(book: &Book, presets: (&'static str, Value)) -> Result<Vec<(&'static str, Value)>, Failure> {
    let (edition, count) = (books::name(book.edition), book.count()?);
    Ok(vec![("book", book.named.clone()), ("edition", edition.into()), ("count", count.into()), presets])
}

fn in_json(book: &Book, presets: &[Read], names: &Names, out: &mut Out) -> Result<Verdict, Failure> {
    let mut values = Vec::new();
    for (number, preset) in presets {
        let mut fields = vec![("number", (*number).into())];
        fields.extend(names.preset(*number).map(|name| ("name", name.into())));
        match preset {
            Err(refusal) => fields.extend(failure::refused(*refusal, &book.record(*number, *refusal))),
            Ok(preset) => {
                let Preset { rig, word } = *preset;
                fields.push(("rig", typed::rig(rig)));
                fields.push(("word", list(word)));
                fields.push(("normal_form", list(&library::normal_form(rig, word)?)));
                fields.push(("window", list(&library::window(rig, word)?)));
            }
        }
        values.push(Value::Object(fields));
    }
    out.answer("list", listed(book, ("presets", Value::List(values)))?)?;
    Ok(Verdict::Answer)
}
