//! `name`: the names beside a book, and what else is kept with them, listed, set and removed.
use crate::args::Args;
use crate::dry_run::{Measured, NOTHING_WRITTEN};
use crate::failure::Failure;
use crate::files::{self, Locked, Ready};
use crate::json::{self, Value, object, optional};
use crate::names::{self, Keyword, Names};
use crate::out::Out;
use crate::table::{self, Completes, Operand, Subcommand, Verdict};
use crate::{asked, library, parked, text};
use std::io::{ErrorKind, Write};
use std::path::Path;

const BOOK: Operand = Operand { about: "the book's file", ..table::BOOK };
const WHAT: Operand = Operand {
    name: "WHAT",
    about: "what is named: source, screen or preset; or place (where a screen stands), photograph or delay; everything is \
            listed if it is missing",
    completes: Completes::OneOf(&["source", "screen", "preset", "place", "photograph", "delay"]),
};
const NUMBER: Operand = Operand {
    name: "N",
    about: "its number: a lane from 1 to 64, or a preset of the book from 0; photograph and delay have none",
    completes: Completes::Nothing,
};
const NAME: Operand = Operand {
    name: "NAME",
    about: "its name, one argument of 1 to 80 characters; what has one gets the new one. For a place LEFT TOP WIDTH \
            HEIGHT in thousandths of the cabin, for a photograph the name of a file beside the book, for a delay the \
            milliseconds of one step",
    completes: Completes::Nothing,
};

pub const SUBCOMMAND: Subcommand = Subcommand {
    name: "name",
    group: table::BOOKS,
    about: "the names beside a book: listed, set and removed",
    usages: &[
        "BOOK --edition EDITION",
        "BOOK WHAT [N] NAME --edition EDITION",
        "BOOK WHAT [N] --remove --edition EDITION",
    ],
    text: "Lists the names in BOOK.names and what else is kept there, or changes one of these lines. Comments and the \
           order of the lines stay. The names are changed under the book's lock, written beside their file and \
           renamed, like a book; the book itself stays as it is.",
    operands: &[BOOK, WHAT, NUMBER, NAME],
    options: &[table::EDITION, table::TIMEOUT, table::REMOVE, table::DRY_RUN, table::QUIET],
    examples: &[
        "winnathey name presets.book screen 3 'left mirror' --edition first",
        "winnathey name presets.book delay 2.5 --edition first",
        "winnathey name presets.book --edition first",
    ],
    json: &[&[
        ("file", "the file of the names"),
        ("names", "of each line: what (source, screen, preset, place, photograph or delay), number or null, name"),
        ("what", "of a change: source, screen, preset, place, photograph or delay"),
        ("number", "its number, or null"),
        ("name", "its name now, or null"),
        ("before", "its name before, or null"),
        ("bytes", "with --dry-run: how many bytes the new file has"),
        ("dry_run", "true with --dry-run: nothing is written"),
        ("sha256", "with --dry-run: the hash of the new file"),
        ("old", "with --dry-run: bytes and sha256 of the file before"),
    ]],
    paged: false,
    run,
};

fn run(mut args: Args, out: &mut Out) -> Result<Verdict, Failure> {
    let path = args.next("BOOK")?;
    let path = Path::new(&path);
    if files::is_standard(path) {
        return Err(args.usage("standard input has no names beside it"));
    }
    let removes = args.flag("--remove");
    if args.operands() == 0 && !removes {
        if let Some(option) = ["--dry-run", "--quiet"].into_iter().find(|option| args.flag(option)) {
            return Err(args.usage(format!("{option} is for a change: WHAT N NAME")));
        }
        return listed(&args, path, out);
    }
    let what = args.next("WHAT (source, screen, preset, place, photograph or delay)")?.to_string_lossy().into_owned();
    let Some(keyword) = Keyword::of(&what) else {
        let known = "source, screen, preset, place, photograph or delay";
        return Err(args.usage(format!("'{}' has no names: {known}", text::plain(&what))));
    };
    let number = if keyword.is_numbered() { args.next_number("N")? } else { 0 };
    let name = if removes { None } else { Some(value(&mut args, keyword)?) };
    args.done_with("; a name is one argument, as 'left mirror'")?;
    if let Some(name) = &name {
        Names::check(keyword, number, name).map_err(|problem| args.usage(problem))?;
    }
    changed(&args, path, (keyword, number), name.as_deref(), out)
}

/// A name is one argument; a place may be four.
fn value(args: &mut Args, keyword: Keyword) -> Result<String, Failure> {
    let mut value = args.next("NAME (or --remove)")?.to_string_lossy().into_owned();
    while keyword == Keyword::Place && args.operands() > 0 {
        value = format!("{value} {}", args.next("NAME")?.to_string_lossy());
    }
    Ok(value)
}

/// For JSON.
fn number_of(keyword: Keyword, number: usize) -> Value {
    if keyword.is_numbered() { number.into() } else { Value::Null }
}

fn listed(args: &Args, path: &Path, out: &mut Out) -> Result<Verdict, Failure> {
    let (_, names) = asked::book(args, path, out)?;
    let file = names::beside(path);
    if out.json {
        let one = |(keyword, number, name): (Keyword, usize, &str)| {
            object([("what", keyword.word().into()), ("number", number_of(keyword, number)), ("name", name.into())])
        };
        let fields = vec![("file", json::file(&file)), ("names", Value::List(names.all().map(one).collect()))];
        out.answer("name", fields)?;
        return Ok(Verdict::Answer);
    }
    let count = names.all().filter(|(keyword, ..)| keyword.is_name()).count();
    writeln!(out, "{}: {}", text::file(&file), text::counted(count, "name"))?;
    for (keyword, number, name) in names.all() {
        writeln!(out, "{} {name}", keyword.with(number))?;
    }
    Ok(Verdict::Answer)
}

/// Under the book's lock, so that nobody changes the presets' numbers meanwhile.
fn changed(
    args: &Args,
    path: &Path,
    (keyword, number): (Keyword, usize),
    name: Option<&str>,
    out: &mut Out,
) -> Result<Verdict, Failure> {
    let edition = args.edition(path)?;
    let dry_run = args.flag("--dry-run");
    let locked = if dry_run { Locked::look(path)? } else { Locked::open(path)? };
    let waiting = if dry_run { parked::waiting(path, &locked.bytes) } else { None };
    if waiting.is_some() {
        let aside = text::file(&names::aside(path));
        out.warn(format!("a change was cut off: the next one puts the names in '{aside}' back first"));
    }
    if !dry_run && let Some(told) = parked::settle(path, &locked.bytes)? {
        out.warn(told);
    }
    let count = library::book_check(edition, &locked.bytes)?;
    let what = keyword.with(number);
    if keyword == Keyword::Preset && number >= count && name.is_some() {
        let count = text::counted(count, "preset");
        return Err(Failure::Unwilling(format!("the book has {count}, counted from 0: there is no {what}")));
    }
    let file = names::beside(path);
    let old = match names::bytes_beside(&file) {
        Err(Failure::File(_, error)) if error.kind() == ErrorKind::NotFound => waiting.clone(),
        read => Some(read?),
    };
    let names = names::parsed_file(&file, old.as_deref().unwrap_or_default())?;
    let before = names.find(keyword, number).map(str::to_string);
    if name.is_none() && before.is_none() {
        let lacks = if keyword.is_name() { "name" } else { "line" };
        return Err(Failure::Unwilling(format!("'{}' has no {lacks} for {what}", text::file(&file))));
    }
    let bytes = names.with(keyword, number, name).written();
    match &old {
        Some(_) if dry_run && waiting.is_none() => Ready::could_be_beside(&file)?,
        _ if dry_run => files::may_place_new(&file)?,
        None => files::place_new(&file, &bytes)?,
        Some(old) => {
            Ready::beside(&file, &bytes)?.replace(old)?;
            locked.settle_beside(&file)?;
        }
    }
    drop(locked);
    let told = match (name, &before) {
        (Some(name), None) => format!("{what} is '{name}'"),
        (Some(name), Some(before)) => format!("{what} was '{before}' and is '{name}'"),
        (None, before) => {
            let now = if keyword.is_name() { "has no name" } else { "is removed" };
            format!("{what} was '{}' and {now}", before.as_deref().unwrap_or_default())
        }
    };
    let measured = Measured::file(&bytes);
    let old = Measured::file(old.as_deref().unwrap_or_default());
    let said = if out.json {
        let mut fields = vec![
            ("file", json::file(&file)),
            ("what", keyword.word().into()),
            ("number", number_of(keyword, number)),
            ("name", optional(name)),
            ("before", optional(before.as_ref())),
        ];
        if dry_run {
            fields.push(("bytes", bytes.len().into()));
            fields.extend(measured.fields(&old));
        }
        out.answer("name", fields)
    } else if out.quiet {
        Ok(())
    } else if dry_run {
        writeln!(out, "{NOTHING_WRITTEN}\n{told}\n{}: {}\n  before: {}", text::file(&file), measured.told(), old.told())
    } else {
        writeln!(out, "{told}\n{}: written", text::file(&file))
    };
    let unsaid = |failure: Failure| if dry_run { failure } else { failure.unsaid(&file) };
    said.and_then(|()| out.flush()).map_err(|error| unsaid(Failure::from(error)))?;
    Ok(Verdict::Answer)
}
