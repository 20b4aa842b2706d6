//! `certify`: evidence for each preset of a book that can be checked without this program.
use crate::args::Args;
use crate::books::{self, Book};
use crate::failure::{Failure, STANDARD_OUTPUT};
use crate::files::{self, Sort};
use crate::json::{self, object};
use crate::library::{self, ARCHIVE_SHA256, Preset, Refusal, VERSION};
use crate::out::Out;
use crate::progress::Progress;
use crate::table::{self, Subcommand, Verdict};
use crate::{sha256, text};
use std::io::{self, Write};
use std::path::Path;

pub const SUBCOMMAND: Subcommand = Subcommand {
    name: "certify",
    group: table::BOOKS,
    about: "evidence for each preset that can be checked without this program",
    usages: &["BOOK --edition EDITION", "BOOK --edition EDITION -o FILE"],
    text: "Writes a certificate of the book as JSON Lines: a line with the hash of the book and the version and hash \
           of the library; a line for each preset with its kind, rank, stored word, window and normal form, or the \
           number of its refusal; and a closing line with their count. With --lines, each preset has the lines of its \
           rewriting too, as three lists: the rule's family, the place and the length left. A book that is refused \
           whole gets no certificate.\n\nThe program share/winnathey/verify_certificate.py, plain Python without any \
           part of the library, checks a certificate against the book: python3 verify_certificate.py BOOK CERTIFICATE \
           --edition EDITION. It says yes, or names the first line that is wrong. docs/EVIDENCE.md is about both.",
    operands: &[table::BOOK],
    options: &[
        table::EDITION,
        table::TIMEOUT_OF_FILE,
        table::LINES.about("of each preset the lines of its rewriting too; 4,096 letters may have millions of them"),
        table::OUTPUT_CERTIFICATE,
        table::FORCE,
    ],
    examples: &["winnathey certify my.book --edition first --lines -o my.jsonl"],
    json: &[&[
        ("book", "the file of the book"),
        ("edition", "first or second"),
        ("presets", "how many presets it has"),
        ("refused_presets", "the numbers of those that are refused: check says why"),
        ("rewrites", "with --lines, how many lines the rewritings have together"),
        ("book_sha256", "its hash"),
        ("file", "the certificate that was written"),
    ]],
    paged: false,
    run,
};

fn run(mut args: Args, out: &mut Out) -> Result<Verdict, Failure> {
    let path = args.next("BOOK")?;
    args.done()?;
    let path = Path::new(&path);
    let target = args.path("-o").filter(|target| !files::is_standard(target));
    if out.json && target.is_none() {
        return Err(args.usage("--json needs -o FILE, since the certificate itself goes to standard output"));
    }
    let (lines, force) = (args.flag("--lines"), args.flag("--force"));
    if let Some(target) = &target {
        // A book of no bytes is a file of any sort, and would be replaced.
        if files::is_one_file(path, target) {
            return Err(args.usage(format!("{} is BOOK itself", text::file(target))));
        }
        files::may_write(target, Sort::Certificate, force)?;
    }
    let book = Book::new(args.edition(path)?, files::read_locked(path)?, path);
    let presets = book.presets()?;
    book.warn_always(out);
    let Some(target) = target else {
        write(&book, &presets, lines, None, out)?;
        // One without its end is no certificate, so that a reader who goes away has not got what was asked for.
        out.flush().map_err(undelivered)?;
        return Ok(Verdict::Answer);
    };
    let mut bytes = Vec::new();
    let counts = write(&book, &presets, lines, Some(Progress::of_presets()), &mut bytes)?;
    files::write(&target, &bytes, Sort::Certificate, force, out)?;
    told(&book, &presets, counts, &target, out).map_err(|failure| failure.unsaid(&target))?;
    Ok(Verdict::Answer)
}

type Read<'a> = Result<Preset<'a>, Refusal>;

/// What the lines came to: the refused presets and, if they were asked for, the lines of all rewritings.
struct Counts {
    refused: Vec<usize>,
    rewrites: Option<usize>,
}

fn undelivered(error: io::Error) -> Failure {
    Failure::Stream(STANDARD_OUTPUT, error)
}

/// Writes the lines one by one: the rewritings of a book may have tens of millions.
fn write(
    book: &Book,
    presets: &[Read],
    lines: bool,
    progress: Option<Progress>,
    to: &mut dyn Write,
) -> Result<Counts, Failure> {
    let head = object([
        ("certificate", 1u8.into()),
        ("version", VERSION.into()),
        ("library_sha256", ARCHIVE_SHA256.into()),
        ("book_sha256", sha256::hex(&book.bytes).into()),
        ("bytes", book.bytes.len().into()),
        ("edition", books::name(book.edition).into()),
        ("presets", presets.len().into()),
        ("lines", lines.into()),
    ]);
    writeln!(to, "{head}").map_err(undelivered)?;
    let mut counts = Counts { refused: Vec::new(), rewrites: lines.then_some(0) };
    for (number, preset) in presets.iter().enumerate() {
        match preset {
            Err(refusal) => {
                counts.refused.push(number);
                let line = object([("preset", number.into()), ("refused", refusal.number().into())]);
                writeln!(to, "{line}").map_err(undelivered)?;
            }
            Ok(preset) => {
                let rewrites = certified(number, *preset, lines, to)?;
                counts.rewrites = counts.rewrites.map(|all| all + rewrites);
            }
        }
        if let Some(progress) = &progress {
            progress.done(number + 1);
        }
    }
    let (all, refused) = (presets.len(), counts.refused.len());
    let end = object([("end", true.into()), ("presets", all.into()), ("refused", refused.into())]);
    writeln!(to, "{end}").map_err(undelivered)?;
    Ok(counts)
}

/// The line of a preset; gives the number of its rewrites, if these are wanted.
fn certified(number: usize, preset: Preset, lines: bool, to: &mut dyn Write) -> Result<usize, Failure> {
    let Preset { rig, word } = preset;
    let front = object([
        ("preset", number.into()),
        ("kind", rig.kind.to_string().into()),
        ("rank", rig.rank.into()),
        ("word", json::list(word)),
        ("window", json::list(&library::window(rig, word)?)),
        ("normal_form", json::list(&library::normal_form(rig, word)?)),
    ]);
    let mut front = front.to_string();
    front.pop();
    write!(to, "{front}").map_err(undelivered)?;
    let mut rewrites = 0;
    if lines {
        rewrites = library::rewrite_steps(rig, word)?;
        let rewriting = library::rewrite_to_end(rig, word, rewrites)?;
        numbers("families", &rewriting.families, to).map_err(undelivered)?;
        numbers("places", &rewriting.places, to).map_err(undelivered)?;
        numbers("lengths", &rewriting.lengths, to).map_err(undelivered)?;
    }
    writeln!(to, "}}").map_err(undelivered)?;
    Ok(rewrites)
}

/// A field with a list that may be too long to be made a value first.
fn numbers<T: std::fmt::Display>(name: &str, list: &[T], to: &mut dyn Write) -> io::Result<()> {
    write!(to, ",\"{name}\":[")?;
    for (place, number) in list.iter().enumerate() {
        write!(to, "{}{number}", if place > 0 { "," } else { "" })?;
    }
    write!(to, "]")
}

fn told(book: &Book, presets: &[Read], counts: Counts, target: &Path, out: &mut Out) -> Result<(), Failure> {
    let (edition, hash) = (books::name(book.edition), sha256::hex(&book.bytes));
    if out.json {
        let mut fields = vec![
            ("book", book.named.clone()),
            ("edition", edition.into()),
            ("presets", presets.len().into()),
            ("refused_presets", json::list(counts.refused)),
            ("book_sha256", hash.into()),
            ("file", json::file(target)),
        ];
        fields.extend(counts.rewrites.map(|rewrites| ("rewrites", rewrites.into())));
        out.answer("certify", fields)?;
    } else {
        let mut count = text::counted(presets.len(), "preset");
        if !counts.refused.is_empty() {
            count += &format!(", {} of them refused", text::grouped(counts.refused.len() as u64));
        }
        writeln!(out, "{}, {edition} edition: {count}, SHA-256 {hash}", book.file)?;
        let rewrites =
            counts.rewrites.map(|rewrites| format!(" with {} of rewriting", text::counted(rewrites, "line")));
        writeln!(out, "{}: written{}", text::file(target), rewrites.unwrap_or_default())?;
    }
    Ok(out.flush()?)
}
