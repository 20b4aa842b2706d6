//! `report`: a book as a sheet to print.
use crate::args::Args;
use crate::books::{self, Book};
use crate::failure::Failure;
use crate::files::{self, Sort};
use crate::names::{self, Names};
use crate::out::Out;
use crate::sheet::{self, Photograph};
use crate::table::{self, Subcommand, Verdict};
use crate::{asked, json, sha256, text};
use std::io::Write;
use std::path::{Path, PathBuf};

pub const SUBCOMMAND: Subcommand = Subcommand {
    name: "report",
    group: table::BOOKS,
    about: "a book as a sheet to print, for the training record",
    usages: &["BOOK --edition EDITION -o FILE"],
    text: "Writes a document to be printed and filed, as HTML or PDF: on the first page the hashes of the book, its names \
           and the library, the date that is given, places to sign, how to check it, and the contents; then each preset \
           with its picture, stored word, shortest version, what each screen shows with its names, the three counts of \
           its length and its delay, and the cabin if the names have it; then the delay table of each rig, in which the \
           presets are marked. Every page has the book's name and hash, the preset's number, the date and its own \
           number.\n\nA record that is refused, or names that cannot be used, are a warning on the first page.",
    operands: &[table::BOOK],
    options: &[
        table::EDITION,
        table::TIMEOUT_OF_FILE,
        table::OUTPUT_REPORT,
        table::FORCE,
        table::DATE,
        table::STRICT,
        table::NAMES,
    ],
    examples: &["winnathey report my.book --edition first -o my.html --date 2026-11-16"],
    json: &[&[
        ("book", "the file of the book"),
        ("edition", "first or second"),
        ("presets", "how many presets it has"),
        ("book_sha256", "its hash"),
        ("names_sha256", "the hash of its names, or null"),
        ("file", "the sheet that was written"),
    ]],
    paged: false,
    run,
};

fn run(mut args: Args, out: &mut Out) -> Result<Verdict, Failure> {
    let path = args.next("BOOK")?;
    args.done()?;
    let path = Path::new(&path);
    let Some(target) = args.path("-o") else { return Err(args.usage("name the sheet's file: -o FILE")) };
    if out.json && files::is_standard(&target) {
        return Err(args.usage("-o - and --json both want standard output"));
    }
    let force = args.flag("--force");
    let is_pdf = target.extension().is_some_and(|ending| ending.eq_ignore_ascii_case("pdf"));
    let sort = if is_pdf { Sort::Pdf } else { Sort::Html };
    // A book of no bytes is a file of any sort, and would be replaced.
    if files::is_one_file(path, &target) {
        return Err(args.usage(format!("{} is BOOK itself", text::file(&target))));
    }
    files::may_write(&target, sort, force)?;
    let (book, names) = asked::book(&args, path, out)?;
    book.warn_always(out);
    warn_of_records(&book, out)?;
    let page = sheet::of(&sheet::Given {
        book: &book,
        names: &names,
        names_file: text::file(&args.path("--names").unwrap_or_else(|| names::beside(path))),
        photograph: photograph(path, &names),
        date: args.text("--date"),
        warnings: &out.said,
    })?;
    let bytes = if is_pdf { sheet::pdf(&page)? } else { page.into_bytes() };
    files::write(&target, &bytes, sort, force, out)?;
    if !files::is_standard(&target) {
        told(&book, &names, &target, out).map_err(|failure| failure.unsaid(&target))?;
    }
    Ok(if args.flag("--strict") && !out.said.is_empty() { Verdict::Warned } else { Verdict::Answer })
}

/// Records that are refused.
fn warn_of_records(book: &Book, out: &mut Out) -> Result<(), Failure> {
    for (number, preset) in book.presets()?.iter().enumerate() {
        if let Err(refusal) = preset {
            let culprit = book.record(number, *refusal).map_or(String::new(), |culprit| format!("; {culprit}"));
            out.warn(format!("preset {number}: {refusal}{culprit}"));
        }
    }
    Ok(())
}

/// In the folder of the book, or of the book that a link leads to.
fn photograph(path: &Path, names: &Names) -> Option<Result<Photograph, String>> {
    let file = names.photograph()?;
    if files::is_standard(path) {
        return Some(Err(format!("a book from standard input has no '{file}' beside it")));
    }
    let beside: PathBuf = names::beside(path).with_file_name(file);
    Some(Photograph::read(&beside))
}

fn told(book: &Book, names: &Names, target: &Path, out: &mut Out) -> Result<(), Failure> {
    let (file, hash, presets) = (text::file(target), sha256::hex(&book.bytes), book.count()?);
    if out.json {
        let fields = vec![
            ("book", book.named.clone()),
            ("edition", books::name(book.edition).into()),
            ("presets", presets.into()),
            ("book_sha256", hash.into()),
            ("names_sha256", json::optional(names.sha256.as_ref())),
            ("file", json::file(target)),
        ];
        out.answer("report", fields)?;
    } else {
        let count = text::counted(presets, "preset");
        writeln!(out, "{}, {} edition: {count}, SHA-256 {hash}", book.file, books::name(book.edition))?;
        writeln!(out, "{file}: written")?;
    }
    Ok(out.flush()?)
}
