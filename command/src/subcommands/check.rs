//! `check`: whether a book and all its records are right.
use crate::args::Args;
use crate::books::{self, Book};
use crate::failure::Failure;
use crate::out::Out;
use crate::table::{self, Subcommand, Verdict};
use crate::{files, text};
use std::io::Write;
use std::path::Path;

pub const SUBCOMMAND: Subcommand = Subcommand {
    name: "check",
    group: table::BOOKS,
    about: "whether a book and all its records are right",
    usages: &["BOOK --edition EDITION"],
    text: "Checks a book and each of its records. A refused book, or each refused record, is reported on standard error \
           with the number and its meaning, and the exit status is then 1. If the bytes are a right book of the \
           other edition too, or of that alone, the command says so.",
    operands: &[table::BOOK],
    options: &[table::EDITION, table::QUIET],
    examples: &["winnathey check presets.book --edition first"],
    json: &[&[
        ("book", "the file of the book"),
        ("edition", "first or second"),
        ("presets", "how many presets it has"),
        ("bytes", "how many bytes"),
        ("right", "true: a book that is not right is a failure"),
    ]],
    paged: false,
    run,
};

fn run(mut args: Args, out: &mut Out) -> Result<Verdict, Failure> {
    let path = args.next("BOOK")?;
    args.done()?;
    let path = Path::new(&path);
    let book = Book::new(args.edition(path)?, files::read_book(path)?, path);
    let presets = book.presets()?;
    let refused = presets.iter().enumerate().filter_map(|(number, preset)| {
        let refusal = preset.as_ref().err()?;
        Some((number, *refusal, book.record(number, *refusal)))
    });
    let refused: Vec<_> = refused.collect();
    book.warn(out);
    let (count, wrong) = (presets.len(), refused.len());
    if out.json && refused.is_empty() {
        let fields = vec![
            ("book", book.named.clone()),
            ("edition", books::name(book.edition).into()),
            ("presets", count.into()),
            ("bytes", book.bytes.len().into()),
            ("right", true.into()),
        ];
        out.answer("check", fields)?;
        return Ok(Verdict::Answer);
    }
    if !out.json && !out.quiet {
        let (count, bytes) = (text::counted(count, "preset"), text::counted(book.bytes.len(), "byte"));
        let verdict = match wrong {
            0 => "the book is right".to_string(),
            wrong => format!("{} refused", text::counted(wrong, "record")),
        };
        writeln!(out, "{}, {} edition, {count}, {bytes}: {verdict}", book.file, books::name(book.edition))?;
        out.flush()?;
    }
    if refused.is_empty() { Ok(Verdict::Answer) } else { Err(Failure::Presets(refused, book.hint())) }
}
