//! `convert`: a book in the other edition.
use crate::args::Args;
use crate::books::{self, Book};
use crate::edit::{Change, Edit};
use crate::failure::Failure;
use crate::library::{self, MAX_BOOK, Refusal};
use crate::out::Out;
use crate::parked::Renumbering;
use crate::table::{self, Subcommand, Verdict};
use crate::text;

pub const SUBCOMMAND: Subcommand = Subcommand {
    name: "convert",
    group: table::BOOKS,
    about: "a book in the other edition",
    usages: &["BOOK --edition EDITION (--in-place | -o FILE)"],
    text: "Writes the book in the other edition, the order of the presets and their letters kept. A book with a \
           refused record is refused whole; so is one that goes back to the first edition with more than 32 lanes in \
           a record (18).\n\nA file is written beside its name, brought to the disk and gets the name when it is \
           whole; only then is it said. A refused call leaves every file as it was.",
    operands: &[table::BOOK],
    options: &[
        table::EDITION.about("first or second, the edition that BOOK has now: its bytes do not tell"),
        table::TIMEOUT,
        table::IN_PLACE,
        table::OUTPUT_BOOK,
        table::FORCE,
        table::AT_MOST_BYTES,
        table::DRY_RUN,
        table::QUIET,
    ],
    examples: &["winnathey convert presets.book --edition first -o second.book"],
    json: &[table::WRITTEN],
    paged: false,
    run,
};

fn run(mut args: Args, out: &mut Out) -> Result<Verdict, Failure> {
    let edit = Edit::named(&mut args)?;
    args.done()?;
    let change = |book: &Book| {
        let bytes = library::convert(book.edition, &book.bytes, edit.room).map_err(|refusal| refused(book, refusal))?;
        let other = books::other(book.edition);
        let told = format!("converted from the {} edition to the {}", books::name(book.edition), books::name(other));
        Ok(Change { bytes, edition: other, numbers: Renumbering::Kept, told, fields: Vec::new() })
    };
    edit.run("convert", change, out)
}

/// Which records are refused, or how long the new book would be.
fn refused(book: &Book, refusal: Refusal) -> Failure {
    let Ok(presets) = book.presets() else { return book.refused(refusal) };
    if refusal.number() == 14 {
        let whole = library::convert(book.edition, &book.bytes, MAX_BOOK);
        let bytes = whole.map(|whole| format!("the new book has {}", text::counted(whole.len(), "byte")));
        return Failure::Refused(refusal, bytes.ok());
    }
    let wrong = presets.iter().enumerate().filter_map(|(number, preset)| match preset {
        Err(own) => Some((number, *own, book.record(number, *own))),
        Ok(preset) if refusal.number() == 18 && library::lanes(preset.rig).is_ok_and(|lanes| lanes > 32) => {
            Some((number, refusal, Some(format!("it is of {}", preset.rig))))
        }
        Ok(_) => None,
    });
    let wrong: Vec<_> = wrong.collect();
    if wrong.is_empty() { book.refused(refusal) } else { Failure::Presets(wrong, book.hint()) }
}
