//! `remove`: a book without one of its presets.
use crate::args::Args;
use crate::books::Book;
use crate::edit::{Change, Edit};
use crate::failure::Failure;
use crate::library::{self, Preset};
use crate::out::Out;
use crate::parked::Renumbering;
use crate::table::{self, Subcommand, Verdict};
use crate::text;

pub const SUBCOMMAND: Subcommand = Subcommand {
    name: "remove",
    group: table::BOOKS,
    about: "a book without one of its presets",
    usages: &["BOOK N --edition EDITION (--in-place | -o FILE)"],
    text: "Takes preset N out; the presets behind it get numbers lower by one, also in the names beside the book with \
           --in-place.\n\nAll other presets stay as they are, also those that are refused or of kind A and rank 1. A \
           refused preset can be taken out too.",
    operands: &[table::BOOK, table::NUMBER],
    options: &[
        table::EDITION,
        table::TIMEOUT,
        table::IN_PLACE,
        table::OUTPUT_BOOK,
        table::FORCE,
        table::DRY_RUN,
        table::QUIET,
    ],
    examples: &["winnathey remove presets.book 2 --edition first --in-place"],
    json: &[table::WRITTEN, &[("removed", "the number of the preset that was taken out")]],
    paged: false,
    run,
};

fn run(mut args: Args, out: &mut Out) -> Result<Verdict, Failure> {
    let edit = Edit::named(&mut args)?;
    let number = args.next_number("N")?;
    args.done()?;
    let change = |book: &Book| {
        let told = format!("took out preset {number}: {}", described(book, number)?);
        let bytes = library::remove(book.edition, &book.bytes, number)?;
        let fields = vec![("removed", number.into())];
        Ok(Change { bytes, edition: book.edition, numbers: Renumbering::Removed(number), told, fields })
    };
    edit.run("remove", change, out)
}

/// What a preset of a book is, or why it is refused; that there is one is checked.
pub fn described(book: &Book, number: usize) -> Result<String, Failure> {
    match library::preset(book.edition, &book.bytes, number) {
        Ok(Preset { rig, word }) => Ok(format!("{rig}, {}: {}", text::counted(word.len(), "letter"), text::word(word))),
        Err(refusal) if refusal.number() > 4 => Ok(refusal.to_string()),
        Err(refusal) => Err(book.refused_preset(number, refusal)),
    }
}
