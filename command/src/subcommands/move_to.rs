//! `move`: a book with one of its presets at another number.
use super::remove;
use crate::args::Args;
use crate::books::Book;
use crate::edit::{Change, Edit};
use crate::failure::Failure;
use crate::library;
use crate::out::Out;
use crate::parked::Renumbering;
use crate::table::{self, Completes, Operand, Subcommand, Verdict};

const TO: Operand =
    Operand { name: "TO", about: "the number that the preset has afterwards", completes: Completes::Nothing };

pub const SUBCOMMAND: Subcommand = Subcommand {
    name: "move",
    group: table::BOOKS,
    about: "a book with one of its presets at another number",
    usages: &["BOOK N TO --edition EDITION (--in-place | -o FILE)"],
    text: "Moves preset N to the number TO; those between move up or down by one, also in the names beside the book \
           with --in-place.\n\nAll presets stay as they are, also those that are refused or of kind A and rank 1.",
    operands: &[table::BOOK, table::NUMBER, TO],
    options: &[
        table::EDITION,
        table::TIMEOUT,
        table::IN_PLACE,
        table::OUTPUT_BOOK,
        table::FORCE,
        table::DRY_RUN,
        table::QUIET,
    ],
    examples: &["winnathey move presets.book 3 0 --edition first --in-place"],
    json: &[table::WRITTEN, &[("from", "the old number"), ("to", "the new number")]],
    paged: false,
    run,
};

fn run(mut args: Args, out: &mut Out) -> Result<Verdict, Failure> {
    let edit = Edit::named(&mut args)?;
    let (from, to) = (args.next_number("N")?, args.next_number("TO")?);
    args.done()?;
    let change = |book: &Book| {
        let told = format!("moved preset {from} to {to}: {}", remove::described(book, from)?);
        // Only that there is such a number counts.
        remove::described(book, to)?;
        let bytes = library::move_to(book.edition, &book.bytes, from, to)?;
        let fields = vec![("from", from.into()), ("to", to.into())];
        Ok(Change { bytes, edition: book.edition, numbers: Renumbering::Moved(from, to), told, fields })
    };
    edit.run("move", change, out)
}
