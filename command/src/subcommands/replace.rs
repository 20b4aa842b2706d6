//! `replace`: a book with another preset in one's place.
use super::remove;
use crate::args::Args;
use crate::asked;
use crate::books::Book;
use crate::edit::{Change, Edit};
use crate::failure::Failure;
use crate::library;
use crate::out::Out;
use crate::parked::Renumbering;
use crate::table::{self, Subcommand, Verdict};

pub const SUBCOMMAND: Subcommand = Subcommand {
    name: "replace",
    group: table::BOOKS,
    about: "a book with another preset in one's place",
    usages: &[
        "BOOK N RIG WORD --edition EDITION (--in-place | -o FILE)",
        "BOOK N --book FILE --preset N --edition EDITION (--in-place | -o FILE)",
    ],
    text: "Puts a preset in the place of preset N; all others keep their numbers, and N keeps its name.\n\nAll \
           other presets stay as they are, also those that are refused or of kind A and rank 1. A refused preset can \
           be replaced too.",
    operands: &[table::BOOK, table::NUMBER, table::RIG, table::WORD],
    options: &[
        table::EMPTY,
        table::EDITION,
        table::TIMEOUT,
        table::IN_PLACE,
        table::OUTPUT_BOOK,
        table::FORCE,
        table::FROM_BOOK.about("takes the preset out of this book, of the same edition, in place of RIG and WORD"),
        table::PRESET,
        table::DRY_RUN,
        table::QUIET,
    ],
    examples: &["winnathey replace presets.book 0 B2 2 1 2 1 --edition first --in-place"],
    json: &[table::WRITTEN, table::READ, &[("number", "the number of the preset that was replaced")]],
    paged: false,
    run,
};

fn run(mut args: Args, out: &mut Out) -> Result<Verdict, Failure> {
    let edit = Edit::named(&mut args)?;
    let number = args.next_number("N")?;
    let mut asked = asked::preset(&mut args, out)?;
    asked.rig.edition = Some(edit.edition());
    let change = |book: &Book| {
        let before = remove::described(book, number)?;
        let told = format!("preset {number} was {before}\n           is {}", asked.heading());
        // Alone first, so that what is wrong with it is told in its own words.
        library::append(book.edition, &[], asked.rig(), asked.letters(), edit.room)
            .map_err(|refusal| asked.refused(refusal))?;
        let bytes = library::replace(book.edition, &book.bytes, number, asked.rig(), asked.letters())?;
        let mut fields = asked.fields();
        fields.push(("number", number.into()));
        Ok(Change { bytes, edition: book.edition, numbers: Renumbering::Kept, told, fields })
    };
    edit.run("replace", change, out)
}
