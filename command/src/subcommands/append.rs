//! `append`: a book with one preset more.
use crate::args::Args;
use crate::asked;
use crate::books::Book;
use crate::edit::{Change, Edit};
use crate::failure::Failure;
use crate::library::{self, MAX_BOOK, Preset, Refusal};
use crate::lines::Lines;
use crate::out::Out;
use crate::parked::Renumbering;
use crate::table::{self, Subcommand, Verdict};
use crate::text;
use crate::typed::Asked;
use std::path::Path;

pub const SUBCOMMAND: Subcommand = Subcommand {
    name: "append",
    group: table::BOOKS,
    about: "a book with one preset more, or many, or a new book",
    usages: &[
        "BOOK RIG WORD --edition EDITION (--in-place | -o FILE | --new)",
        "BOOK --book FILE --preset N --edition EDITION (--in-place | -o FILE | --new)",
        "BOOK --from FILE --edition EDITION (--in-place | -o FILE | --new)",
    ],
    text: "Writes the book with the preset, as it is typed, at the end. An empty file is a book without presets; --new \
           starts one. A book of the first edition takes ranks up to 31 for A and up to 32 for B and D; kind A at \
           rank 1 is taken by none.\n\nWith --from, all presets of a file or none, in one replacement of the book: one a \
           line, rig and word as 'D5 4 4 2 5', the empty word as '' or (the empty word), a window in brackets. Empty \
           lines and those that begin with # are skipped. The first wrong line, or the first that has no room, is \
           named.\n\nA file is written beside its name, brought to the disk and gets the name when \
           it is whole; only then is it said. A refused call leaves every file as it was.",
    operands: &[table::BOOK, table::RIG, table::WORD],
    options: &[
        table::EMPTY,
        table::EDITION,
        table::TIMEOUT,
        table::IN_PLACE,
        table::OUTPUT_BOOK,
        table::FORCE,
        table::NEW,
        table::AT_MOST_BYTES,
        table::FROM_BOOK.about("takes the preset out of this book, of the same edition, in place of RIG and WORD"),
        table::PRESET,
        table::FROM_LINES,
        table::DRY_RUN,
        table::QUIET,
    ],
    examples: &[
        "winnathey append presets.book B2 1 2 1 2 --edition first --new",
        "winnathey append presets.book D5 5 2 3 5 1 2 --edition first --in-place",
        "echo 'D5 4 4' | winnathey append my.book --from - --edition first --in-place",
    ],
    json: &[
        table::WRITTEN,
        table::READ,
        &[
            ("number", "the number of the new preset, of several the first"),
            ("from", "with --from: the file of the lines"),
            ("appended", "with --from: how many presets are new"),
        ],
    ],
    paged: false,
    run,
};

fn run(mut args: Args, out: &mut Out) -> Result<Verdict, Failure> {
    let edit = Edit::named(&mut args)?;
    if let Some(from) = args.path("--from") {
        return append_lines(&args, &edit, &from, out);
    }
    let mut asked = asked::preset(&mut args, out)?;
    asked.rig.edition = Some(edit.edition());
    let change = |book: &Book| {
        let bytes = library::append(book.edition, &book.bytes, asked.rig(), asked.letters(), edit.room)
            .map_err(|refusal| refused(book, &asked, refusal))?;
        let number = book.count()?;
        let told = format!("appended as preset {number}: {}", asked.heading());
        let mut fields = asked.fields();
        fields.push(("number", number.into()));
        Ok(Change { bytes, edition: book.edition, numbers: Renumbering::Kept, told, fields })
    };
    edit.run("append", change, out)
}

/// The presets of a file, all or none.
fn append_lines(args: &Args, edit: &Edit, from: &Path, out: &mut Out) -> Result<Verdict, Failure> {
    if let Some(option) = ["--book", "--preset", "--empty"].into_iter().find(|option| args.flag(option)) {
        return Err(args.usage(format!("either --from or {option}")));
    }
    args.done_with("; --from takes the presets out of its file")?;
    // Before the book is locked: a pipe may take its time.
    let lines = Lines::read(from, edit.edition())?;
    let change = |book: &Book| {
        let (first, presets) = (book.count()?, lines.presets());
        let bytes = match library::append_all(book.edition, &book.bytes, &presets) {
            Ok(bytes) if bytes.len() <= edit.room => bytes,
            _ => return Err(no_room(book, &lines, edit.room)),
        };
        let (count, last) = (text::counted(lines.len(), "preset"), first + lines.len() - 1);
        let numbers = if first == last { format!("preset {first}") } else { format!("presets {first} to {last}") };
        let told = format!("appended {count} out of {} as {numbers}", lines.file);
        let fields = vec![("number", first.into()), ("from", lines.named.clone()), ("appended", lines.len().into())];
        Ok(Change { bytes, edition: book.edition, numbers: Renumbering::Kept, told, fields })
    };
    edit.run("append", change, out)
}

/// The refusal of the first line whose preset has no room.
fn no_room(book: &Book, lines: &Lines, room: usize) -> Failure {
    let presets = lines.presets();
    let with = |count: usize| library::append_all(book.edition, &book.bytes, &presets[..count]);
    let fits = |count: usize| with(count).is_ok_and(|bytes| bytes.len() <= room);
    // Those that fit are the first ones, so that halving finds the last of them.
    let (mut place, mut over) = (0, presets.len());
    while place + 1 < over {
        let middle = place.midpoint(over);
        if fits(middle) { place = middle } else { over = middle }
    }
    let before = with(place).unwrap_or_default();
    let Preset { rig, word } = presets[place];
    let Err(refusal) = library::append(book.edition, &before, rig, word, room) else {
        return Failure::Unwilling(format!("{} has room, and was refused", book.file));
    };
    let (bytes, most) = (text::grouped(before.len() as u64), text::grouped(room as u64));
    let told = if before.len() > room {
        format!("the book has {bytes} bytes already, and is to have {most} at most")
    } else {
        format!("with the presets before it the book has {bytes} of {most} bytes")
    };
    lines.failed(place, Failure::refused(refusal, told))
}

/// A refusal of the book, of the preset or of the new book.
pub fn refused(book: &Book, asked: &Asked, refusal: Refusal) -> Failure {
    match refusal.number() {
        1..=3 => book.refused(refusal),
        13 => {
            let bytes = text::counted(book.bytes.len(), "byte");
            Failure::refused(refusal, format!("{} has {bytes} already", book.file))
        }
        14 => {
            let whole = library::append(book.edition, &book.bytes, asked.rig(), asked.letters(), MAX_BOOK);
            let bytes = whole.map(|whole| format!("the new book has {}", text::counted(whole.len(), "byte")));
            Failure::Refused(refusal, bytes.ok())
        }
        _ => asked.refused(refusal),
    }
}
