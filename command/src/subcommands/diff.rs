//! `diff`: two books compared by what their presets show.
use super::numbered;
use crate::args::Args;
use crate::books::{self, Book};
use crate::differences::{self, Difference, Side, Sort};
use crate::failure::{self, Failure};
use crate::json::{Value, list, object, optional};
use crate::names::Names;
use crate::out::Out;
use crate::table::{self, Completes, Operand, Subcommand, Verdict};
use crate::{asked, files, text, typed};
use std::io::Write;
use std::path::Path;

const OTHER: Operand = Operand { name: "OTHER", about: "the other book's file, likewise", completes: Completes::File };

pub const SUBCOMMAND: Subcommand = Subcommand {
    name: "diff",
    group: table::BOOKS,
    about: "two books compared by what their presets show",
    usages: &["BOOK OTHER --edition EDITION [--edition EDITION]"],
    text: "Compares two books preset by preset, number by number, by what the presets show and not by their bytes. \
           Another picture is told with the screens that differ; the same picture by another word, or on another rig, \
           is told apart from that and counts as the same. Presets that one book alone has, and refused records, count \
           as different; a record that is refused in both with the same bytes does not. Names are those of BOOK.\n\nThe \
           exit status is like that of diff(1): 0 if the books show the same, 1 if not, 2 if the command was not \
           understood, 3 for any other failure.",
    operands: &[table::BOOK, OTHER],
    options: &[
        table::EDITION.about("first or second, the edition of both books; given twice, of BOOK and of OTHER").twice(),
        table::TIMEOUT,
        table::NAMES,
        table::QUIET.about("prints nothing: the exit status tells; --json still prints its object"),
    ],
    examples: &[
        "winnathey diff presets.book my.book --edition first",
        "winnathey diff presets.book my.book --edition first --quiet && echo the same",
    ],
    json: &[&[
        ("first", "the first book: book, edition, count"),
        ("second", "the other book, likewise"),
        ("same", "true if they show the same, or false"),
        (
            "differences",
            "of each number that is not equal: number, name if it has one, difference (word, rig, picture, missing, \
             refused or refused_alike), first and second (rig, word and window, or refused, or null), elsewhere (the \
             numbers under which the other book shows the picture of the first and of the second, or null), screens",
        ),
    ]],
    paged: true,
    run,
};

fn run(mut args: Args, out: &mut Out) -> Result<Verdict, Failure> {
    let (path, other) = (args.next("BOOK")?, args.next("OTHER")?);
    args.done()?;
    let (path, other) = (Path::new(&path), Path::new(&other));
    let edition = args.second_edition(other)?;
    let (first, names) = asked::book(&args, path, out)?;
    let second = Book::new(edition, files::read_locked(other)?, other);
    let books = [&first, &second];
    books.into_iter().try_for_each(readable)?;
    let differences = differences::of(&first, &second)?;
    books.iter().for_each(|book| book.warn_always(out));
    let same = !differences.iter().any(|difference| difference.sort.counts());
    if out.json {
        let fields = vec![
            ("first", book(&first)?),
            ("second", book(&second)?),
            ("same", same.into()),
            ("differences", Value::List(differences.iter().map(|one| in_json(one, &names)).collect())),
        ];
        out.answer("diff", fields)?;
    } else if !out.quiet {
        for book in books {
            let count = text::counted(book.count()?, "preset");
            writeln!(out, "{}, {} edition: {count}", book.file, books::name(book.edition))?;
        }
        differences.iter().try_for_each(|difference| told(difference, books, &names, out))?;
        sum(&differences, same, out)?;
    }
    Ok(if same { Verdict::Answer } else { Verdict::No })
}

/// A refusal of a book that does not say which it is gets its name in front.
fn readable(book: &Book) -> Result<(), Failure> {
    match book.count() {
        Err(Failure::Refused(refusal, culprit)) if book.hint().is_some() => {
            Err(Failure::refused(refusal, format!("{}: {}", book.file, culprit.unwrap_or_default())))
        }
        read => read.map(drop),
    }
}

fn book(book: &Book) -> Result<Value, Failure> {
    let (edition, count) = (books::name(book.edition), book.count()?);
    Ok(object([("book", book.named.clone()), ("edition", edition.into()), ("count", count.into())]))
}

fn told(difference: &Difference, books: [&Book; 2], names: &Names, out: &mut Out) -> Result<(), Failure> {
    let head = out.style.bold(&numbered(difference.number, names.preset(difference.number)));
    let what = match (difference.sort, &difference.sides) {
        (Sort::Word, _) => "the same picture, another word".to_string(),
        (Sort::Rig, _) => "the same picture, another rig".to_string(),
        (Sort::Picture, _) => "another picture".to_string(),
        (Sort::Missing, [Side::Missing, _]) => format!("only in {}", books[1].file),
        (Sort::Missing, _) => format!("only in {}", books[0].file),
        (Sort::Refused, _) => "not compared: refused".to_string(),
        (Sort::RefusedAlike, _) => "refused in both, with the same bytes".to_string(),
    };
    writeln!(out, "{head}: {what}")?;
    let there = difference.sides.iter().zip(books).filter(|(side, _)| !matches!(side, Side::Missing));
    let width = there.map(|(_, book)| text::columns(&book.file)).max().unwrap_or(0);
    for (side, book) in difference.sides.iter().zip(books) {
        let shown = match side {
            Side::Missing => continue,
            Side::Shown(preset, _) => format!("{} {}", preset.rig, short(preset.word)),
            Side::Refused(refusal, culprit) => {
                format!("{refusal}{}", culprit.as_ref().map_or(String::new(), |culprit| format!("; {culprit}")))
            }
        };
        writeln!(out, "  {}  {shown}", text::padded(&book.file, width))?;
    }
    screens(difference, books, names, out)?;
    for (number, [book, other]) in difference.elsewhere.iter().zip([books, [books[1], books[0]]]) {
        if let Some(number) = number {
            writeln!(out, "  what {} shows here is preset {number} of {}", book.file, other.file)?;
        }
    }
    Ok(())
}

/// So many letters of a word are shown.
const LETTERS: usize = 24;

fn short(word: &[u8]) -> String {
    if word.len() <= LETTERS {
        return text::word(word);
    }
    format!("{} .. ({})", text::spaced(&word[..LETTERS]), text::counted(word.len(), "letter"))
}

/// A table of the screens that show something else.
fn screens(difference: &Difference, books: [&Book; 2], names: &Names, out: &mut Out) -> Result<(), Failure> {
    let screens = difference.screens();
    if let [Side::Shown(_, first), Side::Shown(_, second)] = &difference.sides
        && first.len() != second.len()
    {
        writeln!(out, "  {} lanes in {}, {} in {}", first.len(), books[0].file, second.len(), books[1].file)?;
    }
    if screens.is_empty() {
        return Ok(());
    }
    let source = |entry: i8| {
        let lane = usize::from(entry.unsigned_abs());
        let mirrored = if entry < 0 { ", mirrored" } else { "" };
        format!("source {}{mirrored}", numbered(lane, names.source(lane)))
    };
    let head = ["screen".to_string(), books[0].file.clone(), books[1].file.clone()];
    let row =
        |(screen, one, other): (usize, i8, i8)| [numbered(screen, names.screen(screen)), source(one), source(other)];
    let rows: Vec<_> = [head].into_iter().chain(screens.into_iter().map(row)).collect();
    let width = |column: usize| rows.iter().map(|row| text::columns(&row[column])).max().unwrap_or(0);
    let widths = [width(0), width(1)];
    for row in &rows {
        let [screen, one, other] = row;
        writeln!(out, "  {}  {}  {other}", text::padded(screen, widths[0]), text::padded(one, widths[1]))?;
    }
    Ok(())
}

fn sum(differences: &[Difference], same: bool, out: &mut Out) -> Result<(), Failure> {
    let count = |sorts: &[Sort]| differences.iter().filter(|one| sorts.contains(&one.sort)).count();
    let counts = [
        (count(&[Sort::Picture]), "with another picture"),
        (count(&[Sort::Missing]), "in one book alone"),
        (count(&[Sort::Refused]), "not compared"),
        (count(&[Sort::Word]), "with another word"),
        (count(&[Sort::Rig]), "on another rig"),
        (count(&[Sort::RefusedAlike]), "refused in both"),
    ];
    let told: Vec<String> = (counts.into_iter().filter(|(count, _)| *count > 0))
        .map(|(count, what)| format!("{} {what}", text::grouped(count as u64)))
        .collect();
    let verdict = if same { out.style.green("the same:") } else { out.style.red("different:") };
    let rest = if told.is_empty() { "no preset differs".to_string() } else { told.join(", ") };
    Ok(writeln!(out, "{verdict} {rest}")?)
}

fn in_json(difference: &Difference, names: &Names) -> Value {
    let mut fields = vec![("number", difference.number.into())];
    fields.extend(names.preset(difference.number).map(|name| ("name", name.into())));
    fields.push(("difference", difference.sort.name().into()));
    for (name, side) in ["first", "second"].into_iter().zip(&difference.sides) {
        fields.push((name, side_in_json(side)));
    }
    fields.push(("elsewhere", Value::List(difference.elsewhere.map(optional).into_iter().collect())));
    let screen = |(screen, one, other): (usize, i8, i8)| {
        let mut fields = vec![("screen", screen.into())];
        fields.extend(names.screen(screen).map(|name| ("screen_name", name.into())));
        fields.extend([("first", entry(one, names)), ("second", entry(other, names))]);
        Value::Object(fields)
    };
    fields.push(("screens", Value::List(difference.screens().into_iter().map(screen).collect())));
    Value::Object(fields)
}

fn side_in_json(side: &Side) -> Value {
    match side {
        Side::Missing => Value::Null,
        Side::Refused(refusal, culprit) => Value::Object(failure::refused(*refusal, culprit).to_vec()),
        Side::Shown(preset, window) => {
            object([("rig", typed::rig(preset.rig)), ("word", list(preset.word)), ("window", list(window))])
        }
    }
}

/// What a screen shows.
fn entry(entry: i8, names: &Names) -> Value {
    let source = usize::from(entry.unsigned_abs());
    let mut fields = vec![("source", source.into())];
    fields.extend(names.source(source).map(|name| ("source_name", name.into())));
    fields.push(("mirrored", (entry < 0).into()));
    Value::Object(fields)
}
