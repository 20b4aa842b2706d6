//! `show`: a preset and its normal form side by side.
use crate::args::Args;
use crate::failure::Failure;
use crate::json::{Value, list, object};
use crate::library::{self, Crossings, Kind};
use crate::names::Names;
use crate::out::Out;
use crate::table::{self, Subcommand, Verdict};
use crate::{asked, text};
use std::io::{self, Write};

pub const SUBCOMMAND: Subcommand = Subcommand {
    name: "show",
    group: table::PRESETS,
    about: "what a preset shows, its normal form, what its length is made of",
    usages: &["RIG WORD", "--book FILE --edition EDITION --preset N"],
    text: "What a preset shows and its normal form, side by side with the word as typed; then its length as three \
           counts: plain pairs, pairs against a mirrored lane, mirrored lanes. With names, also what each screen \
           shows.",
    operands: &[table::RIG, table::WORD],
    options: &[table::EMPTY, table::FROM_BOOK, table::EDITION, table::TIMEOUT, table::PRESET, table::NAMES],
    examples: &[
        "winnathey show D5 4 4 2 5 3 5 1 2",
        "winnathey show D5 '[3 -5 1 4 -2]'",
        "winnathey show --book presets.book --edition first --preset 1",
    ],
    json: &[
        table::READ,
        table::FORM,
        table::SHOWS,
        &[
            (
                "crossings",
                "the length as inversions (plain pairs), negative_sum_pairs (pairs against a mirrored lane), negatives (mirrored lanes) and their total",
            ),
            ("screens", "of each screen: screen, source, mirrored, and screen_name and source_name if they have names"),
        ],
    ],
    paged: true,
    run,
};

fn run(mut args: Args, out: &mut Out) -> Result<Verdict, Failure> {
    let asked = asked::preset(&mut args, out)?;
    let (rig, window, form) = (asked.rig(), asked.window()?, asked.form()?);
    let crossings = library::crossings(rig, asked.letters())?;
    if out.json {
        let mut fields = asked.fields();
        fields.push(("normal_form", list(&form)));
        fields.push(("window", list(&window)));
        fields.push(("crossings", counts(crossings)));
        fields.push(("screens", screens(&window, &asked.names)));
        out.answer("show", fields)?;
        return Ok(Verdict::Answer);
    }
    if let Some(source) = asked.source() {
        writeln!(out, "{source}")?;
    }
    let rows = [
        [rig.to_string(), asked.called().to_string(), "normal form".to_string()],
        ["word".to_string(), text::word(asked.letters()), text::word(&form)],
        ["letters".to_string(), asked.letters().len().to_string(), form.len().to_string()],
        ["shows".to_string(), text::spaced(&window), text::spaced(&library::window(rig, &form)?)],
    ];
    side_by_side(&rows, out)?;
    by_count(rig.kind, crossings, out)?;
    if asked.names.any(window.len()) {
        named_screens(&window, &asked.names, out)?;
    }
    Ok(Verdict::Answer)
}

/// The three counts for JSON.
pub fn counts(crossings: Crossings) -> Value {
    object([
        ("inversions", crossings.plain_pairs.into()),
        ("negative_sum_pairs", crossings.pairs_against_a_mirrored_lane.into()),
        ("negatives", crossings.mirrored_lanes.into()),
        ("total", crossings.total.into()),
    ])
}

/// What each screen shows, for JSON.
pub fn screens(window: &[i8], names: &Names) -> Value {
    let screen = |(lane, entry): (usize, &i8)| {
        let source = usize::from(entry.unsigned_abs());
        let mut fields = vec![("screen", (lane + 1).into())];
        fields.extend(names.screen(lane + 1).map(|name| ("screen_name", name.into())));
        fields.push(("source", source.into()));
        fields.extend(names.source(source).map(|name| ("source_name", name.into())));
        fields.push(("mirrored", (*entry < 0).into()));
        Value::Object(fields)
    };
    Value::List(window.iter().enumerate().map(screen).collect())
}

/// The columns before the first cell and between the two.
const MARGINS: usize = 9 + 3;
/// A cell has so many characters at least, and no more are of use.
const CELL: [usize; 2] = [20, 60];

fn side_by_side(rows: &[[String; 3]], out: &mut Out) -> io::Result<()> {
    let width = (out.width.saturating_sub(MARGINS) / 2).clamp(CELL[0], CELL[1]);
    let cells: Vec<_> = rows.iter().map(|row| row.each_ref().map(|cell| text::wrapped(cell, width))).collect();
    let typed = cells.iter().flat_map(|[_, typed, _]| typed).map(|line| text::columns(line)).max().unwrap_or(0);
    for (number, [name, typed_lines, form_lines]) in cells.iter().enumerate() {
        for line in 0..typed_lines.len().max(form_lines.len()) {
            let cell = |lines: &[String]| lines.get(line).cloned().unwrap_or_default();
            let mut name = text::padded(&cell(name), 9);
            let mut row = format!("{}   {}", text::padded(&cell(typed_lines), typed), cell(form_lines));
            row.truncate(row.trim_end().len());
            if number == 0 {
                (name, row) = (out.style.bold(&name), out.style.bold(&row));
            }
            writeln!(out, "{name}{row}")?;
        }
    }
    Ok(())
}

/// The three counts in words, with the one that a kind lacks.
pub fn in_words(kind: Kind, crossings: Crossings) -> [String; 3] {
    let counts = [
        (crossings.plain_pairs, "plain pair", "plain pairs", true),
        (
            crossings.pairs_against_a_mirrored_lane,
            "pair against a mirrored lane",
            "pairs against a mirrored lane",
            kind != Kind::A,
        ),
        (crossings.mirrored_lanes, "mirrored lane", "mirrored lanes", kind == Kind::B),
    ];
    let width = crossings.total.to_string().len();
    counts.map(|(count, one, many, counts)| {
        let name = if count == 1 { one } else { many };
        let absent = if counts { String::new() } else { format!(" (kind {kind} counts none)") };
        format!("{count:>width$} {name}{absent}")
    })
}

fn by_count(kind: Kind, crossings: Crossings, out: &mut Out) -> io::Result<()> {
    writeln!(out, "length   {}, of these", crossings.total)?;
    in_words(kind, crossings).iter().try_for_each(|count| writeln!(out, "         {count}"))
}

/// `3 left mirror`, or the number alone.
pub fn numbered(number: usize, name: Option<&str>) -> String {
    name.map_or(number.to_string(), |name| format!("{number} {name}"))
}

fn named_screens(window: &[i8], names: &Names, out: &mut Out) -> io::Result<()> {
    let screens: Vec<String> = (1..=window.len()).map(|lane| numbered(lane, names.screen(lane))).collect();
    let width = screens.iter().map(|screen| text::columns(screen)).max().unwrap_or(0);
    for (number, (screen, entry)) in screens.iter().zip(window).enumerate() {
        let source = usize::from(entry.unsigned_abs());
        let label = if number == 0 { "screen" } else { "" };
        let mirrored = if *entry < 0 { ", mirrored" } else { "" };
        let source = numbered(source, names.source(source));
        writeln!(out, "{label:<9}{}  shows source {source}{mirrored}", text::padded(screen, width))?;
    }
    Ok(())
}
