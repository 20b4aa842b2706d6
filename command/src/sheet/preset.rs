//! A preset on the sheet: its word, what it shows, its picture, and the cabin.
use super::{Given, milliseconds, pages, row};
use crate::drawing::Drawing;
use crate::failure::Failure;
use crate::library::{self, Preset, Refusal, Rig};
use crate::names::Names;
use crate::pictures::{cabin, escaped, paper};
use crate::subcommands::{in_words, numbered};
use crate::text;
use std::fmt::Write;

pub fn part(given: &Given, number: usize, preset: &Result<Preset, Refusal>) -> Result<String, Failure> {
    let name = given.names.preset(number).map_or(String::new(), |name| format!(": {}", escaped(name)));
    let content = match preset {
        Err(refusal) => refused(given, number, *refusal),
        Ok(preset) => answered(given, preset)?,
    };
    let page = pages::of_preset(number);
    Ok(format!(
        "<section class=\"preset\" id=\"preset-{number}\" style=\"page: {page}\">\n<h2>Preset {number}{name}</h2>\n{content}\
         </section>\n"
    ))
}

fn refused(given: &Given, number: usize, refusal: Refusal) -> String {
    let culprit = given.book.record(number, refusal).map_or(String::new(), |culprit| format!("; {culprit}"));
    format!("<p>{}{}</p>\n", escaped(&refusal.to_string()), escaped(&culprit))
}

fn answered(given: &Given, preset: &Preset) -> Result<String, Failure> {
    let Preset { rig, word } = *preset;
    let names = given.names;
    let window = library::window(rig, word)?;
    let mut part = facts(names, rig, word, &window)?;
    part += "<h3>Picture</h3>\n";
    let layout = paper::layout(window.len(), word.len(), names);
    let drawing = Drawing::of(rig, "stored", word, names, &layout)?;
    for (caption, picture) in paper::rows(&drawing, layout.shared) {
        let caption = caption.map_or(String::new(), |caption| format!("<figcaption>{caption}</figcaption>\n"));
        let _ = write!(part, "<figure>\n{caption}{picture}</figure>\n");
    }
    part += &screens(&window, names);
    let photograph = given.photograph.as_ref().and_then(|read| read.as_ref().ok());
    if let Some(picture) = cabin::picture(&window, names, photograph.map(|photograph| photograph.shape)) {
        let _ = write!(
            part,
            "<section class=\"about\">\n<h3>Cabin</h3>\n<figure class=\"cabin\">\n{picture}</figure>\n{}</section>\n",
            cabin_notes(&window, names)
        );
    }
    Ok(part)
}

fn facts(names: &Names, rig: Rig, word: &[u8], window: &[i8]) -> Result<String, Failure> {
    let (form, crossings) = (library::normal_form(rig, word)?, library::crossings(rig, word)?);
    let spelled = |word: &[u8]| {
        let letters = text::counted(word.len(), "letter");
        format!("<span class=\"word\">{}</span> ({letters})", text::word(word))
    };
    let mut table = "<table class=\"facts\">\n".to_string();
    table += &row("Rig", &format!("kind {}, rank {}, {}", rig.kind, rig.rank, text::counted(window.len(), "lane")));
    table += &row("Word as stored", &spelled(word));
    table += &row("Shortest version", &spelled(&form));
    table += &row("Window", &format!("<span class=\"word\">{}</span>", text::spaced(window).replace('-', "\u{2212}")));
    let counts = in_words(rig.kind, crossings).map(|count| count.trim_start().to_string()).join(", ");
    table += &row("Length", &format!("{}{}: {counts}", crossings.total, milliseconds(names, crossings.total)));
    table += &row("Delay", &delay(names, rig, word.len(), form.len()));
    Ok(table + "</table>\n")
}

/// The delay in steps, and the rig's greatest if its table has it.
fn delay(names: &Names, rig: Rig, stored: usize, form: usize) -> String {
    let with = |steps: usize| milliseconds(names, steps);
    let steps = format!(
        "{}{} as stored, {}{} as the shortest version",
        text::counted(stored, "step"),
        with(stored),
        text::grouped(form as u64),
        with(form)
    );
    let Ok(delays) = library::delays(rig) else { return steps };
    let greatest = delays.form.len();
    format!("{steps}; no window of {rig} needs more than {greatest}{}", with(greatest))
}

/// In two tables side by side.
fn screens(window: &[i8], names: &Names) -> String {
    let rows: Vec<String> = (1..).zip(window).map(|(lane, entry)| screen(lane, *entry, names)).collect();
    let head = "<thead><tr><th>Screen</th><th>shows source</th><th></th></tr></thead>";
    let tables = rows.chunks(rows.len().div_ceil(2).max(1));
    let tables: String =
        tables.map(|half| format!("<table>\n{head}\n<tbody>\n{}</tbody>\n</table>\n", half.concat())).collect();
    format!("<section class=\"about\">\n<h3>Screens</h3>\n<div class=\"screens\">\n{tables}</div>\n</section>\n")
}

fn screen(lane: usize, entry: i8, names: &Names) -> String {
    let source = usize::from(entry.unsigned_abs());
    format!(
        "<tr><td class=\"name\">{}</td><td>{}</td><td>{}</td></tr>\n",
        escaped(&numbered(lane, names.screen(lane))),
        escaped(&numbered(source, names.source(source))),
        if entry < 0 { "mirrored" } else { "" }
    )
}

/// Which screens the cabin cannot show as they stand.
fn cabin_notes(window: &[i8], names: &Names) -> String {
    match cabin::notes(window.len(), names) {
        notes if notes.is_empty() => notes,
        notes => format!("<p>{}</p>\n", escaped(&notes)),
    }
}
