//! Drawings for the terminal, in ASCII.
//!
//! ```text
//!        1    2
//! 1 --\ /-------- 2
//!      X
//! 2 --/ \-\ /---- 3
//!          X
//! 3 ------/ \---- 1
//! ```
use crate::drawing::{Column, Drawing, Layout, Row, width};
use crate::out::Out;
use crate::style::Style;
use crate::text;
use std::io::{self, Write};

const MOST_LANES: usize = 16;
/// The columns of text that the labels take at most, and those of a step.
const LABELS: usize = 10;
const STEP: usize = 5;

/// `None` where there are too many lanes.
pub fn layout(lanes: usize, width: usize) -> Option<Layout> {
    (lanes <= MOST_LANES).then_some(Layout { columns: (width.saturating_sub(LABELS) / STEP).max(1), shared: false })
}

pub fn write(drawings: &[Drawing], layout: &Layout, out: &mut Out) -> io::Result<()> {
    let width = width(drawings).min(layout.columns);
    for (number, drawing) in drawings.iter().enumerate() {
        if number > 0 {
            writeln!(out)?;
        }
        let letters = text::counted(drawing.word.len(), "letter");
        let head = format!("{}, {}, {letters}: {}", drawing.rig, drawing.name, text::word(&drawing.word));
        for line in text::wrapped(&head, out.width) {
            writeln!(out, "{line}")?;
        }
        for (number, row) in drawing.rows.iter().enumerate() {
            if number > 0 {
                let (first, last) = (row.letters.start + 1, row.letters.end);
                writeln!(out, "\nletters {first} to {last} of {}", drawing.word.len())?;
            }
            let last = number + 1 == drawing.rows.len();
            write_row(drawing, row, (width, last), out)?;
        }
    }
    writeln!(out, "\nleft the sources, right the screens from top to bottom, each with its source")?;
    if drawings.iter().any(Drawing::mirrors) {
        writeln!(out, "* mirrors, = is a mirrored lane")?;
    }
    Ok(())
}

/// A lane's character.
fn line(entry: i8) -> char {
    if entry < 0 { '=' } else { '-' }
}

/// A part of a strand in its colour.
fn strand(style: Style, entry: i8, text: &str) -> String {
    style.strand(usize::from(entry.unsigned_abs()), text)
}

fn write_row(drawing: &Drawing, row: &Row, (width, last): (usize, bool), out: &mut Out) -> io::Result<()> {
    let style = out.style;
    let digits = |entries: &[i8]| entries.iter().map(|entry| entry.to_string().len()).max().unwrap_or(1);
    let (left, right) = (digits(&row.start).max(3), digits(row.end()).max(2));
    let steps = row.columns.iter().flat_map(|column| &column.steps);
    let head: String = steps.map(|step| format!("{:>5}", step.letter)).collect();
    if !head.is_empty() {
        writeln!(out, "{:left$}{head}", "")?;
    }
    let lanes = row.start.len();
    for lane in 0..lanes {
        let mut entry = row.start[lane];
        let two = String::from_iter([line(entry); 2]);
        let mut text = format!("{entry:>left$} {}", strand(style, entry, &two));
        let mut below = format!("{:left$}   ", "");
        for column in &row.columns {
            let after = column.after[lane];
            text.push_str(&cell(style, column, lane, entry, after));
            below.push_str(gap(column, lane));
            entry = after;
        }
        for _ in row.columns.len()..width {
            text.push_str(&strand(style, entry, &String::from_iter([line(entry); STEP])));
        }
        let name = if last { screen(drawing, lane, entry) } else { String::new() };
        writeln!(out, "{text} {:>right$}{name}", row.end()[lane])?;
        if lane + 1 < lanes {
            writeln!(out, "{}", below.trim_end())?;
        }
    }
    Ok(())
}

/// The names of a source and of its screen, where there are any.
fn screen(drawing: &Drawing, lane: usize, entry: i8) -> String {
    let names = &drawing.names;
    let source = names.source(usize::from(entry.unsigned_abs())).map_or(String::new(), |name| format!(" {name}"));
    let screen = names.screen(lane + 1).map_or(String::new(), |name| format!(" on screen {} {name}", lane + 1));
    format!("{source}{screen}")
}

/// Five characters of a lane.
fn cell(style: Style, column: &Column, lane: usize, before: i8, after: i8) -> String {
    let new = line(after);
    let (old, one) = (strand(style, before, &line(before).to_string()), String::from(new));
    match column.touching(lane) {
        None => strand(style, after, &one.repeat(STEP)),
        Some(step) if !step.crosses => format!("{old}*{}", strand(style, after, &one.repeat(3))),
        Some(step) => {
            // The strand that comes along this lane goes down to the next one or up to the one before.
            let (first, second) = if step.lane == lane { ("\\", "/") } else { ("/", "\\") };
            let goes = strand(style, before, first);
            format!("{goes} {}", strand(style, after, &format!("{second}{}", one.repeat(2))))
        }
    }
}

/// Five characters between a lane and the next.
fn gap(column: &Column, lane: usize) -> &'static str {
    match column.touching(lane) {
        Some(step) if step.crosses && step.lane == lane => {
            if step.mirrors {
                " *   "
            } else {
                " X   "
            }
        }
        _ => "     ",
    }
}
