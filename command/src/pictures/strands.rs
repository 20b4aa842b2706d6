//! The picture of a preset: a strand for each source, from the left to its screen at the right.
use super::look::{self, Measures};
use super::traced::{Place, Strand};
use super::{Font, START, fitted, framed, length, put, signed};
use crate::drawing::{Drawing, Row, width};
use crate::names::Names;
use crate::text;
use std::fmt::Write;

pub use super::look::layout;

/// The least margins, and the margin of the page.
const SIDE: usize = 64;
const EDGE: usize = 12;
/// The small view at a screen.
pub const VIEW: usize = 22;

/// What the whole picture shares.
pub struct Sheet {
    pub measures: Measures,
    pub left: usize,
    pub right: usize,
    /// Where the screens' own labels begin.
    pub screens: usize,
    /// How far these are below the sources' labels.
    pub below: usize,
    pub wide: usize,
    pub shared: bool,
    /// The most pixels of a label with a name.
    pub room: usize,
}

pub fn picture(drawings: &[Drawing], shared: bool) -> String {
    let sheet = Sheet::of(drawings, shared);
    let mut parts = String::new();
    let mut y = 0;
    for drawing in drawings {
        y += 30;
        for line in caption(drawing, (sheet.wide - 2 * EDGE) / 9) {
            put(&mut parts, (EDGE, y), START, &line);
            y += 20;
        }
        for (number, row) in drawing.rows.iter().enumerate() {
            y += 20;
            if drawing.rows.len() > 1 {
                put(&mut parts, (sheet.left, y), Font::sized(13, "start").grey(), &part_of(drawing, row));
                y += 20;
            }
            put_row(&mut parts, drawing, number, y, &sheet);
            y += drawing.lanes() * sheet.measures.lane + 4;
        }
    }
    for note in notes(drawings, shared) {
        for line in text::wrapped(&note, (sheet.wide - 2 * EDGE) / 7) {
            y += 18;
            put(&mut parts, (EDGE, y), Font::sized(13, "start"), &line);
        }
    }
    let title = drawings.first().map_or(String::new(), |drawing| format!("{}, {}", drawing.rig, letters(drawing)));
    framed(sheet.wide, y + 16, &title, &parts)
}

impl Sheet {
    fn of(drawings: &[Drawing], shared: bool) -> Sheet {
        let lanes = drawings.first().map_or(0, Drawing::lanes);
        let mut measures = look::measures(lanes);
        let columns = width(drawings);
        // A few crossings stand further apart.
        let spare = measures.narrow.saturating_sub(columns * measures.crossing);
        measures.gap = measures.gap.max(spare / (columns + 1));
        let names = drawings.first().map(|drawing| drawing.names.clone()).unwrap_or_default();
        let longest = |labels: Vec<String>| labels.iter().map(|label| length(label, measures.font)).max().unwrap_or(0);
        let sources = longest((1..=lanes).map(|lane| source(&names, lane as i8)).collect());
        let own = longest((1..=lanes).map(|lane| screen(&names, lane)).collect());
        let left = EDGE + (sources + 8).max(SIDE - EDGE);
        let right = left + columns * (measures.crossing + measures.gap) + measures.gap;
        let screens = right + 8 + VIEW + 8 + sources.max(24) + 16;
        Sheet { measures, left, right, screens, below: 0, wide: screens + own + EDGE, shared, room: usize::MAX }
    }
}

fn letters(drawing: &Drawing) -> String {
    text::counted(drawing.word.len(), "letter")
}

/// Words of more letters are not repeated above the picture, whose rows name the letters.
const CAPTION: usize = 400;

fn caption(drawing: &Drawing, characters: usize) -> Vec<String> {
    let head = format!("{}, {}, {}", drawing.rig, drawing.name, letters(drawing));
    if drawing.word.len() > CAPTION {
        vec![head]
    } else {
        text::wrapped(&format!("{head}: {}", text::word(&drawing.word)), characters)
    }
}

/// Which letters a row has.
pub fn part_of(drawing: &Drawing, row: &Row) -> String {
    let (first, last) = (text::grouped(row.letters.start as u64 + 1), text::grouped(row.letters.end as u64));
    format!("letters {first} to {last} of {}", text::grouped(drawing.word.len() as u64))
}

pub const LINES: &str = "On the left the sources by number, on the right the screens from top to bottom: each with the source that it \
     shows, and a small view the way round that it is shown. Where two lines cross, the one with a gap passes under \
     the other.";
pub const MIRRORS: &str = "A double line is a mirrored source, with a minus sign; a dot is a step that mirrors.";
pub const SHARED: &str = "The number beside a crossing is its step; steps that touch different lanes share a column.";
const STEPS: &str = "The numbers above are the steps, taken from the left.";

/// The legend.
fn notes(drawings: &[Drawing], shared: bool) -> Vec<String> {
    let mut notes = vec![LINES.to_string()];
    if drawings.iter().any(Drawing::mirrors) {
        notes.push(MIRRORS.to_string());
    }
    notes.push(if shared { SHARED.to_string() } else { STEPS.to_string() });
    notes
}

/// A row below its top, with what stands above its ends.
pub fn put_row(parts: &mut String, drawing: &Drawing, number: usize, top: usize, sheet: &Sheet) {
    if number == 0 {
        put(parts, (sheet.left - 8, top - 8), Font::sized(13, "end").grey(), "source");
    }
    if number + 1 == drawing.rows.len() {
        put(parts, (sheet.right + 8, top - 8), Font::sized(13, "start").grey(), "on the screen");
    }
    let row = &drawing.rows[number];
    let place = Place { top, left: sheet.left, right: sheet.right, measures: sheet.measures };
    put_strands(parts, row, &place);
    put_steps(parts, row, &place, sheet.shared);
    let font = sheet.measures.font;
    let (first, last) = (number == 0, number + 1 == drawing.rows.len());
    for (lane, (start, end)) in row.start.iter().zip(row.end()).enumerate() {
        let base = place.line(lane) + font / 3;
        let began = if first { source(&drawing.names, *start) } else { signed(*start) };
        let began = fitted(&began, font, sheet.room);
        put(parts, (place.left - 8, base), Font::sized(font, "end"), &began);
        if last {
            put_screen(parts, drawing, (lane, *end), &place, sheet);
        } else {
            put(parts, (place.right + 8, base), Font::sized(font, "start"), &signed(*end));
        }
    }
}

fn put_strands(parts: &mut String, row: &Row, place: &Place) {
    let _ = writeln!(parts, "<g fill=\"none\" stroke-linecap=\"butt\" stroke-width=\"2\">");
    let (mut mirrored, mut labels) = (String::new(), String::new());
    for start in 0..row.start.len() {
        let strand = Strand::of(row, start, place);
        let source = usize::from(row.start[start].unsigned_abs());
        let (colour, dash) = (look::colour(source), look::dash(source));
        if !strand.plain.is_empty() {
            let _ = writeln!(parts, "<path stroke=\"{colour}\"{dash} d=\"{}\"/>", strand.plain);
        }
        if !strand.mirrored.is_empty() {
            let path = &strand.mirrored;
            let _ = writeln!(mirrored, "<path stroke=\"{colour}\" stroke-width=\"6\"{dash} d=\"{path}\"/>");
            let _ = writeln!(mirrored, "<path stroke=\"#ffffff\" stroke-width=\"3\" d=\"{path}\"/>");
        }
        for (x, lane, negative) in strand.labels {
            put_label(&mut labels, (x, place.line(lane)), source, negative);
        }
    }
    parts.push_str(&mirrored);
    parts.push_str("</g>\n");
    parts.push_str(&labels);
}

/// A strand's number on its way.
fn put_label(parts: &mut String, (x, y): (usize, usize), source: usize, negative: bool) {
    let label = if negative { format!("\u{2212}{source}") } else { source.to_string() };
    let wide = 4 + 7 * text::columns(&label);
    let _ = writeln!(
        parts,
        "<rect x=\"{}\" y=\"{}\" width=\"{wide}\" height=\"12\" fill=\"#ffffff\"/>",
        x - wide / 2,
        y - 6
    );
    let font = Font { colour: look::colour(source), ..Font::sized(11, "middle") };
    put(parts, (x, y + 4), font, &label);
}

/// The steps' numbers, and a dot where one mirrors.
fn put_steps(parts: &mut String, row: &Row, place: &Place, shared: bool) {
    let crossing = place.measures.crossing;
    for (number, column) in row.columns.iter().enumerate() {
        for step in &column.steps {
            let (x, y) = (place.column(number) + crossing / 2, (place.line(step.lane) + place.line(step.last())) / 2);
            if step.mirrors {
                let _ = writeln!(parts, "<circle cx=\"{x}\" cy=\"{y}\" r=\"5\"/>");
            }
            if shared {
                let above = if step.crosses { y + 3 } else { y - 4 };
                let at = (x + crossing / 2 - 2, above);
                put(parts, at, Font::sized(place.measures.number, "start").grey(), &step.letter.to_string());
            } else {
                put(parts, (x, place.top - 2), Font::sized(12, "middle").grey(), &step.letter.to_string());
            }
        }
    }
}

/// A source with its name, as an entry of a window.
pub fn source(names: &Names, entry: i8) -> String {
    let name = names.source(usize::from(entry.unsigned_abs()));
    name.map_or(signed(entry), |name| format!("{} {name}", signed(entry)))
}

pub fn screen(names: &Names, lane: usize) -> String {
    let name = names.screen(lane).map_or(String::new(), |name| format!(" {name}"));
    format!("screen {lane}{name}")
}

/// A screen: the view as it is shown there, its source, its own number and name.
fn put_screen(parts: &mut String, drawing: &Drawing, (lane, entry): (usize, i8), place: &Place, sheet: &Sheet) {
    let font = sheet.measures.font;
    let (x, y) = (place.right + 8, place.line(lane));
    put_view(parts, (x, y - 7), entry);
    let (text, base) = (x + VIEW + 8, y - sheet.below / 2);
    let label = fitted(&source(&drawing.names, entry), font, sheet.room);
    put(parts, (text, base + font / 3), Font::sized(font, "start"), &label);
    let font = Font::sized(font.min(13), "start").grey();
    let label = fitted(&screen(&drawing.names, lane + 1), font.size, sheet.room);
    put(parts, (sheet.screens, base + sheet.below + font.size / 3), font, &label);
}

/// A small view with a letter that differs from its mirror image, the way round that the source is shown.
pub fn put_view(parts: &mut String, (x, y): (usize, usize), entry: i8) {
    let (turn, at) = if entry < 0 { (" scale(-1 1)", x + VIEW) } else { ("", x) };
    let colour = look::colour(usize::from(entry.unsigned_abs()));
    let _ = writeln!(
        parts,
        "<g transform=\"translate({at} {y}){turn}\" fill=\"none\" stroke=\"{colour}\"><rect x=\"0\" y=\"0\" \
         width=\"{VIEW}\" height=\"14\"/><path stroke-width=\"2\" d=\"M8 12V3H15M8 7H13\"/></g>"
    );
}
