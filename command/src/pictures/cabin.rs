//! The cabin: the screens where they stand, each with what it shows, over a photograph if there is one.
use super::strands::{VIEW, put_view, source};
use super::{Font, fitted, framed, length, look, places, put};
use crate::names::{Keyword, Names, Place};
use std::fmt::Write;

const WIDE: usize = 680;
/// So that the cabin of a small rig stands on the page of its preset.
const HIGHEST: usize = 330;
/// The shape of a cabin without a photograph.
const SHAPE: (usize, usize) = (16, 9);
const FONT: usize = 12;
const SMALL: usize = 11;
const MARGIN: usize = 4;

/// The photograph's id in the document.
pub const PHOTOGRAPH: &str = "photograph";

/// Over the photograph, whose shape is given if there is one. None if neither that nor a place is known.
pub fn picture(window: &[i8], names: &Names, photograph: Option<(usize, usize)>) -> Option<String> {
    if photograph.is_none() && !names.all().any(|(keyword, ..)| keyword == Keyword::Place) {
        return None;
    }
    let (wide, high) = size(photograph.unwrap_or(SHAPE));
    let mut parts = String::new();
    if photograph.is_some() {
        let _ = writeln!(parts, "<use href=\"#{PHOTOGRAPH}\"/>");
    }
    let _ = writeln!(
        parts,
        "<rect x=\"0.5\" y=\"0.5\" width=\"{}\" height=\"{}\" fill=\"none\" stroke=\"#777777\"/>",
        wide - 1,
        high - 1
    );
    let places = places::all(names, window.len());
    let front = places::in_front(&places);
    let scaled = |place: Place| Frame {
        left: place.left * wide / 1000,
        top: place.top * high / 1000,
        wide: place.wide * wide / 1000,
        high: place.high * high / 1000,
    };
    for at in places::largest_first(&places) {
        let open = places::open_parts(places[at], front[at].iter().map(|other| places[*other]));
        let seen = open.into_iter().rev().max_by_key(|part| part.wide * part.high).unwrap_or(places[at]);
        put_frame(&mut parts, window[at], &scaled(places[at]), photograph.is_some());
        put_content(&mut parts, (at + 1, window[at]), &scaled(seen), names);
    }
    Some(framed(wide, high, "the cabin", &parts))
}

/// Which screens have no place of their own and which are hidden, to stand below the cabin.
pub fn notes(lanes: usize, names: &Names) -> String {
    places::notes(names, &places::all(names, lanes))
}

/// As wide as the page, unless it would be too high then.
pub fn size((wide, high): (usize, usize)) -> (usize, usize) {
    let scaled = WIDE * high / wide.max(1);
    if scaled <= HIGHEST { (WIDE, scaled.max(1)) } else { ((HIGHEST * wide / high.max(1)).max(1), HIGHEST) }
}

/// In pixels.
struct Frame {
    left: usize,
    top: usize,
    wide: usize,
    high: usize,
}

/// A line in the source's colour and dash, double if the view is mirrored. The photograph shines through.
fn put_frame(parts: &mut String, entry: i8, frame: &Frame, photograph: bool) {
    let source = usize::from(entry.unsigned_abs());
    let (colour, dash) = (look::colour(source), look::dash(source));
    let Frame { left, top, wide, high } = *frame;
    let around = format!("<rect x=\"{left}\" y=\"{top}\" width=\"{wide}\" height=\"{high}\"");
    let opacity = if photograph { " fill-opacity=\"0.85\"" } else { "" };
    let thick = if entry < 0 { 6 } else { 2 };
    let _ = writeln!(parts, "{around} fill=\"#ffffff\"{opacity} stroke=\"{colour}\" stroke-width=\"{thick}\"{dash}/>");
    if entry < 0 {
        let _ = writeln!(parts, "{around} fill=\"none\" stroke=\"#ffffff\" stroke-width=\"3\"/>");
    }
}

/// The screen's number and name, what it shows, and the view: as much of it as there is room for, the number at least.
fn put_content(parts: &mut String, (lane, entry): (usize, i8), frame: &Frame, names: &Names) {
    let colour = look::colour(usize::from(entry.unsigned_abs()));
    let Frame { left, top, wide, high } = *frame;
    let room = wide.saturating_sub(2 * MARGIN);
    let is_narrow = room < 3 * FONT;
    let own = names.screen(lane).map_or(lane.to_string(), |name| format!("{lane} {name}"));
    let shows = source(names, entry);
    let mut y = top + FONT + 2;
    let mut line = |parts: &mut String, text: &str, font: Font| {
        let text = if is_narrow { text.to_string() } else { fitted(text, font.size, room) };
        put(parts, (left + MARGIN, y), font, &text);
        y += font.size + 3;
        y <= top + high
    };
    // A screen too narrow for its name has its number, on a ground of its own if it is lower than a line.
    if high < FONT + 4 {
        let wide = length(&lane.to_string(), FONT) + 2 * MARGIN;
        let _ = writeln!(
            parts,
            "<rect x=\"{left}\" y=\"{top}\" width=\"{wide}\" height=\"{}\" fill=\"#ffffff\"/>",
            FONT + 4
        );
    }
    let label = if is_narrow { lane.to_string() } else { own };
    let mut has_room = line(parts, &label, Font::sized(FONT, "start")) && !is_narrow;
    has_room = has_room && line(parts, &shows, Font { colour, ..Font::sized(FONT, "start") });
    if entry < 0 && has_room {
        line(parts, "mirrored", Font::sized(SMALL, "start").grey());
    }
    if room >= VIEW && y + 4 <= top + high {
        put_view(parts, (left + MARGIN, y - FONT + 4), entry);
    }
}

#[cfg(test)]
mod tests {
    use super::*;

    #[test]
    fn screens_stand_at_their_places() {
        let names = Names::parse(b"screen 1 wind & rain\nsource 2 rear\nplace 1 250 100 500 350\n").unwrap();
        let picture = picture(&[-2, -1], &names, None).unwrap();
        assert!(picture.contains("<rect x=\"146\" y=\"33\" width=\"293\" height=\"115\""));
        assert!(picture.contains(">1 wind &amp; rain<") && picture.contains(">\u{2212}2 rear<"));
        assert!(picture.contains(">mirrored<") && picture.contains("scale(-1 1)"));
        assert!(super::picture(&[1, 2], &Names::default(), None).is_none());
        let small = Names::parse(b"place 1 0 0 20 20\n").unwrap();
        assert!(super::picture(&[1], &small, None).unwrap().contains(">1</text>"));
    }

    #[test]
    fn a_cabin_fits_the_page() {
        assert_eq!(size(SHAPE), (586, 330));
        assert_eq!(size((3000, 4000)), (247, 330));
        assert_eq!(size((10000, 1)), (680, 1));
    }
}
