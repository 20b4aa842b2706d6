//! The picture of a preset on paper: rows no wider than a page, a picture each, in which no text is smaller than 8 points.
use super::look::Measures;
use super::strands::{Sheet, VIEW, part_of, put_row, screen, source};
use super::{framed, length};
use crate::drawing::{Drawing, Layout, width};
use crate::names::Names;

/// What a sheet of A4 has between its margins, in pixels of a 96th of an inch.
pub const WIDE: usize = 680;
/// A label with a name has so many pixels at most, by the number of lanes; the table of screens has the whole name.
fn room(lanes: usize) -> usize {
    match lanes {
        0..=16 => 180,
        17..=32 => 150,
        _ => 84,
    }
}

const EDGE: usize = 4;
/// From the picture's top to the first lane: the steps' numbers.
const TOP: usize = 24;

/// Eleven pixels are 8.25 points.
fn measures(lanes: usize) -> Measures {
    match lanes {
        0..=16 => Measures { lane: 26, crossing: 24, gap: 14, font: 12, number: 11, narrow: 320 },
        17..=32 => Measures { lane: 18, crossing: 24, gap: 14, font: 11, number: 11, narrow: 400 },
        _ => Measures { lane: 14, crossing: 16, gap: 16, font: 11, number: 11, narrow: 400 },
    }
}

/// What stands at both ends of a row, in pixels.
struct Ends {
    /// From the edge to the lanes.
    left: usize,
    /// The longest label of a source.
    sources: usize,
    /// From the end of the lanes to the edge.
    right: usize,
    /// Whether the screens' names stand below the sources': lanes are far enough apart.
    is_double: bool,
}

impl Ends {
    fn of(lanes: usize, names: &Names) -> Ends {
        let Measures { lane: apart, font, .. } = measures(lanes);
        let longest = |label: &dyn Fn(usize) -> String| {
            (1..=lanes).map(|lane| length(&label(lane), font)).max().unwrap_or(0).min(room(lanes))
        };
        // Any source can come mirrored, with its sign.
        let sources = longest(&|lane| source(names, -(lane as i8)));
        let screens = longest(&|lane| screen(names, lane));
        let is_double = apart >= 26;
        let labels = if is_double { sources.max(screens) } else { sources + 8 + screens };
        // The words above the screens need room too.
        let right = (8 + VIEW + 8 + labels).max(8 + length("on the screen", 13)) + EDGE;
        Ends { left: EDGE + sources.max(44) + 8, sources, right, is_double }
    }

    /// What is left for the columns.
    fn inside(&self) -> usize {
        WIDE - self.left - self.right
    }
}

/// The sheet of a drawing whose rows have so many columns. A few crossings stand further apart.
fn sheet(lanes: usize, columns: usize, names: &Names, shared: bool) -> Sheet {
    let ends = Ends::of(lanes, names);
    let mut measures = measures(lanes);
    let spare = measures.narrow.min(ends.inside()).saturating_sub(columns * measures.crossing);
    measures.gap = measures.gap.max(spare / (columns + 1));
    let right = ends.left + columns * (measures.crossing + measures.gap) + measures.gap;
    let label = right + 8 + VIEW + 8;
    let (below, screens) = if ends.is_double { (12, label) } else { (0, label + ends.sources + 8) };
    Sheet { measures, left: ends.left, right, screens, below, wide: right + ends.right, shared, room: room(lanes) }
}

/// As many columns as fit; steps share them if they are too many.
pub fn layout(lanes: usize, letters: usize, names: &Names) -> Layout {
    let Measures { crossing, gap, .. } = measures(lanes);
    let columns = ((Ends::of(lanes, names).inside() - gap) / (crossing + gap)).max(1);
    Layout { columns, shared: letters > columns }
}

/// Each row with the letters that it has, if there are several.
pub fn rows(drawing: &Drawing, shared: bool) -> Vec<(Option<String>, String)> {
    let sheet = sheet(drawing.lanes(), width(std::slice::from_ref(drawing)), &drawing.names, shared);
    let row = |(number, row)| {
        let mut parts = String::new();
        put_row(&mut parts, drawing, number, TOP, &sheet);
        let letters = part_of(drawing, row);
        let caption = (drawing.rows.len() > 1).then(|| letters.clone());
        let high = TOP + drawing.lanes() * sheet.measures.lane + EDGE;
        (caption, framed(sheet.wide, high, &format!("{}, {letters}", drawing.rig), &parts))
    };
    drawing.rows.iter().enumerate().map(row).collect()
}

#[cfg(test)]
mod tests {
    use super::*;
    use crate::library::{Kind, Rig};

    #[test]
    fn a_name_of_sixteen_letters_is_whole() {
        let names = Names::parse(b"screen 3 far right window").unwrap();
        let drawing =
            Drawing::of(Rig { kind: Kind::B, rank: 8 }, "stored", &[], &names, &layout(8, 0, &names)).ok().unwrap();
        assert!(rows(&drawing, false)[0].1.contains("screen 3 far right window<"));
    }

    #[test]
    fn no_row_is_wider_than_a_page_or_has_small_text() {
        let long = "W".repeat(80);
        let named: String = (1..=64).map(|lane| format!("source {lane} {long}\nscreen {lane} {long}\n")).collect();
        for names in [Names::default(), Names::parse(named.as_bytes()).unwrap()] {
            for (kind, rank, letters) in
                [(Kind::A, 5, 3), (Kind::B, 8, 100), (Kind::D, 16, 300), (Kind::B, 20, 50), (Kind::B, 64, 1000)]
            {
                let word: Vec<u8> = (0..letters).map(|k| (k * 37 % usize::from(rank) + 1) as u8).collect();
                let lanes = crate::library::lanes(Rig { kind, rank }).unwrap();
                let layout = layout(lanes, word.len(), &names);
                let drawing = Drawing::of(Rig { kind, rank }, "stored", &word, &names, &layout).ok().unwrap();
                let rows = rows(&drawing, layout.shared);
                assert_eq!(rows.len(), drawing.rows.len());
                for (_, picture) in rows {
                    let numbers = |front: &str| -> Vec<usize> {
                        let parts = picture.split(front).skip(1);
                        parts.map(|part| part.split('"').next().unwrap().parse().unwrap()).collect()
                    };
                    assert!(numbers("<svg xmlns=\"http://www.w3.org/2000/svg\" width=\"")[0] <= WIDE);
                    assert!(numbers("font-size=\"").into_iter().min() >= Some(11));
                }
            }
        }
    }
}
