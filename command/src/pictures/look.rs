//! How strands look: measures by the number of lanes, colours and dashes by the source.
use crate::drawing::Layout;

/// The measures of a drawing.
#[derive(Clone, Copy)]
pub struct Measures {
    /// From a lane to the next: an even number.
    pub lane: usize,
    /// A crossing's width: a multiple of 8.
    pub crossing: usize,
    /// From a crossing to the next.
    pub gap: usize,
    /// The labels' size, and that of a step's number where steps share a column.
    pub font: usize,
    pub number: usize,
    /// A row's columns take up so many pixels at least, so that a few crossings stand apart.
    pub narrow: usize,
}

/// A row's columns take up so many pixels at most: what a window on the screen shows, and a page at a readable size.
const WIDE: usize = 1000;

pub fn measures(lanes: usize) -> Measures {
    match lanes {
        0..=16 => Measures { lane: 28, crossing: 24, gap: 16, font: 16, number: 10, narrow: 360 },
        17..=32 => Measures { lane: 22, crossing: 24, gap: 16, font: 14, number: 10, narrow: 600 },
        _ => Measures { lane: 18, crossing: 16, gap: 16, font: 13, number: 10, narrow: WIDE },
    }
}

/// Steps share columns where they are too many for one row.
pub fn layout(lanes: usize, letters: usize) -> Layout {
    let Measures { crossing, gap, .. } = measures(lanes);
    let columns = WIDE / (crossing + gap);
    Layout { columns, shared: letters > columns }
}

/// Dark enough for paper, and told apart by readers who see few colours.
const COLOURS: [&str; 8] = ["#000000", "#0072b2", "#c0410b", "#007a5a", "#a0468c", "#7a5c00", "#3a86d4", "#707070"];

/// With the ninth source the colours come again, with another dash.
const DASHES: [&str; 8] = ["", "10 4", "3 4", "12 4 3 4", "18 5", "7 3 3 3 3 3", "5 2 5 7", "18 4 2 4 2 4"];

/// By the source's number, from 1.
pub fn colour(source: usize) -> &'static str {
    COLOURS[(source - 1) % COLOURS.len()]
}

/// The attribute of a dash, or nothing.
pub fn dash(source: usize) -> String {
    match DASHES[(source - 1) / COLOURS.len() % DASHES.len()] {
        "" => String::new(),
        dash => format!(" stroke-dasharray=\"{dash}\""),
    }
}

#[cfg(test)]
mod tests {
    use super::*;

    #[test]
    fn no_two_sources_look_alike() {
        let looks: Vec<_> = (1..=64).map(|source| (colour(source), dash(source))).collect();
        for (number, look) in looks.iter().enumerate() {
            assert!(!looks[..number].contains(look), "source {}", number + 1);
        }
    }
}
