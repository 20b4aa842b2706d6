//! A strand's way through a row.
use super::look::Measures;
use crate::drawing::{Row, Step};
use std::fmt::Write;

/// Where a row lies.
#[derive(Clone, Copy)]
pub struct Place {
    pub top: usize,
    pub left: usize,
    pub right: usize,
    pub measures: Measures,
}

impl Place {
    /// The height of a lane's line.
    pub fn line(&self, lane: usize) -> usize {
        self.top + self.measures.lane / 2 + lane * self.measures.lane
    }

    /// Where a column's crossings begin.
    pub fn column(&self, number: usize) -> usize {
        self.left + self.measures.gap + number * (self.measures.crossing + self.measures.gap)
    }
}

/// A strand's path, where it is not mirrored and where it is, and places for its label on the way.
#[derive(Default)]
pub struct Strand {
    pub plain: String,
    pub mirrored: String,
    /// Where, at which lane, and whether it is mirrored there.
    pub labels: Vec<(usize, usize, bool)>,
}

/// A label comes after so many pixels without one.
const APART: usize = 240;

impl Strand {
    fn path(&mut self, mirrored: bool) -> &mut String {
        if mirrored { &mut self.mirrored } else { &mut self.plain }
    }

    /// Follows the strand that begins at a lane through the columns.
    pub fn of(row: &Row, start: usize, place: &Place) -> Strand {
        let mut strand = Strand::default();
        let (mut lane, mut mirrored) = (start, row.start[start] < 0);
        let mut labelled = place.left;
        let _ = write!(strand.path(mirrored), "M{} {}", place.left, place.line(lane));
        for (number, column) in row.columns.iter().enumerate() {
            let x = place.column(number);
            let Some(step) = column.touching(lane) else {
                let middle = x + place.measures.crossing / 2;
                if middle - labelled >= APART && place.right - middle >= APART / 3 {
                    strand.labels.push((middle, lane, mirrored));
                    labelled = middle;
                }
                continue;
            };
            if step.crosses {
                strand.cross(step, lane, &mut mirrored, (x, place));
            } else {
                strand.mirror(&mut mirrored, x + place.measures.crossing / 2, place.line(lane));
            }
            lane = step.lane_after(lane);
        }
        let _ = write!(strand.path(mirrored), "H{}", place.right);
        strand
    }

    /// A step that mirrors a lane where it is.
    fn mirror(&mut self, mirrored: &mut bool, x: usize, y: usize) {
        let _ = write!(self.path(*mirrored), "H{x}");
        *mirrored = !*mirrored;
        let _ = write!(self.path(*mirrored), "M{x} {y}");
    }

    /// Two arcs that meet in the middle of the crossing. The strand that comes from below passes under the other: its
    /// arcs end short of the middle.
    fn cross(&mut self, step: &Step, lane: usize, mirrored: &mut bool, (x, place): (usize, &Place)) {
        let wide = place.measures.crossing;
        let (y, next) = (place.line(lane), place.line(step.lane_after(lane)));
        let (half, between) = (x + wide / 2, (y + next) / 2);
        let under = lane != step.lane;
        // Three quarters of an arc, by its three points.
        let short = |end: usize| (7 * end + 9 * between) / 16;
        if under {
            let (turns, ends) = (x + wide * 3 / 16, (x + wide * 3 / 8, short(y)));
            let _ = write!(self.path(*mirrored), "H{x}Q{turns} {y} {} {}", ends.0, ends.1);
        } else {
            let _ = write!(self.path(*mirrored), "H{x}Q{} {y} {half} {between}", x + wide / 4);
        }
        if step.mirrors {
            *mirrored = !*mirrored;
        }
        if under {
            let (begins, turns) = ((x + wide * 5 / 8, short(next)), x + wide - wide * 3 / 16);
            let _ = write!(self.path(*mirrored), "M{} {}", begins.0, begins.1);
            let _ = write!(self.path(*mirrored), "Q{turns} {next} {} {next}", x + wide);
            return;
        }
        if step.mirrors {
            let _ = write!(self.path(*mirrored), "M{half} {between}");
        }
        let _ = write!(self.path(*mirrored), "Q{} {next} {} {next}", half + wide / 4, x + wide);
    }
}
