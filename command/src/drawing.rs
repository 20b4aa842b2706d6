//! A preset as rows of columns of crossings, before it becomes text or a picture.
use crate::failure::Failure;
use crate::library::{self, Rig};
use crate::names::Names;
use std::ops::Range;

/// How the steps are laid out.
#[derive(Clone, Copy)]
pub struct Layout {
    /// The columns of a row.
    pub columns: usize,
    /// Whether steps that touch different lanes may share a column.
    pub shared: bool,
}

/// What a step does to the lanes, which count from 0.
#[derive(Clone, Copy)]
pub struct Step {
    pub letter: u8,
    /// The first lane that it touches.
    pub lane: usize,
    /// Whether it exchanges that lane and the next.
    pub crosses: bool,
    /// Whether it mirrors what it touches.
    pub mirrors: bool,
}

pub struct Column {
    pub steps: Vec<Step>,
    /// The window after it.
    pub after: Vec<i8>,
}

/// A part of the word, drawn from left to right.
pub struct Row {
    /// The window before the first column.
    pub start: Vec<i8>,
    pub columns: Vec<Column>,
    /// Its letters in the word, counted from 0.
    pub letters: Range<usize>,
}

pub struct Drawing {
    pub rig: Rig,
    /// What the word is.
    pub name: String,
    pub word: Vec<u8>,
    pub names: Names,
    /// One at least.
    pub rows: Vec<Row>,
}

impl Step {
    /// By what the letter alone does to the straight window.
    fn of(rig: Rig, letter: u8) -> Result<Step, Failure> {
        let (straight, shown) = (library::window(rig, &[])?, library::window(rig, &[letter])?);
        let mut touched = (0..straight.len()).filter(|&lane| straight[lane] != shown[lane]);
        let lane = touched.next().unwrap_or(0);
        Ok(Step { letter, lane, crosses: touched.next().is_some(), mirrors: shown[lane] < 0 })
    }

    /// The last lane that it touches.
    pub fn last(&self) -> usize {
        self.lane + usize::from(self.crosses)
    }

    /// Where a line goes that is on a lane before the step.
    pub fn lane_after(&self, lane: usize) -> usize {
        match lane {
            lane if !self.crosses => lane,
            lane if lane == self.lane => lane + 1,
            lane if lane == self.last() => lane - 1,
            lane => lane,
        }
    }
}

impl Column {
    /// The step that touches a lane.
    pub fn touching(&self, lane: usize) -> Option<&Step> {
        self.steps.iter().find(|step| (step.lane..=step.last()).contains(&lane))
    }
}

impl Row {
    /// The window after the last column.
    pub fn end(&self) -> &[i8] {
        self.columns.last().map_or(&self.start, |column| &column.after)
    }
}

impl Drawing {
    pub fn of(rig: Rig, name: &str, word: &[u8], names: &Names, layout: &Layout) -> Result<Drawing, Failure> {
        let mut start = library::window(rig, &[])?;
        let steps: Result<Vec<Step>, Failure> = word.iter().map(|&letter| Step::of(rig, letter)).collect();
        let mut rows = Vec::new();
        let mut before = 0;
        for columns in rows_of_columns(steps?, start.len(), layout) {
            let count = columns.iter().map(Vec::len).sum::<usize>();
            // Column by column the letters of a row are a word with the same window: only steps on different lanes have
            // changed places. So the library can tell the window after each column.
            let mut letters = word[..before].to_vec();
            let mut row = Row { start, columns: Vec::new(), letters: before..before + count };
            for steps in columns {
                letters.extend(steps.iter().map(|step| step.letter));
                row.columns.push(Column { steps, after: library::window(rig, &letters)? });
            }
            start = row.end().to_vec();
            before += count;
            rows.push(row);
        }
        if rows.is_empty() {
            rows.push(Row { start, columns: Vec::new(), letters: 0..0 });
        }
        Ok(Drawing { rig, name: name.to_string(), word: word.to_vec(), names: names.clone(), rows })
    }

    pub fn mirrors(&self) -> bool {
        self.rows.iter().flat_map(|row| &row.columns).flat_map(|column| &column.steps).any(|step| step.mirrors)
    }

    pub fn lanes(&self) -> usize {
        self.rows[0].start.len()
    }
}

/// The steps in rows of columns: each step in a column of its own, or in the first one behind those that touch its
/// lanes. Each row has a part of the word: it ends where a step would need one column too many.
fn rows_of_columns(steps: Vec<Step>, lanes: usize, layout: &Layout) -> Vec<Vec<Vec<Step>>> {
    let mut rows: Vec<Vec<Vec<Step>>> = Vec::new();
    let mut free = vec![0; lanes];
    for step in steps {
        let mut column = match rows.last() {
            None => layout.columns,
            Some(row) if !layout.shared => row.len(),
            Some(_) => free[step.lane].max(free[step.last()]),
        };
        if column >= layout.columns {
            rows.push(Vec::new());
            free.fill(0);
            column = 0;
        }
        let row = rows.last_mut().expect("one row at least");
        if column == row.len() {
            row.push(Vec::new());
        }
        row[column].push(step);
        free[step.lane] = column + 1;
        free[step.last()] = column + 1;
    }
    rows
}

/// The columns that each row takes up, so that all rows end alike.
pub fn width(drawings: &[Drawing]) -> usize {
    drawings.iter().flat_map(|drawing| &drawing.rows).map(|row| row.columns.len()).max().unwrap_or(0).max(1)
}

#[cfg(test)]
mod tests {
    use super::*;
    use crate::library::Kind;

    fn drawn(kind: Kind, rank: u8, word: &[u8], shared: bool) -> Drawing {
        let layout = Layout { columns: 4, shared };
        Drawing::of(Rig { kind, rank }, "typed", word, &Names::default(), &layout).ok().expect("an accepted word")
    }

    #[test]
    fn both_layouts_end_with_the_window_of_the_word() {
        for (kind, rank) in [(Kind::A, 1), (Kind::A, 7), (Kind::B, 2), (Kind::B, 8), (Kind::D, 4), (Kind::D, 9)] {
            let word: Vec<u8> = (0..60u8).map(|k| k.wrapping_mul(37) % rank + 1).collect();
            let window = library::window(Rig { kind, rank }, &word).unwrap();
            for shared in [false, true] {
                let drawing = drawn(kind, rank, &word, shared);
                assert_eq!(drawing.rows.last().unwrap().end(), window);
                let columns = drawing.rows.iter().flat_map(|row| &row.columns);
                assert_eq!(columns.map(|column| column.steps.len()).sum::<usize>(), word.len());
            }
        }
    }

    #[test]
    fn each_row_has_a_part_of_the_word() {
        let word: Vec<u8> = (0..60u8).map(|k| k.wrapping_mul(37) % 9 + 1).collect();
        let drawing = drawn(Kind::D, 9, &word, true);
        assert!(drawing.rows.len() > 2);
        let mut before = 0;
        for row in &drawing.rows {
            assert_eq!(row.letters.start, before);
            assert!(row.columns.len() <= 4);
            before = row.letters.end;
            assert_eq!(row.end(), library::window(drawing.rig, &word[..before]).unwrap());
        }
        assert_eq!(before, word.len());
    }

    #[test]
    fn the_lines_lead_to_the_numbers_at_the_end() {
        let drawing = drawn(Kind::D, 5, &[5, 4, 2, 5, 3, 1, 5, 2, 3], true);
        for row in &drawing.rows {
            for (start, entry) in row.start.iter().enumerate() {
                let (mut lane, mut entry) = (start, *entry);
                for column in &row.columns {
                    if let Some(step) = column.touching(lane) {
                        lane = step.lane_after(lane);
                        entry = if step.mirrors { -entry } else { entry };
                    }
                    assert_eq!(column.after[lane], entry);
                }
            }
        }
    }
}
