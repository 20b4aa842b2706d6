//! The cells as Markdown: a summary, a table for each call, and the cells that miss a goal.
use crate::books;
use crate::timing::{Cell, Side};
use crate::traces;

const OTHERS: [Side; 3] = [Side::Rust, Side::Cpp, Side::Before];

/// Below so many nanoseconds a call may take a tenth longer than the others.
const SHORT: f64 = 40.0;

fn name(side: Side) -> String {
    match side {
        Side::Rattle => "Rattle".to_string(),
        Side::Rust => "plain Rust".to_string(),
        Side::Cpp => "C++".to_string(),
        Side::Before => format!("commit {}", env!("WINNATHEY_COMMIT_BEFORE")),
    }
}

/// The values without repetition, in their order.
fn distinct<'a>(values: impl Iterator<Item = &'a str>) -> Vec<&'a str> {
    let mut seen = Vec::new();
    for value in values {
        if !seen.contains(&value) {
            seen.push(value);
        }
    }
    seen
}

/// The others that some cell has a time of.
fn timed(cells: &[&Cell]) -> Vec<Side> {
    OTHERS.into_iter().filter(|side| cells.iter().any(|cell| cell.time(*side).is_some())).collect()
}

fn names(sides: &[Side], between: &str) -> String {
    sides.iter().map(|side| name(*side)).collect::<Vec<_>>().join(between)
}

/// The cells by their calls.
fn by_call(cells: &[Cell]) -> Vec<(&str, Vec<&Cell>)> {
    let calls = distinct(cells.iter().map(|cell| cell.call.as_str()));
    calls.into_iter().map(|call| (call, cells.iter().filter(|cell| cell.call == call).collect())).collect()
}

pub fn tables(cells: &[Cell]) {
    let (long, calls): (Vec<_>, Vec<_>) = by_call(cells).into_iter().partition(|(call, _)| *call == traces::CALL);
    summary(&calls, &timed(&cells.iter().collect::<Vec<_>>()));
    for (call, cells) in &calls {
        table(call, cells);
    }
    for (_, cells) in &long {
        traces::print(cells);
    }
}

/// The lowest ratio of each call, the median and the highest.
fn summary(calls: &[(&str, Vec<&Cell>)], sides: &[Side]) {
    println!("Time of Rattle over that of the others: the lowest ratio of a call, the median and the highest.\n");
    println!("| Call | {} |", names(sides, " | "));
    println!("|---|{}", "--:|".repeat(sides.len()));
    for (call, cells) in calls {
        print!("| {call} |");
        for side in sides {
            let mut ratios: Vec<f64> = cells.iter().filter_map(|cell| cell.ratio(*side)).collect();
            ratios.sort_by(f64::total_cmp);
            match ratios[..] {
                [] => print!(" |"),
                [lowest, .., highest] => print!(" {lowest:.2}, {:.2}, {highest:.2} |", ratios[ratios.len() / 2]),
                [only] => print!(" {only:.2} |"),
            }
        }
        println!();
    }
}

fn table(call: &str, cells: &[&Cell]) {
    let rows = distinct(cells.iter().map(|cell| cell.row.as_str()));
    let columns = distinct(cells.iter().map(|cell| cell.column.as_str()));
    let sides = timed(cells);
    println!("\nNanoseconds for one call, and in brackets over {}:\n", names(&sides, ", "));
    println!("| {call} | {} |", columns.join(" | "));
    println!("|---|{}", "--:|".repeat(columns.len()));
    for row in rows {
        print!("| {row} |");
        for column in &columns {
            match cells.iter().find(|cell| cell.row == row && cell.column == *column) {
                Some(cell) => {
                    let ratios: Vec<String> =
                        sides.iter().filter_map(|side| Some(format!("{:.2}", cell.ratio(*side)?))).collect();
                    print!(" {:.0} ({}) |", cell.rattle(), ratios.join(", "));
                }
                None => print!(" |"),
            }
        }
        println!();
    }
}

/// Names the cells that miss a goal: at most 1.0 of the faster of plain Rust and C++, 1.1 for short calls, and checks of
/// books at most 0.6 of plain Rust.
pub fn goals(cells: &[Cell]) {
    let slow = |cell: &Cell| cell.over_faster().is_some_and(|(_, ratio)| above(ratio, cell.most()));
    let missed: Vec<&Cell> =
        by_call(cells).into_iter().flat_map(|(_, cells)| cells).filter(|cell| slow(cell)).collect();
    println!(
        "\nThe goal is at most 1.00 of the faster of plain Rust and C++, at most 1.10 for calls of less than {SHORT} ns. {} \
         of {} cells miss it.\n",
        missed.len(),
        cells.len()
    );
    for cell in missed {
        let Some((side, ratio)) = cell.over_faster() else { continue };
        let more = cell.rattle() - cell.rattle() / ratio;
        println!("- {}: {ratio:.2} of {}, {more:.0} ns more", place(cell), name(side));
    }
    let checks: Vec<&Cell> = cells.iter().filter(|cell| cell.call == books::CHECK).collect();
    let slow = |cell: &Cell| cell.ratio(Side::Rust).is_some_and(|ratio| above(ratio, 0.6));
    let missed: Vec<&&Cell> = checks.iter().filter(|cell| slow(cell)).collect();
    println!(
        "\nThe goal for checks of books is at most 0.60 of plain Rust. {} of {} cells miss it.\n",
        missed.len(),
        checks.len()
    );
    for cell in missed {
        println!("- {}: {:.2}", place(cell), cell.ratio(Side::Rust).unwrap_or_default());
    }
}

fn place(cell: &Cell) -> String {
    format!("{}, {}, {}", cell.call, cell.row, cell.column)
}

/// As they are printed, in hundredths.
fn above(ratio: f64, most: f64) -> bool {
    (ratio * 100.0).round() > (most * 100.0).round()
}

impl Cell {
    fn rattle(&self) -> f64 {
        self.times[0].1
    }

    /// The time of Rattle over the lower of the times of plain Rust and C++.
    fn over_faster(&self) -> Option<(Side, f64)> {
        let ratios = [Side::Rust, Side::Cpp].into_iter().filter_map(|side| Some((side, self.ratio(side)?)));
        ratios.max_by(|first, second| first.1.total_cmp(&second.1))
    }

    fn most(&self) -> f64 {
        if self.rattle() < SHORT { 1.1 } else { 1.0 }
    }
}
