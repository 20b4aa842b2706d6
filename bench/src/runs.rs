//! The times of several runs, each a program of its own with its functions in another order: as lines of text, and the
//! median of each cell over them.
use crate::timing::{Cell, Side, median};
use std::fs;

const SIDES: [Side; 4] = [Side::Rattle, Side::Rust, Side::Cpp, Side::Before];

/// A line for each cell: call, row, column, steps, and each side's nanoseconds, or nothing.
pub fn print(cells: &[Cell]) {
    for cell in cells {
        let times = SIDES.map(|side| cell.time(side).map(|time| time.to_string()).unwrap_or_default());
        println!("{}\t{}\t{}\t{}\t{}", cell.call, cell.row, cell.column, cell.steps, times.join("\t"));
    }
}

fn read(line: &str) -> Option<Cell> {
    let mut fields = line.split('\t');
    let mut text = || fields.next().map(str::to_string);
    let (call, row, column, steps) = (text()?, text()?, text()?, text()?.parse().ok()?);
    let times = SIDES.into_iter().zip(fields).filter_map(|(side, time)| Some((side, time.parse().ok()?))).collect();
    Some(Cell { call, row, column, steps, times })
}

/// The cells of the runs whose lines the files have, each with its sides' medians over the runs.
pub fn medians(files: &[String]) -> Vec<Cell> {
    let runs: Vec<Vec<Cell>> = files
        .iter()
        .map(|file| {
            let text = fs::read_to_string(file).unwrap_or_else(|error| panic!("{file}: {error}"));
            text.lines().map(|line| read(line).unwrap_or_else(|| panic!("{file}: {line}"))).collect()
        })
        .collect();
    let [first, ..] = &runs[..] else { return Vec::new() };
    assert!(runs.iter().all(|run| run.len() == first.len()), "the runs have different cells");
    let over_runs = |k: usize, side: Side| median(runs.iter().filter_map(|run| run[k].time(side)).collect());
    let with_medians = |(k, cell): (usize, &Cell)| {
        let times = cell.times.iter().map(|(side, _)| (*side, over_runs(k, *side))).collect();
        Cell { times, ..cell.clone() }
    };
    first.iter().enumerate().map(with_medians).collect()
}
