//! Times the verified library beside plain Rust, straightforward C++ and an earlier archive, and prints Markdown tables.
//!
//! All sides answer the same call on the same inputs into the same outputs, through functions that are not inlined here:
//! the archive's, called over the C interface; `plain`'s, at opt-level 3, for rewritings to their end, splits and ways that
//! of `plain::library_way`, which has the library's method; for what one would write by hand those of `straight.cpp`; and
//! the archive's of an earlier commit, where the build was told of one (`build.rs`). Outputs are not cleared in between.
//! `bench WORD` times only the calls whose names have that word.
//!
//! Where a function lies in memory moves a time by some hundredths. So `bench/run` links the program in several orders,
//! has each of these programs time the calls with `bench --times WORD`, and hands what they print to
//! `bench --tables FILE..`, which takes the medians over them.
mod before;
mod books;
mod inputs;
mod presets;
mod report;
mod runs;
mod straight;
mod timing;
mod traces;

use inputs::Random;
use timing::{Bench, Cell};

fn main() {
    let arguments: Vec<String> = std::env::args().skip(1).collect();
    match &arguments[..] {
        [option, files @ ..] if option == "--tables" => print(&runs::medians(files)),
        [option, rest @ ..] if option == "--times" => runs::print(&times(rest.first())),
        words => print(&times(words.first())),
    }
}

fn print(cells: &[Cell]) {
    report::tables(cells);
    report::goals(cells);
}

fn times(word: Option<&String>) -> Vec<Cell> {
    let mut bench = Bench::new(word.cloned().unwrap_or_default());
    let mut random = Random(2026);
    for rank in [4, 16, 32, 64] {
        for (kind, name, most) in [(plain::A, "A", 63), (plain::B, "B", 64), (plain::D, "D", 64)] {
            let rank = rank.min(most);
            let rig = format!("{name}{rank}");
            presets::words(&mut bench, &mut random, kind, rank, &rig);
            presets::windows(&mut bench, &mut random, kind, rank, &rig);
            presets::rewrites(&mut bench, &mut random, kind, rank, &rig);
            presets::endings(&mut bench, &mut random, kind, rank, &rig);
            presets::fallbacks(&mut bench, &mut random, kind, rank, &rig);
            presets::splits(&mut bench, &mut random, kind, rank, &rig);
        }
    }
    presets::tables(&mut bench);
    books::books(&mut bench, &mut random);
    books::editions(&mut bench, &mut random);
    if traces::CALL.contains(&bench.filter) {
        bench.cells.extend(traces::cells(&mut random));
    }
    bench.cells
}
