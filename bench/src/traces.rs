//! Rewritings to their end: long words, and the worst that are known, with the number of steps.
use crate::inputs::Random;
use crate::timing::{Cell, Side};
use plain::library_way;
use std::hint::black_box;
use std::time::Instant;
use winnathey::raw as rattle;

/// Runs of each side; they alternate, and the fastest counts: a run is long, so that other work on the cores shows in most.
const SAMPLES: usize = 9;
const LETTERS: usize = 4096;
pub const CALL: &str = "rewriting to the end";

/// The longest normal form reversed, at rank 64 that over the steps from 10 on, then step n repeated; in kind A the steps
/// upwards, then stairs over all but the last three, then step n - 1 repeated.
fn worst(kind: u32, rank: u32) -> Vec<u8> {
    let n = rank as u8;
    let mut word: Vec<u8> = Vec::new();
    if kind == plain::A {
        word.extend(1..=n);
        for top in 1..=n - 3 {
            word.extend((1..=top).rev());
        }
    } else {
        // The longest block of each level, from the highest on.
        let last = if kind == plain::B { n } else { n - 1 };
        let first = if n == 64 { 10 } else { 1 };
        for i in (first..=last).rev() {
            if kind == plain::B {
                word.extend((i..=n).chain((i..n).rev()));
            } else {
                word.extend((i..n - 1).chain([n]).chain((i..n).rev()));
            }
        }
        word.reverse();
    }
    word.truncate(LETTERS);
    word.resize(LETTERS, if kind == plain::A { n - 1 } else { n });
    word
}

struct Lists {
    families: Vec<u8>,
    places: Vec<u16>,
    lengths: Vec<u16>,
    out: Vec<u8>,
}

/// What the two columns of a word are called in its cells.
const LISTED: &str = "with its lists";
const COUNTED: &str = "only counted";

pub fn cells(random: &mut Random) -> Vec<Cell> {
    let mut cells = Vec::new();
    for (kind, rank, rig) in [(1, 31, "A31"), (2, 32, "B32"), (1, 63, "A63"), (2, 64, "B64"), (3, 64, "D64")] {
        let words = [("random", random.word(rank, LETTERS)), ("worst known", worst(kind, rank))];
        for (name, word) in words {
            let steps = rattle::rewrite_steps(kind, rank, &word) as usize;
            let [to_end, counted] = times(kind, rank, &word, steps);
            let cell = |column: &str, [rattle, plain]: [f64; 2]| Cell {
                call: CALL.to_string(),
                row: format!("{rig}, {name}"),
                column: column.to_string(),
                steps,
                times: vec![(Side::Rattle, rattle * 1e9), (Side::Rust, plain * 1e9)],
            };
            cells.extend([cell(LISTED, to_end), cell(COUNTED, counted)]);
        }
    }
    cells
}

/// Prints the table of the cells, which come in pairs.
pub fn print(cells: &[&Cell]) {
    println!(
        "\n| {CALL}, {LETTERS} letters | steps | milliseconds | nanoseconds a step | over plain Rust | {COUNTED}, over plain \
         Rust |\n|---|--:|--:|--:|--:|--:|"
    );
    for pair in cells.chunks_exact(2) {
        let ratio = |cell: &Cell| cell.ratio(Side::Rust).unwrap_or_default();
        let time = pair[0].time(Side::Rattle).unwrap_or_default();
        let (row, steps) = (&pair[0].row, pair[0].steps);
        let a_step = time / steps as f64;
        println!(
            "| {row} | {steps} | {:.2} | {a_step:.2} | {:.2} | {:.2} |",
            time / 1e6,
            ratio(pair[0]),
            ratio(pair[1])
        );
    }
}

/// Seconds of Rattle and of plain Rust, for the rewriting and for its steps only counted.
fn times(kind: u32, rank: u32, word: &[u8], steps: usize) -> [[f64; 2]; 2] {
    let mut lists =
        Lists { families: vec![0; steps], places: vec![0; steps], lengths: vec![0; steps], out: vec![0; LETTERS] };
    macro_rules! run {
        ($from:ident) => {{
            let Lists { families, places, lengths, out } = &mut lists;
            let start = Instant::now();
            let answer = $from::rewrite_to_end(kind, rank, black_box(word), families, places, lengths, out, &mut [0]);
            assert_eq!(answer, steps as i64);
            start.elapsed().as_secs_f64()
        }};
    }
    macro_rules! count {
        ($from:ident) => {{
            let start = Instant::now();
            assert_eq!($from::rewrite_steps(kind, rank, black_box(word)), steps as i64);
            start.elapsed().as_secs_f64()
        }};
    }
    let mut times = [const { Vec::new() }; 4];
    for _ in 0..SAMPLES {
        for (list, time) in times.iter_mut().zip([run!(rattle), run!(library_way), count!(rattle), count!(library_way)])
        {
            list.push(time);
        }
    }
    let [rattle, plain, counted, plainly] = times.map(|times| times.into_iter().fold(f64::INFINITY, f64::min));
    [[rattle, plain], [counted, plainly]]
}
