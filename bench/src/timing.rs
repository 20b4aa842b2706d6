//! Cells: one call on one sort of inputs, timed for each side.
use std::hint::black_box;
use std::time::{Duration, Instant};

/// Inputs for one cell: a run goes through all of them, so that the processor cannot learn a single one by heart.
pub const INPUTS: usize = 64;
/// Runs of each side; they alternate, and the median counts.
const SAMPLES: usize = 17;
/// The least time of one run.
const RUN: Duration = Duration::from_micros(400);

/// Where the calls write.
#[derive(Clone)]
pub struct Outputs {
    pub lanes: Vec<i8>,
    pub bytes: Vec<u8>,
    pub second: Vec<u8>,
    pub rule: [u8; 3],
    pub fields: Vec<u64>,
    pub counts: Counts,
    /// The places of a fallback, which is free to choose them.
    pub places: Vec<u16>,
    /// A rewriting to its end: the family, the place and the length left of each step.
    pub families: Vec<u8>,
    pub at: Vec<u16>,
    pub left: Vec<u16>,
}

impl Outputs {
    pub fn new() -> Outputs {
        Outputs {
            lanes: vec![0; 64],
            bytes: vec![0; 65535],
            second: vec![0; 4096],
            rule: [0; 3],
            fields: vec![0; 5 * 10_922],
            counts: Counts { list: [0; 3], pair: [0; 2], triple: [0; 3] },
            places: vec![0; 4096],
            families: vec![0; 65535],
            at: vec![0; 65535],
            left: vec![0; 65535],
        }
    }

    /// Whether a side wrote the same. Early archives may write numbers beside the answer elsewhere.
    fn agree(&self, side: Side, other: &Outputs) -> bool {
        self.lanes == other.lanes
            && self.bytes == other.bytes
            && self.second == other.second
            && self.rule == other.rule
            && self.fields == other.fields
            && self.families == other.families
            && self.at == other.at
            && self.left == other.left
            && (side == Side::Before || self.counts.list == other.counts.list)
    }
}

/// Room for the few numbers beside an answer, in the form that a call asks for: a list, in early archives single numbers.
#[derive(Clone)]
pub struct Counts {
    list: [u64; 3],
    pair: [usize; 2],
    triple: [usize; 3],
}

pub trait Room<T: ?Sized> {
    fn room(&mut self) -> &mut T;
}

impl Room<[u64]> for Counts {
    fn room(&mut self) -> &mut [u64] {
        &mut self.list
    }
}

impl Room<usize> for Counts {
    fn room(&mut self) -> &mut usize {
        &mut self.pair[0]
    }
}

impl Room<[usize; 2]> for Counts {
    fn room(&mut self) -> &mut [usize; 2] {
        &mut self.pair
    }
}

impl Room<[usize; 3]> for Counts {
    fn room(&mut self) -> &mut [usize; 3] {
        &mut self.triple
    }
}

/// A call on its inputs, by their number. Each has a loop of its own, so that nothing stands between it and its call.
pub trait Timed {
    fn answer(&mut self, input: usize, outputs: &mut Outputs) -> i64;
    /// Nanoseconds for one call.
    fn run(&mut self, rounds: usize, outputs: &mut Outputs) -> f64;
}

impl<F: FnMut(usize, &mut Outputs) -> i64> Timed for F {
    fn answer(&mut self, input: usize, outputs: &mut Outputs) -> i64 {
        self(input, outputs)
    }

    fn run(&mut self, rounds: usize, outputs: &mut Outputs) -> f64 {
        let start = Instant::now();
        for _ in 0..rounds {
            for k in 0..INPUTS {
                black_box(self(black_box(k), black_box(&mut *outputs)));
            }
        }
        start.elapsed().as_nanos() as f64 / (rounds * INPUTS) as f64
    }
}

#[derive(Clone, Copy, Debug, PartialEq)]
pub enum Side {
    Rattle,
    Rust,
    Cpp,
    Before,
}

/// The time of one call in nanoseconds, by its table, row and column; `steps` is the number of steps of a long rewriting.
#[derive(Clone)]
pub struct Cell {
    pub call: String,
    pub row: String,
    pub column: String,
    pub steps: usize,
    pub times: Vec<(Side, f64)>,
}

impl Cell {
    pub fn time(&self, side: Side) -> Option<f64> {
        self.times.iter().find(|(of, _)| *of == side).map(|(_, time)| *time)
    }

    /// The time of Rattle over that of the side.
    pub fn ratio(&self, side: Side) -> Option<f64> {
        Some(self.time(Side::Rattle)? / self.time(side)?)
    }
}

pub struct Bench {
    pub filter: String,
    pub cells: Vec<Cell>,
    /// Those of each side, so that what it writes can be compared.
    outputs: [Outputs; 4],
}

impl Bench {
    pub fn new(filter: String) -> Bench {
        Bench { filter, cells: Vec::new(), outputs: std::array::from_fn(|_| Outputs::new()) }
    }

    /// Times each side, once all have given the same answers and written the same outputs.
    pub fn cell(
        &mut self,
        call: &'static str,
        row: impl ToString,
        column: impl ToString,
        mut sides: Vec<(Side, Box<dyn Timed + '_>)>,
    ) {
        if !call.contains(&self.filter) {
            return;
        }
        sides.retain(|(side, _)| *side != Side::Before || cfg!(before));
        let (row, column) = (row.to_string(), column.to_string());
        let [outputs, others @ ..] = &mut self.outputs;
        others.iter_mut().for_each(|others| others.clone_from(outputs));
        for k in 0..INPUTS {
            let ((_, first), rest) = sides.split_first_mut().expect("a cell has sides");
            let answer = first.answer(k, outputs);
            assert!(answer >= 0, "{call}, {row}, {column}: refused {answer}");
            for ((side, call_of), others) in rest.iter_mut().zip(others.iter_mut()) {
                let other = call_of.answer(k, others);
                assert!(answer == other, "{call}, {row}, {column}: {answer}, and {other} of {side:?}");
                assert!(outputs.agree(*side, others), "{call}, {row}, {column}: {side:?} writes something else");
            }
        }
        let times = medians(&mut sides, outputs);
        self.cells.push(Cell { call: call.to_string(), row, column, steps: 0, times });
    }
}

/// How many rounds fill the time of one run.
fn rounds(call: &mut dyn Timed, outputs: &mut Outputs) -> usize {
    let mut rounds = 1;
    while call.run(rounds, outputs) * ((rounds * INPUTS) as f64) < RUN.as_nanos() as f64 {
        rounds *= 2;
    }
    rounds
}

fn medians(sides: &mut [(Side, Box<dyn Timed + '_>)], outputs: &mut Outputs) -> Vec<(Side, f64)> {
    let rounds: Vec<usize> = sides.iter_mut().map(|(_, call)| rounds(call.as_mut(), outputs)).collect();
    let mut times = vec![Vec::new(); sides.len()];
    for _ in 0..SAMPLES {
        for ((times, (_, call)), rounds) in times.iter_mut().zip(sides.iter_mut()).zip(&rounds) {
            times.push(call.run(*rounds, outputs));
        }
    }
    sides.iter().zip(times).map(|((side, _), times)| (*side, median(times))).collect()
}

/// The middle of the times, or the mean of the two in the middle.
pub fn median(mut times: Vec<f64>) -> f64 {
    times.sort_by(f64::total_cmp);
    (times[(times.len() - 1) / 2] + times[times.len() / 2]) / 2.0
}

/// A cell whose sides are calls of one name and the same arguments, in modules of the names in brackets.
macro_rules! cell {
    ($bench:expr, $call:expr, $row:expr, $column:expr, [$($side:ident)*],
     |$k:pat_param, $out:pat_param| $name:ident $arguments:tt) => {
        $bench.cell($call, $row, $column, vec![$((
            $crate::timing::side!($side),
            Box::new(|$k: usize, $out: &mut Outputs| $side::$name $arguments) as Box<dyn $crate::timing::Timed + '_>,
        )),*]);
    };
}

macro_rules! side {
    (rattle) => {
        $crate::timing::Side::Rattle
    };
    (plain) => {
        $crate::timing::Side::Rust
    };
    (library_way) => {
        $crate::timing::Side::Rust
    };
    (straight) => {
        $crate::timing::Side::Cpp
    };
    (before) => {
        $crate::timing::Side::Before
    };
}

pub(crate) use {cell, side};
