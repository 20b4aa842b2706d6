//! Compares the verified library with the plain Rust version: the answer and every byte of every output of each call,
//! made over the C interface and, where kind and rank are bytes, by the safe Rust function as well.
//!
//! `compare` runs all groups, as many at a time as there are processors; `compare N` makes N random inputs in the last
//! group, `compare N SEED` starts them elsewhere. It prints how many calls each group compared, and ends with status 1 if
//! any differed.
mod books;
mod conversions;
mod edges;
mod empty;
mod examples;
mod exhaustive;
mod expected;
mod fallbacks;
mod inputs;
mod numbers;
mod random;
mod retired;
mod rewriting;
mod safe;
mod shortest;
mod sides;
mod splits;
mod traces;
mod ways;

use sides::Sides;
use std::process::ExitCode;
use std::sync::Mutex;
use std::sync::atomic::{AtomicUsize, Ordering};
use std::thread;

const RANDOM_INPUTS: u64 = 2_000_000;
const SEED: u64 = 1;

/// A name, and inputs that share nothing with those of another group.
type Group<'a> = (String, &'a (dyn Fn(&mut Sides) + Sync));

/// Runs the groups, each with sides of its own, and prints them in their order, each once those before it are done.
fn run(groups: &[Group]) -> Sides {
    let next = AtomicUsize::new(0);
    let ended = Mutex::new((vec![None; groups.len()], 0, Sides::new()));
    let work = || {
        loop {
            let at = next.fetch_add(1, Ordering::Relaxed);
            let Some((_, run)) = groups.get(at) else { return };
            let mut sides = Sides::new();
            run(&mut sides);
            let (calls, printed, all) = &mut *ended.lock().expect("no group failed");
            calls[at] = Some(sides.calls);
            all.add(&sides);
            while let Some(&Some(calls)) = calls.get(*printed) {
                println!("{calls:>10} calls: {}", groups[*printed].0);
                *printed += 1;
            }
        }
    };
    let threads = thread::available_parallelism().map_or(1, usize::from);
    thread::scope(|scope| (0..threads).for_each(|_| drop(scope.spawn(work))));
    ended.into_inner().expect("no group failed").2
}

fn main() -> ExitCode {
    let numbers: Result<Vec<u64>, _> = std::env::args().skip(1).map(|word| word.parse()).collect();
    let (inputs, seed) = match numbers.as_deref() {
        Ok([]) => (RANDOM_INPUTS, SEED),
        Ok(&[inputs]) => (inputs, SEED),
        Ok(&[inputs, seed]) => (inputs, seed),
        _ => {
            eprintln!("usage: compare [RANDOM_INPUTS [SEED]]");
            return ExitCode::from(2);
        }
    };

    let random_inputs = |sides: &mut Sides| random::run(sides, inputs, seed);
    let mut groups: Vec<Group> = Vec::new();
    let mut group = |name: &str, run| groups.push((name.to_string(), run));
    group("the requirement's examples, held to its values", &examples::run);
    group("all 65,536 pairs of kind and rank that are bytes", &edges::kinds_and_ranks);
    group("kinds and ranks that are no byte, over right words and windows", &edges::no_bytes);
    group("letters: each value at each rank; 4,095 to 4,098 letters", &edges::letters);
    group("windows: each length, and each value at each position, at each rank", &edges::entries);
    group("two faults at once: the first in checking order counts", &edges::order_of_checks);
    group("all windows of small ranks", &exhaustive::windows);
    group("all lists of small numbers as windows, right and wrong", &exhaustive::lists);
    group("all pairs of windows of small ranks", &exhaustive::pairs_of_windows);
    group("all words of up to 6 letters of small ranks", &exhaustive::words);
    group("all pairs of short words of small ranks", &exhaustive::pairs_of_words);
    group("verdicts on all pairs of short words across kinds and ranks", &exhaustive::pairs_across);
    group("verdicts on all windows of small ranks across kinds", &exhaustive::alike_across);
    group("one letter to drop: all shortest words of small ranks, each step at either end", &shortest::one_letter);
    group("two letters to drop: all words of up to 6 letters of small ranks", &shortest::two_letters);
    group("fallbacks: all pairs of windows of small ranks, from every shortest word", &fallbacks::pairs);
    group("fallbacks: 200,000 random pairs of words", &|sides| fallbacks::random(sides, 200_000));
    group("splits: all windows and all sets of small ranks, against all pairs of words", &splits::pairs);
    group("splits: all words of up to 4 letters of small ranks, all sets", &splits::words);
    group("splits: two faults at once, bits above the rank, sets at the highest ranks", &splits::edges);
    group("splits: 200,000 random words and sets", &|sides| splits::random(sides, 200_000));
    group("from window to window: all pairs and all sets of small ranks, by a search", &ways::pairs);
    group("from window to window: each bit of the set, and the longest way, at each rank", &ways::bits);
    group("from window to window: 200,000 random pairs and sets", &|sides| ways::random(sides, 200_000));
    group("delay tables: each rank; small ones held to a count over all windows", &exhaustive::delay_tables);
    group("each rule of each rank, whole and cut short", &rewriting::each_rule);
    group("rewriting to the end, at random places", &rewriting::to_the_end);
    group("rewriting line by line, replayed, at every rank; lists too short", &traces::replays);
    group("lists for numbers: too short, empty, longer", &numbers::run);
    group("books: the example in both editions, each byte changed, each part", &books::examples);
    group("books: random, damaged, full", &books::others);
    group("books of no bytes and of one byte: every call", &empty::run);
    group("books from one edition to the other and back: random, damaged, full", &conversions::run);
    group("kind A at rank 1: appended to books, held by books", &retired::run);
    group(&format!("{inputs} random inputs over all calls, from seed {seed}"), &random_inputs);
    let sides = run(&groups);
    println!("{:>10} calls in all, {} different", sides.calls, sides.differences);
    println!("{:>10} of them made by the safe Rust function too", sides.safe_calls);
    println!("answers: {} accepted, {} none fits, {} no fallback", sides.accepted, sides.none_fits, sides.no_fallback);
    for (number, times) in sides.refused.iter().enumerate().skip(1).filter(|(_, times)| **times > 0) {
        println!("{times:>10} times refusal {number}");
    }
    if sides.differences == 0 { ExitCode::SUCCESS } else { ExitCode::FAILURE }
}
