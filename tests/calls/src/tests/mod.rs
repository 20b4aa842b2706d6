//! The stored table is what the generator prints, and its rows run through the crate.
mod lent;
mod values;

use crate::cases::{self, CALLS};
use crate::row::{Row, Value};
use std::collections::{BTreeMap, BTreeSet};
use winnathey::Refusal;

/// An answer, with what was written.
type Answer = (i64, Vec<(&'static str, Value)>);

/// Why a row is not run.
enum LeftOut {
    /// Its kind or rank has more than a byte.
    Wide,
    /// It concerns an output that the call has itself.
    Room,
    /// The type of an argument holds only what is right, and another argument is refused first.
    Typed,
}

type Outcome = Result<Answer, LeftOut>;

impl Row {
    fn value(&self, name: &str) -> &Value {
        &self.given.iter().find(|(given, _)| *given == name).unwrap_or_else(|| panic!("{self}: no {name}")).1
    }

    fn list<T: TryFrom<i64, Error: std::fmt::Debug>>(&self, name: &str) -> Vec<T> {
        let Value::List(list) = self.value(name) else { panic!("{self}: {name}") };
        list.iter().map(|&entry| entry.try_into().expect("it was one")).collect()
    }

    fn number(&self, name: &str) -> u64 {
        let Value::Number(number) = self.value(name) else { panic!("{self}: {name}") };
        *number
    }

    fn byte(&self, name: &str) -> Result<u8, LeftOut> {
        self.number(name).try_into().map_err(|_| LeftOut::Wide)
    }

    fn set(&self, name: &str) -> u64 {
        let Value::Set(set) = self.value(name) else { panic!("{self}: {name}") };
        *set
    }

    fn book(&self) -> &[u8] {
        let Value::Book(book) = self.value("book") else { panic!("{self}: book") };
        book
    }

    fn room(&self, name: &str) -> usize {
        self.room.iter().find(|(output, _)| *output == name).unwrap_or_else(|| panic!("{self}: no {name}")).1
    }

    /// Leaves the row out where its answer is about an output that the call has itself, with room enough.
    fn inner(&self, name: &str, enough: usize) -> Result<(), LeftOut> {
        if self.answer == -14 && self.room(name) < enough { Err(LeftOut::Room) } else { Ok(()) }
    }
}

fn list<T: Copy + TryInto<i64, Error: std::fmt::Debug>>(entries: &[T]) -> Value {
    Value::List(entries.iter().map(|&entry| entry.try_into().expect("it is small")).collect())
}

fn refused(refusal: Refusal) -> Answer {
    (-i64::from(refusal.number()), Vec::new())
}

fn run(name: &str, call: fn(&Row) -> Outcome) {
    let (mut ran, mut left, mut seen) = (0, [0; 3], BTreeMap::<&str, BTreeSet<i64>>::new());
    for row in cases::all() {
        match call(row) {
            Ok((answer, written)) => {
                assert_eq!(answer, row.answer, "{row}");
                assert_eq!(written, row.written, "{row}");
                ran += 1;
                seen.entry(row.call).or_default().insert(answer.min(0));
            }
            Err(why) => left[why as usize] += 1,
        }
    }
    let calls: BTreeSet<&str> = seen.keys().copied().collect();
    assert_eq!(calls, BTreeSet::from(CALLS), "each call is run");
    let [wide, room, typed] = left;
    println!(
        "calls: {ran} rows through {name} (left out: {wide} with a kind or rank above a byte, {room} about outputs of its own, \
         {typed} that its types do not hold)"
    );
}

#[test]
fn the_stored_table_is_what_is_printed() {
    let path = concat!(env!("CARGO_MANIFEST_DIR"), "/../calls.jsonl");
    let stored = std::fs::read_to_string(path).expect("tests/calls.jsonl");
    let mut lines = stored.lines();
    for row in cases::all() {
        assert!(lines.next() == Some(&row.to_string()), "calls > tests/calls.jsonl: the stored table lacks {row}");
    }
    assert_eq!(lines.next(), None, "calls > tests/calls.jsonl: the stored table has more");
}

/// Each refusal of each call, by the header's comments.
#[test]
fn each_call_has_its_refusals() {
    let path = concat!(env!("CARGO_MANIFEST_DIR"), "/../../include/winnathey.h");
    let header = std::fs::read_to_string(path).expect("the header");
    let mut seen = BTreeMap::<&str, BTreeSet<i64>>::new();
    for row in cases::all() {
        seen.entry(row.call).or_default().extend((-99..0).contains(&row.answer).then_some(-row.answer));
    }
    for call in CALLS {
        let (before, _) = header.split_once(&format!("int64_t winnathey_{call}(")).expect("it is declared");
        let (_, said) = before.rsplit_once("Refused").expect("its comment names its refusals");
        let (said, _) = said.split_once('.').expect("the sentence ends");
        let said = said.trim_start_matches(':').replace('\n', " ");
        let mut due = BTreeSet::new();
        for part in said.split(',').filter(|part| !part.contains("never")) {
            let ends: Vec<i64> = part.split("to").map(|end| end.trim().parse().expect("a number")).collect();
            due.extend(ends[0]..=ends[ends.len() - 1]);
        }
        // No book grows on its way to the first edition.
        due.remove(if call == "to_first" { &13 } else { &0 });
        assert_eq!(seen[call], due, "{call}");
    }
}

#[test]
fn rows_through_the_lent_calls() {
    run("Rust's lent calls", lent::answer);
}

#[test]
fn rows_through_the_values() {
    run("Rust's values", values::answer);
}
