//! Calls that are stored in `vectors.txt`, one on each line: its name, what it is given in the header's order, and behind
//! a slash how many places each output has.
use crate::makers::*;
use crate::row::Row;
use std::str::{FromStr, SplitWhitespace};

/// What a line gives, read from the front.
struct Given<'a>(SplitWhitespace<'a>);

impl Given<'_> {
    fn number<T: FromStr>(&mut self) -> T {
        self.0.next().and_then(|text| text.parse().ok()).expect("a number")
    }

    fn list<T: FromStr>(&mut self) -> Vec<T> {
        let text = self.0.next().and_then(|text| text.strip_prefix('[')?.strip_suffix(']')).expect("a list");
        let numbers = text.split(',').filter(|entry| !entry.is_empty());
        numbers.map(|entry| entry.parse().ok().expect("a number")).collect()
    }
}

fn sized<const N: usize>(rooms: &[Room]) -> [Room; N] {
    rooms.try_into().expect("the call's number of outputs")
}

fn of_line(line: &str) -> Row {
    let (given, rooms) = line.split_once(" / ").unwrap_or((line, ""));
    let rooms: Vec<Room> =
        rooms.split_whitespace().map(|places| Places(places.parse().expect("a number of places"))).collect();
    let (call, given) = given.split_once(' ').expect("a call with what it is given");
    let second = call.starts_with("second_") || call == "to_first";
    let mut g = Given(given.split_whitespace());
    match call.trim_start_matches("second_") {
        "window_of_word" => window_of_word(g.number(), g.number(), &g.list(), rooms[0]),
        "normal_form_of_word" => normal_form_of_word(g.number(), g.number(), &g.list(), rooms[0]),
        "product_of_words" => product_of_words(g.number(), g.number(), &g.list(), &g.list(), rooms[0]),
        "inverse_of_word" => inverse_of_word(g.number(), g.number(), &g.list(), rooms[0]),
        "length_of_word" => length_of_word(g.number(), g.number(), &g.list()),
        "crossings_of_word" => crossings_of_word(g.number(), g.number(), &g.list(), rooms[0]),
        "same" => same((g.number(), g.number(), &g.list()), (g.number(), g.number(), &g.list())),
        "better" => better(g.number(), g.number(), &g.list(), &g.list()),
        "normal_form_of_window" => normal_form_of_window(g.number(), g.number(), &g.list(), rooms[0]),
        "product_of_windows" => product_of_windows(g.number(), g.number(), &g.list(), &g.list(), rooms[0]),
        "inverse_of_window" => inverse_of_window(g.number(), g.number(), &g.list(), rooms[0]),
        "length_of_window" => length_of_window(g.number(), g.number(), &g.list()),
        "crossings_of_window" => crossings_of_window(g.number(), g.number(), &g.list(), rooms[0]),
        "delay_table" => delay_table(g.number(), g.number(), sized(&rooms)),
        "rewrite" => rewrite(g.number(), g.number(), &g.list(), g.number(), sized(&rooms)),
        "rewrite_steps" => rewrite_steps(g.number(), g.number(), &g.list()),
        "rewrite_to_end" => rewrite_to_end(g.number(), g.number(), &g.list(), sized(&rooms)),
        "fallback" => fallback(g.number(), g.number(), &g.list(), &g.list(), rooms[0]),
        "split" => split(g.number(), g.number(), g.number(), &g.list(), sized(&rooms)),
        "between" => between(g.number(), g.number(), g.number(), &g.list(), &g.list(), rooms[0]),
        "book_check" => book_check(second, &g.list()),
        "preset" => preset(second, &g.list(), g.number(), rooms[0]),
        "presets" => presets(second, &g.list(), g.number(), rooms[0]),
        "append" => append(second, &g.list(), g.number(), g.number(), &g.list(), rooms[0]),
        "to_second" | "to_first" => convert(second, &g.list(), rooms[0]),
        other => panic!("there is no call {other}"),
    }
}

pub fn rows() -> Vec<Row> {
    include_str!("../../vectors.txt").lines().map(of_line).collect()
}
