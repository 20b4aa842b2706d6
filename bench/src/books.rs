//! The calls on books, in both editions.
use crate::before;
use crate::inputs::Random;
use crate::straight;
use crate::timing::{Bench, INPUTS, Outputs, cell};
use std::hint::black_box;
use winnathey::raw as rattle;

/// The bytes of a record before its letter count: kind B, rank 8 and in the second edition the lane count.
const FIRST: &[u8] = &[2, 8];
const SECOND: &[u8] = &[2, 8, 8];

/// The call that has a separate goal.
pub const CHECK: &str = "check of a full book";

/// A book of as many records of one length as fit, but for those left out.
fn full_book(random: &mut Random, rig: &[u8], letters: usize, left_out: usize) -> Vec<u8> {
    let records = (65535 - 2) / (rig.len() + letters + 4) - left_out;
    let mut book = Vec::new();
    let mut offsets = Vec::new();
    for _ in 0..records {
        offsets.extend((book.len() as u16).to_le_bytes());
        book.extend(rig);
        book.extend((letters as u16).to_le_bytes());
        book.extend(random.word(8, letters));
    }
    book.extend(offsets);
    book.extend((records as u16).to_le_bytes());
    book
}

pub fn books(bench: &mut Bench, random: &mut Random) {
    for letters in [0, 10, 4096] {
        let book = full_book(random, FIRST, letters, 0);
        let short = full_book(random, FIRST, letters, 1);
        let words = random.words(8, letters);
        let presets = plain::book_check(&book) as usize;
        let column = format!("records of {letters} letters");
        let number = |k: usize| presets * k / INPUTS;
        cell!(bench, CHECK, "first edition", &column, [rattle plain straight before], |_, _|
            book_check(black_box(&book)));
        cell!(bench, "one preset of a full book", "first edition", &column, [rattle plain before], |k, out|
            preset(black_box(&book), number(k), &mut out.fields));
        cell!(bench, "all presets of a full book", "first edition", &column, [rattle plain before], |_, out|
            presets(black_box(&book), 0, &mut out.fields));
        cell!(bench, "last record appended", "first edition", &column, [rattle plain before], |k, out|
            append(black_box(&short), 2, 8, black_box(&words[k]), &mut out.bytes));
    }
    for letters in [0, 10, 4096] {
        let book = full_book(random, SECOND, letters, 0);
        let short = full_book(random, SECOND, letters, 1);
        let words = random.words(8, letters);
        let presets = plain::second_book_check(&book) as usize;
        let column = format!("records of {letters} letters");
        let number = |k: usize| presets * k / INPUTS;
        cell!(bench, CHECK, "second edition", &column, [rattle plain straight before], |_, _|
            second_book_check(black_box(&book)));
        cell!(bench, "one preset of a full book", "second edition", &column, [rattle plain before], |k, out|
            second_preset(black_box(&book), number(k), &mut out.fields));
        cell!(bench, "all presets of a full book", "second edition", &column, [rattle plain before], |_, out|
            second_presets(black_box(&book), 0, &mut out.fields));
        cell!(bench, "last record appended", "second edition", &column, [rattle plain before], |k, out|
            second_append(black_box(&short), 2, 8, black_box(&words[k]), &mut out.bytes));
    }
}

/// Books that are full in the second edition.
pub fn editions(bench: &mut Bench, random: &mut Random) {
    for letters in [0, 10, 4096] {
        let second = full_book(random, SECOND, letters, 0);
        let mut first = vec![0; second.len()];
        let length = plain::to_first(&second, &mut first);
        first.truncate(length as usize);
        let column = format!("records of {letters} letters");
        cell!(bench, "book converted", "to the second edition", &column, [rattle plain before], |_, out|
            to_second(black_box(&first), &mut out.bytes));
        cell!(bench, "book converted", "to the first edition", &column, [rattle plain before], |_, out|
            to_first(black_box(&second), &mut out.bytes));
    }
}
