//! Random inputs over all calls, right and damaged, short and long.
use crate::books::{damage_book, random_book};
use crate::conversions::converted_length;
use crate::inputs::{KINDS, Random};
use crate::sides::{ROOM, Sides};
use winnathey::Edition::{First, Second};

pub fn run(sides: &mut Sides, inputs: u64, seed: u64) {
    let mut random = Random(seed);
    for _ in 0..inputs {
        let call = random.below(16);
        match call {
            0..=9 => words_and_windows(sides, &mut random, call),
            10 | 11 => two_words(sides, &mut random, call),
            12 | 13 => rewrite(sides, &mut random),
            _ => book(sides, &mut random),
        }
    }
}

fn any_word(random: &mut Random, kind: u32, rank: u32) -> Vec<u8> {
    let letters = random.letters();
    let mut word = random.word(kind, rank, letters);
    random.damage_word(rank, &mut word);
    word
}

fn any_window(random: &mut Random, kind: u32, rank: u32) -> Vec<i8> {
    let mut window = random.window(kind, rank);
    random.damage_window(&mut window);
    window
}

fn words_and_windows(sides: &mut Sides, random: &mut Random, call: usize) {
    let (kind, rank) = random.any_rig();
    let word = any_word(random, kind, rank);
    let window = any_window(random, kind, rank);
    // How much the answer needs is asked of the plain side, so that each input is one compared call.
    let mut room = [0u8; ROOM];
    let mut wide = [0i8; 300];
    match call {
        0 => {
            let out = random.output(plain::window_of_word(kind, rank, &word, &mut wide));
            sides.window_of_word(kind, rank, &word, out);
        }
        1 => {
            let out = random.output(plain::normal_form_of_word(kind, rank, &word, &mut room));
            sides.normal_form_of_word(kind, rank, &word, out);
        }
        2 => {
            let out = random.output(plain::normal_form_of_window(kind, rank, &window, &mut room));
            sides.normal_form_of_window(kind, rank, &window, out);
        }
        3 => {
            let second = any_word(random, kind, rank);
            let out = random.output(plain::product_of_words(kind, rank, &word, &second, &mut room));
            sides.product_of_words(kind, rank, &word, &second, out);
        }
        4 => {
            let second = any_window(random, kind, rank);
            let out = random.output(plain::product_of_windows(kind, rank, &window, &second, &mut wide));
            sides.product_of_windows(kind, rank, &window, &second, out);
        }
        5 => {
            let out = random.output(plain::inverse_of_word(kind, rank, &word, &mut room));
            sides.inverse_of_word(kind, rank, &word, out);
        }
        6 => {
            let out = random.output(plain::inverse_of_window(kind, rank, &window, &mut wide));
            sides.inverse_of_window(kind, rank, &window, out);
        }
        7 => {
            sides.length_of_word(kind, rank, &word);
            let counts = random.output(3);
            sides.crossings_of_word_into(kind, rank, &word, counts);
        }
        8 => {
            sides.length_of_window(kind, rank, &window);
            let counts = random.output(3);
            sides.crossings_of_window_into(kind, rank, &window, counts);
        }
        _ => {
            let rank = if random.once_in(2) { rank.min(random.pick(&[16, 17, 19, 20])) } else { rank };
            let need = plain::delay_table(kind, rank, &mut [0; 300], &mut wide, &mut room, &mut [0; 3]);
            let lanes = rank as i64 + i64::from(kind == plain::A);
            let outputs = [need + 1, lanes.min(80), need].map(|need| random.output(need));
            let lengths = random.output(3);
            sides.delay_table_into(kind, rank, outputs, lengths);
        }
    }
}

/// A word, and another that often has the same window: its normal form, or what some rewrites make of it.
fn two_words(sides: &mut Sides, random: &mut Random, call: usize) {
    let (kind, rank) = random.any_rig();
    let first = any_word(random, kind, rank);
    let mut second = match random.below(4) {
        0 => any_word(random, kind, rank),
        1 => {
            let mut form = vec![0; 4096];
            let length = plain::normal_form_of_word(kind, rank, &first, &mut form);
            form.truncate(length.max(0) as usize);
            form
        }
        make => {
            let mut word = first.clone();
            let mut out = vec![0; word.len()];
            for _ in 0..random.below(12) {
                let place = random.below(word.len());
                let length = plain::rewrite(kind, rank, &word, place, &mut out, &mut [0; 3]);
                if length >= 0 {
                    word.truncate(length as usize);
                    word.copy_from_slice(&out[..length as usize]);
                }
            }
            if make == 2 && word.len() < 4000 {
                let at = random.below(word.len() + 1);
                let step = random.word(kind, rank, 1)[0];
                word.splice(at..at, [step, step]);
            }
            word
        }
    };
    if random.once_in(10) {
        random.damage_word(rank, &mut second);
    }
    let (first, second) = if random.once_in(2) { (first, second) } else { (second, first) };
    if call == 10 {
        sides.better(kind, rank, &first, &second);
    } else {
        let other = match random.below(6) {
            0 => random.any_rig(),
            // Another kind with as many lanes.
            1 | 2 => {
                let other = random.pick(&KINDS);
                let lanes = rank + u32::from(kind == plain::A);
                (other, lanes.saturating_sub(u32::from(other == plain::A)))
            }
            _ => (kind, rank),
        };
        sides.same((kind, rank, &first), (other.0, other.1, &second));
    }
}

fn rewrite(sides: &mut Sides, random: &mut Random) {
    let (kind, rank) = random.any_rig();
    let word = any_word(random, kind, rank);
    let mut place = match random.below(12) {
        0 => word.len(),
        1 => word.len().saturating_sub(1),
        2 => 0,
        3 => random.next() as usize,
        _ => random.below(word.len()),
    };
    let mut out = vec![0; word.len()];
    // Half of the time the next place at which a rule fits.
    if random.once_in(2) && place < word.len() {
        let fits = (place..word.len().min(place + 40))
            .find(|&place| plain::rewrite(kind, rank, &word, place, &mut out, &mut [0; 3]) >= 0);
        place = fits.unwrap_or(place);
    }
    let need = plain::rewrite(kind, rank, &word, place, &mut out, &mut [0; 3]);
    let out = random.output(need);
    let rule = random.pick(&[3, 3, 3, 3, 3, 3, 4, 10, 2, 1, 0]);
    sides.rewrite(kind, rank, &word, place, out, rule);
}

fn book(sides: &mut Sides, random: &mut Random) {
    let records = random.below(5);
    let letters = if random.once_in(60) { 4097 } else { 20 };
    let edition = random.pick(&[First, Second]);
    let mut book = random_book(random, edition, records, letters);
    if random.once_in(3) {
        damage_book(random, &mut book);
    }
    if random.once_in(50) {
        book.truncate(random.below(3));
    }
    match random.below(5) {
        0 => {
            sides.book_check(edition, &book);
        }
        4 => {
            let out = random.output(converted_length(edition, book.len(), records) as i64);
            sides.convert(edition, &book, out);
        }
        3 => {
            let first = if random.once_in(10) { random.next() as usize } else { random.below(records + 2) };
            let fields = random.below(5 * records + 7);
            sides.presets(edition, &book, first, fields);
        }
        1 => {
            let number = if random.once_in(10) { random.next() as usize } else { random.below(records + 2) };
            let fields = random.pick(&[4, 4, 4, 4, 5, 9, 3, 2, 1, 0]);
            sides.preset(edition, &book, number, fields);
        }
        _ => {
            let (kind, rank) = random.any_rig();
            let word = any_word(random, kind, rank);
            let out = random.output((book.len().max(2) + word.len() + 6 + usize::from(edition == Second)) as i64);
            sides.append(edition, &book, kind, rank, &word, out);
        }
    }
}
