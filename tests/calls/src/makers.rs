//! One function for each call: the row of an input, with outputs of the given sizes or, without one, just long enough.
use crate::row::{Row, Value};

/// How many places an output has: as many as the answer needs, one less, one more, or so many.
#[derive(Clone, Copy)]
pub enum Room {
    Exact,
    Less,
    More,
    Places(usize),
}
pub use Room::{Exact, Less, More, Places};

/// More than any answer of the table needs.
const AMPLE: usize = 70_000;

fn numbers<T: Copy + Into<i64>>(list: &[T]) -> Value {
    Value::List(list.iter().map(|&entry| entry.into()).collect())
}

fn wide(list: &[u64]) -> Value {
    Value::List(list.iter().map(|&entry| entry as i64).collect())
}

fn of(kind: u32, rank: u32) -> Vec<(&'static str, Value)> {
    vec![("kind", Value::Number(kind.into())), ("rank", Value::Number(rank.into()))]
}

/// The outputs of one call: their names, how many places the answer needs of each, and what is written there.
type Outputs = Vec<(&'static str, usize, Value)>;

/// A row from the answer with ample outputs and from the answer with outputs of those sizes.
fn row(
    call: &'static str,
    given: Vec<(&'static str, Value)>,
    rooms: &[Room],
    made: impl Fn(&[usize]) -> (i64, Outputs),
) -> Row {
    let ample = made(&vec![AMPLE; rooms.len()]);
    let names: Vec<&'static str> = ample.1.iter().map(|output| output.0).collect();
    let needed = |at: usize| if ample.0 < 0 { 0 } else { ample.1[at].1 };
    let size = |(at, room): (usize, &Room)| match room {
        Exact => needed(at),
        Less => needed(at).saturating_sub(1),
        More => needed(at) + 1,
        Places(size) => *size,
    };
    let sizes: Vec<usize> = rooms.iter().enumerate().map(size).collect();
    let (answer, outputs) = made(&sizes);
    let written =
        if answer < 0 { Vec::new() } else { outputs.into_iter().map(|(name, _, value)| (name, value)).collect() };
    Row { call, given, room: names.into_iter().zip(sizes).collect(), answer, refused: None, written }
}

fn front<T: Clone>(list: &[T], count: i64) -> Vec<T> {
    list[..count.clamp(0, list.len() as i64) as usize].to_vec()
}

macro_rules! to_window {
    ($($name:ident($($argument:ident: $list:ty),*))*) => {$(
        pub fn $name(kind: u32, rank: u32, $($argument: &[$list],)* room: Room) -> Row {
            let mut given = of(kind, rank);
            $(given.push((stringify!($argument), numbers($argument)));)*
            row(stringify!($name), given, &[room], |sizes| {
                let mut out = vec![0i8; sizes[0]];
                let answer = plain::$name(kind, rank, $($argument,)* &mut out);
                let written = front(&out, answer);
                (answer, vec![("out", written.len(), numbers(&written))])
            })
        }
    )*};
}
to_window! {
    window_of_word(word: u8)
    product_of_windows(first: i8, second: i8)
    inverse_of_window(window: i8)
}

macro_rules! to_word {
    ($($name:ident($($argument:ident: $list:ty),*))*) => {$(
        pub fn $name(kind: u32, rank: u32, $($argument: &[$list],)* room: Room) -> Row {
            let mut given = of(kind, rank);
            $(given.push((stringify!($argument), numbers($argument)));)*
            row(stringify!($name), given, &[room], |sizes| {
                let mut out = vec![0u8; sizes[0]];
                let answer = plain::$name(kind, rank, $($argument,)* &mut out);
                let written = front(&out, answer);
                (answer, vec![("out", written.len(), numbers(&written))])
            })
        }
    )*};
}
to_word! {
    normal_form_of_word(word: u8)
    normal_form_of_window(window: i8)
    product_of_words(first: u8, second: u8)
    inverse_of_word(word: u8)
}

macro_rules! to_number {
    ($($name:ident($($argument:ident: $list:ty),*))*) => {$(
        pub fn $name(kind: u32, rank: u32, $($argument: &[$list]),*) -> Row {
            let mut given = of(kind, rank);
            $(given.push((stringify!($argument), numbers($argument)));)*
            row(stringify!($name), given, &[], |_| (plain::$name(kind, rank, $($argument),*), Vec::new()))
        }
    )*};
}
to_number! {
    length_of_word(word: u8)
    length_of_window(window: i8)
    rewrite_steps(word: u8)
}

macro_rules! to_counts {
    ($($name:ident($argument:ident: $list:ty))*) => {$(
        pub fn $name(kind: u32, rank: u32, $argument: &[$list], room: Room) -> Row {
            let mut given = of(kind, rank);
            given.push((stringify!($argument), numbers($argument)));
            row(stringify!($name), given, &[room], |sizes| {
                let mut counts = vec![0u64; sizes[0]];
                let answer = plain::$name(kind, rank, $argument, &mut counts);
                (answer, vec![("counts", 3, wide(&front(&counts, 3)))])
            })
        }
    )*};
}
to_counts! {
    crossings_of_word(word: u8)
    crossings_of_window(window: i8)
}

/// The answer is 0 too where a check fails: `same` says which.
pub fn better(kind: u32, rank: u32, first: &[u8], second: &[u8]) -> Row {
    let mut given = of(kind, rank);
    given.extend([("first", numbers(first)), ("second", numbers(second))]);
    let answer = plain::better(kind, rank, first, second);
    let refused = plain::same(kind, rank, first, kind, rank, second);
    assert!(refused >= 0 || answer == 0);
    Row { refused: (refused < 0).then_some(-refused), ..row("better", given, &[], |_| (answer, Vec::new())) }
}

pub fn same(first: (u32, u32, &[u8]), second: (u32, u32, &[u8])) -> Row {
    let given = vec![
        ("kind1", Value::Number(first.0.into())),
        ("rank1", Value::Number(first.1.into())),
        ("word1", numbers(first.2)),
        ("kind2", Value::Number(second.0.into())),
        ("rank2", Value::Number(second.1.into())),
        ("word2", numbers(second.2)),
    ];
    row("same", given, &[], |_| (plain::same(first.0, first.1, first.2, second.0, second.1, second.2), Vec::new()))
}

pub fn delay_table(kind: u32, rank: u32, rooms: [Room; 4]) -> Row {
    row("delay_table", of(kind, rank), &rooms, |sizes| {
        let (mut counts, mut window) = (vec![0u64; sizes[0]], vec![0i8; sizes[1]]);
        let (mut form, mut lengths) = (vec![0u8; sizes[2]], vec![0u64; sizes[3]]);
        let answer = plain::delay_table(kind, rank, &mut counts, &mut window, &mut form, &mut lengths);
        let written: Vec<i64> =
            if answer < 0 { vec![0; 3] } else { lengths[..3].iter().map(|&length| length as i64).collect() };
        let (counts, window, form) = (front(&counts, written[0]), front(&window, written[1]), front(&form, written[2]));
        let outputs = vec![
            ("counts", counts.len(), Value::Counts(counts)),
            ("window", window.len(), numbers(&window)),
            ("normal_form", form.len(), numbers(&form)),
            ("lengths", 3, numbers(&written)),
        ];
        (answer, outputs)
    })
}

pub fn rewrite(kind: u32, rank: u32, word: &[u8], place: usize, rooms: [Room; 2]) -> Row {
    let mut given = of(kind, rank);
    given.extend([("word", numbers(word)), ("place", Value::Number(place as u64))]);
    row("rewrite", given, &rooms, |sizes| {
        let (mut out, mut rule) = (vec![0u8; sizes[0]], vec![0u8; sizes[1]]);
        let answer = plain::rewrite(kind, rank, word, place, &mut out, &mut rule);
        let out = front(&out, answer);
        (answer, vec![("out", out.len(), numbers(&out)), ("rule", 3, numbers(&front(&rule, 3)))])
    })
}

pub fn rewrite_to_end(kind: u32, rank: u32, word: &[u8], rooms: [Room; 5]) -> Row {
    let mut given = of(kind, rank);
    given.push(("word", numbers(word)));
    row("rewrite_to_end", given, &rooms, |sizes| {
        let (mut families, mut places) = (vec![0u8; sizes[0]], vec![0u16; sizes[1]]);
        let (mut lengths, mut out, mut written) = (vec![0u16; sizes[2]], vec![0u8; sizes[3]], vec![0u64; sizes[4]]);
        let answer =
            plain::rewrite_to_end(kind, rank, word, &mut families, &mut places, &mut lengths, &mut out, &mut written);
        let length = if answer < 0 { 0 } else { written[0] as i64 };
        let (families, places, lengths) = (front(&families, answer), front(&places, answer), front(&lengths, answer));
        let outputs = vec![
            ("families", families.len(), numbers(&families)),
            ("places", places.len(), numbers(&places)),
            ("lengths", lengths.len(), numbers(&lengths)),
            ("out", length as usize, numbers(&front(&out, length))),
            ("written", 1, numbers(&[length])),
        ];
        (answer, outputs)
    })
}

/// Whether just one list of places has the simpler window: none or all of them, or one of the few that are tried.
fn is_only(kind: u32, rank: u32, present: &[u8], kept: usize) -> impl Fn(&[u8]) -> bool {
    let mut form = vec![0; plain::MAX_LETTERS];
    let letters = plain::normal_form_of_word(kind, rank, present, &mut form);
    let form = front(&form, letters);
    move |simpler| {
        let has = |set: &u32| {
            let part: Vec<u8> = (0..form.len()).filter(|at| set >> at & 1 == 1).map(|at| form[at]).collect();
            part.len() == kept && plain::same(kind, rank, &part, kind, rank, simpler) == 1
        };
        kept == 0 || kept == form.len() || form.len() < 16 && (0..1 << form.len()).filter(has).count() == 1
    }
}

/// Which places are kept is left open: the table has only inputs with just one list of them.
pub fn fallback(kind: u32, rank: u32, present: &[u8], simpler: &[u8], room: Room) -> Row {
    let kept = plain::fallback(kind, rank, present, simpler, &mut vec![0; AMPLE]);
    assert!(
        kept < 0 || is_only(kind, rank, present, kept as usize)(simpler),
        "{present:?} has {simpler:?} in two ways"
    );
    let mut given = of(kind, rank);
    given.extend([("present", numbers(present)), ("simpler", numbers(simpler))]);
    row("fallback", given, &[room], |sizes| {
        let mut places = vec![0u16; sizes[0]];
        let answer = plain::fallback(kind, rank, present, simpler, &mut places);
        let places = front(&places, answer);
        (answer, vec![("places", places.len(), numbers(&places))])
    })
}

pub fn split(kind: u32, rank: u32, allowed: u64, word: &[u8], rooms: [Room; 3]) -> Row {
    let mut given = of(kind, rank);
    given.extend([("allowed", Value::Set(allowed)), ("word", numbers(word))]);
    row("split", given, &rooms, |sizes| {
        let (mut first, mut second) = (vec![0u8; sizes[0]], vec![0u8; sizes[1]]);
        let mut lengths = vec![0u64; sizes[2]];
        let mut answer = plain::split(kind, rank, allowed, word, &mut first, &mut second, &mut lengths);
        if answer == plain::TOO_MANY {
            answer = many(kind, rank, allowed, word, [&mut first, &mut second], &mut lengths);
        }
        let written: Vec<i64> =
            if answer < 0 { vec![0; 2] } else { lengths[..2].iter().map(|&length| length as i64).collect() };
        let (first, second) = (front(&first, written[0]), front(&second, written[1]));
        let outputs = vec![
            ("first", first.len(), numbers(&first)),
            ("second", second.len(), numbers(&second)),
            ("lengths", 2, numbers(&written)),
        ];
        (answer, outputs)
    })
}

/// The normal form of a word or window that is right.
fn normal_form(kind: u32, rank: u32, window: &[i8]) -> Vec<u8> {
    let mut form = vec![0; plain::MAX_LETTERS];
    let letters = plain::normal_form_of_window(kind, rank, window, &mut form);
    front(&form, letters)
}

/// The product of the window of one step and a window.
fn behind(kind: u32, rank: u32, step: u8, window: &[i8]) -> Vec<i8> {
    let (mut one, mut product) = (window.to_vec(), window.to_vec());
    plain::window_of_word(kind, rank, &[step], &mut one);
    plain::product_of_windows(kind, rank, &one, window, &mut product);
    product
}

/// Splits a word by more steps than the plain version does: allowed steps are taken from its front as long as that makes
/// the rest shorter, and the plain version says that this is the split.
fn many(kind: u32, rank: u32, allowed: u64, word: &[u8], outputs: [&mut [u8]; 2], lengths: &mut [u64]) -> i64 {
    let mut rest = vec![0; plain::MAX_LANES];
    let lanes = plain::window_of_word(kind, rank, word, &mut rest) as usize;
    rest.truncate(lanes);
    let mut taken = Vec::new();
    let steps: Vec<u8> = (1..=64).filter(|step| allowed >> (step - 1) & 1 == 1).collect();
    let mut letters = plain::length_of_window(kind, rank, &rest);
    // What one step leaves may be shortened again by those that were passed over.
    loop {
        let before = letters;
        for &step in &steps {
            let left = behind(kind, rank, step, &rest);
            if plain::length_of_window(kind, rank, &left) < letters {
                taken.push(step);
                (rest, letters) = (left, letters - 1);
            }
        }
        if letters == before {
            break;
        }
    }
    let mut first = vec![0; lanes];
    plain::window_of_word(kind, rank, &taken, &mut first);
    let halves = [normal_form(kind, rank, &first), normal_form(kind, rank, &rest)];
    assert!(plain::is_split(kind, rank, allowed, word, &halves[0], &halves[1]), "not the split of {word:?}");
    if lengths.len() < 2 || halves.iter().zip(&outputs).any(|(half, output)| output.len() < half.len()) {
        return -14;
    }
    for (half, output) in halves.iter().zip(outputs) {
        output[..half.len()].copy_from_slice(half);
    }
    lengths[..2].copy_from_slice(&halves.each_ref().map(|half| half.len() as u64));
    (halves[0].len() + halves[1].len()) as i64
}

/// The way between windows by more steps than the plain version goes: the normal form of what leads from the one to the
/// other, of which the plain version says that it is the way, or that there is none.
fn direct(kind: u32, rank: u32, allowed: u64, from: &[i8], to: &[i8], out: &mut [u8]) -> i64 {
    let (mut back, mut change) = (vec![0; from.len()], vec![0; from.len()]);
    plain::inverse_of_window(kind, rank, from, &mut back);
    plain::product_of_windows(kind, rank, &back, to, &mut change);
    let way = normal_form(kind, rank, &change);
    if !plain::is_way(kind, rank, allowed, from, to, Some(&way)) {
        assert!(plain::is_way(kind, rank, allowed, from, to, None), "neither a way nor none");
        return -19;
    }
    if out.len() < way.len() {
        return -14;
    }
    out[..way.len()].copy_from_slice(&way);
    way.len() as i64
}

pub fn between(kind: u32, rank: u32, allowed: u64, from: &[i8], to: &[i8], room: Room) -> Row {
    let mut given = of(kind, rank);
    given.extend([("allowed", Value::Set(allowed)), ("from", numbers(from)), ("to", numbers(to))]);
    row("between", given, &[room], |sizes| {
        let mut out = vec![0u8; sizes[0]];
        let mut answer = plain::between(kind, rank, allowed, from, to, &mut out);
        if answer == plain::TOO_MANY {
            answer = direct(kind, rank, allowed, from, to, &mut out);
        }
        let out = front(&out, answer);
        (answer, vec![("out", out.len(), numbers(&out))])
    })
}

fn a_book(book: &[u8]) -> (&'static str, Value) {
    ("book", Value::Book(book.to_vec()))
}

/// The name of a call on books of an edition.
fn of_edition(second: bool, names: [&'static str; 2]) -> &'static str {
    names[usize::from(second)]
}

pub fn book_check(second: bool, book: &[u8]) -> Row {
    let call = if second { plain::second_book_check } else { plain::book_check };
    row(of_edition(second, ["book_check", "second_book_check"]), vec![a_book(book)], &[], |_| (call(book), Vec::new()))
}

pub fn preset(second: bool, book: &[u8], number: usize, room: Room) -> Row {
    let call = if second { plain::second_preset } else { plain::preset };
    let given = vec![a_book(book), ("number", Value::Number(number as u64))];
    row(of_edition(second, ["preset", "second_preset"]), given, &[room], |sizes| {
        let mut fields = vec![0u64; sizes[0]];
        let answer = call(book, number, &mut fields);
        (answer, vec![("fields", 4, wide(&front(&fields, 4)))])
    })
}

pub fn presets(second: bool, book: &[u8], first: usize, room: Room) -> Row {
    let call = if second { plain::second_presets } else { plain::presets };
    let given = vec![a_book(book), ("first", Value::Number(first as u64))];
    row(of_edition(second, ["presets", "second_presets"]), given, &[room], |sizes| {
        let mut fields = vec![0u64; sizes[0]];
        let answer = call(book, first, &mut fields);
        let fields = front(&fields, answer.max(0) * 5);
        (answer, vec![("fields", fields.len(), wide(&fields))])
    })
}

pub fn append(second: bool, book: &[u8], kind: u32, rank: u32, word: &[u8], room: Room) -> Row {
    let call = if second { plain::second_append } else { plain::append };
    let mut given = vec![a_book(book)];
    given.extend(of(kind, rank));
    given.push(("word", numbers(word)));
    row(of_edition(second, ["append", "second_append"]), given, &[room], |sizes| {
        let mut out = vec![0u8; sizes[0]];
        let answer = call(book, kind, rank, word, &mut out);
        let out = front(&out, answer);
        (answer, vec![("out", out.len(), Value::Book(out))])
    })
}

pub fn convert(second: bool, book: &[u8], room: Room) -> Row {
    let call = if second { plain::to_first } else { plain::to_second };
    row(of_edition(second, ["to_second", "to_first"]), vec![a_book(book)], &[room], |sizes| {
        let mut out = vec![0u8; sizes[0]];
        let answer = call(book, &mut out);
        let out = front(&out, answer);
        (answer, vec![("out", out.len(), Value::Book(out))])
    })
}
