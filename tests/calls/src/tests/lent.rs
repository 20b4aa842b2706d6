//! A row through the calls on lent buffers, with outputs of just its sizes.
use super::{Answer, LeftOut, Outcome, list, refused};
use crate::row::{Row, Value};
use winnathey::lent::{self, Crossings, Edition, Kind, Preset, Refusal, Rewrite};

/// What an output holds before a call.
trait Entry: Copy + PartialEq + std::fmt::Debug {
    const FILL: Self;
}
impl Entry for u8 {
    const FILL: u8 = 0x5a;
}
impl Entry for i8 {
    const FILL: i8 = 0x5a;
}
impl Entry for u16 {
    const FILL: u16 = 0x5a5a;
}
impl Entry for u64 {
    const FILL: u64 = 0x5a5a;
}

/// An output of as many places as the row says.
fn output<T: Entry>(row: &Row, name: &str) -> Vec<T> {
    vec![T::FILL; row.room(name)]
}

/// The front of an output, behind which it is as it was.
fn front<T: Entry>(out: &[T], count: usize) -> &[T] {
    let (front, rest) = out.split_at(count);
    assert!(rest.iter().all(|entry| *entry == T::FILL), "{out:?} has more than {count}");
    front
}

/// A call with one output.
fn one<T: Entry + TryInto<i64, Error: std::fmt::Debug>>(
    row: &Row,
    call: impl FnOnce(&mut [T]) -> Result<usize, Refusal>,
) -> Answer {
    let mut out = output::<T>(row, "out");
    let answer = call(&mut out);
    let written = front(&out, answer.unwrap_or(0));
    answer.map_or_else(refused, |count| (count as i64, vec![("out", list(written))]))
}

/// The same of a book.
fn new_book(row: &Row, call: impl FnOnce(&mut [u8]) -> Result<usize, Refusal>) -> Answer {
    let mut out = output::<u8>(row, "out");
    let answer = call(&mut out);
    let written = front(&out, answer.unwrap_or(0)).to_vec();
    answer.map_or_else(refused, |count| (count as i64, vec![("out", Value::Book(written))]))
}

fn number(answer: Result<usize, Refusal>) -> Answer {
    answer.map_or_else(refused, |number| (number as i64, Vec::new()))
}

pub(super) fn crossings(answer: Result<Crossings, Refusal>) -> Answer {
    answer.map_or_else(refused, |found| {
        let counts = [found.inversions, found.negative_sum_pairs, found.negatives];
        (found.total() as i64, vec![("counts", list(&counts))])
    })
}

fn delay_table(row: &Row, kind: Kind, rank: u8) -> Outcome {
    row.inner("lengths", 3)?;
    let (mut counts, mut window) = (output::<u64>(row, "counts"), output::<i8>(row, "window"));
    let mut form = output::<u8>(row, "normal_form");
    let answer = lent::delay_table(kind, rank, &mut counts, &mut window, &mut form);
    let lengths = answer.map_or([0; 3], |written| [written.counts, written.window, written.normal_form]);
    let written = vec![
        ("counts", Value::Counts(front(&counts, lengths[0]).to_vec())),
        ("window", list(front(&window, lengths[1]))),
        ("normal_form", list(front(&form, lengths[2]))),
        ("lengths", list(&lengths)),
    ];
    Ok(answer.map_or_else(refused, |_| (lengths[2] as i64, written)))
}

fn rewrite(row: &Row, kind: Kind, rank: u8, word: &[u8]) -> Outcome {
    row.inner("rule", 3)?;
    let mut out = output::<u8>(row, "out");
    let answer = lent::rewrite(kind, rank, word, row.number("place") as usize, &mut out);
    let length = if let Ok(Rewrite::Used { length, .. }) = answer { length } else { 0 };
    let written = front(&out, length);
    Ok(match answer {
        Err(refusal) => refused(refusal),
        Ok(Rewrite::NoneFits) => (-100, Vec::new()),
        Ok(Rewrite::Used { family, i, j, length }) => {
            (length as i64, vec![("out", list(written)), ("rule", list(&[family, i, j]))])
        }
    })
}

fn rewrite_to_end(row: &Row, kind: Kind, rank: u8, word: &[u8]) -> Outcome {
    row.inner("written", 1)?;
    let (mut families, mut places) = (output::<u8>(row, "families"), output::<u16>(row, "places"));
    let (mut lengths, mut out) = (output::<u16>(row, "lengths"), output::<u8>(row, "out"));
    let answer = lent::rewrite_to_end(kind, rank, word, &mut families, &mut places, &mut lengths, &mut out);
    let (steps, length) = answer.map_or((0, 0), |ended| (ended.steps, ended.length));
    let written = vec![
        ("families", list(front(&families, steps))),
        ("places", list(front(&places, steps))),
        ("lengths", list(front(&lengths, steps))),
        ("out", list(front(&out, length))),
        ("written", list(&[length])),
    ];
    Ok(answer.map_or_else(refused, |_| (steps as i64, written)))
}

fn fallback(row: &Row, kind: Kind, rank: u8) -> Answer {
    let mut places = output::<u16>(row, "places");
    let answer = lent::fallback(kind, rank, &row.list::<u8>("present"), &row.list::<u8>("simpler"), &mut places);
    let written = front(&places, answer.ok().flatten().unwrap_or(0));
    match answer {
        Err(refusal) => refused(refusal),
        Ok(None) => (-101, Vec::new()),
        Ok(Some(kept)) => (kept as i64, vec![("places", list(written))]),
    }
}

fn split(row: &Row, kind: Kind, rank: u8) -> Outcome {
    row.inner("lengths", 2)?;
    let (mut first, mut second) = (output::<u8>(row, "first"), output::<u8>(row, "second"));
    let answer = lent::split(kind, rank, row.set("allowed"), &row.list::<u8>("word"), &mut first, &mut second);
    let lengths = answer.map_or([0; 2], |lengths| [lengths.first, lengths.second]);
    let written = vec![
        ("first", list(front(&first, lengths[0]))),
        ("second", list(front(&second, lengths[1]))),
        ("lengths", list(&lengths)),
    ];
    Ok(answer.map_or_else(refused, |_| ((lengths[0] + lengths[1]) as i64, written)))
}

fn of_group(row: &Row) -> Outcome {
    let (kind, rank) = (Kind(row.byte("kind")?), row.byte("rank")?);
    let word = || row.list::<u8>("word");
    let window = || row.list::<i8>("window");
    let (words, windows) = (|name| row.list::<u8>(name), |name| row.list::<i8>(name));
    Ok(match row.call {
        "window_of_word" => one(row, |out| lent::window_of_word(kind, rank, &word(), out)),
        "normal_form_of_word" => one(row, |out| lent::normal_form_of_word(kind, rank, &word(), out)),
        "product_of_words" => {
            one(row, |out| lent::product_of_words(kind, rank, &words("first"), &words("second"), out))
        }
        "inverse_of_word" => one(row, |out| lent::inverse_of_word(kind, rank, &word(), out)),
        "length_of_word" => number(lent::length_of_word(kind, rank, &word())),
        "crossings_of_word" => {
            row.inner("counts", 3).map(|()| crossings(lent::crossings_of_word(kind, rank, &word())))?
        }
        "better" => {
            better(row, &words("first"), &words("second"), |first, second| lent::better(kind, rank, first, second))
        }
        "normal_form_of_window" => one(row, |out| lent::normal_form_of_window(kind, rank, &window(), out)),
        "product_of_windows" => {
            one(row, |out| lent::product_of_windows(kind, rank, &windows("first"), &windows("second"), out))
        }
        "inverse_of_window" => one(row, |out| lent::inverse_of_window(kind, rank, &window(), out)),
        "length_of_window" => number(lent::length_of_window(kind, rank, &window())),
        "crossings_of_window" => {
            row.inner("counts", 3).map(|()| crossings(lent::crossings_of_window(kind, rank, &window())))?
        }
        "delay_table" => delay_table(row, kind, rank)?,
        "rewrite" => rewrite(row, kind, rank, &word())?,
        "rewrite_steps" => number(lent::rewrite_steps(kind, rank, &word())),
        "rewrite_to_end" => rewrite_to_end(row, kind, rank, &word())?,
        "fallback" => fallback(row, kind, rank),
        "split" => split(row, kind, rank)?,
        "between" => {
            one(row, |out| lent::between(kind, rank, row.set("allowed"), &windows("from"), &windows("to"), out))
        }
        call => panic!("{call} is no call on groups"),
    })
}

/// Which of the two it is, by where it lies; of neither, whether it is refused.
pub(super) fn better<'a>(
    row: &Row,
    first: &'a [u8],
    second: &'a [u8],
    call: impl FnOnce(&'a [u8], &'a [u8]) -> Result<Option<&'a [u8]>, Refusal>,
) -> Answer {
    let answer = call(first, second);
    assert_eq!(answer.err().map(|refusal| refusal.number().into()), row.refused, "{row}");
    let choice = match answer {
        Ok(Some(word)) if std::ptr::eq(word, first) => 1,
        Ok(Some(word)) if std::ptr::eq(word, second) => 2,
        Ok(Some(_)) => panic!("{row}: neither word"),
        Ok(None) | Err(_) => 0,
    };
    (choice, Vec::new())
}

/// Kind, rank, the offset of the word in its book and the number of its letters.
pub(super) fn fields(book: &[u8], kind: u8, rank: u8, word: &[u8]) -> [i64; 4] {
    [kind.into(), rank.into(), (word.as_ptr() as usize - book.as_ptr() as usize) as i64, word.len() as i64]
}

/// The presets from a number on, as many as the row has room for.
pub(super) fn listed(row: &Row, presets: impl ExactSizeIterator<Item = Result<[i64; 4], Refusal>>) -> Answer {
    let (first, count) = (row.number("first"), presets.len() as u64);
    if first >= count {
        return refused(Refusal::PresetNumber);
    }
    let rows: Vec<i64> = presets
        .skip(first as usize)
        .take(row.room("fields") / 5)
        .flat_map(|preset| match preset {
            Ok([kind, rank, start, letters]) => [0, kind, rank, start, letters],
            Err(refusal) => [refusal.number().into(), 0, 0, 0, 0],
        })
        .collect();
    ((rows.len() / 5) as i64, vec![("fields", Value::List(rows))])
}

fn of_book(row: &Row, edition: Edition, call: &str) -> Outcome {
    let book = row.book();
    Ok(match call {
        "book_check" => number(lent::book_check(edition, book)),
        "preset" => {
            row.inner("fields", 4)?;
            lent::preset(edition, book, row.number("number") as usize).map_or_else(refused, |found| {
                (4, vec![("fields", list(&fields(book, found.kind.0, found.rank, found.word)))])
            })
        }
        "presets" => {
            row.inner("fields", 5)?;
            let of = |found: Preset| fields(book, found.kind.0, found.rank, found.word);
            lent::presets(edition, book).map_or_else(refused, |presets| listed(row, presets.map(|found| found.map(of))))
        }
        "append" => {
            let (kind, rank) = (Kind(row.byte("kind")?), row.byte("rank")?);
            new_book(row, |out| lent::append(edition, book, Preset { kind, rank, word: &row.list::<u8>("word") }, out))
        }
        _ => new_book(row, |out| lent::convert(edition, book, out)),
    })
}

/// The edition and the name without it of a call on a book.
pub(super) fn edition(call: &str) -> Option<(Edition, &str)> {
    match call {
        "book_check" | "preset" | "presets" | "append" | "to_second" => Some((Edition::First, call)),
        "to_first" => Some((Edition::Second, call)),
        _ => call.strip_prefix("second_").map(|call| (Edition::Second, call)),
    }
}

pub(super) fn answer(row: &Row) -> Outcome {
    if let Some((edition, call)) = edition(row.call) {
        return of_book(row, edition, call);
    }
    if row.call != "same" {
        return of_group(row);
    }
    let (first, second) = (row.list::<u8>("word1"), row.list::<u8>("word2"));
    let preset = |kind, rank, word| -> Result<Preset, LeftOut> {
        Ok(Preset { kind: Kind(row.byte(kind)?), rank: row.byte(rank)?, word })
    };
    let same = lent::same(preset("kind1", "rank1", &first)?, preset("kind2", "rank2", &second)?);
    Ok(number(same.map(usize::from)))
}
