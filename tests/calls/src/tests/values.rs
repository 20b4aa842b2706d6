//! A row through groups, words, windows, sets and books as values.
use super::lent::{better, crossings, edition, fields, listed};
use super::{Answer, LeftOut, Outcome, list, refused};
use crate::row::{Row, Value};
use winnathey::{Book, Edition, Group, Kind, Preset, Refusal, Steps, Window, Word};

/// The group of a kind and a rank.
fn group(row: &Row, kind: &str, rank: &str) -> Result<Result<Group, Refusal>, LeftOut> {
    let (kind, rank) = (row.byte(kind)?, row.byte(rank)?);
    Ok(Kind::try_from(kind).map_err(|_| Refusal::Kind).and_then(|kind| Group::new(kind, rank)))
}

fn word(answer: Result<Word, Refusal>) -> Answer {
    answer.map_or_else(refused, |word| (word.len() as i64, vec![("out", list(&word))]))
}

fn window(answer: Result<Window, Refusal>) -> Answer {
    answer.map_or_else(refused, |window| (window.len() as i64, vec![("out", list(&window))]))
}

fn number(answer: Result<usize, Refusal>) -> Answer {
    answer.map_or_else(refused, |number| (number as i64, Vec::new()))
}

fn delay_table(group: Group) -> Answer {
    group.delay_table().map_or_else(refused, |table| {
        let lengths = [table.counts.len(), table.window.len(), table.normal_form.len()];
        let written = vec![
            ("counts", Value::Counts(table.counts)),
            ("window", list(&table.window)),
            ("normal_form", list(&table.normal_form)),
            ("lengths", list(&lengths)),
        ];
        (lengths[2] as i64, written)
    })
}

fn rewrite(row: &Row, group: Group) -> Answer {
    match group.rewrite(&row.list::<u8>("word"), row.number("place") as usize) {
        Err(refusal) => refused(refusal),
        Ok(None) => (-100, Vec::new()),
        Ok(Some(used)) => {
            let rule = [used.family, used.i, used.j];
            (used.word.len() as i64, vec![("out", list(&used.word)), ("rule", list(&rule))])
        }
    }
}

fn rewrite_to_end(row: &Row, group: Group) -> Answer {
    group.rewrite_to_end(&row.list::<u8>("word")).map_or_else(refused, |ended| {
        let of = |part: fn(&winnathey::RewriteStep) -> usize| list(&ended.steps.iter().map(part).collect::<Vec<_>>());
        let written = vec![
            ("families", of(|step| step.family.into())),
            ("places", of(|step| step.place)),
            ("lengths", of(|step| step.length)),
            ("out", list(&ended.word)),
            ("written", list(&[ended.word.len()])),
        ];
        (ended.steps.len() as i64, written)
    })
}

fn fallback(row: &Row, group: Group) -> Answer {
    match group.fallback(&row.list::<u8>("present"), &row.list::<u8>("simpler")) {
        Err(refusal) => refused(refusal),
        Ok(None) => (-101, Vec::new()),
        Ok(Some(places)) => (places.len() as i64, vec![("places", list(&places))]),
    }
}

/// The set of the row, from its bits and from its steps, each of them twice.
fn allowed(row: &Row) -> Steps {
    let bits = row.set("allowed");
    let steps: Vec<u8> = (1..=64).filter(|step| bits >> (step - 1) & 1 == 1).collect();
    let set = Steps::new(steps.iter().rev().chain(&steps).copied()).expect("steps from 1 to 64");
    assert_eq!(set, Steps::from(bits));
    assert_eq!(set.bits(), bits);
    assert!(set.iter().eq(steps.iter().copied()));
    assert_eq!(set.to_string().parse(), Ok(set));
    assert!((0..=255).all(|step| set.contains(step) == steps.contains(&step)));
    set
}

fn split(row: &Row, group: Group) -> Answer {
    group.split(allowed(row), &row.list::<u8>("word")).map_or_else(refused, |split| {
        let lengths = [split.first.len(), split.second.len()];
        let written = vec![("first", list(&split.first)), ("second", list(&split.second)), ("lengths", list(&lengths))];
        ((lengths[0] + lengths[1]) as i64, written)
    })
}

/// A word that has been a text.
fn letters(row: &Row, name: &str) -> Word {
    let word: Word = row.list::<u8>(name).into();
    assert_eq!(word.to_string().parse(), Ok(word.clone()));
    word
}

/// A window that has been a text, if it is not too long for one.
fn entries(row: &Row, name: &str) -> Vec<i8> {
    let entries = row.list::<i8>(name);
    match Window::try_from(&entries[..]) {
        Ok(window) => {
            assert_eq!(window.to_string().parse(), Ok(window));
            assert_eq!(*window, entries[..]);
        }
        Err(_) => assert!(entries.len() > winnathey::MAX_LANES),
    }
    entries
}

fn of_group(row: &Row) -> Outcome {
    let group = match group(row, "kind", "rank")? {
        Ok(group) => group,
        Err(refusal) if row.call == "better" => {
            assert_eq!(row.refused, Some(refusal.number().into()), "{row}");
            return Ok((0, Vec::new()));
        }
        Err(refusal) => return Ok(refused(refusal)),
    };
    assert_eq!(u64::from(u8::from(group.kind())), row.number("kind"));
    assert_eq!(u64::from(group.rank()), row.number("rank"));
    assert_eq!(group.to_string().parse(), Ok(group));
    assert_eq!(group.steps().bits(), u64::MAX >> (64 - group.rank()));
    Ok(match row.call {
        "window_of_word" => window(group.window_of_word(&letters(row, "word"))),
        "normal_form_of_word" => word(group.normal_form_of_word(&letters(row, "word"))),
        "product_of_words" => word(group.product_of_words(&letters(row, "first"), &letters(row, "second"))),
        "inverse_of_word" => word(group.inverse_of_word(&letters(row, "word"))),
        "length_of_word" => number(group.length_of_word(&letters(row, "word"))),
        "crossings_of_word" => crossings(group.crossings_of_word(&letters(row, "word"))),
        "better" => {
            let (first, second) = (row.list::<u8>("first"), row.list::<u8>("second"));
            better(row, &first, &second, |first, second| group.better(first, second))
        }
        "normal_form_of_window" => word(group.normal_form_of_window(&entries(row, "window"))),
        "product_of_windows" => window(group.product_of_windows(&entries(row, "first"), &entries(row, "second"))),
        "inverse_of_window" => window(group.inverse_of_window(&entries(row, "window"))),
        "length_of_window" => number(group.length_of_window(&entries(row, "window"))),
        "crossings_of_window" => crossings(group.crossings_of_window(&entries(row, "window"))),
        "delay_table" => delay_table(group),
        "rewrite" => rewrite(row, group),
        "rewrite_steps" => number(group.rewrite_steps(&letters(row, "word"))),
        "rewrite_to_end" => rewrite_to_end(row, group),
        "fallback" => fallback(row, group),
        "split" => split(row, group),
        "between" => word(group.between(allowed(row), &entries(row, "from"), &entries(row, "to"))),
        call => panic!("{call} is no call on groups"),
    })
}

fn same(row: &Row) -> Outcome {
    let (first, second) = (row.list::<u8>("word1"), row.list::<u8>("word2"));
    let groups = (group(row, "kind1", "rank1")?, group(row, "kind2", "rank2")?);
    Ok(match groups {
        (Ok(one), Ok(other)) => number(one.same(&first, other, &second).map(usize::from)),
        (Err(refusal), _) => refused(refusal),
        // The first word is refused before the second group.
        (_, Err(refusal)) if row.answer == -i64::from(refusal.number()) => refused(refusal),
        _ => return Err(LeftOut::Typed),
    })
}

fn append(row: &Row, mut book: Book) -> Outcome {
    let group = match group(row, "kind", "rank")? {
        Ok(group) => group,
        Err(refusal) => return Ok(refused(refusal)),
    };
    let (word, before) = (row.list::<u8>("word"), book.clone());
    let mut all = book.clone();
    let one = Preset { kind: group.kind(), rank: group.rank(), word: &word };
    let at_once = all.append_all([one]);
    let answer = book.append(group, &word);
    assert_eq!(all, book, "{row}");
    assert_eq!(at_once.map_err(|refused| (refused.place, refused.refusal)), answer.map_err(|refusal| (0, refusal)));
    Ok(match answer {
        Err(refusal) => {
            assert_eq!(book, before, "{row}: a refused call changed the book");
            refused(refusal)
        }
        Ok(()) => {
            assert_eq!(book.len(), before.len() + 1);
            (book.as_bytes().len() as i64, vec![("out", Value::Book(book.into_bytes()))])
        }
    })
}

fn of_book(row: &Row, edition: Edition, call: &str) -> Outcome {
    let book = match Book::from_bytes(edition, row.book()) {
        Ok(book) => book,
        Err(refusal) => return Ok(refused(refusal)),
    };
    assert_eq!((book.edition(), book.as_bytes()), (edition, row.book()));
    let of = |found: Preset| fields(book.as_bytes(), found.kind.into(), found.rank, found.word);
    Ok(match call {
        "book_check" => (book.len() as i64, Vec::new()),
        "preset" => book
            .preset(row.number("number") as usize)
            .map_or_else(refused, |found| (4, vec![("fields", list(&of(found)))])),
        "presets" => listed(row, book.iter().map(|found| found.map(of))),
        "append" => return append(row, book),
        _ => book.convert().map_or_else(refused, |made| {
            assert_ne!(made.edition(), edition);
            (made.as_bytes().len() as i64, vec![("out", Value::Book(made.into_bytes()))])
        }),
    })
}

pub(super) fn answer(row: &Row) -> Outcome {
    if [-14, -15].contains(&row.answer) {
        return Err(LeftOut::Room);
    }
    match edition(row.call) {
        Some((edition, call)) => of_book(row, edition, call),
        None if row.call == "same" => same(row),
        None => of_group(row),
    }
}
