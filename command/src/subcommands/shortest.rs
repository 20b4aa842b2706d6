//! `shortest`: all shortest words of a preset, up to a limit.
use super::descents;
use crate::args::Args;
use crate::failure::Failure;
use crate::json::list;
use crate::library::{self, Rig};
use crate::out::Out;
use crate::progress::Progress;
use crate::table::{self, Subcommand, Verdict};
use crate::typed::Asked;
use crate::{asked, text};
use std::collections::HashMap;
use std::io::{self, IsTerminal, Write};
use std::time::{Duration, Instant};

pub const SUBCOMMAND: Subcommand = Subcommand {
    name: "shortest",
    group: table::WORDS,
    about: "all shortest words of a preset, up to a limit",
    usages: &["RIG WORD", "RIG '[WINDOW]'", "--book FILE --edition EDITION --preset N"],
    text: "The shortest words that show what the preset shows, in the dictionary's order, where the HIGHER step comes \
           first: the normal form is the first of them. Each is printed as it is found.",
    operands: &[table::RIG, table::WORD],
    options: &[
        table::EMPTY,
        table::LIMIT,
        table::COUNT,
        table::FROM_BOOK,
        table::EDITION,
        table::TIMEOUT,
        table::PRESET,
    ],
    examples: &["winnathey shortest A2 1 2 1", "winnathey shortest D5 '[3 -5 1 4 -2]' --limit 100"],
    json: &[
        table::READ,
        &[
            ("length", "the length of the normal form"),
            ("words", "the letters of each word"),
            ("more", "whether there are more than the limit"),
            ("count", "with --count in place of these two, how many there are"),
        ],
    ],
    paged: true,
    run,
};

const LIMIT: usize = 20;
/// A word goes out at once if the one before it is so long ago.
const PAUSE: Duration = Duration::from_millis(100);

fn run(mut args: Args, out: &mut Out) -> Result<Verdict, Failure> {
    let asked = asked::preset(&mut args, out)?;
    let limit = args.count("--limit")?;
    let form = asked.form()?;
    if args.flag("--count") {
        if limit.is_some() {
            return Err(args.usage("--count counts all words: it goes without --limit"));
        }
        return counted(&asked, &form, out);
    }
    let limit = limit.unwrap_or(LIMIT);
    let mut fields = asked.fields();
    fields.push(("length", form.len().into()));
    if out.json {
        let front = out.front("shortest", fields);
        write!(out, "{front},\"words\":[")?;
    } else {
        writeln!(out, "{}", asked.heading())?;
        writeln!(out, "shortest words, {} each", text::counted(form.len(), "letter"))?;
    }
    let mut progress = Progress::of_words();
    // On one terminal two texts would run into each other, and the words show how far it is.
    if io::stdout().is_terminal() {
        progress.end();
    }
    let (mut told, mut more, mut flushed) = (0, false, None::<Instant>);
    let ended = each(asked.rig(), &form, &mut Vec::new(), &mut |word| {
        more = told == limit;
        if more {
            return Ok(false);
        }
        match (out.json, told) {
            (true, 0) => write!(out, "{}", list(word))?,
            (true, _) => write!(out, ",{}", list(word))?,
            (false, _) => writeln!(out, "  {}", text::word(word))?,
        }
        told += 1;
        progress.done(told);
        if flushed.is_none_or(|flushed| flushed.elapsed() >= PAUSE) {
            out.flush()?;
            flushed = Some(Instant::now());
        }
        Ok(true)
    });
    progress.end();
    ended?;
    if out.json {
        return Ok(writeln!(out, "],\"more\":{more}}}").map(|()| Verdict::Answer)?);
    }
    let words = text::counted(told, "word");
    writeln!(
        out,
        "{}",
        if more { format!("the first {words}, and more: --limit N") } else { format!("{words} in all") }
    )?;
    Ok(Verdict::Answer)
}

/// Gives each shortest word, in the dictionary's order, until that is enough; tells whether it went to the end. A
/// shortest word begins with a step that makes the rest shorter, and goes on with a shortest word of that rest.
fn each(
    rig: Rig,
    form: &[u8],
    front: &mut Vec<u8>,
    give: &mut dyn FnMut(&[u8]) -> Result<bool, Failure>,
) -> Result<bool, Failure> {
    if form.is_empty() {
        return give(front);
    }
    // The normal form is the first shortest word: it comes without a search.
    let whole = front.len();
    front.extend_from_slice(form);
    let goes_on = give(front);
    front.truncate(whole);
    if !goes_on? {
        return Ok(false);
    }
    others(rig, form, front, give)
}

/// All but the normal form itself.
fn others(
    rig: Rig,
    form: &[u8],
    front: &mut Vec<u8>,
    give: &mut dyn FnMut(&[u8]) -> Result<bool, Failure>,
) -> Result<bool, Failure> {
    let Some((&first, rest)) = form.split_first() else { return Ok(true) };
    // What is left of a normal form is one: those words come first that begin as it does.
    front.push(first);
    let goes_on = others(rig, rest, front, give);
    front.pop();
    if !goes_on? {
        return Ok(false);
    }
    for step in descents::in_front(rig, form)?.into_iter().rev().filter(|&step| step != first) {
        let rest = library::product_of_words(rig, &[step], form)?;
        front.push(step);
        let goes_on = each(rig, &rest, front, give);
        front.pop();
        if !goes_on? {
            return Ok(false);
        }
    }
    Ok(true)
}

/// Says how many shortest words there are, without making them.
fn counted(asked: &Asked, form: &[u8], out: &mut Out) -> Result<Verdict, Failure> {
    let mut progress = Progress::of_windows();
    let count = count(asked.rig(), form, &mut HashMap::new(), &progress)?;
    progress.end();
    let Some(count) = count else {
        let most = text::grouped(u64::MAX);
        return Err(Failure::Unwilling(format!("there are more than {most} shortest words, which is not counted")));
    };
    if out.json {
        let mut fields = asked.fields();
        fields.push(("length", form.len().into()));
        fields.push(("count", count.into()));
        out.answer("shortest", fields)?;
        return Ok(Verdict::Answer);
    }
    let words =
        if count == 1 { "1 shortest word".to_string() } else { format!("{} shortest words", text::grouped(count)) };
    writeln!(out, "{}\n{words}, {} each", asked.heading(), text::counted(form.len(), "letter"))?;
    Ok(Verdict::Answer)
}

/// None where there are too many; each normal form is counted once.
fn count(
    rig: Rig,
    form: &[u8],
    known: &mut HashMap<Vec<u8>, Option<u64>>,
    progress: &Progress,
) -> Result<Option<u64>, Failure> {
    if form.is_empty() {
        return Ok(Some(1));
    }
    if let Some(&found) = known.get(form) {
        return Ok(found);
    }
    let mut sum = Some(0u64);
    for step in descents::in_front(rig, form)? {
        let rest = library::product_of_words(rig, &[step], form)?;
        let part = count(rig, &rest, known, progress)?;
        sum = sum.zip(part).and_then(|(sum, part)| sum.checked_add(part));
        if sum.is_none() {
            break;
        }
    }
    known.insert(form.to_vec(), sum);
    progress.done(known.len());
    Ok(sum)
}

#[cfg(test)]
mod tests {
    use super::*;
    use crate::library::Kind;

    fn words(kind: Kind, rank: u8, window: &[i8]) -> Vec<Vec<u8>> {
        let rig = Rig { kind, rank };
        let form = library::normal_form_of_window(rig, window).unwrap();
        let mut words = Vec::new();
        let ended = each(rig, &form, &mut Vec::new(), &mut |word| {
            words.push(word.to_vec());
            Ok(true)
        });
        assert!(ended.is_ok_and(|to_the_end| to_the_end));
        let counted = count(rig, &form, &mut HashMap::new(), &Progress::of_windows());
        assert_eq!(counted.ok().flatten(), Some(words.len() as u64));
        words
    }

    /// The numbers of shortest words of the longest windows are known: Stanley's for A, and by listing all words for
    /// B2.
    #[test]
    fn all_shortest_words_come_once() {
        assert_eq!(words(Kind::A, 2, &[3, 2, 1]), [[2, 1, 2], [1, 2, 1]]);
        assert_eq!(words(Kind::A, 3, &[4, 3, 2, 1]).len(), 16);
        assert_eq!(words(Kind::A, 4, &[5, 4, 3, 2, 1]).len(), 768);
        assert_eq!(words(Kind::B, 2, &[-1, -2]), [[2, 1, 2, 1], [1, 2, 1, 2]]);
        assert_eq!(words(Kind::B, 3, &[-1, -2, -3]).len(), 42);
        let rig = Rig { kind: Kind::D, rank: 4 };
        let longest = library::delays(rig).unwrap();
        let all = words(rig.kind, rig.rank, &longest.window);
        assert_eq!(all.len(), 2316);
        assert_eq!(all[0], longest.form);
        assert!(all.iter().all(|word| library::window(rig, word).unwrap() == longest.window));
        assert!(all.is_sorted_by(|first, second| second < first));
    }
}
