//! `why`: the rewriting of a word to its normal form, line by line.
use crate::args::Args;
use crate::failure::Failure;
use crate::json::{Value, list};
use crate::library::{self, Refusal, Rewriting, Rig, Rule};
use crate::out::Out;
use crate::progress::Progress;
use crate::table::{self, Subcommand, Verdict};
use crate::typed::Asked;
use crate::{asked, culprit, text};
use std::io::{self, IsTerminal, Write};

pub const SUBCOMMAND: Subcommand = Subcommand {
    name: "why",
    group: table::PRESETS,
    about: "the rewriting of a word to its normal form, line by line",
    usages: &["RIG WORD", "RIG WORD --at PLACE", "--book FILE --edition EDITION --preset N .."],
    text: "Rewrites a word always at the lowest place where a rule fits, until none fits: what is left is the normal \
           form. Each step shows the rule, the word with the rule's left side in brackets, the word after it and \
           the letters left. [i,j] is the block of steps from i to j: i, i + 1, .. going up and, in B and D for a j \
           beyond n, down again. Places count from 0.",
    operands: &[table::RIG, table::WORD],
    options: &[
        table::EMPTY,
        table::LAST,
        table::AT_MOST_STEPS,
        table::WHOLE,
        table::AT,
        table::FROM_BOOK,
        table::EDITION,
        table::TIMEOUT,
        table::PRESET,
    ],
    examples: &["winnathey why B2 1 1 1 2 1 2", "winnathey why D5 4 4 2 5 3 5 1 2 --last 1"],
    json: &[
        table::READ,
        &[
            ("skipped", "how many steps --last left out"),
            ("steps", "of each step: family, i and j of the rule, place, and length, the letters left"),
        ],
        table::FORM,
        &[
            ("place", "with --at, the place"),
            ("rewrite", "with --at, family, i and j of the rule and the new word, or null if none fits"),
        ],
    ],
    paged: true,
    run,
};

fn run(mut args: Args, out: &mut Out) -> Result<Verdict, Failure> {
    let (last, at_most, at) = (args.count("--last")?, args.count("--at-most")?, args.count("--at")?);
    let whole = args.flag("--whole");
    if at.is_some() && (last.is_some() || at_most.is_some()) {
        return Err(args.usage("--at goes with neither --last nor --at-most"));
    }
    let asked = asked::preset(&mut args, out)?;
    if let Some(place) = at {
        return once(&asked, place, whole, out);
    }
    let mut progress = Progress::start();
    let rewriting = rewritten(&asked, at_most, &progress)?;
    let steps = rewriting.places.len();
    let skipped = steps - last.unwrap_or(steps).min(steps);
    let mut replay = Replay { rig: asked.rig(), word: asked.letters().to_vec() };
    if out.json {
        in_json(&asked, &rewriting, skipped, &mut replay, &progress, out)?;
        return Ok(Verdict::Answer);
    }
    writeln!(out, "{}", asked.heading())?;
    told(&rewriting, &mut replay, (skipped, whole), &mut progress, out)?;
    progress.end();
    let form = rewriting.form;
    if steps == 0 {
        writeln!(out, "no rule fits: this is the normal form")?;
    } else {
        let (steps, letters) = (text::counted(steps, "step"), text::counted(form.len(), "letter"));
        writeln!(out, "normal form after {steps}, {letters}: {}", text::word(&form))?;
    }
    Ok(Verdict::Answer)
}

/// One rewrite at a place.
fn once(asked: &Asked, place: usize, whole: bool, out: &mut Out) -> Result<Verdict, Failure> {
    let before = asked.letters();
    // By the whole word first, so that a place which it does not have is refused.
    let mut new = vec![0; before.len()];
    library::rewrite(asked.rig(), before, place, &mut new).map_err(|refusal| match refusal.number() {
        12 => Failure::refused(refusal, culprit::place(before.len())),
        _ => asked.refused(refusal),
    })?;
    let mut replay = Replay { rig: asked.rig(), word: before.to_vec() };
    let used = replay.step(place)?;
    if out.json {
        let mut fields = asked.fields();
        fields.push(("place", place.into()));
        fields.push(("rewrite", used.map_or(Value::Null, |used| used.json([("word", list(&replay.word))]))));
        out.answer("why", fields)?;
        return Ok(Verdict::Answer);
    }
    writeln!(out, "{}", asked.heading())?;
    match used {
        None => writeln!(out, "no rule fits at place {place}")?,
        Some(used) => {
            writeln!(out, "at place {place}, {}", rule(asked.rig().rank, used))?;
            replaced(before, &replay.word, place, used, whole, out)?;
        }
    }
    Ok(Verdict::Answer)
}

/// The library's lists. It is lent lists of `at_most` places where that is fewer than the steps, so that it refuses.
fn rewritten(asked: &Asked, at_most: Option<usize>, progress: &Progress) -> Result<Rewriting, Failure> {
    let steps = library::rewrite_steps(asked.rig(), asked.letters()).map_err(|refusal| asked.refused(refusal))?;
    progress.of(steps);
    let room = at_most.unwrap_or(steps).min(steps);
    library::rewrite_to_end(asked.rig(), asked.letters(), room).map_err(|refusal| match refusal.number() {
        15 => Failure::refused(refusal, format!("the rewriting has {}", text::counted(steps, "step"))),
        _ => asked.refused(refusal),
    })
}

/// Replays the lists and tells the last steps.
fn told(
    rewriting: &Rewriting,
    replay: &mut Replay,
    (skipped, whole): (usize, bool),
    progress: &mut Progress,
    out: &mut Out,
) -> Result<(), Failure> {
    for step in 0..skipped {
        replayed(rewriting, replay, step)?;
        progress.done(step + 1);
    }
    // Two texts on one terminal would run into each other, and the lines show how far it is.
    if io::stdout().is_terminal() {
        progress.end();
    }
    if skipped > 0 {
        writeln!(out, "{} not shown", text::counted(skipped, "step"))?;
    }
    for step in skipped..rewriting.places.len() {
        let before = replay.word.clone();
        let (place, used) = replayed(rewriting, replay, step)?;
        writeln!(out, "step {} at place {place}, {}", text::grouped(step as u64 + 1), rule(replay.rig.rank, used))?;
        replaced(&before, &replay.word, place, used, whole, out)?;
        progress.done(step + 1);
    }
    Ok(())
}

/// The same as JSON, written step by step: there may be millions.
fn in_json(
    asked: &Asked,
    rewriting: &Rewriting,
    skipped: usize,
    replay: &mut Replay,
    progress: &Progress,
    out: &mut Out,
) -> Result<(), Failure> {
    let mut fields = asked.fields();
    fields.push(("skipped", skipped.into()));
    let front = out.front("why", fields);
    write!(out, "{front},\"steps\":[")?;
    for step in 0..rewriting.places.len() {
        let (place, used) = replayed(rewriting, replay, step)?;
        progress.done(step + 1);
        if step >= skipped {
            let step_told = used.json([("place", place.into()), ("length", replay.word.len().into())]);
            write!(out, "{}{step_told}", if step > skipped { "," } else { "" })?;
        }
    }
    Ok(writeln!(out, "],\"normal_form\":{}}}", list(&rewriting.form))?)
}

/// Makes a step by the single rewrite, and holds it to the lists.
fn replayed(rewriting: &Rewriting, replay: &mut Replay, step: usize) -> Result<(usize, Used), Failure> {
    let place = usize::from(rewriting.places[step]);
    match replay.step(place)? {
        Some(used)
            if used.family == rewriting.families[step] && replay.word.len() == usize::from(rewriting.lengths[step]) =>
        {
            Ok((place, used))
        }
        _ => Err(Failure::Replay(step + 1)),
    }
}

/// The rule that a step used, and how many letters its left side has.
#[derive(Clone, Copy)]
struct Used {
    family: u8,
    i: u8,
    j: u8,
    left: usize,
}

impl Used {
    /// Family, i and j, and what is said besides.
    fn json<const N: usize>(self, more: [(&'static str, Value); N]) -> Value {
        let rule = [("family", self.family.into()), ("i", self.i.into()), ("j", self.j.into())];
        Value::Object(rule.into_iter().chain(more).collect())
    }
}

/// A word that is rewritten step by step.
struct Replay {
    rig: Rig,
    word: Vec<u8>,
}

/// No left side has more letters: twice the rank at most.
const LONGEST_SIDE: usize = 128;

impl Replay {
    /// One rewrite by the library, which is lent only the letters that a left side at the place can have.
    fn step(&mut self, place: usize) -> Result<Option<Used>, Refusal> {
        let end = self.word.len().min(place + LONGEST_SIDE);
        let here = &mut self.word[place..end];
        let mut new = [0; LONGEST_SIDE];
        let Some(Rule { family, i, j, length }) = library::rewrite(self.rig, here, 0, &mut new)? else {
            return Ok(None);
        };
        if length < here.len() {
            self.word.drain(place..place + 2);
            return Ok(Some(Used { family, i, j, left: 2 }));
        }
        // If the length stays, the two sides differ in their first and in their last letter.
        let left = here.iter().zip(&new).rposition(|(old, new)| old != new).map_or(0, |last| last + 1);
        here.copy_from_slice(&new[..length]);
        Ok(Some(Used { family, i, j, left }))
    }
}

/// The rule in words.
fn rule(n: u8, used: Used) -> String {
    let Used { family, i, j, .. } = used;
    match family {
        1 => format!("family 1 with i = {i}: {i} twice goes"),
        2 => format!("family 2 with i = {i}, j = {j}: {i} and {j} change places"),
        3 => format!("family 3 with i = {i}, j = {j}: {i} passes the block [{i},{j}] and becomes {}", i + 1),
        4 => format!("family 4 with i = {i}: {} passes the block [{i},{}]", i + 1, 2 * n - i),
        5 => format!("family 5 with i = {i}: {i} {n} {i} becomes {n} {i} {n}"),
        6 => format!("family 6 with i = {i}: {n} passes the block [{i},{}] and becomes {}", n + 2, n - 1),
        _ => format!("family {family} with i = {i}: {} passes the block [{i},{}] and becomes {n}", n - 1, n + 2),
    }
}

/// Words of more letters are shown only around the left side.
const SHORT: usize = 40;
/// So many letters of them are then shown on either side.
const AROUND: usize = 8;

/// The word with the left side in brackets, below it the word after.
fn replaced(before: &[u8], after: &[u8], place: usize, used: Used, whole: bool, out: &mut dyn Write) -> io::Result<()> {
    let (front, rest) = before.split_at(place);
    let (left, back) = rest.split_at(used.left);
    let right = &after[place..after.len() - back.len()];
    let around = if whole || before.len() <= SHORT { before.len() } else { AROUND };
    let front = match front.len().checked_sub(around) {
        None | Some(0) => text::spaced(front),
        Some(cut) => format!(".. {}", text::spaced(&front[cut..])),
    };
    let back = match back.len().checked_sub(around) {
        None | Some(0) => text::spaced(back),
        Some(_) => format!("{} ..", text::spaced(&back[..around])),
    };
    let (left, right) = (text::spaced(left), text::spaced(right));
    let width = left.len().max(right.len());
    let gap = if front.is_empty() { "" } else { " " };
    let marked = format!("  {front}{gap}({left}){:pad$} {back}", "", pad = width - left.len());
    writeln!(out, "{}", marked.trim_end())?;
    writeln!(out, "  {front}{gap} {right:width$}  {back:<}   {} left", text::counted(after.len(), "letter"))
}
