//! `same`: whether two presets show the same, and which word is the better.
use crate::args::Args;
use crate::asked::{self, SecondRig};
use crate::failure::Failure;
use crate::json::{Value, list, optional};
use crate::library;
use crate::out::Out;
use crate::table::{self, Subcommand, Verdict};
use crate::text;
use crate::typed::Asked;
use std::io::Write;

pub const SUBCOMMAND: Subcommand = Subcommand {
    name: "same",
    group: table::PRESETS,
    about: "whether two presets show the same, and the better word",
    usages: &["RIG WORD [RIG] WORD", "--book FILE --edition EDITION --preset N (--preset N | [RIG] WORD)"],
    text: "Whether two presets show the same: as many lanes, and the same number on each, whatever the kinds. Of two \
           words of one kind and rank that do, also the better: the shorter one, at equal lengths the one earlier in \
           the dictionary, where the HIGHER step comes first. A no is an answer: the exit status is 0, unless --status \
           is given. The second preset has the first one's rig if it has none of its own.",
    operands: &[table::RIG, table::ONE_WORD],
    options: &[table::EMPTY, table::STATUS, table::BOTH_FROM_BOOK, table::EDITION, table::TIMEOUT, table::BOTH_PRESETS],
    examples: &[
        "winnathey same A2 '1 2 1' '2 1 2'",
        "winnathey same A3 1,2,1 B4 1,2,1",
        "winnathey same --book presets.book --edition first --preset 0 --preset 1",
    ],
    json: &[&[
        ("first", "the first preset: rig, word, window, and where it comes from"),
        ("second", "the second preset, likewise"),
        ("same", "true or false"),
        ("better", "first or second, if the words differ and show the same on one rig, or null"),
    ]],
    paged: false,
    run,
};

fn run(mut args: Args, out: &mut Out) -> Result<Verdict, Failure> {
    let (first, second) = asked::pair(&mut args, ["WORD", "the second WORD"], SecondRig::Own, out)?;
    let (one, other) = (first.preset(), second.preset());
    let same = library::same(one, other).map_err(|refusal| culprit(&first, &second, refusal))?;
    let better = match same && one.rig == other.rig && one.word != other.word {
        true => library::better(one.rig, one.word, other.word)?,
        false => None,
    };
    if out.json {
        let fields = vec![
            ("first", preset(&first)?),
            ("second", preset(&second)?),
            ("same", same.into()),
            ("better", optional(better.map(|better| if better == one.word { "first" } else { "second" }))),
        ];
        out.answer("same", fields)?;
    } else {
        writeln!(out, "{}\n{}", first.heading(), second.heading())?;
        told(&first, &second, same, better, out)?;
    }
    Ok(if same { Verdict::Answer } else { Verdict::No })
}

/// The preset that is refused: the first is checked before the second.
fn culprit(first: &Asked, second: &Asked, refusal: library::Refusal) -> Failure {
    let asked = if library::length(first.rig(), first.letters()).is_err() { first } else { second };
    asked.refused(refusal)
}

fn preset(asked: &Asked) -> Result<Value, Failure> {
    let mut fields = asked.fields();
    fields.push(("window", list(&asked.window()?)));
    Ok(Value::Object(fields))
}

fn told(first: &Asked, second: &Asked, same: bool, better: Option<&[u8]>, out: &mut Out) -> Result<(), Failure> {
    let (yes, no) = (out.style.green("yes:"), out.style.red("no:"));
    if !same {
        writeln!(out, "{no} the first shows  {}", text::spaced(&first.window()?))?;
        writeln!(out, "    the second shows {}", text::spaced(&second.window()?))?;
        return Ok(());
    }
    writeln!(out, "{yes} both show {}", text::spaced(&first.window()?))?;
    if let Some(better) = better {
        let which = if better == first.letters() { "first" } else { "second" };
        writeln!(out, "the better word is the {which}: {}", text::word(better))?;
    } else if first.rig() == second.rig() {
        writeln!(out, "the words are equal")?;
    }
    Ok(())
}
