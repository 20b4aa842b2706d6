//! `fallback`: whether a simpler preset is left when steps are pulled out.
use crate::args::Args;
use crate::asked::{self, SecondRig};
use crate::culprit::Given;
use crate::failure::Failure;
use crate::json::{Value, list};
use crate::out::Out;
use crate::table::{self, Completes, Operand, Subcommand, Verdict};
use crate::{library, text};
use std::io::Write;

const WORDS: Operand = Operand {
    name: "PRESENT, SIMPLER",
    about: "words, one argument each: steps from 1 to n with spaces or commas between them, 4,096 at most; '' is the \
            empty word, - reads one from standard input. A window in brackets stands for its normal form",
    completes: Completes::Nothing,
};

pub const SUBCOMMAND: Subcommand = Subcommand {
    name: "fallback",
    group: table::PRESETS,
    about: "whether a simpler preset can be reached by removing steps",
    usages: &["RIG PRESENT SIMPLER", "--book FILE --edition EDITION --preset N (--preset N | SIMPLER)"],
    text: "Whether what the simpler preset shows can be reached by removing steps from the present one's normal form, and \
           then which to keep. Several choices may serve; one is given. A no is an answer: the exit status is 0, \
           unless --status is given.",
    operands: &[table::RIG, WORDS],
    options: &[table::EMPTY, table::STATUS, table::BOTH_FROM_BOOK, table::EDITION, table::TIMEOUT, table::BOTH_PRESETS],
    examples: &["winnathey fallback A2 '1 2 1' '1 2'"],
    json: &[
        &[("present", "the present preset: rig, word"), ("simpler", "the simpler preset, likewise")],
        table::FORM,
        &[("fallback", "true or false"), ("places", "the places of the normal form to keep, from 0, or null")],
    ],
    paged: false,
    run,
};

fn run(mut args: Args, out: &mut Out) -> Result<Verdict, Failure> {
    let (present, simpler) = asked::pair(&mut args, ["PRESENT", "SIMPLER"], SecondRig::TheFirsts, out)?;
    let rig = present.rig();
    let given = Given { rig: Some(&present.rig), words: &[&present.word, &simpler.word], ..Given::default() };
    let kept = library::fallback(rig, present.letters(), simpler.letters());
    let kept = kept.map_err(|refusal| given.refused(refusal))?;
    let (form, shown) = (present.form()?, simpler.window()?);
    let verdict = if kept.is_some() { Verdict::Answer } else { Verdict::No };
    if out.json {
        let fields = vec![
            ("present", Value::Object(present.fields())),
            ("simpler", Value::Object(simpler.fields())),
            ("normal_form", list(&form)),
            ("fallback", kept.is_some().into()),
            ("places", kept.as_ref().map_or(Value::Null, list)),
        ];
        out.answer("fallback", fields)?;
        return Ok(verdict);
    }
    writeln!(out, "present  {}\nsimpler  {}", present.heading(), simpler.heading())?;
    let shown = text::spaced(&shown);
    let Some(places) = kept else {
        let no = out.style.red("no:");
        writeln!(out, "{no} no part of the normal form {} shows {shown}", text::word(&form))?;
        return Ok(verdict);
    };
    let letters: Vec<u8> = places.iter().map(|&place| form[usize::from(place)]).collect();
    let yes = out.style.green("yes:");
    writeln!(out, "{yes} {} shows {shown}", text::word(&letters))?;
    writeln!(out, "normal form   {}", marked(&form, &places))?;
    if !places.is_empty() {
        writeln!(out, "places kept   {} (in brackets; they count from 0)", text::spaced(&places))?;
    }
    writeln!(out, "pulled out    {}", text::counted(form.len() - places.len(), "step"))?;
    Ok(verdict)
}

/// The letters at the places in brackets.
fn marked(form: &[u8], places: &[u16]) -> String {
    if form.is_empty() {
        return text::word(form);
    }
    let letter = |(place, letter): (usize, &u8)| match places.binary_search(&(place as u16)) {
        Ok(_) => format!("[{letter}]"),
        Err(_) => letter.to_string(),
    };
    form.iter().enumerate().map(letter).collect::<Vec<_>>().join(" ")
}
