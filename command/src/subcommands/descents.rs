//! `descents`: the steps that would make a preset shorter.
use crate::args::Args;
use crate::failure::Failure;
use crate::json::list;
use crate::library::{self, Rig};
use crate::out::Out;
use crate::table::{self, Subcommand, Verdict};
use crate::{asked, text};
use std::io::Write;

pub const SUBCOMMAND: Subcommand = Subcommand {
    name: "descents",
    group: table::WORDS,
    about: "the steps that would make a preset shorter",
    usages: &["RIG WORD", "RIG '[WINDOW]'", "--book FILE --edition EDITION --preset N"],
    text: "The steps that, added at the end, make the length smaller by one: some shortest word ends with each of \
           them. Then the same for steps in front, with which some shortest word begins. Every other step makes the \
           length greater by one.",
    operands: &[table::RIG, table::WORD],
    options: &[table::EMPTY, table::FROM_BOOK, table::EDITION, table::TIMEOUT, table::PRESET],
    examples: &["winnathey descents D5 '[3 -5 1 4 -2]'"],
    json: &[
        table::READ,
        &[
            ("length", "the length of the normal form"),
            ("at_the_end", "the steps that make it shorter at the end"),
            ("in_front", "the steps that make it shorter in front"),
        ],
    ],
    paged: false,
    run,
};

fn run(mut args: Args, out: &mut Out) -> Result<Verdict, Failure> {
    let asked = asked::preset(&mut args, out)?;
    let (rig, form) = (asked.rig(), asked.form()?);
    let (at_the_end, in_front) = (at_the_end(rig, &form)?, in_front(rig, &form)?);
    if out.json {
        let mut fields = asked.fields();
        fields.push(("length", form.len().into()));
        fields.extend([("at_the_end", list(&at_the_end)), ("in_front", list(&in_front))]);
        out.answer("descents", fields)?;
        return Ok(Verdict::Answer);
    }
    let steps = |steps: &[u8]| if steps.is_empty() { "none".to_string() } else { text::spaced(steps) };
    writeln!(out, "{}", asked.heading())?;
    writeln!(out, "length {}", form.len())?;
    writeln!(out, "shorter with one of these steps at the end: {}", steps(&at_the_end))?;
    writeln!(out, "shorter with one of these steps in front:   {}", steps(&in_front))?;
    Ok(Verdict::Answer)
}

/// By the library's product of the normal form and each step.
fn at_the_end(rig: Rig, form: &[u8]) -> Result<Vec<u8>, Failure> {
    shorter(rig, form, |step| library::product_of_words(rig, form, &[step]))
}

/// By the library's product of each step and the normal form.
pub fn in_front(rig: Rig, form: &[u8]) -> Result<Vec<u8>, Failure> {
    shorter(rig, form, |step| library::product_of_words(rig, &[step], form))
}

fn shorter(
    rig: Rig,
    form: &[u8],
    product: impl Fn(u8) -> Result<Vec<u8>, library::Refusal>,
) -> Result<Vec<u8>, Failure> {
    let mut steps = Vec::new();
    for step in 1..=rig.rank {
        if product(step)?.len() < form.len() {
            steps.push(step);
        }
    }
    Ok(steps)
}
