//! `product`: one preset after another.
use crate::args::Args;
use crate::asked::{self, SecondRig};
use crate::culprit::Given;
use crate::failure::Failure;
use crate::json::{Value, list};
use crate::library;
use crate::out::Out;
use crate::table::{self, Completes, Operand, Subcommand, Verdict};
use crate::text;
use crate::typed::{Asked, Origin};
use std::io::Write;

const FACTORS: Operand = Operand {
    name: "FIRST, SECOND",
    about: "words, or windows in brackets, one argument each: '5 2 3' or '[3 -5 1 4 -2]'; '' is the empty word, - \
            reads one from standard input",
    completes: Completes::Nothing,
};

pub const SUBCOMMAND: Subcommand = Subcommand {
    name: "product",
    group: table::WORDS,
    about: "one preset after another, of words or windows",
    usages: &["RIG FIRST SECOND", "--book FILE --edition EDITION --preset N (--preset N | SECOND)"],
    text: "The first word followed by the second: its normal form and what it shows. With u(-i) = -u(i), the product \
           of two windows has at i the entry that the first has where the second says.",
    operands: &[table::RIG, FACTORS],
    options: &[table::EMPTY, table::BOTH_FROM_BOOK, table::EDITION, table::TIMEOUT, table::BOTH_PRESETS],
    examples: &["winnathey product A3 1 3", "winnathey product B3 '[2 1 3]' '[1 3 -2]'"],
    json: &[
        &[("first", "the first factor: rig, word"), ("second", "the second factor, likewise")],
        table::FORM,
        table::SHOWS,
    ],
    paged: false,
    run,
};

fn run(mut args: Args, out: &mut Out) -> Result<Verdict, Failure> {
    let (first, second) = asked::pair(&mut args, ["FIRST", "SECOND"], SecondRig::TheFirsts, out)?;
    let rig = first.rig();
    let given = Given { rig: Some(&first.rig), words: &[&first.word, &second.word], ..Given::default() };
    let form = library::product_of_words(rig, first.letters(), second.letters());
    let form = form.map_err(|refusal| given.refused(refusal))?;
    let window = library::product_of_windows(rig, &first.window()?, &second.window()?)?;
    if out.json {
        let fields = vec![
            ("first", Value::Object(first.fields())),
            ("second", Value::Object(second.fields())),
            ("normal_form", list(&form)),
            ("window", list(&window)),
        ];
        out.answer("product", fields)?;
        return Ok(Verdict::Answer);
    }
    writeln!(out, "{rig}, {} times {}", factor(&first), factor(&second))?;
    told(&form, &window, out)
}

/// A factor as it was typed.
pub fn factor(asked: &Asked) -> String {
    match &asked.origin {
        Origin::Typed => text::word(asked.letters()),
        Origin::Window(window) => format!("[{}]", text::spaced(window)),
        Origin::Book { number, .. } => format!("preset {number} ({})", text::word(asked.letters())),
    }
}

/// The answer as a word and as a window.
pub fn told(form: &[u8], window: &[i8], out: &mut Out) -> Result<Verdict, Failure> {
    writeln!(out, "normal form, {}: {}", text::counted(form.len(), "letter"), text::word(form))?;
    writeln!(out, "shows {}", text::spaced(window))?;
    Ok(Verdict::Answer)
}
