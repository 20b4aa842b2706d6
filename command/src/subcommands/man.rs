//! `man`: the manual page.
use crate::args::Args;
use crate::failure::Failure;
use crate::json::Value;
use crate::manual;
use crate::out::Out;
use crate::table::{self, Subcommand, Verdict};
use std::io::Write;

pub const SUBCOMMAND: Subcommand = Subcommand {
    name: "man",
    group: table::ITSELF,
    about: "the manual page",
    usages: &[""],
    text: "Prints the manual page, all subcommands with their operands and options, for man; or as Markdown.",
    operands: &[],
    options: &[table::MARKDOWN],
    examples: &["winnathey man | man -l -", "winnathey man --markdown > COMMAND.md"],
    json: &[&[("page", "the manual page")]],
    paged: false,
    run,
};

fn run(args: Args, out: &mut Out) -> Result<Verdict, Failure> {
    args.done()?;
    let page = if args.flag("--markdown") { manual::markdown() } else { manual::roff() };
    if out.json {
        out.answer("man", vec![("page", Value::Text(page))])?;
    } else {
        write!(out, "{page}")?;
    }
    Ok(Verdict::Answer)
}
