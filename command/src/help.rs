//! What `--help` prints, made from the table.
use crate::failure::Failure;
use crate::json::{self, Value, object};
use crate::out::Out;
use crate::style::Style;
use crate::subcommands::{self, SUBCOMMANDS};
use crate::table::{Operand, Opt, Subcommand};
use crate::{suggest, text};
use std::ffi::OsString;
use std::io::Write;

pub const ABOUT: &str = "Router presets as words in Coxeter groups A, B and D. Every answer is the verified library's.";

/// What holds for every subcommand, in paragraphs.
pub const END: [&str; 2] = [
    "'winnathey SUBCOMMAND --help' says how to use it, with examples; so does 'winnathey help SUBCOMMAND'. 'winnathey \
     --version' prints the version and the hash of the library.",
    "A call that cannot be answered is refused with a number and its meaning on standard error. The exit status is 0 \
     for an answer, 1 for a refusal or a file that cannot be read or written, 2 if the command was not understood, 4 \
     if a file is written but something failed afterwards.",
];

/// Lines are no longer, however wide the terminal is.
const WIDEST: usize = 80;
/// Where the words on an operand or option begin.
const COLUMN: usize = 16;

/// Help on the subcommand that is named first, or on all.
pub fn write(mut arguments: Vec<OsString>, out: &mut Out) -> Result<(), Failure> {
    arguments.retain(|argument| argument != "--json");
    if arguments == ["help"] {
        arguments.clear();
    }
    match &arguments[..] {
        [] if out.json => Ok(out.answer("help", vec![("subcommands", json::list(SUBCOMMANDS.iter().map(described)))])?),
        [] => Ok(out.write_all(overview(out.width, out.style).as_bytes())?),
        [name] => write_one(find(&name.to_string_lossy())?, out),
        [_, more, ..] => {
            let more = text::plain(&more.to_string_lossy());
            Err(Failure::usage(format!("help is on one subcommand, and '{more}' is too many"), None))
        }
    }
}

/// Help on one subcommand.
pub fn write_one(subcommand: &'static Subcommand, out: &mut Out) -> Result<(), Failure> {
    if out.json {
        return Ok(out.answer("help", vec![("subcommands", json::list([described(subcommand)]))])?);
    }
    let text = of(subcommand, out.width, out.style);
    Ok(out.write_all(text.as_bytes())?)
}

/// A subcommand for JSON.
fn described(subcommand: &Subcommand) -> Value {
    let operand = |operand: &Operand| object([("name", operand.name.into()), ("about", operand.about.into())]);
    let option = |option: &Opt| {
        let (name, value, about) = (option.name.into(), json::optional(option.value), option.about.into());
        object([("name", name), ("value", value), ("about", about)])
    };
    let field = |(name, about): &(&str, &str)| object([("name", (*name).into()), ("about", (*about).into())]);
    object([
        ("name", subcommand.name.into()),
        ("group", subcommand.group.into()),
        ("about", subcommand.about.into()),
        ("usages", json::list(usages(subcommand))),
        ("text", subcommand.text.into()),
        ("operands", json::list(subcommand.operands.iter().map(operand))),
        ("options", json::list(subcommand.all_options().map(option))),
        ("fields", json::list(subcommand.fields().map(field))),
        ("examples", json::list(subcommand.examples.iter().copied())),
    ])
}

/// The subcommand of that name, or what may have been meant.
pub fn find(name: &str) -> Result<&'static Subcommand, Failure> {
    subcommands::named(name).ok_or_else(|| {
        let meant = suggest::question(name, SUBCOMMANDS.iter().map(|subcommand| subcommand.name).chain(["help"]));
        Failure::usage(format!("no subcommand '{}'{meant}", text::plain(name)), None)
    })
}

fn paragraph(text: &str, width: usize) -> String {
    text::wrapped(text, width).iter().map(|line| format!("{line}\n")).collect()
}

fn overview(width: usize, style: Style) -> String {
    let width = width.min(WIDEST);
    let mut help = format!("usage: winnathey SUBCOMMAND ..\n\n{}\n", paragraph(ABOUT, width));
    let mut group = "";
    for subcommand in &SUBCOMMANDS {
        if subcommand.group != group {
            let gap = if group.is_empty() { "" } else { "\n" };
            group = subcommand.group;
            help += &format!("{gap}{group}:\n");
        }
        help += &format!("  {} {}\n", style.bold(&format!("{:<11}", subcommand.name)), subcommand.about);
    }
    for text in END {
        help += &format!("\n{}", paragraph(text, width));
    }
    help
}

/// The lines of usage, without the program's and the subcommand's name.
pub fn usages(subcommand: &Subcommand) -> Vec<String> {
    let usage = |usage: &&str| format!("{usage} [OPTION ..]").trim_start().to_string();
    subcommand.usages.iter().map(usage).collect()
}

/// An option with its value.
pub fn option(option: &Opt) -> String {
    option.value.map_or(option.name.to_string(), |value| format!("{} {value}", option.name))
}

/// The help text of a subcommand.
pub fn of(subcommand: &Subcommand, width: usize, style: Style) -> String {
    let width = width.min(WIDEST);
    let mut help = String::new();
    for (number, usage) in usages(subcommand).iter().enumerate() {
        let front = format!("{} winnathey {}", if number == 0 { "usage:" } else { "      " }, subcommand.name);
        let indent = text::columns(&front) + 1;
        let lines = text::wrapped(usage, width.saturating_sub(indent).max(20));
        for (number, line) in lines.iter().enumerate() {
            let front = if number == 0 { format!("{front} ") } else { " ".repeat(indent) };
            help += &format!("{front}{line}\n");
        }
    }
    for text in subcommand.text.split("\n\n") {
        help += &format!("\n{}", paragraph(text, width));
    }
    help += "\n";
    for operand in subcommand.operands {
        help += &entry(operand.name, operand.about, width, style);
    }
    for listed in subcommand.all_options() {
        help += &entry(&option(listed), listed.about, width, style);
    }
    help += if subcommand.examples.len() == 1 { "\nExample:\n" } else { "\nExamples:\n" };
    for example in subcommand.examples {
        help += &format!("  {example}\n");
    }
    help
}

/// A name and the words on it, beside it or, if it is long, below it.
fn entry(name: &str, about: &str, width: usize, style: Style) -> String {
    let indent = " ".repeat(COLUMN);
    let mut lines = text::wrapped(about, width - COLUMN).into_iter();
    let front = if 2 + text::columns(name) + 2 <= COLUMN {
        let fill = " ".repeat(COLUMN - 2 - text::columns(name));
        format!("  {}{fill}{}\n", style.bold(name), lines.next().unwrap_or_default())
    } else {
        format!("  {}\n", style.bold(name))
    };
    lines.fold(front, |help, line| format!("{help}{indent}{line}\n"))
}

#[cfg(test)]
mod tests {
    use super::*;
    use crate::table::Completes;

    #[test]
    fn no_line_is_longer_than_80() {
        let style = Style::of(false);
        let texts = SUBCOMMANDS.iter().map(|subcommand| of(subcommand, 200, style)).chain([overview(200, style)]);
        for text in texts {
            for line in text.lines() {
                assert!(text::columns(line) <= 80, "{line}");
            }
        }
    }

    /// The options that a text names, each with the subcommand in front of it if there is one: 'append --from'.
    fn named(text: &str) -> Vec<(Option<&'static Subcommand>, &str)> {
        let words: Vec<&str> = text.split([' ', '\n']).collect();
        let option = |at: usize| {
            let name = words[at].trim_end_matches([',', '.', ';', ':', ')']);
            let is_option = name.starts_with('-')
                && name.len() > 1
                && name.chars().all(|letter| letter == '-' || letter.is_ascii_alphabetic());
            is_option.then(|| (at.checked_sub(1).and_then(|at| subcommands::named(words[at])), name))
        };
        (0..words.len()).filter_map(option).collect()
    }

    #[test]
    fn every_option_that_a_help_names_is_there() {
        for subcommand in &SUBCOMMANDS {
            let operands = subcommand.operands.iter().map(|operand| operand.about);
            let options = subcommand.all_options().map(|option| option.about);
            for text in operands.chain(options).chain([subcommand.text]) {
                for (other, option) in named(text) {
                    let of = other.unwrap_or(subcommand);
                    assert!(option == "-h" || of.has(option), "{}: no {} {option}", subcommand.name, of.name);
                }
            }
        }
    }

    #[test]
    fn every_option_of_a_usage_is_in_the_table() {
        for subcommand in &SUBCOMMANDS {
            let words = subcommand.usages.iter().flat_map(|usage| usage.split([' ', '(', ')', '[', ']', '|']));
            for option in words.filter(|word| word.starts_with('-')) {
                assert!(subcommand.has(option), "{} {option}", subcommand.name);
            }
            for option in subcommand.all_options() {
                assert!(option.value.is_some() || option.completes == Completes::Nothing, "{}", option.name);
            }
        }
    }
}
