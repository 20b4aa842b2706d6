//! The subcommands, a module each.
mod append;
mod between;
mod certify;
mod check;
mod completions;
mod convert;
mod delays;
mod descents;
mod diff;
mod draw;
mod fallback;
mod inverse;
mod list;
mod man;
mod move_to;
mod name;
mod normal;
mod product;
mod remove;
mod replace;
mod report;
mod same;
mod shortest;
mod show;
mod split;
mod why;

pub use show::{in_words, numbered};

use crate::table::Subcommand;

/// In the order of the help text: presets, then windows and words, then books, then the command itself.
pub static SUBCOMMANDS: [Subcommand; 26] = [
    show::SUBCOMMAND,
    why::SUBCOMMAND,
    draw::SUBCOMMAND,
    same::SUBCOMMAND,
    split::SUBCOMMAND,
    between::SUBCOMMAND,
    fallback::SUBCOMMAND,
    delays::SUBCOMMAND,
    normal::SUBCOMMAND,
    product::SUBCOMMAND,
    inverse::SUBCOMMAND,
    descents::SUBCOMMAND,
    shortest::SUBCOMMAND,
    list::SUBCOMMAND,
    check::SUBCOMMAND,
    diff::SUBCOMMAND,
    append::SUBCOMMAND,
    remove::SUBCOMMAND,
    replace::SUBCOMMAND,
    move_to::SUBCOMMAND,
    convert::SUBCOMMAND,
    name::SUBCOMMAND,
    report::SUBCOMMAND,
    certify::SUBCOMMAND,
    completions::SUBCOMMAND,
    man::SUBCOMMAND,
];

pub fn named(name: &str) -> Option<&'static Subcommand> {
    SUBCOMMANDS.iter().find(|subcommand| subcommand.name == name)
}
