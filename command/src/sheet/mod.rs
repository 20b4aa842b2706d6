//! The sheet for the training record: a book as an HTML page that prints well. The page for instructors prints the same
//! document, with the same style.
mod delays;
mod front;
mod pages;
mod pdf;
mod photograph;
mod preset;

pub use pdf::of as pdf;
pub use photograph::Photograph;

use crate::books::Book;
use crate::failure::Failure;
use crate::library::{Preset, Refusal, Rig};
use crate::names::Names;
use crate::pictures::escaped;
use crate::text;

/// What a sheet is made of.
pub struct Given<'a> {
    pub book: &'a Book,
    pub names: &'a Names,
    /// The file of the names, to be shown.
    pub names_file: String,
    /// The cabin's photograph, or why it is not printed; none if the names have none.
    pub photograph: Option<Result<Photograph, String>>,
    pub date: Option<String>,
    /// What stands on the first page before all else.
    pub warnings: &'a [String],
}

/// The style that the page has too.
const STYLE: &str = include_str!("../../../page/src/paper.css");
/// What a document of its own needs beside it.
const ALONE: &str = "body { margin: 2em auto; max-width: 680px; padding: 0 1em; color: #000; background: #fff; }\n\
                     @media print { body { margin: 0; padding: 0; max-width: none; } }\n";

/// The whole document. A record that is refused is told in its place.
pub fn of(given: &Given) -> Result<String, Failure> {
    let presets = given.book.presets()?;
    let title = format!("Presets of {}", given.book.file);
    let rigs = rigs(&presets);
    let mut page = format!(
        "<!doctype html>\n<html lang=\"en\">\n<head>\n<meta charset=\"utf-8\">\n<meta http-equiv=\"Content-Security-Policy\" \
         content=\"default-src 'none'; style-src 'unsafe-inline'; img-src data:\">\n<title>{}</title>\n<style>\n\
         {STYLE}{ALONE}{}</style>\n</head>\n<body>\n<main class=\"sheet\">\n",
        escaped(&title),
        pages::rules(given, presets.len(), &rigs)
    );
    if let Some(Ok(photograph)) = &given.photograph {
        page += &photograph.defined();
    }
    page += &front::part(given, &title, &presets)?;
    for (number, preset) in presets.iter().enumerate() {
        page += &preset::part(given, number, preset)?;
    }
    for rig in rigs {
        page += &delays::part(given, rig, &presets)?;
    }
    page += "</main>\n</body>\n</html>\n";
    Ok(page)
}

/// The rigs of the presets that are right, each once.
fn rigs(presets: &[Result<Preset, Refusal>]) -> Vec<Rig> {
    let mut rigs = Vec::new();
    for preset in presets.iter().flatten() {
        if !rigs.contains(&preset.rig) {
            rigs.push(preset.rig);
        }
    }
    rigs
}

/// A row of a table; the value is markup already.
fn row(name: &str, value: &str) -> String {
    format!("<tr><th>{name}</th><td>{value}</td></tr>\n")
}

/// So many steps in milliseconds, behind them in brackets; nothing if a step's delay is not known.
fn milliseconds(names: &Names, steps: usize) -> String {
    names.delay().map_or(String::new(), |delay| format!(" ({} ms)", text::thousandths(delay * steps as u64)))
}
