//! Pictures as SVG, in whole numbers of pixels, and where they go.
pub mod bars;
pub mod cabin;
mod look;
pub mod paper;
mod places;
mod png;
pub mod strands;
mod traced;

use crate::args::Args;
use crate::failure::Failure;
use crate::files::{self, Sort};
use crate::json::{self, Value};
use crate::out::Out;
use crate::table::Verdict;
use crate::text;
use std::fmt::Write as _;
use std::io::Write;
use std::path::PathBuf;

/// A picture of the given size: its parts between the frame's lines.
fn framed(wide: usize, high: usize, title: &str, parts: &str) -> String {
    let title = escaped(title);
    format!(
        "<svg xmlns=\"http://www.w3.org/2000/svg\" width=\"{wide}\" height=\"{high}\" viewBox=\"0 0 {wide} {high}\" \
         font-family=\"sans-serif\">\n<title>{title}</title>\n\
         <rect width=\"{wide}\" height=\"{high}\" fill=\"#ffffff\"/>\n{parts}</svg>\n"
    )
}

/// How a text is written.
#[derive(Clone, Copy)]
struct Font {
    size: usize,
    /// Whether it begins, is centred or ends at its point.
    anchor: &'static str,
    colour: &'static str,
}

const START: Font = Font { size: 15, anchor: "start", colour: "#000000" };

impl Font {
    const fn sized(size: usize, anchor: &'static str) -> Font {
        Font { size, anchor, colour: "#000000" }
    }

    const fn grey(self) -> Font {
        Font { colour: "#555555", ..self }
    }
}

fn put(parts: &mut String, (x, y): (usize, usize), font: Font, text: &str) {
    let Font { size, anchor, colour } = font;
    let fill = if colour == "#000000" { String::new() } else { format!(" fill=\"{colour}\"") };
    // Writing to a string does not fail.
    let _ = writeln!(
        parts,
        "<text x=\"{x}\" y=\"{y}\" font-size=\"{size}\" text-anchor=\"{anchor}\"{fill}>{}</text>",
        escaped(text)
    );
}

/// Text between the marks of XML.
pub fn escaped(text: &str) -> String {
    text.replace('&', "&amp;").replace('<', "&lt;").replace('>', "&gt;").replace('"', "&quot;")
}

/// A number with the minus sign of print.
fn signed(entry: i8) -> String {
    entry.to_string().replace('-', "\u{2212}")
}

/// About how many pixels a text takes.
fn length(text: &str, size: usize) -> usize {
    text.chars().map(fifths).sum::<usize>() * size / 5
}

/// A text that takes no more than so many pixels: what is too long ends with three dots.
fn fitted(text: &str, size: usize, room: usize) -> String {
    if length(text, size) <= room {
        return text.to_string();
    }
    let fits = |end: &usize| length(&text.chars().take(*end).collect::<String>(), size) + size <= room;
    let end = (0..text.chars().count()).take_while(fits).last().unwrap_or(0);
    let front: String = text.chars().take(end).collect();
    format!("{}\u{2026}", front.trim_end())
}

/// About how wide a character is, in fifths of the text's size: capitals are wider, and ideographs are square.
fn fifths(character: char) -> usize {
    match character {
        'M' | 'W' | '\u{2e80}'.. => 5,
        capital if capital.is_uppercase() => 4,
        _ => 3,
    }
}

/// The file that a picture goes to.
pub struct Target {
    path: PathBuf,
    png: bool,
    force: bool,
}

impl Target {
    /// By the option for SVG, or `--png`; none where neither is given.
    pub fn named(args: &Args, svg: &str) -> Result<Option<Target>, Failure> {
        let force = args.flag("--force");
        let target = match (args.path(svg), args.path("--png")) {
            (None, None) => return Ok(None),
            (Some(_), Some(_)) => return Err(args.usage(format!("either {svg} or --png"))),
            (Some(path), None) => Target { path, png: false, force },
            (None, Some(path)) => Target { path, png: true, force },
        };
        let ends = |ending: &str| target.path.extension().is_some_and(|found| found.eq_ignore_ascii_case(ending));
        if !target.png && ends("png") {
            return Err(args.usage(format!("{svg} writes SVG: --png FILE writes PNG")));
        }
        if target.png && ends("svg") {
            return Err(args.usage(format!("--png writes PNG: {svg} FILE writes SVG")));
        }
        if args.flag("--json") && files::is_standard(&target.path) {
            return Err(args.usage("a picture on standard output and --json do not go together"));
        }
        Ok(Some(target))
    }

    /// Writes the picture, and says what it is of and where it is.
    pub fn write(
        &self,
        picture: &str,
        sort: Sort,
        subcommand: &'static str,
        (said, mut fields): (String, Vec<(&'static str, Value)>),
        out: &mut Out,
    ) -> Result<Verdict, Failure> {
        let sort = if self.png { Sort::Png } else { sort };
        files::may_write(&self.path, sort, self.force)?;
        let bytes = if self.png { png::of(picture)? } else { picture.as_bytes().to_vec() };
        files::write(&self.path, &bytes, sort, self.force, out)?;
        let file = text::file(&self.path);
        let told = if out.json {
            fields.push(("file", json::file(&self.path)));
            out.answer(subcommand, fields)
        } else if files::is_standard(&self.path) {
            return Ok(Verdict::Answer);
        } else {
            writeln!(out, "{said}\n{file}: written")
        };
        told.and_then(|()| out.flush()).map_err(|error| Failure::from(error).unsaid(&self.path))?;
        Ok(Verdict::Answer)
    }
}
