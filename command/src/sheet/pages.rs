//! What each page says in its margins, as rules of CSS: the book and its hash, the preset, the date, the page's number.
use super::Given;
use crate::library::Rig;
use crate::{sha256, text};
use std::fmt::Write;

/// A name in a margin has so many characters at most; the first page has it whole.
const MOST: usize = 60;

pub fn rules(given: &Given, presets: usize, rigs: &[Rig]) -> String {
    let (name, hash) = (file_name(&given.book.file), sha256::hex(&given.book.bytes));
    let date = given.date.as_ref().map_or("_".repeat(24), |date| shortened(&text::plain(date)));
    let mut rules = format!(
        "@page {{ @top-left {{ content: {}; }} @top-right {{ content: {}; }} @bottom-left {{ content: {}; }} }}\n",
        string(&format!("{}\nSHA-256 {hash}", shortened(name))),
        string(&text::counted(presets, "preset")),
        string(&format!("Date: {date}")),
    );
    let mut named = |page: String, text: &str| {
        let _ = writeln!(rules, "@page {page} {{ @top-right {{ content: {}; }} }}", string(text));
    };
    (0..presets).for_each(|number| named(of_preset(number), &format!("Preset {number}")));
    rigs.iter().for_each(|&rig| named(of_rig(rig), &format!("Delays of {rig}")));
    rules
}

/// The pages of a preset.
pub fn of_preset(number: usize) -> String {
    format!("preset-{number}")
}

/// The pages of a rig's delays.
pub fn of_rig(rig: Rig) -> String {
    format!("delays-{rig}")
}

/// Without the folders.
fn file_name(file: &str) -> &str {
    file.rsplit('/').next().filter(|name| !name.is_empty()).unwrap_or(file)
}

/// A long text without its middle: both ends of a file's name tell something.
fn shortened(text: &str) -> String {
    let characters: Vec<char> = text.chars().collect();
    if characters.len() <= MOST {
        return text.to_string();
    }
    let half = MOST / 2;
    let (front, back) = (&characters[..half], &characters[characters.len() - half + 1..]);
    format!("{}\u{2026}{}", front.iter().collect::<String>(), back.iter().collect::<String>())
}

/// A string of CSS in which nothing but letters, digits and blanks stands as it is: neither its quote nor the end of
/// the style can come of a name.
fn string(text: &str) -> String {
    let mut string = "\"".to_string();
    for character in text.chars() {
        if character.is_ascii_alphanumeric() || matches!(character, ' ' | '.' | ',' | ':' | '_' | '-') {
            string.push(character);
        } else {
            let _ = write!(string, "\\{:x} ", u32::from(character));
        }
    }
    string + "\""
}

#[cfg(test)]
mod tests {
    use super::*;

    #[test]
    fn a_string_of_css_ends_where_it_should() {
        assert_eq!(string("a b-1"), "\"a b-1\"");
        assert_eq!(string("\"\\</style>\n"), "\"\\22 \\5c \\3c \\2f style\\3e \\a \"");
        assert_eq!(string("\u{e9}\u{1f600}"), "\"\\e9 \\1f600 \"");
    }

    #[test]
    fn a_long_name_keeps_both_ends() {
        let long = format!("{}.book", "x".repeat(100));
        let short = shortened(&long);
        assert!(short.chars().count() == MOST && short.ends_with("x.book") && short.contains('\u{2026}'));
        assert_eq!((shortened("a"), file_name("../a/b.book"), file_name("b")), ("a".to_string(), "b.book", "b"));
    }
}
