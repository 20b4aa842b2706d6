//! Words, numbers and names as text.
use std::fmt::Display;
use std::path::Path;

/// The numbers with spaces between them.
pub fn spaced<T: Display>(numbers: &[T]) -> String {
    numbers.iter().map(T::to_string).collect::<Vec<_>>().join(" ")
}

/// A word, or that it is the empty one.
pub fn word(letters: &[u8]) -> String {
    if letters.is_empty() { "(the empty word)".to_string() } else { spaced(letters) }
}

/// `1 letter`, `2 letters`.
pub fn counted(number: usize, name: &str) -> String {
    if number == 1 { format!("1 {name}") } else { format!("{} {name}s", grouped(number as u64)) }
}

/// A number with commas: 65,535.
pub fn grouped(number: u64) -> String {
    let digits = number.to_string();
    let mut text = String::new();
    for (place, digit) in digits.chars().enumerate() {
        if place > 0 && (digits.len() - place).is_multiple_of(3) {
            text.push(',');
        }
        text.push(digit);
    }
    text
}

/// A number of thousandths as a decimal: 2.5, 1,024.
pub fn thousandths(number: u64) -> String {
    let part = format!("{:03}", number % 1000);
    let part = part.trim_end_matches('0');
    let point = if part.is_empty() { "" } else { "." };
    format!("{}{point}{part}", grouped(number / 1000))
}

/// `1st`, `2nd`, `11th`.
pub fn ordinal(number: usize) -> String {
    let ending = match (number % 10, number % 100) {
        (1, 11) | (2, 12) | (3, 13) => "th",
        (1, _) => "st",
        (2, _) => "nd",
        (3, _) => "rd",
        _ => "th",
    };
    format!("{}{ending}", grouped(number as u64))
}

/// A set of steps as `--allowed` takes it: `1-3,5`, or none.
pub fn set(steps: u64) -> String {
    let mut runs = Vec::new();
    let mut step = 1;
    while step <= 64 {
        let first = step;
        while step <= 64 && steps & (1 << (step - 1)) != 0 {
            step += 1;
        }
        match step - first {
            0 => step += 1,
            1 => runs.push(first.to_string()),
            _ => runs.push(format!("{first}-{}", step - 1)),
        }
    }
    if runs.is_empty() { "none".to_string() } else { runs.join(",") }
}

/// The steps of a set.
pub fn steps(set: u64) -> Vec<u8> {
    (1..=64).filter(|step| set & (1 << (step - 1)) != 0).collect()
}

/// What somebody typed, without characters that a terminal would obey.
pub fn plain(text: &str) -> String {
    let mut plain = String::new();
    for character in text.chars() {
        if is_unseen(character) {
            plain.extend(character.escape_debug());
        } else {
            plain.push(character);
        }
    }
    plain
}

/// Characters that show nothing of themselves, or turn the direction of what follows.
pub fn is_unseen(character: char) -> bool {
    character.is_control()
        || matches!(character, '\u{200e}' | '\u{200f}' | '\u{2028}'..='\u{202e}' | '\u{2066}'..='\u{2069}' | '\u{feff}')
}

/// A file's name, to be shown.
pub fn file(path: &Path) -> String {
    plain(&path.to_string_lossy())
}

/// The folder of a file.
pub fn folder(path: &Path) -> &Path {
    path.parent().filter(|folder| !folder.as_os_str().is_empty()).unwrap_or(Path::new("."))
}

/// The text in lines of at most `width` characters, broken at spaces.
pub fn wrapped(text: &str, width: usize) -> Vec<String> {
    let mut lines = vec![String::new()];
    for part in text.split(' ') {
        let line = lines.last_mut().expect("one line at least");
        if line.is_empty() {
            line.push_str(part);
        } else if columns(line) + 1 + columns(part) <= width {
            line.push(' ');
            line.push_str(part);
        } else {
            lines.push(part.to_string());
        }
    }
    lines
}

/// The characters of a text, each of which is taken for one column.
pub fn columns(text: &str) -> usize {
    text.chars().count()
}

/// The text filled with spaces to so many columns.
pub fn padded(text: &str, width: usize) -> String {
    format!("{text}{}", " ".repeat(width.saturating_sub(columns(text))))
}

#[cfg(test)]
mod tests {
    use super::*;

    #[test]
    fn numbers_get_commas() {
        assert_eq!([0, 999, 1000, 65535, 1234567].map(grouped), ["0", "999", "1,000", "65,535", "1,234,567"]);
        assert_eq!(grouped(u64::MAX), "18,446,744,073,709,551,615");
        assert_eq!([0, 5, 2500, 1_024_000, 1_000_050].map(thousandths), ["0", "0.005", "2.5", "1,024", "1,000.05"]);
    }

    #[test]
    fn lines_break_at_spaces() {
        assert_eq!(wrapped("1 2 3 4", 3), ["1 2", "3 4"]);
        assert_eq!(wrapped("", 3), [""]);
        assert_eq!(wrapped("12345 6", 3), ["12345", "6"]);
    }

    #[test]
    fn sets_are_written_as_they_are_read() {
        assert_eq!(set(0b10111), "1-3,5");
        assert_eq!(set(0), "none");
        assert_eq!(set(u64::MAX), "1-64");
        assert_eq!(set(1 << 63 | 1), "1,64");
        assert_eq!(steps(0b101), [1, 3]);
    }

    #[test]
    fn places_have_their_endings() {
        assert_eq!(
            [1, 2, 3, 4, 11, 12, 21, 111, 1002].map(ordinal).join(" "),
            "1st 2nd 3rd 4th 11th 12th 21st 111th 1,002nd"
        );
    }

    #[test]
    fn nothing_that_a_terminal_obeys_is_shown() {
        assert_eq!(plain("a\u{1b}[31m\n\u{202e}é"), "a\\u{1b}[31m\\n\\u{202e}é");
    }
}
