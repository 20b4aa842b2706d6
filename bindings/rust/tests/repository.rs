//! What only the repository has: the numbers and messages of the library, its definition, the header, CALLS.md and
//! SPECIFICATION.md are held to each other, and edits of books and texts of numbers to the stored ones.
use std::fs;
use std::path::Path;
use winnathey::{Book, Edition, Group, Kind, ListError, Preset, Refusal, RefusedPreset, Steps, Window, Word, raw};

/// Numbers with messages, in the order of the numbers.
type List = Vec<(usize, String)>;

fn text(path: &str) -> String {
    let path = Path::new(env!("CARGO_MANIFEST_DIR")).join("../..").join(path);
    fs::read_to_string(&path).unwrap_or_else(|error| panic!("{}: {error}", path.display()))
}

/// The library: what it writes for each number that is a refusal.
fn library() -> List {
    let message = |number: u32| {
        let mut out = [0; 256];
        let length = raw::refusal_message(number, &mut out);
        String::from_utf8(out[..usize::try_from(length).expect("room for every message")].to_vec()).expect("ASCII")
    };
    let list = (0..1000).map(|number| (number as usize, message(number)));
    list.filter(|(_, words)| !words.is_empty()).collect()
}

/// The definition that the library is proved against: a text on each line of its list.
fn definition() -> List {
    let specs = text("crates/messages/specs/Messages.antt");
    let (_, list) = specs.split_once("\nmessages =\n").expect("a list of messages");
    let message = |line: &str| Some(line.trim().strip_prefix('"')?.strip_suffix("\" ∷")?.to_string());
    (1..).zip(list.lines().map_while(message)).collect()
}

/// A row of a table that begins with a number and a message.
fn row(line: &str) -> Option<(usize, String)> {
    let mut cells = line.strip_prefix('|')?.strip_suffix('|')?.split('|').map(str::trim);
    Some((cells.next()?.parse().ok()?, cells.next()?.to_string()))
}

/// CALLS.md: the rows `| 5 | The kind must be 1 (A), 2 (B) or 3 (D). |` of its section.
fn calls() -> List {
    let page = text("docs/CALLS.md");
    let (_, section) = page.split_once("\n## Refusals\n").expect("a section on refusals");
    section.lines().take_while(|line| !line.starts_with("## ")).filter_map(row).collect()
}

/// SPECIFICATION.md: the rows of the table that CM1 names.
fn specification() -> List {
    let page = text("docs/SPECIFICATION.md");
    let (_, section) = page.split_once("id=\"cm1\"").expect("the clause CM1");
    section.split("\n\n").nth(1).expect("a table").lines().filter_map(row).collect()
}

/// The header: its lines ` *    5  The kind must be 1 (A), 2 (B) or 3 (D).`, each of which goes on until a full stop ends a line.
fn header() -> List {
    let mut list = List::new();
    for line in text("include/winnathey.h").lines() {
        let line = line.trim_start_matches([' ', '*']);
        let refusal = line.split_once("  ").and_then(|(number, words)| Some((number.parse().ok()?, words.into())));
        match (refusal, list.last_mut()) {
            (Some(refusal), _) => list.push(refusal),
            (None, Some((_, words))) if !words.ends_with('.') => *words += &format!(" {line}"),
            _ => {}
        }
    }
    list
}

#[test]
fn the_same_numbers_and_messages_everywhere() {
    let library = library();
    assert_eq!(library.len(), 21);
    assert_eq!(definition(), library, "crates/messages/specs and the library");
    assert_eq!(header(), library, "include/winnathey.h and the library");
    assert_eq!(calls(), library, "docs/CALLS.md and the library");
    assert_eq!(specification(), library, "docs/SPECIFICATION.md and the library");
}

/// `BookSize` is `BOOK_SIZE` there.
#[test]
fn the_names_are_those_of_the_header() {
    let constant = |line: &str| {
        let (name, number) = line.strip_prefix("#define WINNATHEY_REFUSED_")?.split_once(' ')?;
        Some((number.parse().ok()?, name.replace('_', "").to_lowercase()))
    };
    let named = |refusal: &Refusal| {
        (refusal.number().into(), format!("{refusal:?}").split(' ').next().unwrap_or_default().to_lowercase())
    };
    let header: List = text("include/winnathey.h").lines().filter_map(constant).collect();
    assert_eq!(header, Refusal::ALL.iter().map(named).collect::<List>());
}

/// The letters of a preset as a case has them.
fn letters(text: &str) -> Vec<u8> {
    match text.split_once('x') {
        Some((letter, times)) => vec![letter.parse().unwrap(); times.parse().unwrap()],
        None => text.split('.').filter(|letter| !letter.is_empty()).map(|letter| letter.parse().unwrap()).collect(),
    }
}

/// A preset as a case has it, `B2:1.2.1.2`.
fn preset(text: &str) -> (Kind, u8, Vec<u8>) {
    let (group, word) = text.split_once(':').unwrap();
    let (kind, rank) = group.split_at(1);
    (kind.parse().unwrap(), rank.parse().unwrap(), letters(word))
}

fn bytes(hex: &str) -> Vec<u8> {
    let digits = hex.trim_matches('-').as_bytes().chunks(2);
    digits.map(|two| u8::from_str_radix(str::from_utf8(two).unwrap(), 16).unwrap()).collect()
}

fn edited(book: &mut Book, edit: &str) -> Result<(), RefusedPreset> {
    let mut parts = edit.split(' ');
    let (name, parts) = (parts.next().unwrap(), parts.collect::<Vec<_>>());
    let number = |at: usize| parts[at].parse::<usize>().unwrap();
    let outcome = match name {
        "remove" => book.remove(number(0)),
        "move_to" => book.move_to(number(0), number(1)),
        "replace" => {
            let (kind, rank, word) = preset(parts[1]);
            Group::new(kind, rank).and_then(|group| book.replace(number(0), group, &word))
        }
        _ => {
            let presets: Vec<_> = parts.iter().map(|part| preset(part)).collect();
            return book.append_all(presets.iter().map(|(kind, rank, word)| Preset { kind: *kind, rank: *rank, word }));
        }
    };
    outcome.map_err(|refusal| RefusedPreset { place: usize::MAX, refusal })
}

#[test]
fn edits_are_as_stored() {
    let mut cases = 0;
    for line in text("tests/books/edits").lines().filter(|line| !line.starts_with('#')) {
        let (input, output) = line.split_once(" = ").unwrap();
        let (edition, input) = input.split_once(' ').unwrap();
        let (hex, edit) = input.split_once(' ').unwrap();
        let edition = if edition == "1" { Edition::First } else { Edition::Second };
        let before = Book::from_bytes(edition, bytes(hex)).unwrap();
        let mut book = before.clone();
        let outcome = match edited(&mut book, edit) {
            Ok(()) => book.as_bytes().iter().map(|byte| format!("{byte:02x}")).collect(),
            Err(refused) => {
                assert_eq!(book, before, "{line}");
                let at = if edit.starts_with("append_all") { format!(" at {}", refused.place) } else { String::new() };
                format!("refused {}{at}", refused.refusal.number())
            }
        };
        assert_eq!(if outcome.is_empty() { "-" } else { &outcome }, output, "{line}");
        cases += 1;
    }
    assert!(cases > 100, "{cases} cases");
}

/// A text as JSON has it, with the escapes that the table uses.
fn unescaped(text: &str) -> String {
    let mut parts = text.trim_matches('"').split('\\');
    let mut whole = parts.next().unwrap().to_string();
    for part in parts {
        let (code, rest) = match part.split_at(1) {
            ("t", rest) => ('\t', rest),
            ("n", rest) => ('\n', rest),
            ("r", rest) => ('\r', rest),
            ("u", rest) => (u32::from_str_radix(&rest[..4], 16).ok().and_then(char::from_u32).unwrap(), &rest[4..]),
            (other, _) => panic!("an escape {other}"),
        };
        whole.push(code);
        whole.push_str(rest);
    }
    whole
}

#[test]
fn texts_are_read_as_stored() {
    let mut cases = 0;
    for line in text("tests/texts").lines().filter(|line| !line.starts_with('#')) {
        let [of, text, due] = line.split(" | ").collect::<Vec<_>>()[..] else { panic!("{line}") };
        let text = unescaped(text);
        let read = match of {
            "word" => text.parse::<Word>().map(|word| word.to_string()),
            "window" => text.parse::<Window>().map(|window| window.to_string()),
            _ => text.parse::<Steps>().map(|steps| steps.to_string()),
        };
        match due.strip_prefix("wrong ") {
            Some(due) => assert!(
                matches!(read, Err(ListError::Element { place, .. }) if place.to_string() == due),
                "{line}: {read:?}"
            ),
            None if of == "steps" => {
                let due = Steps::new(due.split_whitespace().map(|step| step.parse().unwrap())).unwrap();
                assert_eq!(read, Ok(due.to_string()), "{line}");
            }
            None => assert_eq!(read.as_deref(), Ok(due), "{line}"),
        }
        cases += 1;
    }
    assert!(cases > 50);
    assert_eq!(format!("{}1", "0".repeat(5000)).parse::<Word>().map(|word| word.to_vec()), Ok(vec![1]));
}
