//! A refusal in the words of the person who typed: which letter, which entry, what would be right.
use crate::failure::Failure;
use crate::library::{self, Edition, Kind, Refusal, Rig};
use crate::text;
use crate::typed::{self, Set, TypedRig, Window, Word};

/// What a refused call was given.
#[derive(Clone, Copy, Default)]
pub struct Given<'a> {
    pub rig: Option<&'a TypedRig>,
    pub words: &'a [&'a Word],
    pub windows: &'a [&'a Window],
    pub set: Option<Set>,
}

impl Given<'_> {
    /// The failure with its culprit.
    pub fn refused(&self, refusal: Refusal) -> Failure {
        Failure::Refused(refusal, self.culprit(refusal))
    }

    fn culprit(&self, refusal: Refusal) -> Option<String> {
        let rig = self.rig?;
        match refusal.number() {
            5 => Some(kind(rig)),
            6 => rank(rig),
            7 => self.word(rig, refusal).map(|word| match word.typed.len() {
                letters if letters > library::MAX_WORD + 1 => {
                    format!("{} has {}", word.name, text::counted(letters, "letter"))
                }
                _ => format!("{} has more than 4,096 letters", word.name),
            }),
            8 => self.word(rig, refusal).and_then(|word| letter(rig.rig, word)),
            9 => self.window(rig, refusal).map(|window| lanes(rig.rig, window)),
            10 => self.window(rig, refusal).and_then(|window| entry(rig.rig, window)),
            11 => self.window(rig, refusal).map(negatives),
            16 => self.set.map(|set| step(rig.rig, set)),
            19 => self.set.map(|set| format!("{}; other steps may lead there", set.told())),
            20 => Some(format!("{} has too many windows to count; {}", rig.rig, table_ranks(rig.rig.kind))),
            21 => {
                Some("two-lane rigs of kind A are retired: such presets are read, and no longer appended".to_string())
            }
            _ => None,
        }
    }

    /// The word that the refusal is about: the first one that is refused so.
    fn word(&self, rig: &TypedRig, refusal: Refusal) -> Option<&Word> {
        self.words.iter().find(|word| typed::refusal_of_word(rig.rig, word) == Some(refusal)).copied()
    }

    fn window(&self, rig: &TypedRig, refusal: Refusal) -> Option<&Window> {
        self.windows.iter().find(|window| typed::refusal_of_window(rig.rig, window) == Some(refusal)).copied()
    }
}

fn kind(rig: &TypedRig) -> String {
    format!("'{}' is no kind: type A, B or D (or 1, 2 or 3), as in D5 or D 5", text::plain(&rig.kind))
}

fn rank(rig: &TypedRig) -> Option<String> {
    let (least, greatest) = typed::ranks(rig.rig.kind, rig.edition)?;
    let rank = match rig.rank {
        i64::MAX => "rank so high".to_string(),
        rank => format!("rank {rank}"),
    };
    let kind = rig.rig.kind;
    let place = match rig.edition {
        None => format!("kind {kind}"),
        Some(Edition::First) => format!("kind {kind} in a book of the first edition"),
        Some(Edition::Second) => format!("kind {kind} in a book of the second edition"),
    };
    Some(format!("there is no {rank}: {place} has the ranks {least} to {greatest}"))
}

/// The first letter that is refused as a word of its own.
fn letter(rig: Rig, word: &Word) -> Option<String> {
    let wrong = word.letters.iter().position(|&letter| library::length(rig, &[letter]).is_err())?;
    let (place, typed) = (text::ordinal(wrong + 1), word.typed[wrong]);
    let number = if typed == i64::MAX || typed == i64::MIN { "too large".to_string() } else { typed.to_string() };
    let window = if typed < 0 { "; a window stands in brackets, as '[2 1 -3]'" } else { "" };
    Some(format!("the {place} letter of {} is {number}: {rig} has the steps 1 to {}{window}", word.name, rig.rank))
}

fn lanes(rig: Rig, window: &Window) -> String {
    let lanes = library::lanes(rig).unwrap_or(0);
    let entries = match window.typed.len() {
        1 => "1 entry".to_string(),
        many => format!("{many} entries"),
    };
    format!("{} has {entries}: {rig} has {lanes} lanes", window.name)
}

/// The first entry that is no lane's, stands there twice or is negative in kind A.
fn entry(rig: Rig, window: &Window) -> Option<String> {
    let lanes = library::lanes(rig).ok()? as i64;
    let said = |place: usize, what: String| {
        format!("the {} entry of {} is {}: {what}", text::ordinal(place + 1), window.name, window.typed[place])
    };
    for (place, &entry) in window.typed.iter().enumerate() {
        let size = entry.saturating_abs();
        if entry == 0 || size > lanes {
            return Some(said(place, format!("{rig} has the lanes 1 to {lanes}")));
        }
        if let Some(before) = window.typed[..place].iter().position(|other| other.saturating_abs() == size) {
            return Some(said(place, format!("lane {size} is the {} entry already", text::ordinal(before + 1))));
        }
        if entry < 0 && rig.kind == Kind::A {
            return Some(said(place, "in kind A no lane is mirrored".to_string()));
        }
    }
    None
}

fn negatives(window: &Window) -> String {
    let negative: Vec<i64> = window.typed.iter().copied().filter(|entry| *entry < 0).collect();
    let count = match negative.len() {
        1 => "1 mirrored lane".to_string(),
        many => format!("{many} mirrored lanes"),
    };
    format!("{} has {count} ({}): in kind D they come in pairs", window.name, text::spaced(&negative))
}

fn step(rig: Rig, set: Set) -> String {
    let wrong = text::steps(set.allowed & !set.all).first().copied().unwrap_or(0);
    format!("there is no step {wrong}: {rig} has the steps 1 to {}", rig.rank)
}

/// The greatest rank of a kind that has a delay table.
fn table_ranks(kind: Kind) -> String {
    let greatest = (0..=u8::MAX).rev().find(|&rank| library::delays(Rig { kind, rank }).is_ok()).unwrap_or(0);
    format!("there are tables up to {kind}{greatest}")
}

/// Refusal 4: a book's presets by number.
pub fn number(presets: usize) -> String {
    match presets {
        0 => "the book has no presets".to_string(),
        1 => "the book has 1 preset, number 0".to_string(),
        many => format!("the book has {} presets, numbers 0 to {}", text::grouped(many as u64), many - 1),
    }
}

/// Refusal 12: the places of a word.
pub fn place(letters: usize) -> String {
    match letters {
        0 => "the empty word has no place".to_string(),
        1 => "the word has 1 letter, at place 0".to_string(),
        many => format!("the word has {many} letters, at the places 0 to {}", many - 1),
    }
}
