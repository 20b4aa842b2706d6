//! Each call on both sides and by the safe Rust function, with the answers and every byte of every output compared.
use crate::{expected, safe};
use std::fmt::Debug;
use winnathey::Edition::{self, First, Second};
use winnathey::raw as rattle;

/// What stands before and after each output, and in it before the call.
const GUARD: usize = 24;

/// A filling that differs from place to place, so that a shift shows.
pub trait Fill: Copy + PartialEq + Debug {
    fn fill(at: usize) -> Self;
}

impl Fill for u8 {
    fn fill(at: usize) -> u8 {
        (at as u8).wrapping_mul(37) ^ 0xa5
    }
}

impl Fill for i8 {
    fn fill(at: usize) -> i8 {
        u8::fill(at) as i8
    }
}

impl Fill for u16 {
    fn fill(at: usize) -> u16 {
        u16::from(u8::fill(at)) << 8 | at as u16 & 255
    }
}

impl Fill for u64 {
    fn fill(at: usize) -> u64 {
        u64::from(u8::fill(at)) << 56 | at as u64
    }
}

/// An output inside a longer filled list.
struct Output<T> {
    all: Vec<T>,
    length: usize,
    /// The filling, as long as the longest list so far.
    old: Vec<T>,
}

impl<T: Fill> Output<T> {
    fn new() -> Output<T> {
        Output { all: Vec::new(), length: 0, old: Vec::new() }
    }

    fn filled(&mut self, length: usize) -> &mut [T] {
        let all = length + 2 * GUARD;
        self.old.extend((self.old.len()..all).map(T::fill));
        self.all.clear();
        self.all.extend_from_slice(&self.old[..all]);
        self.length = length;
        &mut self.all[GUARD..GUARD + length]
    }

    /// Whether all but the first `written` elements of the output are as they were.
    fn kept(&self, written: usize) -> bool {
        let old = &self.old[..self.all.len()];
        let behind = GUARD + written;
        written <= self.length && self.all[..GUARD] == old[..GUARD] && self.all[behind..] == old[behind..]
    }
}

/// The outputs of one side.
pub struct Side {
    bytes: Output<u8>,
    rule: Output<u8>,
    lanes: Output<i8>,
    fields: Output<u64>,
    places: Output<u16>,
    lengths: Output<u16>,
    counts: Output<u64>,
}

impl Side {
    fn new() -> Side {
        Side {
            bytes: Output::new(),
            rule: Output::new(),
            lanes: Output::new(),
            fields: Output::new(),
            places: Output::new(),
            lengths: Output::new(),
            counts: Output::new(),
        }
    }
}

pub struct Sides {
    rattle: Side,
    plain: Side,
    safe: Side,
    /// Calls compared so far.
    pub calls: u64,
    /// How many of them the safe function made too.
    pub safe_calls: u64,
    pub accepted: u64,
    pub none_fits: u64,
    pub no_fallback: u64,
    /// How often each refusal was the answer, by its number.
    pub refused: [u64; 22],
    pub differences: u64,
}

/// Room for the answer of any call on words and windows.
pub const ROOM: usize = 4200;

macro_rules! compared {
    ($self:ident, $call:ident, ($($arg:expr),*), $($out:ident: $length:expr => $written:expr),*) => {{
        let answer = rattle::$call($($arg,)* $($self.rattle.$out.filled($length)),*);
        let expected = expected::$call($($arg,)* $($self.plain.$out.filled($length)),*);
        let outputs = true $(&& $self.rattle.$out.all == $self.plain.$out.all)*;
        // An accepted call writes the bytes of its answer and nothing else, any other call nothing.
        let kept = true $(&& $self.rattle.$out.kept(if answer < 0 { 0 } else { $written(answer) }))*;
        let safe = safe::$call($($arg,)* $($self.safe.$out.filled($length)),*);
        $self.safe_calls += u64::from(safe.is_some());
        let safely = safe.is_none_or(|safe| safe == answer $(&& $self.safe.$out.all == $self.rattle.$out.all)*);
        $self.tally(answer);
        $self.noted(answer == expected && outputs && kept && safely, || format!(
            "{}{:?}: answers {answer} and {expected}, outputs {}{}{}",
            stringify!($call), ($($arg,)* $($length,)*),
            if outputs { "equal" } else { "DIFFERENT" },
            if kept { "" } else { ", bytes outside the answer changed" },
            if safely { "" } else { ", the safe function does something else" },
        ));
        answer
    }};
}

/// The answer is the number of elements written.
fn whole(answer: i64) -> usize {
    answer.max(0) as usize
}

/// Whether places rise, lie inside the present normal form, are as many as the simpler window's length, and the letters
/// there have that window.
fn serve(kind: u32, rank: u32, present: &[u8], simpler: &[u8], places: &[u16]) -> bool {
    let mut form = [0; ROOM];
    let length = whole(plain::normal_form_of_word(kind, rank, present, &mut form));
    let letters: Option<Vec<u8>> =
        places.iter().map(|&place| form[..length].get(usize::from(place)).copied()).collect();
    places.is_sorted_by(|before, after| before < after)
        && places.len() as i64 == plain::length_of_word(kind, rank, simpler)
        && letters.is_some_and(|letters| plain::same(kind, rank, &letters, kind, rank, simpler) == 1)
}

impl Sides {
    pub fn new() -> Sides {
        Sides {
            rattle: Side::new(),
            plain: Side::new(),
            safe: Side::new(),
            calls: 0,
            safe_calls: 0,
            accepted: 0,
            none_fits: 0,
            no_fallback: 0,
            refused: [0; 22],
            differences: 0,
        }
    }

    /// Takes over what others counted.
    pub fn add(&mut self, others: &Sides) {
        self.calls += others.calls;
        self.safe_calls += others.safe_calls;
        self.accepted += others.accepted;
        self.none_fits += others.none_fits;
        self.no_fallback += others.no_fallback;
        self.differences += others.differences;
        for (times, more) in self.refused.iter_mut().zip(others.refused) {
            *times += more;
        }
    }

    fn tally(&mut self, answer: i64) {
        match answer {
            0.. => self.accepted += 1,
            plain::NONE_FITS => self.none_fits += 1,
            plain::NO_FALLBACK => self.no_fallback += 1,
            _ => {
                if let Some(times) = self.refused.get_mut(answer.unsigned_abs() as usize) {
                    *times += 1;
                }
            }
        }
    }

    pub fn noted(&mut self, agreed: bool, told: impl FnOnce() -> String) {
        self.calls += 1;
        if !agreed {
            self.differences += 1;
            if self.differences <= 20 {
                let mut told = told();
                if told.len() > 2000 {
                    told = format!("{} .. {}", &told[..1500], &told[told.len() - 400..]);
                }
                println!("DIFFERENT: {told}");
            }
        }
    }

    /// The bytes that the last call of the library wrote, where it writes bytes.
    pub fn bytes(&self, length: i64) -> &[u8] {
        &self.rattle.bytes.all[GUARD..GUARD + whole(length)]
    }

    pub fn rule(&self) -> &[u8] {
        &self.rattle.rule.all[GUARD..GUARD + 3]
    }

    pub fn lanes(&self, length: i64) -> &[i8] {
        &self.rattle.lanes.all[GUARD..GUARD + whole(length)]
    }

    pub fn fields(&self, length: i64) -> &[u64] {
        &self.rattle.fields.all[GUARD..GUARD + whole(length)]
    }

    /// A number that the last call of the library wrote to its list.
    fn told(&self, at: usize) -> usize {
        self.rattle.counts.all[GUARD + at] as usize
    }

    pub fn window_of_word(&mut self, kind: u32, rank: u32, word: &[u8], out: usize) -> i64 {
        compared!(self, window_of_word, (kind, rank, word), lanes: out => whole)
    }

    pub fn normal_form_of_word(&mut self, kind: u32, rank: u32, word: &[u8], out: usize) -> i64 {
        compared!(self, normal_form_of_word, (kind, rank, word), bytes: out => whole)
    }

    pub fn normal_form_of_window(&mut self, kind: u32, rank: u32, window: &[i8], out: usize) -> i64 {
        compared!(self, normal_form_of_window, (kind, rank, window), bytes: out => whole)
    }

    pub fn product_of_words(&mut self, kind: u32, rank: u32, first: &[u8], second: &[u8], out: usize) -> i64 {
        compared!(self, product_of_words, (kind, rank, first, second), bytes: out => whole)
    }

    pub fn product_of_windows(&mut self, kind: u32, rank: u32, first: &[i8], second: &[i8], out: usize) -> i64 {
        compared!(self, product_of_windows, (kind, rank, first, second), lanes: out => whole)
    }

    pub fn inverse_of_word(&mut self, kind: u32, rank: u32, word: &[u8], out: usize) -> i64 {
        compared!(self, inverse_of_word, (kind, rank, word), bytes: out => whole)
    }

    pub fn inverse_of_window(&mut self, kind: u32, rank: u32, window: &[i8], out: usize) -> i64 {
        compared!(self, inverse_of_window, (kind, rank, window), lanes: out => whole)
    }

    pub fn length_of_word(&mut self, kind: u32, rank: u32, word: &[u8]) -> i64 {
        compared!(self, length_of_word, (kind, rank, word),)
    }

    pub fn length_of_window(&mut self, kind: u32, rank: u32, window: &[i8]) -> i64 {
        compared!(self, length_of_window, (kind, rank, window),)
    }

    pub fn crossings_of_word(&mut self, kind: u32, rank: u32, word: &[u8]) -> i64 {
        self.crossings_of_word_into(kind, rank, word, 3)
    }

    pub fn crossings_of_word_into(&mut self, kind: u32, rank: u32, word: &[u8], counts: usize) -> i64 {
        compared!(self, crossings_of_word, (kind, rank, word), counts: counts => |_| 3)
    }

    pub fn crossings_of_window(&mut self, kind: u32, rank: u32, window: &[i8]) -> i64 {
        self.crossings_of_window_into(kind, rank, window, 3)
    }

    pub fn crossings_of_window_into(&mut self, kind: u32, rank: u32, window: &[i8], counts: usize) -> i64 {
        compared!(self, crossings_of_window, (kind, rank, window), counts: counts => |_| 3)
    }

    /// With outputs of so many numbers, entries and letters.
    pub fn delay_table(&mut self, kind: u32, rank: u32, counts: usize, window: usize, form: usize) -> i64 {
        self.delay_table_into(kind, rank, [counts, window, form], 3)
    }

    pub fn delay_table_into(&mut self, kind: u32, rank: u32, room: [usize; 3], lengths: usize) -> i64 {
        compared!(
            self, delay_table, (kind, rank),
            fields: room[0] => |_| self.told(0),
            lanes: room[1] => |_| self.told(1),
            bytes: room[2] => |_| self.told(2),
            counts: lengths => |_| 3
        )
    }

    pub fn same(&mut self, first: (u32, u32, &[u8]), second: (u32, u32, &[u8])) -> i64 {
        compared!(self, same, (first.0, first.1, first.2, second.0, second.1, second.2),)
    }

    pub fn better(&mut self, kind: u32, rank: u32, first: &[u8], second: &[u8]) -> i64 {
        compared!(self, better, (kind, rank, first, second),)
    }

    pub fn rewrite(&mut self, kind: u32, rank: u32, word: &[u8], place: usize, out: usize, rule: usize) -> i64 {
        compared!(self, rewrite, (kind, rank, word, place), bytes: out => whole, rule: rule => |_| 3)
    }

    pub fn rewrite_steps(&mut self, kind: u32, rank: u32, word: &[u8]) -> i64 {
        compared!(self, rewrite_steps, (kind, rank, word),)
    }

    /// With three lists and an output of these lengths.
    pub fn rewrite_to_end(&mut self, kind: u32, rank: u32, word: &[u8], room: [usize; 4]) -> i64 {
        self.rewrite_to_end_into(kind, rank, word, room, 1)
    }

    /// And with so many numbers for the final word's length.
    pub fn rewrite_to_end_into(
        &mut self,
        kind: u32,
        rank: u32,
        word: &[u8],
        [f, p, l, out]: [usize; 4],
        written: usize,
    ) -> i64 {
        macro_rules! told {
            ($side:ident, $from:ident) => {{
                let Side { rule, places, lengths, bytes, counts, .. } = &mut self.$side;
                $from::rewrite_to_end(
                    kind,
                    rank,
                    word,
                    rule.filled(f),
                    places.filled(p),
                    lengths.filled(l),
                    bytes.filled(out),
                    counts.filled(written),
                )
            }};
        }
        let (answer, expected, safe) = (told!(rattle, rattle), told!(plain, plain), told!(safe, safe));
        self.safe_calls += u64::from(safe.is_some());
        let alike = |one: &Side, other: &Side| {
            one.rule.all == other.rule.all
                && one.places.all == other.places.all
                && one.lengths.all == other.lengths.all
                && one.bytes.all == other.bytes.all
                && one.counts.all == other.counts.all
        };
        let Side { rule, places, lengths, bytes, counts, .. } = &self.rattle;
        let (steps, one) = (whole(answer), usize::from(answer >= 0));
        let size = if answer < 0 { 0 } else { self.told(0) };
        let kept =
            rule.kept(steps) && places.kept(steps) && lengths.kept(steps) && bytes.kept(size) && counts.kept(one);
        let outputs = alike(&self.rattle, &self.plain);
        let safely = safe.is_none_or(|safe| safe == answer && alike(&self.rattle, &self.safe));
        self.tally(answer);
        self.noted(answer == expected && outputs && kept && safely, || {
            let call = (kind, rank, word, [f, p, l, out], written);
            format!("rewrite_to_end{call:?}: {answer} and {expected}, {outputs} {kept} {safely}")
        });
        answer
    }

    /// The families, places and lengths left that the last rewriting to its end wrote, and its final word.
    pub fn lines(&self, steps: usize) -> (&[u8], &[u16], &[u16], &[u8]) {
        let Side { rule, places, lengths, bytes, .. } = &self.rattle;
        let lines = GUARD..GUARD + steps;
        let word = GUARD..GUARD + self.told(0);
        (&rule.all[lines.clone()], &places.all[lines.clone()], &lengths.all[lines], &bytes.all[word])
    }

    /// Several lists of places may serve, so the library's is held to what is asked of it and not to the plain version's.
    pub fn fallback(&mut self, kind: u32, rank: u32, present: &[u8], simpler: &[u8], list: usize) -> i64 {
        let answer = rattle::fallback(kind, rank, present, simpler, self.rattle.places.filled(list));
        let expected = plain::fallback(kind, rank, present, simpler, self.plain.places.filled(list));
        let kept = self.rattle.places.kept(whole(answer));
        let places = self.rattle.places.all.get(GUARD..GUARD + whole(answer)).unwrap_or_default();
        let serves = answer < 0 || serve(kind, rank, present, simpler, places);
        let safe = safe::fallback(kind, rank, present, simpler, self.safe.places.filled(list));
        self.safe_calls += u64::from(safe.is_some());
        let safely = safe.is_none_or(|safe| safe == answer && self.safe.places.all == self.rattle.places.all);
        self.tally(answer);
        self.noted(answer == expected && kept && serves && safely, || {
            format!(
                "fallback{:?}: {answer} and {expected}, {kept} {serves} {safely}",
                (kind, rank, present, simpler, list)
            )
        });
        answer
    }

    /// With outputs of so many letters.
    pub fn split(&mut self, kind: u32, rank: u32, allowed: u64, word: &[u8], first: usize, second: usize) -> i64 {
        self.split_into(kind, rank, allowed, word, [first, second], 2)
    }

    /// And with so many numbers for their lengths.
    pub fn split_into(
        &mut self,
        kind: u32,
        rank: u32,
        allowed: u64,
        word: &[u8],
        [first, second]: [usize; 2],
        lengths: usize,
    ) -> i64 {
        compared!(
            self, split, (kind, rank, allowed, word),
            bytes: first => |_| self.told(0),
            rule: second => |_| self.told(1),
            counts: lengths => |_| 2
        )
    }

    /// The two words that the last split of the library wrote.
    pub fn halves(&self) -> (&[u8], &[u8]) {
        let front = |output: &'_ Output<u8>, at: usize| GUARD..GUARD + self.told(at).min(output.length);
        let (first, second) = (&self.rattle.bytes, &self.rattle.rule);
        (&first.all[front(first, 0)], &second.all[front(second, 1)])
    }

    pub fn between(&mut self, kind: u32, rank: u32, allowed: u64, from: &[i8], to: &[i8], out: usize) -> i64 {
        compared!(self, between, (kind, rank, allowed, from, to), bytes: out => whole)
    }

    pub fn book_check(&mut self, edition: Edition, book: &[u8]) -> i64 {
        match edition {
            First => compared!(self, book_check, (book),),
            Second => compared!(self, second_book_check, (book),),
        }
    }

    pub fn preset(&mut self, edition: Edition, book: &[u8], number: usize, fields: usize) -> i64 {
        match edition {
            First => compared!(self, preset, (book, number), fields: fields => whole),
            Second => compared!(self, second_preset, (book, number), fields: fields => whole),
        }
    }

    pub fn presets(&mut self, edition: Edition, book: &[u8], first: usize, fields: usize) -> i64 {
        let written = |answer| 5 * whole(answer);
        match edition {
            First => compared!(self, presets, (book, first), fields: fields => written),
            Second => compared!(self, second_presets, (book, first), fields: fields => written),
        }
    }

    pub fn append(&mut self, edition: Edition, book: &[u8], kind: u32, rank: u32, word: &[u8], out: usize) -> i64 {
        match edition {
            First => compared!(self, append, (book, kind, rank, word), bytes: out => whole),
            Second => compared!(self, second_append, (book, kind, rank, word), bytes: out => whole),
        }
    }

    /// The edition is the lent book's.
    pub fn convert(&mut self, edition: Edition, book: &[u8], out: usize) -> i64 {
        match edition {
            First => compared!(self, to_second, (book), bytes: out => whole),
            Second => compared!(self, to_first, (book), bytes: out => whole),
        }
    }

    /// Runs a call with outputs of every interesting length: empty, one element, one too short, exact, one and many more.
    pub fn each_length(&mut self, mut call: impl FnMut(&mut Sides, usize) -> i64) -> i64 {
        let answer = call(self, ROOM);
        if answer >= 0 {
            let need = answer as usize;
            let mut lengths = vec![0, 1, need.saturating_sub(1), need, need + 1, need + 50];
            lengths.sort();
            lengths.dedup();
            for length in lengths {
                let now = call(self, length);
                let due = if length < need { -14 } else { answer };
                self.noted(now == due, || format!("answer {now} and not {due} with an output of {length}"));
                self.calls -= 1;
            }
        } else {
            call(self, 0);
        }
        answer
    }
}
