//! The methods of a group and of a book give what the calls on lent buffers give.
use winnathey::{
    Book, Edition, Group, Kind, ListError, MAX_BOOK, MAX_LANES, MAX_NORMAL_FORM, ParseGroupError, Preset, Refusal,
    Steps, Window, Word, lent,
};

/// Numbers that look random, the same in every run.
struct Numbers(u64);

impl Numbers {
    fn below(&mut self, limit: usize) -> usize {
        self.0 = self.0.wrapping_mul(6364136223846793005).wrapping_add(1442695040888963407);
        (self.0 >> 33) as usize % limit
    }

    fn group(&mut self) -> Group {
        let (kind, least, greatest) = [(Kind::A, 1, 63), (Kind::B, 2, 64), (Kind::D, 4, 64)][self.below(3)];
        Group::new(kind, (least + self.below(greatest - least + 1)) as u8).unwrap()
    }

    /// A word of the group, or now and then one with a letter that is none.
    fn word(&mut self, group: Group) -> Vec<u8> {
        let above = usize::from(self.below(5) == 0);
        (0..self.below(40)).map(|_| 1 + self.below(usize::from(group.rank()) + above) as u8).collect()
    }
}

fn letters(write: impl FnOnce(&mut [u8]) -> Result<usize, Refusal>) -> Result<Vec<u8>, Refusal> {
    let mut out = vec![0; MAX_BOOK];
    write(&mut out).map(|length| out[..length].to_vec())
}

fn entries(write: impl FnOnce(&mut [i8]) -> Result<usize, Refusal>) -> Result<Vec<i8>, Refusal> {
    let mut out = vec![0; MAX_LANES];
    write(&mut out).map(|length| out[..length].to_vec())
}

#[test]
fn rigs_give_what_the_lent_calls_give() {
    let mut numbers = Numbers(1);
    let mut refused = 0;
    for _ in 0..3000 {
        let group = numbers.group();
        let (u, v) = (numbers.word(group), numbers.word(group));
        let (kind, rank) = (group.kind().into(), group.rank());
        let allowed = numbers.below(1 << group.rank().min(20)) as u64;
        refused += usize::from(group.window_of_word(&u).is_err());
        assert_eq!(
            group.window_of_word(&u).map(|w| w.to_vec()),
            entries(|out| lent::window_of_word(kind, rank, &u, out))
        );
        assert_eq!(
            group.normal_form_of_word(&u).map(|w| w.into_vec()),
            letters(|out| lent::normal_form_of_word(kind, rank, &u, out))
        );
        assert_eq!(
            group.product_of_words(&u, &v).map(|w| w.into_vec()),
            letters(|out| lent::product_of_words(kind, rank, &u, &v, out))
        );
        assert_eq!(
            group.inverse_of_word(&u).map(|w| w.into_vec()),
            letters(|out| lent::inverse_of_word(kind, rank, &u, out))
        );
        assert_eq!(group.length_of_word(&u), lent::length_of_word(kind, rank, &u));
        assert_eq!(group.crossings_of_word(&u), lent::crossings_of_word(kind, rank, &u));
        let mut places = vec![0; MAX_NORMAL_FORM];
        let kept = lent::fallback(kind, rank, &u, &v, &mut places);
        let kept = kept.map(|kept| kept.map(|kept| places[..kept].iter().map(|&p| p.into()).collect::<Vec<usize>>()));
        assert_eq!(group.fallback(&u, &v), kept);
        let (mut first, mut second) = (vec![0; MAX_NORMAL_FORM], vec![0; MAX_NORMAL_FORM]);
        let halves = lent::split(kind, rank, allowed, &u, &mut first, &mut second);
        let halves = halves.map(|lengths| (first[..lengths.first].to_vec(), second[..lengths.second].to_vec()));
        assert_eq!(group.split(allowed.into(), &u).map(|s| (s.first.into_vec(), s.second.into_vec())), halves);
        let better = group.better(&u, &v);
        assert_eq!(better, lent::better(kind, rank, &u, &v));
        assert_eq!(better.map(|word| word.is_some()), group.same(&u, group, &v));
        assert_eq!(group.rewrite_to_end(&u).map(|r| r.word), group.normal_form_of_word(&u));
        assert_eq!(group.rewrite_to_end(&u).map(|r| r.steps.len()), group.rewrite_steps(&u));
        let (Ok(from), Ok(to)) = (group.window_of_word(&u), group.window_of_word(&v)) else { continue };
        assert_eq!(
            group.between(allowed.into(), &from, &to).map(|w| w.into_vec()),
            letters(|out| lent::between(kind, rank, allowed, &from, &to, out))
        );
        assert_eq!(group.normal_form_of_window(&from), group.normal_form_of_word(&u));
        assert_eq!(group.length_of_window(&from), group.length_of_word(&u));
        assert_eq!(group.crossings_of_window(&from), group.crossings_of_word(&u));
        assert_eq!(group.product_of_windows(&from, &to), group.window_of_word(&[u.clone(), v.clone()].concat()));
        let back: Vec<u8> = u.iter().rev().copied().collect();
        assert_eq!(group.inverse_of_window(&from), group.window_of_word(&back));
        assert_eq!(group.same(&u, group, &v), Ok(from == to));
    }
    assert!(refused > 100, "{refused} words were refused");
}

#[test]
fn the_steps_of_a_rewriting_replay_it() {
    let mut numbers = Numbers(2);
    for _ in 0..300 {
        let group = numbers.group();
        let word = numbers.word(group);
        let Ok(rewriting) = group.rewrite_to_end(&word) else { continue };
        let mut now = Word::from(word);
        for step in &rewriting.steps {
            let used = group.rewrite(&now, step.place).unwrap().expect("a rule fits");
            assert_eq!((used.family, used.word.len()), (step.family, step.length));
            now = used.word;
        }
        assert_eq!(now, rewriting.word);
    }
}

#[test]
fn books_keep_what_they_are_given() {
    let mut numbers = Numbers(3);
    for edition in [Edition::First, Edition::Second] {
        let mut book = Book::new(edition);
        let mut kept = Vec::new();
        for _ in 0..200 {
            let group = numbers.group();
            let word = numbers.word(group);
            let before = book.clone();
            match book.append(group, &word) {
                Ok(()) => kept.push((group, word)),
                Err(_) => assert_eq!(book, before),
            }
        }
        assert!(kept.len() > 50 && book.len() == kept.len());
        let read: Vec<_> = book.iter().map(|preset| preset.map(|p| (p.group().unwrap(), p.word.to_vec()))).collect();
        assert_eq!(read, kept.iter().cloned().map(Ok).collect::<Vec<_>>());
        assert_eq!(Book::from_bytes(edition, book.as_bytes()), Ok(book.clone()));
        assert_eq!(book.preset(book.len()).unwrap_err().number(), 4);
        if edition == Edition::First {
            assert_eq!(book.convert().and_then(|other| other.convert()), Ok(book));
        }
    }
}

#[test]
fn what_is_read_is_what_is_printed() {
    for text in ["A1", "A63", "B2", "B64", "D4", "D64"] {
        assert_eq!(text.parse::<Group>().unwrap().to_string(), text);
    }
    for text in ["", "D", "5", "35", "C5", "D5x", "D-5", "D300", "é5", "A0", "A64", "B1", "D3", "D65"] {
        assert!(text.parse::<Group>().is_err(), "{text}");
    }
    assert_eq!("d 5".parse::<Group>(), "D5".parse::<Group>());
    for text in ["D0", "D65", "D256", "D300", "D99999999999999999999"] {
        assert!(
            matches!(text.parse::<Group>(), Err(ParseGroupError::Refused(refusal)) if refusal.number() == 6),
            "{text}"
        );
    }
    for text in ["D+5", "D +5", "D-5", "D5 ", " D5", "D5.0", "D٥"] {
        assert_eq!(text.parse::<Group>(), Err(ParseGroupError::Form), "{text}");
    }
    for kind in ["A", "a", "1", "B", "b", "2", "D", "d", "3"] {
        assert!(kind.parse::<Kind>().is_ok(), "{kind}");
    }
}

#[test]
fn lists_are_read_with_blanks_and_commas() {
    for text in ["4 4 2", "4,4,2", " 4, 4 ,2 ", "4  4\t2", "4 4,2", "04 004 2"] {
        assert_eq!(text.parse::<Word>().unwrap().to_string(), "4 4 2", "{text}");
        assert_eq!(text.parse::<Window>().unwrap().to_string(), "4 4 2", "{text}");
        assert_eq!(text.parse::<Steps>().unwrap().to_string(), "2 4", "{text}");
    }
    for text in ["", " ", "\t"] {
        assert!(text.parse::<Word>().unwrap().is_empty() && text.parse::<Window>().unwrap().is_empty());
        assert_eq!(text.parse::<Steps>(), Ok(Steps::NONE));
    }
    assert_eq!(*"-1,-128 127".parse::<Window>().unwrap(), [-1, -128, 127]);
    let wrong = |element, place, least, most| ListError::Element { element, place, least, most };
    for text in ["4 +4", "4 -4", "4,,4", "4 256", "4 x", "4,", "4 4.0", "4 ٥", "4 99999999999999999999", "4;4 4"] {
        let place = if text == "4;4 4" { 0 } else { 1 };
        assert_eq!(text.parse::<Word>(), Err(wrong("letter", place, 0, 255)), "{text}");
    }
    for text in ["4 +4", "4 128", "4 -129", "4 --4", "4 -", "4 , ,", "4 - 4"] {
        assert_eq!(text.parse::<Window>(), Err(wrong("entry", 1, -128, 127)), "{text}");
    }
    for text in ["1 0", "1 65", "1 -1", "1 2-3"] {
        assert_eq!(text.parse::<Steps>(), Err(wrong("step", 1, 1, 64)), "{text}");
    }
    assert_eq!(",".parse::<Word>(), Err(wrong("letter", 0, 0, 255)));
    assert_eq!(wrong("letter", 1, 0, 255).to_string(), "the letter at place 1 is not a number from 0 to 255");
    let entries = [1; 65];
    assert!(Window::try_from(&entries[..64]).is_ok_and(|window| *window == entries[..64]));
    assert_eq!(Window::try_from(&entries[..]), Err(ListError::TooLong));
    assert_eq!("1 ".repeat(65).parse::<Window>(), Err(ListError::TooLong));
    assert_eq!(Steps::try_from([1, 64, 64]).map(Steps::bits), Ok(1 | 1 << 63));
    assert_eq!(Steps::try_from(&[1, 65][..]), Err(wrong("step", 1, 1, 64)));
    assert_eq!("D64".parse::<Group>().unwrap().steps().bits(), u64::MAX);
    assert_eq!("A1".parse::<Group>().unwrap().steps().bits(), 1);
}

/// A preset as somebody reads it.
type Read = Result<(Kind, u8, Vec<u8>), Refusal>;

fn read(book: &Book) -> Vec<Read> {
    book.iter().map(|found| found.map(|p| (p.kind, p.rank, p.word.to_vec()))).collect()
}

/// Edits of a book with records of every sort do to its presets what the same edits do to a list.
#[test]
fn edits_of_books_are_edits_of_lists() {
    let mut numbers = Numbers(4);
    for round in 0..200 {
        let edition = [Edition::First, Edition::Second][round % 2];
        // Whole records, right or not: the check of a book does not look into them.
        let mut bytes = Vec::new();
        let mut starts = Vec::new();
        for _ in 0..numbers.below(8) {
            starts.push(bytes.len() as u16);
            let letters = numbers.below(6);
            bytes.extend((0..2 + round % 2).map(|_| numbers.below(6) as u8));
            bytes.extend([letters as u8, 0]);
            bytes.extend((0..letters).map(|_| numbers.below(5) as u8));
        }
        starts.push(starts.len() as u16);
        bytes.extend(starts.iter().flat_map(|start| start.to_le_bytes()));
        let mut book = Book::from_bytes(edition, bytes).unwrap();
        let mut list = read(&book);
        for _ in 0..20 {
            let before = book.clone();
            let (from, to) = (numbers.below(list.len() + 2), numbers.below(list.len() + 2));
            let group = numbers.group();
            let word = numbers.word(group);
            let added = (group.kind(), group.rank(), word.clone());
            let outcome = match numbers.below(4) {
                0 => book.remove(from).map(|()| drop(list.remove(from))),
                1 => book.replace(from, group, &word).map(|()| list[from] = Ok(added)),
                2 => book.move_to(from, to).map(|()| {
                    let moved = list.remove(from);
                    list.insert(to, moved);
                }),
                _ => {
                    let preset = Preset { kind: group.kind(), rank: group.rank(), word: &word };
                    let appended = book.append_all([preset, preset]).map_err(|refused| refused.refusal);
                    appended.map(|()| list.extend([Ok(added.clone()), Ok(added)]))
                }
            };
            assert!(outcome.is_ok() || book == before);
            assert_eq!(read(&book), list);
            assert_eq!(Book::from_bytes(edition, book.as_bytes()), Ok(book.clone()));
        }
    }
}

/// What is appended at once is what is appended one by one.
#[test]
fn many_presets_at_once() {
    for edition in [Edition::First, Edition::Second] {
        let words = [&[1, 2, 1, 2][..], &[], &[2], &[1; 100]];
        let (mut one_by_one, mut at_once) = (Book::new(edition), Book::new(edition));
        let presets: Vec<_> = (0..400).map(|at| Preset { kind: Kind::B, rank: 2, word: words[at % 4] }).collect();
        for preset in &presets {
            one_by_one.append(preset.group().unwrap(), preset.word).unwrap();
        }
        at_once.append_all(presets).unwrap();
        assert_eq!(at_once, one_by_one);
        // To the last byte.
        let mut full = Book::new(edition);
        let head = if edition == Edition::First { 4 } else { 5 };
        let longest = Preset { kind: Kind::A, rank: 2, word: &[1; 4096] };
        let rest = vec![1; MAX_BOOK - 2 - 15 * (4096 + head + 2) - head - 2];
        full.append_all(std::iter::repeat_n(longest, 15).chain([Preset { word: &rest, ..longest }])).unwrap();
        assert_eq!(full.as_bytes().len(), MAX_BOOK);
        let longer = [&rest[..], &[1]].concat();
        let over = std::iter::repeat_n(longest, 15).chain([Preset { word: &longer, ..longest }]);
        let refused = Book::new(edition).append_all(over).unwrap_err();
        assert_eq!((refused.place, refused.refusal), (15, Refusal::BookFull));
        let refused = full.append_all([Preset { word: &[], ..longest }]).unwrap_err();
        assert_eq!((refused.place, refused.refusal), (0, Refusal::BookFull));
        let group = longest.group().unwrap();
        assert_eq!(full.replace(15, group, &longer), Err(Refusal::BookFull));
        assert_eq!(full.replace(15, group, &rest[1..]), Ok(()));
        assert_eq!(full.as_bytes().len(), MAX_BOOK - 1);
    }
}

#[test]
fn each_refusal_has_a_number_and_a_message() {
    assert!((1..=21).all(|number| Refusal::from_number(number).is_some_and(|refusal| refusal.number() == number)));
    assert!(Refusal::ALL.iter().all(|refusal| refusal.message().ends_with('.')));
    assert!([0, 22, 255].iter().all(|&number| Refusal::from_number(number).is_none()));
}
