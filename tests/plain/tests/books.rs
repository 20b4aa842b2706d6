//! Books laid out by hand, and what the calls make of them.
use plain::{append, book_check, preset, presets, to_first, to_second};
use plain::{second_append, second_book_check, second_preset, second_presets};

/// B2 with 1 2 1 2 and D5 with 5 2 3 5 1 2, in the first edition and in the second.
const FIRST: &[u8] = &[2, 2, 4, 0, 1, 2, 1, 2, 3, 5, 6, 0, 5, 2, 3, 5, 1, 2, 0, 0, 8, 0, 2, 0];
const SECOND: &[u8] = &[2, 2, 2, 4, 0, 1, 2, 1, 2, 3, 5, 5, 6, 0, 5, 2, 3, 5, 1, 2, 0, 0, 9, 0, 2, 0];

/// The answer, and the output, which held 7s.
fn made(call: impl Fn(&[u8], &mut [u8]) -> i64, book: &[u8], room: usize) -> (i64, Vec<u8>) {
    let mut out = vec![7; room];
    let answer = call(book, &mut out);
    (answer, out)
}

/// A refused call, with an output that is long enough for all: its number, and nothing written.
fn refused(call: impl Fn(&[u8], &mut [u8]) -> i64, book: &[u8]) -> i64 {
    let (answer, out) = made(call, book, 65_535);
    assert!(answer < 0 && out.iter().all(|&byte| byte == 7));
    -answer
}

#[test]
fn the_example_in_both_editions() {
    assert_eq!(made(to_second, FIRST, 26), (26, SECOND.to_vec()));
    assert_eq!(made(to_first, SECOND, 24), (24, FIRST.to_vec()));
    assert_eq!(made(to_second, FIRST, 28), (26, [SECOND, &[7, 7]].concat()));
    assert_eq!(made(to_second, FIRST, 25), (-14, vec![7; 25]));
    assert_eq!(made(to_first, SECOND, 23), (-14, vec![7; 23]));
    assert_eq!(made(to_second, &[0, 0], 2), (2, vec![0, 0]));
    assert_eq!(made(to_first, &[0, 0], 2), (2, vec![0, 0]));
    assert_eq!(made(to_first, &[0, 0], 1), (-14, vec![7]));
    // A has one lane more than its rank.
    assert_eq!(made(to_second, &[1, 31, 0, 0, 0, 0, 1, 0], 9), (9, vec![1, 31, 32, 0, 0, 0, 0, 1, 0]));
    assert_eq!(made(to_first, &[1, 31, 32, 0, 0, 0, 0, 1, 0], 8), (8, vec![1, 31, 0, 0, 0, 0, 1, 0]));
}

/// A second-edition book of one or two records without letters, or with one.
fn second(records: &[[u8; 3]], letter: Option<u8>) -> Vec<u8> {
    let mut book = Vec::new();
    let mut offsets = Vec::new();
    for record in records {
        offsets.extend([book.len() as u8, 0]);
        book.extend(record);
        book.extend([letter.is_some().into(), 0]);
        book.extend(letter);
    }
    book.extend(offsets);
    book.extend([records.len() as u8, 0]);
    book
}

#[test]
fn checks_go_record_by_record() {
    // In one record: 5, 6, 17, 8, 18.
    assert_eq!(refused(to_first, &second(&[[4, 65, 0]], Some(0))), 5);
    assert_eq!(refused(to_first, &second(&[[2, 65, 0]], Some(0))), 6);
    assert_eq!(refused(to_first, &second(&[[2, 33, 32]], Some(0))), 17);
    assert_eq!(refused(to_first, &second(&[[2, 33, 33]], Some(0))), 8);
    assert_eq!(refused(to_first, &second(&[[2, 33, 33]], Some(33))), 18);
    assert_eq!(refused(to_first, &second(&[[1, 32, 33]], None)), 18);
    assert_eq!(refused(to_first, &second(&[[3, 64, 64]], None)), 18);
    // 7, with a wrong letter and too many lanes.
    let mut long = vec![2, 33, 33, 1, 16];
    long.extend([0; 4097]);
    long.extend([0, 0, 1, 0]);
    assert_eq!(refused(to_first, &long), 7);
    // The first record's refusal, whatever the second's is.
    assert_eq!(refused(to_first, &second(&[[2, 33, 33], [4, 2, 2]], None)), 18);
    assert_eq!(refused(to_first, &second(&[[4, 2, 2], [2, 33, 33]], None)), 5);
    assert_eq!(refused(to_first, &second(&[[2, 2, 2], [2, 33, 33]], None)), 18);
    assert_eq!(refused(to_second, &[2, 33, 0, 0, 4, 2, 0, 0, 0, 0, 4, 0, 2, 0]), 6);
    // The book's own checks come first, in its own edition.
    assert_eq!(refused(to_first, FIRST), 3);
    assert_eq!(refused(to_second, SECOND), 3);
    assert_eq!(refused(to_first, &[4, 0, 0, 0, 0, 0, 2, 0]), 3);
    assert_eq!(refused(to_first, &[1, 0]), 2);
    assert_eq!(refused(to_second, &[0]), 1);
    assert_eq!(refused(to_second, &[0; 65_536]), 1);
}

#[test]
fn the_new_book_has_its_limit() {
    // 9,361 records have 56,168 bytes in the first edition and 65,529 in the second, without letters.
    let book = |letters: u8, kind: u8| {
        let mut book = [2, 2, 0, 0].repeat(9_360);
        book.extend([kind, 2, letters, 0]);
        book.extend(vec![1; letters.into()]);
        (0..9_361u16).for_each(|number| book.extend((4 * number).to_le_bytes()));
        book.extend(9_361u16.to_le_bytes());
        book
    };
    for letters in 0..=6 {
        let first = book(letters, 2);
        let length = 65_529 + i64::from(letters);
        let (answer, out) = made(to_second, &first, length as usize);
        assert_eq!(answer, length);
        assert_eq!(made(to_first, &out, first.len()), (first.len() as i64, first));
    }
    assert_eq!(refused(to_second, &book(7, 2)), 13);
    // 13 comes after every record's checks, and before 14.
    assert_eq!(refused(to_second, &book(7, 4)), 5);
    assert_eq!(made(to_second, &book(7, 2), 0).0, -13);
    assert_eq!(made(to_second, &book(6, 2), 0).0, -14);
}

#[test]
fn a_book_of_no_bytes_has_no_presets() {
    assert_eq!((book_check(&[]), second_book_check(&[])), (0, 0));
    for fields in [0, 4, 5] {
        let mut fields = vec![7; fields];
        assert_eq!((preset(&[], 0, &mut fields), second_preset(&[], 0, &mut fields)), (-4, -4));
        assert_eq!((presets(&[], 0, &mut fields), second_presets(&[], 0, &mut fields)), (-4, -4));
        assert!(fields.iter().all(|&field| field == 7));
    }
    let to_b2 = |book: &[u8], out: &mut [u8]| append(book, 2, 2, &[1, 2], out);
    assert_eq!(made(to_b2, &[], 10), (10, vec![2, 2, 2, 0, 1, 2, 0, 0, 1, 0]));
    assert_eq!(made(to_b2, &[], 10), made(to_b2, &[0, 0], 10));
    assert_eq!(made(to_b2, &[], 9), (-14, vec![7; 9]));
    let to_b2 = |book: &[u8], out: &mut [u8]| second_append(book, 2, 2, &[1, 2], out);
    assert_eq!(made(to_b2, &[], 11), (11, vec![2, 2, 2, 2, 0, 1, 2, 0, 0, 1, 0]));
    assert_eq!(made(to_b2, &[], 10), (-14, vec![7; 10]));
    for room in [0, 1, 2, 9] {
        assert_eq!(made(to_second, &[], room), (0, vec![7; room]));
        assert_eq!(made(to_first, &[], room), (0, vec![7; room]));
    }
}

#[test]
fn a_book_of_one_byte_is_refused() {
    for byte in 0..=255 {
        let book = [byte];
        let mut fields = [7; 5];
        assert_eq!((book_check(&book), second_book_check(&book)), (-1, -1));
        assert_eq!((preset(&book, 0, &mut fields), second_preset(&book, 0, &mut fields)), (-1, -1));
        assert_eq!((presets(&book, 0, &mut fields), second_presets(&book, 0, &mut fields)), (-1, -1));
        assert_eq!(refused(|book, out| append(book, 0, 0, &[], out), &book), 1);
        assert_eq!(refused(|book, out| second_append(book, 2, 2, &[1, 2], out), &book), 1);
        assert_eq!((refused(to_second, &book), refused(to_first, &book)), (1, 1));
    }
}

#[test]
fn kind_a_at_rank_1_is_not_appended() {
    // A1 with 1 1 1, and B2 with 2, in either edition.
    let first = [1, 1, 3, 0, 1, 1, 1, 2, 2, 1, 0, 2, 0, 0, 7, 0, 2, 0];
    let second = [1, 1, 2, 3, 0, 1, 1, 1, 2, 2, 2, 1, 0, 2, 0, 0, 8, 0, 2, 0];
    for book in [&[][..], &[0, 0], &first] {
        for (word, number) in [(&[][..], 21), (&[1], 21), (&[1; 4096], 21), (&[2], 8), (&[0], 8), (&[1; 4097], 7)] {
            assert_eq!(refused(|book, out| append(book, 1, 1, word, out), book), number);
        }
    }
    assert_eq!(refused(|book, out| second_append(book, 1, 1, &[1], out), &second), 21);
    assert_eq!(refused(|book, out| append(book, 1, 1, &[1], out), &[0]), 1);
    assert_eq!(refused(|book, out| append(book, 257, 1, &[1], out), &first), 5);
    assert_eq!(refused(|book, out| append(book, 1, 257, &[1], out), &first), 6);
    // 21 comes before 13 and 14: a record of 65,525 letters leaves no room for another.
    let mut full = vec![2, 2, 0xf5, 0xff];
    full.extend(vec![1; 65_525]);
    full.extend([0, 0, 1, 0]);
    assert_eq!(refused(|book, out| append(book, 1, 1, &[], out), &full), 21);
    assert_eq!(refused(|book, out| append(book, 1, 2, &[], out), &full), 13);
    assert_eq!(append(&full, 1, 1, &[], &mut []), -21);

    // What a book holds stays: it is read and converted, and other presets are appended after it.
    let mut fields = [0; 4];
    assert_eq!((preset(&first, 0, &mut fields), fields), (4, [1, 1, 4, 3]));
    assert_eq!((second_preset(&second, 0, &mut fields), fields), (4, [1, 1, 5, 3]));
    assert_eq!(made(to_second, &first, 20), (20, second.to_vec()));
    assert_eq!(made(to_first, &second, 18), (18, first.to_vec()));
    assert_eq!(made(|book, out| append(book, 1, 2, &[], out), &first, 24).0, 24);
}
