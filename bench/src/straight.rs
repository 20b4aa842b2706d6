//! What an engineer would write instead in C++ (`straight.cpp`), with the signatures of the library's calls. It takes words
//! as they are, so that only accepted ones may be lent.
mod c {
    unsafe extern "C" {
        pub fn straight_window_of_word(kind: u32, rank: u32, word: *const u8, letters: usize, out: *mut i8) -> i64;
        pub fn straight_normal_form_of_word(kind: u32, rank: u32, word: *const u8, letters: usize, out: *mut u8)
        -> i64;
        pub fn straight_normal_form_of_window(kind: u32, rank: u32, w: *const i8, lanes: usize, out: *mut u8) -> i64;
        pub fn straight_length_of_word(kind: u32, rank: u32, word: *const u8, letters: usize) -> i64;
        pub fn straight_length_of_window(kind: u32, rank: u32, w: *const i8, lanes: usize) -> i64;
        pub fn straight_product_of_words(
            kind: u32,
            rank: u32,
            first: *const u8,
            first_letters: usize,
            second: *const u8,
            second_letters: usize,
            out: *mut u8,
        ) -> i64;
        pub fn straight_product_of_windows(
            kind: u32,
            rank: u32,
            u: *const i8,
            u_lanes: usize,
            v: *const i8,
            v_lanes: usize,
            out: *mut i8,
        ) -> i64;
        pub fn straight_inverse_of_word(kind: u32, rank: u32, word: *const u8, letters: usize, out: *mut u8) -> i64;
        pub fn straight_inverse_of_window(kind: u32, rank: u32, w: *const i8, lanes: usize, out: *mut i8) -> i64;
        pub fn straight_same(
            first_kind: u32,
            first_rank: u32,
            first: *const u8,
            first_letters: usize,
            second_kind: u32,
            second_rank: u32,
            second: *const u8,
            second_letters: usize,
        ) -> i64;
        pub fn straight_book_check(book: *const u8, length: usize, head: usize) -> i64;
    }
}

/// Room for every window, and for every normal form.
const LANES: usize = 64;
const LETTERS: usize = 4096;

// SAFETY of each call: the words have letters from 1 to the rank, windows and books are checked, so that every index is
// inside, and the output has room for the longest answer.

pub fn window_of_word(kind: u32, rank: u32, word: &[u8], out: &mut [i8]) -> i64 {
    assert!(out.len() >= LANES);
    // SAFETY: as said above, the input is right and the output has room.
    unsafe { c::straight_window_of_word(kind, rank, word.as_ptr(), word.len(), out.as_mut_ptr()) }
}

pub fn normal_form_of_word(kind: u32, rank: u32, word: &[u8], out: &mut [u8]) -> i64 {
    assert!(out.len() >= LETTERS);
    // SAFETY: as said above, the input is right and the output has room.
    unsafe { c::straight_normal_form_of_word(kind, rank, word.as_ptr(), word.len(), out.as_mut_ptr()) }
}

pub fn normal_form_of_window(kind: u32, rank: u32, window: &[i8], out: &mut [u8]) -> i64 {
    assert!(out.len() >= LETTERS);
    // SAFETY: as said above, the input is right and the output has room.
    unsafe { c::straight_normal_form_of_window(kind, rank, window.as_ptr(), window.len(), out.as_mut_ptr()) }
}

pub fn length_of_word(kind: u32, rank: u32, word: &[u8]) -> i64 {
    // SAFETY: as said above, the input is right and the output has room.
    unsafe { c::straight_length_of_word(kind, rank, word.as_ptr(), word.len()) }
}

pub fn length_of_window(kind: u32, rank: u32, window: &[i8]) -> i64 {
    // SAFETY: as said above, the input is right and the output has room.
    unsafe { c::straight_length_of_window(kind, rank, window.as_ptr(), window.len()) }
}

pub fn product_of_words(kind: u32, rank: u32, first: &[u8], second: &[u8], out: &mut [u8]) -> i64 {
    assert!(out.len() >= LETTERS);
    let (first, second, m, n) = (first.as_ptr(), second.as_ptr(), first.len(), second.len());
    // SAFETY: as said above, the input is right and the output has room.
    unsafe { c::straight_product_of_words(kind, rank, first, m, second, n, out.as_mut_ptr()) }
}

pub fn product_of_windows(kind: u32, rank: u32, first: &[i8], second: &[i8], out: &mut [i8]) -> i64 {
    assert!(out.len() >= LANES);
    let (first, second, m, n) = (first.as_ptr(), second.as_ptr(), first.len(), second.len());
    // SAFETY: as said above, the input is right and the output has room.
    unsafe { c::straight_product_of_windows(kind, rank, first, m, second, n, out.as_mut_ptr()) }
}

pub fn inverse_of_word(kind: u32, rank: u32, word: &[u8], out: &mut [u8]) -> i64 {
    assert!(out.len() >= LETTERS);
    // SAFETY: as said above, the input is right and the output has room.
    unsafe { c::straight_inverse_of_word(kind, rank, word.as_ptr(), word.len(), out.as_mut_ptr()) }
}

pub fn inverse_of_window(kind: u32, rank: u32, window: &[i8], out: &mut [i8]) -> i64 {
    assert!(out.len() >= LANES);
    // SAFETY: as said above, the input is right and the output has room.
    unsafe { c::straight_inverse_of_window(kind, rank, window.as_ptr(), window.len(), out.as_mut_ptr()) }
}

pub fn same(kind1: u32, rank1: u32, word1: &[u8], kind2: u32, rank2: u32, word2: &[u8]) -> i64 {
    let (word1, word2, m, n) = (word1.as_ptr(), word2.as_ptr(), word1.len(), word2.len());
    // SAFETY: as said above, the input is right and the output has room.
    unsafe { c::straight_same(kind1, rank1, word1, m, kind2, rank2, word2, n) }
}

pub fn book_check(book: &[u8]) -> i64 {
    // SAFETY: as said above, the input is right and the output has room.
    unsafe { c::straight_book_check(book.as_ptr(), book.len(), 4) }
}

pub fn second_book_check(book: &[u8]) -> i64 {
    // SAFETY: as said above, the input is right and the output has room.
    unsafe { c::straight_book_check(book.as_ptr(), book.len(), 5) }
}
