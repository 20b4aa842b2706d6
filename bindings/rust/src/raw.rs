//! The C interface unchanged, but with slices in place of pointers and lengths.
//!
//! Each function returns 0 or more, or -k for refusal k; [`rewrite`] also returns [`NONE_FITS`], and
//! [`fallback`] [`NO_FALLBACK`]. The functions of
//! [`lent`](crate::lent) say the same in Rust's words.

mod c {
    unsafe extern "C" {
        pub fn winnathey_window_of_word(
            kind: u32,
            rank: u32,
            word: *const u8,
            word_len: usize,
            out: *mut i8,
            out_len: usize,
        ) -> i64;
        pub fn winnathey_normal_form_of_word(
            kind: u32,
            rank: u32,
            word: *const u8,
            word_len: usize,
            out: *mut u8,
            out_len: usize,
        ) -> i64;
        pub fn winnathey_normal_form_of_window(
            kind: u32,
            rank: u32,
            window: *const i8,
            window_len: usize,
            out: *mut u8,
            out_len: usize,
        ) -> i64;
        pub fn winnathey_product_of_words(
            kind: u32,
            rank: u32,
            first: *const u8,
            first_len: usize,
            second: *const u8,
            second_len: usize,
            out: *mut u8,
            out_len: usize,
        ) -> i64;
        pub fn winnathey_product_of_windows(
            kind: u32,
            rank: u32,
            first: *const i8,
            first_len: usize,
            second: *const i8,
            second_len: usize,
            out: *mut i8,
            out_len: usize,
        ) -> i64;
        pub fn winnathey_inverse_of_word(
            kind: u32,
            rank: u32,
            word: *const u8,
            word_len: usize,
            out: *mut u8,
            out_len: usize,
        ) -> i64;
        pub fn winnathey_inverse_of_window(
            kind: u32,
            rank: u32,
            window: *const i8,
            window_len: usize,
            out: *mut i8,
            out_len: usize,
        ) -> i64;
        pub fn winnathey_length_of_word(kind: u32, rank: u32, word: *const u8, word_len: usize) -> i64;
        pub fn winnathey_length_of_window(kind: u32, rank: u32, window: *const i8, window_len: usize) -> i64;
        pub fn winnathey_crossings_of_word(
            kind: u32,
            rank: u32,
            word: *const u8,
            word_len: usize,
            counts: *mut u64,
            counts_len: usize,
        ) -> i64;
        pub fn winnathey_crossings_of_window(
            kind: u32,
            rank: u32,
            window: *const i8,
            window_len: usize,
            counts: *mut u64,
            counts_len: usize,
        ) -> i64;
        pub fn winnathey_delay_table(
            kind: u32,
            rank: u32,
            counts: *mut u64,
            counts_len: usize,
            window: *mut i8,
            window_len: usize,
            normal_form: *mut u8,
            normal_form_len: usize,
            lengths: *mut u64,
            lengths_len: usize,
        ) -> i64;
        pub fn winnathey_same(
            kind1: u32,
            rank1: u32,
            word1: *const u8,
            len1: usize,
            kind2: u32,
            rank2: u32,
            word2: *const u8,
            len2: usize,
        ) -> i64;
        pub fn winnathey_better(
            kind: u32,
            rank: u32,
            first: *const u8,
            first_len: usize,
            second: *const u8,
            second_len: usize,
        ) -> i64;
        pub fn winnathey_rewrite(
            kind: u32,
            rank: u32,
            word: *const u8,
            word_len: usize,
            place: usize,
            out: *mut u8,
            out_len: usize,
            rule: *mut u8,
            rule_len: usize,
        ) -> i64;
        pub fn winnathey_rewrite_steps(kind: u32, rank: u32, word: *const u8, word_len: usize) -> i64;
        pub fn winnathey_rewrite_to_end(
            kind: u32,
            rank: u32,
            word: *const u8,
            word_len: usize,
            families: *mut u8,
            families_len: usize,
            places: *mut u16,
            places_len: usize,
            lengths: *mut u16,
            lengths_len: usize,
            out: *mut u8,
            out_len: usize,
            written: *mut u64,
            written_len: usize,
        ) -> i64;
        pub fn winnathey_fallback(
            kind: u32,
            rank: u32,
            present: *const u8,
            present_len: usize,
            simpler: *const u8,
            simpler_len: usize,
            places: *mut u16,
            places_len: usize,
        ) -> i64;
        pub fn winnathey_split(
            kind: u32,
            rank: u32,
            allowed: u64,
            word: *const u8,
            word_len: usize,
            first: *mut u8,
            first_len: usize,
            second: *mut u8,
            second_len: usize,
            lengths: *mut u64,
            lengths_len: usize,
        ) -> i64;
        pub fn winnathey_between(
            kind: u32,
            rank: u32,
            allowed: u64,
            from: *const i8,
            from_len: usize,
            to: *const i8,
            to_len: usize,
            out: *mut u8,
            out_len: usize,
        ) -> i64;
        pub fn winnathey_book_check(book: *const u8, book_len: usize) -> i64;
        pub fn winnathey_preset(
            book: *const u8,
            book_len: usize,
            number: usize,
            fields: *mut u64,
            fields_len: usize,
        ) -> i64;
        pub fn winnathey_presets(
            book: *const u8,
            book_len: usize,
            first: usize,
            fields: *mut u64,
            fields_len: usize,
        ) -> i64;
        pub fn winnathey_append(
            book: *const u8,
            book_len: usize,
            kind: u32,
            rank: u32,
            word: *const u8,
            word_len: usize,
            out: *mut u8,
            out_len: usize,
        ) -> i64;
        pub fn winnathey_second_book_check(book: *const u8, book_len: usize) -> i64;
        pub fn winnathey_second_preset(
            book: *const u8,
            book_len: usize,
            number: usize,
            fields: *mut u64,
            fields_len: usize,
        ) -> i64;
        pub fn winnathey_second_presets(
            book: *const u8,
            book_len: usize,
            first: usize,
            fields: *mut u64,
            fields_len: usize,
        ) -> i64;
        pub fn winnathey_second_append(
            book: *const u8,
            book_len: usize,
            kind: u32,
            rank: u32,
            word: *const u8,
            word_len: usize,
            out: *mut u8,
            out_len: usize,
        ) -> i64;
        pub fn winnathey_to_second(book: *const u8, book_len: usize, out: *mut u8, out_len: usize) -> i64;
        pub fn winnathey_to_first(book: *const u8, book_len: usize, out: *mut u8, out_len: usize) -> i64;
        pub fn winnathey_refusal_message(refusal: u32, out: *mut u8, out_len: usize) -> i64;
        pub fn winnathey_version() -> i64;
    }
}

/// The answer of [`rewrite`] if no rule's left side begins at the place.
pub const NONE_FITS: i64 = -100;

/// The answer of [`fallback`] if no part-list of the present normal form has the simpler window.
pub const NO_FALLBACK: i64 = -101;

// What the library asks of its caller, and each comment SAFETY below says in short: a pointer and the length behind it
// are those of one slice, which is borrowed for the call and, if the call writes it, borrowed alone. Then it is aligned
// and overlaps nothing. The library is proved to stay inside what it is lent, for every input.

/// The window of a word.
#[inline]
pub fn window_of_word(kind: u32, rank: u32, word: &[u8], out: &mut [i8]) -> i64 {
    // SAFETY: pointers and lengths are those of slices; what is written is borrowed alone.
    unsafe { c::winnathey_window_of_word(kind, rank, word.as_ptr(), word.len(), out.as_mut_ptr(), out.len()) }
}

/// The normal form of a word.
#[inline]
pub fn normal_form_of_word(kind: u32, rank: u32, word: &[u8], out: &mut [u8]) -> i64 {
    // SAFETY: pointers and lengths are those of slices; what is written is borrowed alone.
    unsafe { c::winnathey_normal_form_of_word(kind, rank, word.as_ptr(), word.len(), out.as_mut_ptr(), out.len()) }
}

/// The normal form of a window.
#[inline]
pub fn normal_form_of_window(kind: u32, rank: u32, window: &[i8], out: &mut [u8]) -> i64 {
    // SAFETY: pointers and lengths are those of slices; what is written is borrowed alone.
    unsafe {
        c::winnathey_normal_form_of_window(kind, rank, window.as_ptr(), window.len(), out.as_mut_ptr(), out.len())
    }
}

/// The product of two words, as a normal form.
#[inline]
pub fn product_of_words(kind: u32, rank: u32, first: &[u8], second: &[u8], out: &mut [u8]) -> i64 {
    // SAFETY: pointers and lengths are those of slices; what is written is borrowed alone.
    unsafe {
        c::winnathey_product_of_words(
            kind,
            rank,
            first.as_ptr(),
            first.len(),
            second.as_ptr(),
            second.len(),
            out.as_mut_ptr(),
            out.len(),
        )
    }
}

/// The product of two windows.
#[inline]
pub fn product_of_windows(kind: u32, rank: u32, first: &[i8], second: &[i8], out: &mut [i8]) -> i64 {
    // SAFETY: pointers and lengths are those of slices; what is written is borrowed alone.
    unsafe {
        c::winnathey_product_of_windows(
            kind,
            rank,
            first.as_ptr(),
            first.len(),
            second.as_ptr(),
            second.len(),
            out.as_mut_ptr(),
            out.len(),
        )
    }
}

/// The inverse of a word, as a normal form.
#[inline]
pub fn inverse_of_word(kind: u32, rank: u32, word: &[u8], out: &mut [u8]) -> i64 {
    // SAFETY: pointers and lengths are those of slices; what is written is borrowed alone.
    unsafe { c::winnathey_inverse_of_word(kind, rank, word.as_ptr(), word.len(), out.as_mut_ptr(), out.len()) }
}

/// The inverse of a window.
#[inline]
pub fn inverse_of_window(kind: u32, rank: u32, window: &[i8], out: &mut [i8]) -> i64 {
    // SAFETY: pointers and lengths are those of slices; what is written is borrowed alone.
    unsafe { c::winnathey_inverse_of_window(kind, rank, window.as_ptr(), window.len(), out.as_mut_ptr(), out.len()) }
}

/// The length of a word's normal form.
#[inline]
pub fn length_of_word(kind: u32, rank: u32, word: &[u8]) -> i64 {
    // SAFETY: pointers and lengths are those of slices; what is written is borrowed alone.
    unsafe { c::winnathey_length_of_word(kind, rank, word.as_ptr(), word.len()) }
}

/// The length of a window's normal form.
#[inline]
pub fn length_of_window(kind: u32, rank: u32, window: &[i8]) -> i64 {
    // SAFETY: pointers and lengths are those of slices; what is written is borrowed alone.
    unsafe { c::winnathey_length_of_window(kind, rank, window.as_ptr(), window.len()) }
}

/// The length of a word's normal form as three counts: plain pairs, pairs against a mirrored lane, mirrored lanes.
#[inline]
pub fn crossings_of_word(kind: u32, rank: u32, word: &[u8], counts: &mut [u64]) -> i64 {
    // SAFETY: pointers and lengths are those of slices; what is written is borrowed alone.
    unsafe { c::winnathey_crossings_of_word(kind, rank, word.as_ptr(), word.len(), counts.as_mut_ptr(), counts.len()) }
}

/// The same of a window.
#[inline]
pub fn crossings_of_window(kind: u32, rank: u32, window: &[i8], counts: &mut [u64]) -> i64 {
    // SAFETY: pointers and lengths are those of slices; what is written is borrowed alone.
    unsafe {
        c::winnathey_crossings_of_window(kind, rank, window.as_ptr(), window.len(), counts.as_mut_ptr(), counts.len())
    }
}

/// How many windows of a kind and rank have each length, the longest window and its normal form, with the length of each
/// in `lengths`.
#[inline]
pub fn delay_table(
    kind: u32,
    rank: u32,
    counts: &mut [u64],
    window: &mut [i8],
    normal_form: &mut [u8],
    lengths: &mut [u64],
) -> i64 {
    // SAFETY: pointers and lengths are those of slices; what is written is borrowed alone.
    unsafe {
        c::winnathey_delay_table(
            kind,
            rank,
            counts.as_mut_ptr(),
            counts.len(),
            window.as_mut_ptr(),
            window.len(),
            normal_form.as_mut_ptr(),
            normal_form.len(),
            lengths.as_mut_ptr(),
            lengths.len(),
        )
    }
}

/// 1 if two presets are equal, 0 if not.
#[inline]
pub fn same(kind1: u32, rank1: u32, word1: &[u8], kind2: u32, rank2: u32, word2: &[u8]) -> i64 {
    // SAFETY: pointers and lengths are those of slices; what is written is borrowed alone.
    unsafe { c::winnathey_same(kind1, rank1, word1.as_ptr(), word1.len(), kind2, rank2, word2.as_ptr(), word2.len()) }
}

/// 1 or 2 for the better of two words, 0 for neither.
#[inline]
pub fn better(kind: u32, rank: u32, first: &[u8], second: &[u8]) -> i64 {
    // SAFETY: pointers and lengths are those of slices; what is written is borrowed alone.
    unsafe { c::winnathey_better(kind, rank, first.as_ptr(), first.len(), second.as_ptr(), second.len()) }
}

/// One rewrite, with family, i and j in the three bytes of `rule`.
#[inline]
pub fn rewrite(kind: u32, rank: u32, word: &[u8], place: usize, out: &mut [u8], rule: &mut [u8]) -> i64 {
    // SAFETY: pointers and lengths are those of slices; what is written is borrowed alone.
    unsafe {
        c::winnathey_rewrite(
            kind,
            rank,
            word.as_ptr(),
            word.len(),
            place,
            out.as_mut_ptr(),
            out.len(),
            rule.as_mut_ptr(),
            rule.len(),
        )
    }
}

/// How many steps [`rewrite_to_end`] takes.
#[inline]
pub fn rewrite_steps(kind: u32, rank: u32, word: &[u8]) -> i64 {
    // SAFETY: pointers and lengths are those of slices; what is written is borrowed alone.
    unsafe { c::winnathey_rewrite_steps(kind, rank, word.as_ptr(), word.len()) }
}

/// The rewriting of a word to its end, with the length of the final word in `written`.
#[expect(clippy::too_many_arguments, reason = "as the C interface has them")]
#[inline]
pub fn rewrite_to_end(
    kind: u32,
    rank: u32,
    word: &[u8],
    families: &mut [u8],
    places: &mut [u16],
    lengths: &mut [u16],
    out: &mut [u8],
    written: &mut [u64],
) -> i64 {
    // SAFETY: pointers and lengths are those of slices; what is written is borrowed alone.
    unsafe {
        c::winnathey_rewrite_to_end(
            kind,
            rank,
            word.as_ptr(),
            word.len(),
            families.as_mut_ptr(),
            families.len(),
            places.as_mut_ptr(),
            places.len(),
            lengths.as_mut_ptr(),
            lengths.len(),
            out.as_mut_ptr(),
            out.len(),
            written.as_mut_ptr(),
            written.len(),
        )
    }
}

/// The number of places kept, with the places in the front of `places`, or [`NO_FALLBACK`].
#[inline]
pub fn fallback(kind: u32, rank: u32, present: &[u8], simpler: &[u8], places: &mut [u16]) -> i64 {
    // SAFETY: pointers and lengths are those of slices; what is written is borrowed alone.
    unsafe {
        c::winnathey_fallback(
            kind,
            rank,
            present.as_ptr(),
            present.len(),
            simpler.as_ptr(),
            simpler.len(),
            places.as_mut_ptr(),
            places.len(),
        )
    }
}

/// The two words into which a word is split by a set of allowed steps, with the length of each in `lengths`.
#[inline]
pub fn split(
    kind: u32,
    rank: u32,
    allowed: u64,
    word: &[u8],
    first: &mut [u8],
    second: &mut [u8],
    lengths: &mut [u64],
) -> i64 {
    // SAFETY: pointers and lengths are those of slices; what is written is borrowed alone.
    unsafe {
        c::winnathey_split(
            kind,
            rank,
            allowed,
            word.as_ptr(),
            word.len(),
            first.as_mut_ptr(),
            first.len(),
            second.as_mut_ptr(),
            second.len(),
            lengths.as_mut_ptr(),
            lengths.len(),
        )
    }
}

/// The word over allowed steps that leads from one window to another. Bit 0 of `allowed` stands for step 1.
#[inline]
pub fn between(kind: u32, rank: u32, allowed: u64, from: &[i8], to: &[i8], out: &mut [u8]) -> i64 {
    // SAFETY: pointers and lengths are those of slices; what is written is borrowed alone.
    unsafe {
        c::winnathey_between(
            kind,
            rank,
            allowed,
            from.as_ptr(),
            from.len(),
            to.as_ptr(),
            to.len(),
            out.as_mut_ptr(),
            out.len(),
        )
    }
}

/// The number of presets in a book.
#[inline]
pub fn book_check(book: &[u8]) -> i64 {
    // SAFETY: pointers and lengths are those of slices; what is written is borrowed alone.
    unsafe { c::winnathey_book_check(book.as_ptr(), book.len()) }
}

/// A preset's kind, rank, place of the letters in the book and letter count, in the four numbers of `fields`.
#[inline]
pub fn preset(book: &[u8], number: usize, fields: &mut [u64]) -> i64 {
    // SAFETY: pointers and lengths are those of slices; what is written is borrowed alone.
    unsafe { c::winnathey_preset(book.as_ptr(), book.len(), number, fields.as_mut_ptr(), fields.len()) }
}

/// The presets from the number `first` on that `fields` has room for, in five numbers each: its refusal or 0, and what
/// [`preset`] gives or four zeros. Answers how many.
#[inline]
pub fn presets(book: &[u8], first: usize, fields: &mut [u64]) -> i64 {
    // SAFETY: pointers and lengths are those of slices; what is written is borrowed alone.
    unsafe { c::winnathey_presets(book.as_ptr(), book.len(), first, fields.as_mut_ptr(), fields.len()) }
}

/// A book with one record more.
#[inline]
pub fn append(book: &[u8], kind: u32, rank: u32, word: &[u8], out: &mut [u8]) -> i64 {
    // SAFETY: pointers and lengths are those of slices; what is written is borrowed alone.
    unsafe {
        c::winnathey_append(
            book.as_ptr(),
            book.len(),
            kind,
            rank,
            word.as_ptr(),
            word.len(),
            out.as_mut_ptr(),
            out.len(),
        )
    }
}

/// The number of presets in a book of the second edition.
#[inline]
pub fn second_book_check(book: &[u8]) -> i64 {
    // SAFETY: pointers and lengths are those of slices; what is written is borrowed alone.
    unsafe { c::winnathey_second_book_check(book.as_ptr(), book.len()) }
}

/// Second edition: a preset's kind, rank, place of the letters in the book and letter count, in the four numbers of `fields`.
#[inline]
pub fn second_preset(book: &[u8], number: usize, fields: &mut [u64]) -> i64 {
    // SAFETY: pointers and lengths are those of slices; what is written is borrowed alone.
    unsafe { c::winnathey_second_preset(book.as_ptr(), book.len(), number, fields.as_mut_ptr(), fields.len()) }
}

/// Second edition: the presets from the number `first` on that `fields` has room for, in five numbers each: its refusal or 0, and what
/// [`second_preset`] gives or four zeros. Answers how many.
#[inline]
pub fn second_presets(book: &[u8], first: usize, fields: &mut [u64]) -> i64 {
    // SAFETY: pointers and lengths are those of slices; what is written is borrowed alone.
    unsafe { c::winnathey_second_presets(book.as_ptr(), book.len(), first, fields.as_mut_ptr(), fields.len()) }
}

/// A book of the second edition with one record more.
#[inline]
pub fn second_append(book: &[u8], kind: u32, rank: u32, word: &[u8], out: &mut [u8]) -> i64 {
    // SAFETY: pointers and lengths are those of slices; what is written is borrowed alone.
    unsafe {
        c::winnathey_second_append(
            book.as_ptr(),
            book.len(),
            kind,
            rank,
            word.as_ptr(),
            word.len(),
            out.as_mut_ptr(),
            out.len(),
        )
    }
}

/// A book of the first edition as one of the second.
#[inline]
pub fn to_second(book: &[u8], out: &mut [u8]) -> i64 {
    // SAFETY: pointers and lengths are those of slices; what is written is borrowed alone.
    unsafe { c::winnathey_to_second(book.as_ptr(), book.len(), out.as_mut_ptr(), out.len()) }
}

/// A book of the second edition as one of the first.
#[inline]
pub fn to_first(book: &[u8], out: &mut [u8]) -> i64 {
    // SAFETY: pointers and lengths are those of slices; what is written is borrowed alone.
    unsafe { c::winnathey_to_first(book.as_ptr(), book.len(), out.as_mut_ptr(), out.len()) }
}

/// The message of a refusal, in ASCII: nothing for a number that is none.
#[inline]
pub fn refusal_message(refusal: u32, out: &mut [u8]) -> i64 {
    // SAFETY: pointers and lengths are those of slices; what is written is borrowed alone.
    unsafe { c::winnathey_refusal_message(refusal, out.as_mut_ptr(), out.len()) }
}

/// The library's version: 1,000,000 times the major number, 1,000 times the minor one, and the patch.
#[inline]
pub fn version() -> i64 {
    // SAFETY: it takes nothing.
    unsafe { c::winnathey_version() }
}
