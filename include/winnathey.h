/*
 * Winnathey: presets of an image router as words in the Coxeter groups of kinds A, B and D.
 *
 * Windows, normal forms, products, lengths, delay tables, rewritings, fallbacks, splits by allowed
 * steps, ways between windows, preset books. Link with libwinnathey.a or libwinnathey.so.
 *
 * Every function returns for every input whose pointers are as described below. Each is proved:
 * what it returns and every byte it writes are what the definitions of crates/c_api/specs make of
 * the input, and SPECIFICATION.md says in words. Only which places a fallback keeps, if several
 * would do, is left open.
 *
 * WHAT A CALLER MAY ASSUME
 *
 *   Threads    The library has no state: no global variable, no allocation, no lock, no file, no
 *              errno. Every function may run on any number of threads and in a signal handler.
 *   Ownership  Nothing is kept after a call. The caller lends all memory, for the time of the
 *              call.
 *   Pointers   Every pointer is followed by the number of elements that it points to (elements,
 *              not bytes). With a length of 0 it is not used and may be NULL; with a length above 0
 *              NULL is forbidden. Each pointer is aligned for its element type: by 2 bytes for
 *              uint16_t, by 8 for uint64_t on 64-bit machines. No other thread may write these
 *              buffers during the call.
 *   Overlap    An output must not overlap an input or another output: there is no in-place use.
 *              Inputs may overlap each other. The library can see neither an overlap nor a wrong
 *              pointer; winnathey_checked.h has the same functions with a test for overlap and
 *              NULL.
 *   Refusal    A refused call writes nothing at all. An accepted call writes the front of its
 *              outputs and leaves the rest of each as it was.
 *   Stack      A call needs at most WINNATHEY_MAX_STACK bytes of stack, beside what memcpy,
 *              memmove and memset need; it calls nothing else.
 *   Time       Each function's comment gives the order of its running time: n is the rank, L the
 *              number of letters of its words, b the bytes of its book. A refused call takes no
 *              longer. The slowest call known, a rewriting of 4,096 letters to its end, takes about
 *              10 milliseconds.
 *   Version    WINNATHEY_VERSION is the header's, winnathey_version() the linked library's. Within
 *              a soname (libwinnathey.so.1) functions and constants are added, never changed.
 *
 * ARGUMENTS
 *
 *   kind       WINNATHEY_KIND_A, _B or _D. Any other number of 32 bits is refused 5.
 *   rank       A: 1 to 63, B: 2 to 64, D: 4 to 64; in a book of the first edition A: 1 to 31, B: 2
 *              to 32, D: 4 to 32. Any other number of 32 bits is refused 6.
 *   word       0 to 4,096 bytes, each a step from 1 to the rank.
 *   window     rank + 1 signed bytes in kind A, rank signed bytes in kinds B and D.
 *   book       the bytes of a preset book, at most 65,535: its records, the offset of each, and
 *              their number. Offsets, that number and letter counts have two bytes, the low one
 *              first. A record is kind, rank, letter count and letters; in the second edition the
 *              lane count is a byte after the rank. A book of no bytes has no presets.
 *   allowed    a set of steps in 64 bits: bit 0 stands for step 1.
 *
 * ANSWERS
 *
 * Every function returns an int64_t. If it is 0 or more, the call was accepted; the number is the
 * length written unless the function's own comment says otherwise. If it is -k, with k from 1 to
 * WINNATHEY_LAST_REFUSAL, the call was refused, and k says why; winnathey_refusal_text has the
 * message. Two functions also return WINNATHEY_NONE_FITS or WINNATHEY_NO_FALLBACK, which are
 * results, not refusals; nothing is written. Each function's comment names its refusals, in
 * checking order.
 *
 *    1  The book is too short or too long: a book has either no bytes or from 2 to 65,535 bytes.
 *    2  The book is too short for the number of presets that its last two bytes give.
 *    3  The book's records and offsets do not fit together: the records must follow one another from
 *       byte 0 up to the offsets, and each offset must be where its record begins.
 *    4  There is no preset with this number in the book: presets are numbered from 0.
 *    5  The kind must be 1 (A), 2 (B) or 3 (D).
 *    6  The rank is out of range for its kind: 1 to 63 for A, 2 to 64 for B, 4 to 64 for D, and in a
 *       book of the first edition at most 31 for A and 32 for B and D.
 *    7  The word is too long: a word has at most 4,096 letters.
 *    8  A letter of the word is out of range: every letter must be at least 1 and at most the rank.
 *    9  The window has the wrong number of entries: kind A has one more than the rank, kinds B and D
 *       have as many as the rank.
 *   10  An entry of the window is wrong: the sizes must be the numbers from 1 to the number of
 *       entries, each of them once, and in kind A no entry may be negative.
 *   11  The window has an odd number of negative entries: in kind D the number must be even.
 *   12  The place is past the end of the word: places are counted from 0, one for each letter.
 *   13  The new book would be too long: a book has at most 65,535 bytes.
 *   14  An output is too short for what the call writes to it.
 *   15  One of the three output lists is too short: each needs room for every step of the rewriting.
 *   16  The set of allowed steps has a step above the rank: bit 0 stands for step 1, and only the
 *       bits of steps up to the rank may be set.
 *   17  The lane count in the record is wrong: it must be one more than the rank for kind A, and the
 *       rank for kinds B and D.
 *   18  The book cannot be converted to the first edition: one of its records has more than 32
 *       lanes.
 *   19  The second window cannot be reached from the first with the allowed steps.
 *   20  The rank is too high for a delay table: at most 19 for kind A, and at most 16 for kinds B
 *       and D.
 *   21  A preset of kind A and rank 1 cannot be appended: books that have one are read, but get no
 *       new one.
 *
 * The refusal is that of the first check that fails. The checks come in the order of their
 * numbers, but 16, 17 and 20 right after 6, 18 and 21 right after 8, and 15 and 19 right before
 * 14. Of two presets, words or windows the first is checked completely, then the second.
 */
#ifndef WINNATHEY_H
#define WINNATHEY_H

#include <stddef.h>
#include <stdint.h>

#ifdef __cplusplus
extern "C" {
#endif

/* ---- version */

#define WINNATHEY_VERSION "1.0.0"

/* The same as a number: major * 1,000,000 + minor * 1,000 + patch. */
#define WINNATHEY_VERSION_NUMBER 1000000

/* ---- kinds */

#define WINNATHEY_KIND_A 1
#define WINNATHEY_KIND_B 2
#define WINNATHEY_KIND_D 3

/* ---- sizes: the most that is accepted, and the room that always suffices */

#define WINNATHEY_MAX_LANES 64          /* entries of a window */
#define WINNATHEY_MAX_WORD 4096         /* letters of a word */
#define WINNATHEY_MAX_NORMAL_FORM 4096  /* letters of a normal form, places of a fallback */
#define WINNATHEY_MAX_BOOK 65535        /* bytes of a book */
#define WINNATHEY_MAX_STEPS 8386560     /* steps of a rewriting to its end: L * (L - 1) / 2 */
#define WINNATHEY_MAX_MESSAGE 256       /* bytes of a refusal's message */
#define WINNATHEY_MAX_STACK 16384       /* bytes of stack that a call needs */

#define WINNATHEY_CROSSINGS 3           /* counts that make up a length */
#define WINNATHEY_RULE 3                /* bytes of a rule: family, i, j */
#define WINNATHEY_PRESET_FIELDS 4       /* numbers of a preset */
#define WINNATHEY_LISTED_FIELDS 5       /* numbers of a preset in a list of presets */
#define WINNATHEY_MAX_TABLE_COUNTS 257  /* counts of a delay table */
#define WINNATHEY_MAX_TABLE_LANES 20    /* entries of its window */
#define WINNATHEY_MAX_TABLE_FORM 256    /* letters of its normal form */

/* ---- answers below 0: refusal k is returned as -k */

#define WINNATHEY_REFUSED_BOOK_SIZE 1
#define WINNATHEY_REFUSED_BOOK_COUNT 2
#define WINNATHEY_REFUSED_BOOK_OFFSET 3
#define WINNATHEY_REFUSED_PRESET_NUMBER 4
#define WINNATHEY_REFUSED_KIND 5
#define WINNATHEY_REFUSED_RANK 6
#define WINNATHEY_REFUSED_WORD_LENGTH 7
#define WINNATHEY_REFUSED_LETTER 8
#define WINNATHEY_REFUSED_WINDOW_LENGTH 9
#define WINNATHEY_REFUSED_ENTRY 10
#define WINNATHEY_REFUSED_ODD_NEGATIVES 11
#define WINNATHEY_REFUSED_PLACE 12
#define WINNATHEY_REFUSED_BOOK_FULL 13
#define WINNATHEY_REFUSED_OUTPUT 14
#define WINNATHEY_REFUSED_STEP_LISTS 15
#define WINNATHEY_REFUSED_ALLOWED 16
#define WINNATHEY_REFUSED_LANE_COUNT 17
#define WINNATHEY_REFUSED_FIRST_EDITION_LANES 18
#define WINNATHEY_REFUSED_UNREACHABLE 19
#define WINNATHEY_REFUSED_TABLE_RANK 20
#define WINNATHEY_REFUSED_RETIRED_PRESET 21
#define WINNATHEY_LAST_REFUSAL 21

/* winnathey_rewrite: no rule fits at the place. */
#define WINNATHEY_NONE_FITS (-100)

/* winnathey_fallback: the verdict is no. */
#define WINNATHEY_NO_FALLBACK (-101)

/* winnathey_checked.h alone: an output overlaps an input or another output, or a pointer is NULL
   with a length above 0. The library was not called. */
#define WINNATHEY_OVERLAP (-102)
#define WINNATHEY_NULL (-103)

/* A number of elements or a place, of 64 bits on every target. */
#if SIZE_MAX == UINT64_MAX
typedef size_t winnathey_size;
#else
typedef uint64_t winnathey_size;
#endif

/* ---- the library itself */

/* The version of the linked library, as WINNATHEY_VERSION_NUMBER. Refused: never. Time: 1. */
int64_t winnathey_version(void);

/* The message of a refusal, in ASCII without a 0 at its end. Returns its length; 0 for a number
   that is no refusal. winnathey_refusal_text below ends it with a 0. Refused 14. Time: 1. */
int64_t winnathey_refusal_message(uint32_t refusal, uint8_t *out, winnathey_size out_len);

/* ---- words */

/* The window of a word. Returns the number of its entries. Refused 5 to 8, 14. Time: L + n. */
int64_t winnathey_window_of_word(uint32_t kind, uint32_t rank,
                                 const uint8_t *word, winnathey_size word_len,
                                 int8_t *out, winnathey_size out_len);

/* The normal form of a word: the shortest word with its window, and among those the first in the
   dictionary, where the HIGHER step comes first. Returns its length. Refused 5 to 8, 14.
   Time: L + n * n. */
int64_t winnathey_normal_form_of_word(uint32_t kind, uint32_t rank,
                                      const uint8_t *word, winnathey_size word_len,
                                      uint8_t *out, winnathey_size out_len);

/* The product of two words, the first followed by the second, as a normal form. Returns its
   length. Refused 5 to 8, 14. Time: L + n * n. */
int64_t winnathey_product_of_words(uint32_t kind, uint32_t rank,
                                   const uint8_t *first, winnathey_size first_len,
                                   const uint8_t *second, winnathey_size second_len,
                                   uint8_t *out, winnathey_size out_len);

/* The inverse of a word, as a normal form. Returns its length. Refused 5 to 8, 14.
   Time: L + n * n. */
int64_t winnathey_inverse_of_word(uint32_t kind, uint32_t rank,
                                  const uint8_t *word, winnathey_size word_len,
                                  uint8_t *out, winnathey_size out_len);

/* The length of a word's normal form. Refused 5 to 8. Time: L + n. */
int64_t winnathey_length_of_word(uint32_t kind, uint32_t rank,
                                 const uint8_t *word, winnathey_size word_len);

/* The crossings of a word: the length of its normal form as three counts. To counts go inversions
   (plain pairs), negative_sum_pairs (pairs against a mirrored lane) and negatives (mirrored lanes);
   0 for one that the kind does not count. Returns their total, which is the length. Refused 5 to 8,
   14. Time: L + n. */
int64_t winnathey_crossings_of_word(uint32_t kind, uint32_t rank,
                                    const uint8_t *word, winnathey_size word_len,
                                    uint64_t *counts, winnathey_size counts_len);

/* Whether two presets look alike: as many lanes and the same window, whatever their kinds and
   ranks. Returns 1 for yes, 0 for no. The first preset is checked completely, then the second.
   Refused 5 to 8. Time: L + n. */
int64_t winnathey_same(uint32_t kind1, uint32_t rank1, const uint8_t *word1, winnathey_size len1,
                       uint32_t kind2, uint32_t rank2, const uint8_t *word2, winnathey_size len2);

/* The better of two words with one window: the shorter; of equal lengths the one earlier in the
   dictionary, where the higher step comes first; of equal words the first. Returns 1 for the first,
   2 for the second, 0 if the windows differ or a check fails: winnathey_same tells which, and
   returns the refusal. Refused: never. Time: L + n. */
int64_t winnathey_better(uint32_t kind, uint32_t rank,
                         const uint8_t *first, winnathey_size first_len,
                         const uint8_t *second, winnathey_size second_len);

/* ---- windows */

/* The normal form of a window. Returns its length. Refused 5, 6, 9 to 11, 14. Time: n * n. */
int64_t winnathey_normal_form_of_window(uint32_t kind, uint32_t rank,
                                        const int8_t *window, winnathey_size window_len,
                                        uint8_t *out, winnathey_size out_len);

/* The product of two windows: its entry at i is the first's entry at the second's entry at i.
   Returns the number of its entries. Refused 5, 6, 9 to 11, 14. Time: n. */
int64_t winnathey_product_of_windows(uint32_t kind, uint32_t rank,
                                     const int8_t *first, winnathey_size first_len,
                                     const int8_t *second, winnathey_size second_len,
                                     int8_t *out, winnathey_size out_len);

/* The inverse of a window. Returns the number of its entries. Refused 5, 6, 9 to 11, 14. Time: n.
   */
int64_t winnathey_inverse_of_window(uint32_t kind, uint32_t rank,
                                    const int8_t *window, winnathey_size window_len,
                                    int8_t *out, winnathey_size out_len);

/* The length of a window's normal form. Refused 5, 6, 9 to 11. Time: n. */
int64_t winnathey_length_of_window(uint32_t kind, uint32_t rank,
                                   const int8_t *window, winnathey_size window_len);

/* The crossings of a window, as for a word. Returns their total, which is the length. Refused 5, 6,
   9 to 11, 14. Time: n. */
int64_t winnathey_crossings_of_window(uint32_t kind, uint32_t rank,
                                      const int8_t *window, winnathey_size window_len,
                                      uint64_t *counts, winnathey_size counts_len);

/* ---- all windows of a kind and rank */

/* The delay table, up to rank 19 in kind A and 16 in B and D. To counts goes how many windows have
   the length 0, 1, .. up to the greatest; to window the one window with the greatest length; to
   normal_form its normal form; to lengths three numbers, how many went to counts, to window and to
   normal_form. Returns the greatest length, which is the last of them. Refusal 14 concerns all
   four outputs, and comes before any is written. Refused 5, 6, 20, 14. Time: n * n * n. */
int64_t winnathey_delay_table(uint32_t kind, uint32_t rank,
                              uint64_t *counts, winnathey_size counts_len,
                              int8_t *window, winnathey_size window_len,
                              uint8_t *normal_form, winnathey_size normal_form_len,
                              uint64_t *lengths, winnathey_size lengths_len);

/* ---- one rewrite */

/* One rewrite of a word at a place, which counts from 0. The new word, which is no longer than the
   old, goes to out; the family, i and j of the rule go to the first three bytes of rule. Returns
   the new word's length, or WINNATHEY_NONE_FITS. Refusal 14 concerns both outputs; it comes only if
   a rule fits, and before either is written. Refused 5 to 8, 12, 14. Time: L. */
int64_t winnathey_rewrite(uint32_t kind, uint32_t rank,
                          const uint8_t *word, winnathey_size word_len, winnathey_size place,
                          uint8_t *out, winnathey_size out_len,
                          uint8_t *rule, winnathey_size rule_len);

/* ---- the rewriting to its end */

/* How many steps winnathey_rewrite_to_end takes: each of its lists must have that many places. At
   most word_len * (word_len - 1) / 2. Refused 5 to 8. Time: L * min(L, n * n). */
int64_t winnathey_rewrite_steps(uint32_t kind, uint32_t rank,
                                const uint8_t *word, winnathey_size word_len);

/* Rewrites a word always at the lowest place where a rule fits, until none fits. For each step,
   the rule's family, the place, which counts from 0, and the word's length afterwards go to the
   three lists; the final word, which is the normal form, goes to out, and its length to written,
   which has room for one number. Returns the number of steps. winnathey_rewrite at the places of
   the list replays it. Refusal 15 concerns the three lists, then 14 out and written; both come
   before anything is written. Refused 5 to 8, 15, 14. Time: L * min(L, n * n). */
int64_t winnathey_rewrite_to_end(uint32_t kind, uint32_t rank,
                                 const uint8_t *word, winnathey_size word_len,
                                 uint8_t *families, winnathey_size families_len,
                                 uint16_t *places, winnathey_size places_len,
                                 uint16_t *lengths, winnathey_size lengths_len,
                                 uint8_t *out, winnathey_size out_len,
                                 uint64_t *written, winnathey_size written_len);

/* ---- shortest words */

/* Whether a simpler window can be reached by removing letters from the normal form of the present
   word. If so, the places of letters to keep go to places: they count from 0, rise, and are as
   many as the length of the simpler window, and the letters there have that window. Several lists
   may serve; which of them is written is left open. Returns how many places are kept, or
   WINNATHEY_NO_FALLBACK; refusal 14 comes only if there is a fallback. The present word is checked
   completely, then the simpler one. Refused 5 to 8, 14. Time: L + n * n. */
int64_t winnathey_fallback(uint32_t kind, uint32_t rank,
                           const uint8_t *present, winnathey_size present_len,
                           const uint8_t *simpler, winnathey_size simpler_len,
                           uint16_t *places, winnathey_size places_len);

/* ---- allowed steps */

/* Splits a word by allowed steps: into a first word over allowed steps and a second whose window
   has no shortest word that begins with an allowed step. Both are normal forms, the product of
   their windows is the word's window, their lengths add up to its length, and there is just one
   such pair. To lengths go two numbers, the length of first and that of second. Returns their sum.
   Refusal 14 concerns all three outputs, and comes before anything is written. Refused 5, 6, 16, 7,
   8, 14. Time: L + n * n. */
int64_t winnathey_split(uint32_t kind, uint32_t rank, uint64_t allowed,
                        const uint8_t *word, winnathey_size word_len,
                        uint8_t *first, winnathey_size first_len,
                        uint8_t *second, winnathey_size second_len,
                        uint64_t *lengths, winnathey_size lengths_len);

/* The normal form of the word over the allowed steps that leads from one window to another: of all
   such words a shortest, and of those the first in the dictionary, where the higher step comes
   first. If the windows agree it is empty, whatever is allowed. Returns its length. The window from
   is checked completely, then to. Refused 5, 6, 16, 9 to 11, 19, 14. Time: n * n. */
int64_t winnathey_between(uint32_t kind, uint32_t rank, uint64_t allowed,
                          const int8_t *from, winnathey_size from_len,
                          const int8_t *to, winnathey_size to_len,
                          uint8_t *out, winnathey_size out_len);

/* ---- preset books of the first edition */

/* Checks a book. Returns the number of its presets. Refused 1 to 3. Time: b. */
int64_t winnathey_book_check(const uint8_t *book, winnathey_size book_len);

/* Checks the preset with this number, from 0, and writes its four fields: kind, rank, the offset of
   its word in the book, the number of its letters. Returns 4. Refused 1 to 8, 14. Time: b. */
int64_t winnathey_preset(const uint8_t *book, winnathey_size book_len, winnathey_size number,
                         uint64_t *fields, winnathey_size fields_len);

/* Reads the presets of a book from the number first on, as many as exist and fit. Five numbers for
   each: its own refusal, 5 to 8, or 0; then its kind, its rank, the offset of its word in the book
   and the number of its letters, or four zeros if it is refused. Refusal 4 concerns first; 14 comes
   if there is no room for one preset. Returns how many presets were written. Refused 1 to 4, 14.
   Time: b. */
int64_t winnathey_presets(const uint8_t *book, winnathey_size book_len, winnathey_size first,
                          uint64_t *fields, winnathey_size fields_len);

/* Appends a preset to a book: the whole new book goes to out. Returns its length. Refused 1 to 3, 5
   to 8, 21, 13, 14. Time: b + L. */
int64_t winnathey_append(const uint8_t *book, winnathey_size book_len,
                         uint32_t kind, uint32_t rank,
                         const uint8_t *word, winnathey_size word_len,
                         uint8_t *out, winnathey_size out_len);

/* ---- preset books of the second edition: the same functions, with check 17 of each record and
   the ranks of words and windows. The lane count that is appended follows from kind and rank. */

/* Refused 1 to 3. Time: b. */
int64_t winnathey_second_book_check(const uint8_t *book, winnathey_size book_len);

/* Refused 1 to 6, 17, 7, 8, 14. Time: b. */
int64_t winnathey_second_preset(const uint8_t *book, winnathey_size book_len,
                                winnathey_size number,
                                uint64_t *fields, winnathey_size fields_len);

/* A preset's own refusal is one of 5 to 8 or 17. Refused 1 to 4, 14. Time: b. */
int64_t winnathey_second_presets(const uint8_t *book, winnathey_size book_len,
                                 winnathey_size first,
                                 uint64_t *fields, winnathey_size fields_len);

/* Refused 1 to 3, 5 to 8, 21, 13, 14. Time: b + L. */
int64_t winnathey_second_append(const uint8_t *book, winnathey_size book_len,
                                uint32_t kind, uint32_t rank,
                                const uint8_t *word, winnathey_size word_len,
                                uint8_t *out, winnathey_size out_len);

/* ---- from one edition to the other: the presets and their order stay. The whole new book goes to
   out; a book of no bytes gives no bytes. */

/* Turns a book of the first edition into one of the second. After 1 to 3 of the book come 5 to 8
   of each record, one record after the other, then 13 and 14 of the new book. Returns its length.
   Refused 1 to 3, 5 to 8, 13, 14. Time: b. */
int64_t winnathey_to_second(const uint8_t *book, winnathey_size book_len,
                            uint8_t *out, winnathey_size out_len);

/* Turns a book of the second edition into one of the first. The same checks, and of each record
   also 17 and, after its 8, 18. Returns the new book's length. Refused 1 to 3, 5, 6, 17, 7, 8, 18,
   13, 14. Time: b. */
int64_t winnathey_to_first(const uint8_t *book, winnathey_size book_len,
                           uint8_t *out, winnathey_size out_len);

/* ---- in this header alone */

/* The message of a refusal as a C string: cut to fit, always ended by a 0, and empty for a number
   that is no refusal. It takes the refusal's number, or what a call returned. Returns out, or an
   empty string if out is NULL or out_len is 0; WINNATHEY_MAX_MESSAGE + 1 is always enough.

       char text[WINNATHEY_MAX_MESSAGE + 1];
       int64_t length = winnathey_length_of_word(kind, rank, word, letters);
       if (length < 0)
           fprintf(stderr, "%s\n", winnathey_refusal_text(length, text, sizeof text));
   */
static inline const char *winnathey_refusal_text(int64_t refusal, char *out, winnathey_size out_len)
{
    uint8_t message[WINNATHEY_MAX_MESSAGE];
    uint32_t number = 0;
    winnathey_size length, i;

    if (out == NULL || out_len == 0)
        return "";
    if (refusal > 0 && refusal <= WINNATHEY_LAST_REFUSAL)
        number = (uint32_t)refusal;
    else if (refusal < 0 && refusal >= -WINNATHEY_LAST_REFUSAL)
        number = (uint32_t)-refusal;
    length = (winnathey_size)winnathey_refusal_message(number, message, sizeof message);
    if (length > out_len - 1)
        length = out_len - 1;
    for (i = 0; i < length; i++)
        out[i] = (char)message[i];
    out[length] = 0;
    return out;
}

#ifdef __cplusplus
}
#endif

#endif
