/*
 * The functions of winnathey.h, with a test of their pointers. Include this header in its place
 * while a program is developed. A call with a pointer that is NULL and a length above 0 returns
 * WINNATHEY_NULL; one whose output overlaps an input or another output returns WINNATHEY_OVERLAP.
 * In both cases the library is not called. All other calls do what they always do. The test costs
 * a few comparisons of pointers.
 *
 * The library itself cannot make this test: it is written in a language in which lent memory is
 * always there and never overlaps what is written, and proved under that assumption.
 */
#ifndef WINNATHEY_CHECKED_H
#define WINNATHEY_CHECKED_H

#include "winnathey.h"

#ifdef __cplusplus
extern "C" {
#endif

/* Memory that is lent to a call. */
struct winnathey_lent {
    const void *start;
    uint64_t size; /* in bytes */
    int written;   /* whether it is an output */
};

/* The bytes of so many elements; UINT64_MAX if they are more than that. */
static inline uint64_t winnathey_bytes(uint64_t length, uint64_t element)
{
    return length > UINT64_MAX / element ? UINT64_MAX : length * element;
}

#define WINNATHEY_IN(name) {name, winnathey_bytes(name##_len, sizeof *(name)), 0}
#define WINNATHEY_OUT(name) {name, winnathey_bytes(name##_len, sizeof *(name)), 1}

/* 0, or what is wrong with memory that is lent together. */
static inline int64_t winnathey_wrong(const struct winnathey_lent *lent, int count)
{
    for (int i = 0; i < count; i++)
        if (lent[i].start == NULL && lent[i].size > 0)
            return WINNATHEY_NULL;
    for (int i = 0; i < count; i++)
        for (int j = 0; j < i; j++) {
            uintptr_t a = (uintptr_t)lent[i].start, b = (uintptr_t)lent[j].start;
            if (!lent[i].written && !lent[j].written)
                continue;
            if (lent[i].size == 0 || lent[j].size == 0)
                continue;
            if (a < b ? b - a < lent[i].size : a - b < lent[j].size)
                return WINNATHEY_OVERLAP;
        }
    return 0;
}

#define WINNATHEY_CHECK(count, ...)                              \
    do {                                                         \
        const struct winnathey_lent lent[count] = {__VA_ARGS__}; \
        int64_t wrong = winnathey_wrong(lent, count);            \
        if (wrong != 0)                                          \
            return wrong;                                        \
    } while (0)

static inline int64_t winnathey_checked_refusal_message(uint32_t refusal, uint8_t *out,
                                                         winnathey_size out_len)
{
    WINNATHEY_CHECK(1, WINNATHEY_OUT(out));
    return winnathey_refusal_message(refusal, out, out_len);
}

static inline int64_t winnathey_checked_window_of_word(
    uint32_t kind, uint32_t rank, const uint8_t *word, winnathey_size word_len,
    int8_t *out, winnathey_size out_len)
{
    WINNATHEY_CHECK(2, WINNATHEY_IN(word), WINNATHEY_OUT(out));
    return winnathey_window_of_word(kind, rank, word, word_len, out, out_len);
}

static inline int64_t winnathey_checked_normal_form_of_word(
    uint32_t kind, uint32_t rank, const uint8_t *word, winnathey_size word_len,
    uint8_t *out, winnathey_size out_len)
{
    WINNATHEY_CHECK(2, WINNATHEY_IN(word), WINNATHEY_OUT(out));
    return winnathey_normal_form_of_word(kind, rank, word, word_len, out, out_len);
}

static inline int64_t winnathey_checked_product_of_words(
    uint32_t kind, uint32_t rank, const uint8_t *first, winnathey_size first_len,
    const uint8_t *second, winnathey_size second_len, uint8_t *out, winnathey_size out_len)
{
    WINNATHEY_CHECK(3, WINNATHEY_IN(first), WINNATHEY_IN(second), WINNATHEY_OUT(out));
    return winnathey_product_of_words(kind, rank, first, first_len, second, second_len, out,
                                      out_len);
}

static inline int64_t winnathey_checked_inverse_of_word(
    uint32_t kind, uint32_t rank, const uint8_t *word, winnathey_size word_len,
    uint8_t *out, winnathey_size out_len)
{
    WINNATHEY_CHECK(2, WINNATHEY_IN(word), WINNATHEY_OUT(out));
    return winnathey_inverse_of_word(kind, rank, word, word_len, out, out_len);
}

static inline int64_t winnathey_checked_length_of_word(
    uint32_t kind, uint32_t rank, const uint8_t *word, winnathey_size word_len)
{
    WINNATHEY_CHECK(1, WINNATHEY_IN(word));
    return winnathey_length_of_word(kind, rank, word, word_len);
}

static inline int64_t winnathey_checked_crossings_of_word(
    uint32_t kind, uint32_t rank, const uint8_t *word, winnathey_size word_len,
    uint64_t *counts, winnathey_size counts_len)
{
    WINNATHEY_CHECK(2, WINNATHEY_IN(word), WINNATHEY_OUT(counts));
    return winnathey_crossings_of_word(kind, rank, word, word_len, counts, counts_len);
}

static inline int64_t winnathey_checked_same(
    uint32_t kind1, uint32_t rank1, const uint8_t *word1, winnathey_size len1,
    uint32_t kind2, uint32_t rank2, const uint8_t *word2, winnathey_size len2)
{
    WINNATHEY_CHECK(2, {word1, len1, 0}, {word2, len2, 0});
    return winnathey_same(kind1, rank1, word1, len1, kind2, rank2, word2, len2);
}

static inline int64_t winnathey_checked_better(
    uint32_t kind, uint32_t rank, const uint8_t *first, winnathey_size first_len,
    const uint8_t *second, winnathey_size second_len)
{
    WINNATHEY_CHECK(2, WINNATHEY_IN(first), WINNATHEY_IN(second));
    return winnathey_better(kind, rank, first, first_len, second, second_len);
}

static inline int64_t winnathey_checked_normal_form_of_window(
    uint32_t kind, uint32_t rank, const int8_t *window, winnathey_size window_len,
    uint8_t *out, winnathey_size out_len)
{
    WINNATHEY_CHECK(2, WINNATHEY_IN(window), WINNATHEY_OUT(out));
    return winnathey_normal_form_of_window(kind, rank, window, window_len, out, out_len);
}

static inline int64_t winnathey_checked_product_of_windows(
    uint32_t kind, uint32_t rank, const int8_t *first, winnathey_size first_len,
    const int8_t *second, winnathey_size second_len, int8_t *out, winnathey_size out_len)
{
    WINNATHEY_CHECK(3, WINNATHEY_IN(first), WINNATHEY_IN(second), WINNATHEY_OUT(out));
    return winnathey_product_of_windows(kind, rank, first, first_len, second, second_len, out,
                                        out_len);
}

static inline int64_t winnathey_checked_inverse_of_window(
    uint32_t kind, uint32_t rank, const int8_t *window, winnathey_size window_len,
    int8_t *out, winnathey_size out_len)
{
    WINNATHEY_CHECK(2, WINNATHEY_IN(window), WINNATHEY_OUT(out));
    return winnathey_inverse_of_window(kind, rank, window, window_len, out, out_len);
}

static inline int64_t winnathey_checked_length_of_window(
    uint32_t kind, uint32_t rank, const int8_t *window, winnathey_size window_len)
{
    WINNATHEY_CHECK(1, WINNATHEY_IN(window));
    return winnathey_length_of_window(kind, rank, window, window_len);
}

static inline int64_t winnathey_checked_crossings_of_window(
    uint32_t kind, uint32_t rank, const int8_t *window, winnathey_size window_len,
    uint64_t *counts, winnathey_size counts_len)
{
    WINNATHEY_CHECK(2, WINNATHEY_IN(window), WINNATHEY_OUT(counts));
    return winnathey_crossings_of_window(kind, rank, window, window_len, counts, counts_len);
}

static inline int64_t winnathey_checked_delay_table(
    uint32_t kind, uint32_t rank, uint64_t *counts, winnathey_size counts_len,
    int8_t *window, winnathey_size window_len,
    uint8_t *normal_form, winnathey_size normal_form_len,
    uint64_t *lengths, winnathey_size lengths_len)
{
    WINNATHEY_CHECK(4, WINNATHEY_OUT(counts), WINNATHEY_OUT(window),
                    WINNATHEY_OUT(normal_form), WINNATHEY_OUT(lengths));
    return winnathey_delay_table(kind, rank, counts, counts_len, window, window_len, normal_form,
                                 normal_form_len, lengths, lengths_len);
}

static inline int64_t winnathey_checked_rewrite(
    uint32_t kind, uint32_t rank, const uint8_t *word, winnathey_size word_len,
    winnathey_size place, uint8_t *out, winnathey_size out_len,
    uint8_t *rule, winnathey_size rule_len)
{
    WINNATHEY_CHECK(3, WINNATHEY_IN(word), WINNATHEY_OUT(out), WINNATHEY_OUT(rule));
    return winnathey_rewrite(kind, rank, word, word_len, place, out, out_len, rule, rule_len);
}

static inline int64_t winnathey_checked_rewrite_steps(
    uint32_t kind, uint32_t rank, const uint8_t *word, winnathey_size word_len)
{
    WINNATHEY_CHECK(1, WINNATHEY_IN(word));
    return winnathey_rewrite_steps(kind, rank, word, word_len);
}

static inline int64_t winnathey_checked_rewrite_to_end(
    uint32_t kind, uint32_t rank, const uint8_t *word, winnathey_size word_len,
    uint8_t *families, winnathey_size families_len,
    uint16_t *places, winnathey_size places_len, uint16_t *lengths, winnathey_size lengths_len,
    uint8_t *out, winnathey_size out_len, uint64_t *written, winnathey_size written_len)
{
    WINNATHEY_CHECK(6, WINNATHEY_IN(word), WINNATHEY_OUT(families),
                    WINNATHEY_OUT(places), WINNATHEY_OUT(lengths), WINNATHEY_OUT(out),
                    WINNATHEY_OUT(written));
    return winnathey_rewrite_to_end(kind, rank, word, word_len, families, families_len, places,
                                    places_len, lengths, lengths_len, out, out_len, written,
                                    written_len);
}

static inline int64_t winnathey_checked_fallback(
    uint32_t kind, uint32_t rank, const uint8_t *present, winnathey_size present_len,
    const uint8_t *simpler, winnathey_size simpler_len,
    uint16_t *places, winnathey_size places_len)
{
    WINNATHEY_CHECK(3, WINNATHEY_IN(present), WINNATHEY_IN(simpler),
                    WINNATHEY_OUT(places));
    return winnathey_fallback(kind, rank, present, present_len, simpler, simpler_len, places,
                              places_len);
}

static inline int64_t winnathey_checked_split(
    uint32_t kind, uint32_t rank, uint64_t allowed,
    const uint8_t *word, winnathey_size word_len, uint8_t *first, winnathey_size first_len,
    uint8_t *second, winnathey_size second_len, uint64_t *lengths, winnathey_size lengths_len)
{
    WINNATHEY_CHECK(4, WINNATHEY_IN(word), WINNATHEY_OUT(first), WINNATHEY_OUT(second),
                    WINNATHEY_OUT(lengths));
    return winnathey_split(kind, rank, allowed, word, word_len, first, first_len, second,
                           second_len, lengths, lengths_len);
}

static inline int64_t winnathey_checked_between(
    uint32_t kind, uint32_t rank, uint64_t allowed,
    const int8_t *from, winnathey_size from_len, const int8_t *to, winnathey_size to_len,
    uint8_t *out, winnathey_size out_len)
{
    WINNATHEY_CHECK(3, WINNATHEY_IN(from), WINNATHEY_IN(to), WINNATHEY_OUT(out));
    return winnathey_between(kind, rank, allowed, from, from_len, to, to_len, out, out_len);
}

static inline int64_t winnathey_checked_book_check(const uint8_t *book, winnathey_size book_len)
{
    WINNATHEY_CHECK(1, WINNATHEY_IN(book));
    return winnathey_book_check(book, book_len);
}

static inline int64_t winnathey_checked_preset(
    const uint8_t *book, winnathey_size book_len, winnathey_size number,
    uint64_t *fields, winnathey_size fields_len)
{
    WINNATHEY_CHECK(2, WINNATHEY_IN(book), WINNATHEY_OUT(fields));
    return winnathey_preset(book, book_len, number, fields, fields_len);
}

static inline int64_t winnathey_checked_presets(
    const uint8_t *book, winnathey_size book_len, winnathey_size first,
    uint64_t *fields, winnathey_size fields_len)
{
    WINNATHEY_CHECK(2, WINNATHEY_IN(book), WINNATHEY_OUT(fields));
    return winnathey_presets(book, book_len, first, fields, fields_len);
}

static inline int64_t winnathey_checked_append(
    const uint8_t *book, winnathey_size book_len, uint32_t kind, uint32_t rank,
    const uint8_t *word, winnathey_size word_len, uint8_t *out, winnathey_size out_len)
{
    WINNATHEY_CHECK(3, WINNATHEY_IN(book), WINNATHEY_IN(word), WINNATHEY_OUT(out));
    return winnathey_append(book, book_len, kind, rank, word, word_len, out, out_len);
}

static inline int64_t winnathey_checked_second_book_check(const uint8_t *book,
                                                          winnathey_size book_len)
{
    WINNATHEY_CHECK(1, WINNATHEY_IN(book));
    return winnathey_second_book_check(book, book_len);
}

static inline int64_t winnathey_checked_second_preset(
    const uint8_t *book, winnathey_size book_len, winnathey_size number,
    uint64_t *fields, winnathey_size fields_len)
{
    WINNATHEY_CHECK(2, WINNATHEY_IN(book), WINNATHEY_OUT(fields));
    return winnathey_second_preset(book, book_len, number, fields, fields_len);
}

static inline int64_t winnathey_checked_second_presets(
    const uint8_t *book, winnathey_size book_len, winnathey_size first,
    uint64_t *fields, winnathey_size fields_len)
{
    WINNATHEY_CHECK(2, WINNATHEY_IN(book), WINNATHEY_OUT(fields));
    return winnathey_second_presets(book, book_len, first, fields, fields_len);
}

static inline int64_t winnathey_checked_second_append(
    const uint8_t *book, winnathey_size book_len, uint32_t kind, uint32_t rank,
    const uint8_t *word, winnathey_size word_len, uint8_t *out, winnathey_size out_len)
{
    WINNATHEY_CHECK(3, WINNATHEY_IN(book), WINNATHEY_IN(word), WINNATHEY_OUT(out));
    return winnathey_second_append(book, book_len, kind, rank, word, word_len, out, out_len);
}

static inline int64_t winnathey_checked_to_second(
    const uint8_t *book, winnathey_size book_len, uint8_t *out, winnathey_size out_len)
{
    WINNATHEY_CHECK(2, WINNATHEY_IN(book), WINNATHEY_OUT(out));
    return winnathey_to_second(book, book_len, out, out_len);
}

static inline int64_t winnathey_checked_to_first(
    const uint8_t *book, winnathey_size book_len, uint8_t *out, winnathey_size out_len)
{
    WINNATHEY_CHECK(2, WINNATHEY_IN(book), WINNATHEY_OUT(out));
    return winnathey_to_first(book, book_len, out, out_len);
}

/* From here on a call is a checked one. */
#define winnathey_refusal_message winnathey_checked_refusal_message
#define winnathey_window_of_word winnathey_checked_window_of_word
#define winnathey_normal_form_of_word winnathey_checked_normal_form_of_word
#define winnathey_product_of_words winnathey_checked_product_of_words
#define winnathey_inverse_of_word winnathey_checked_inverse_of_word
#define winnathey_length_of_word winnathey_checked_length_of_word
#define winnathey_crossings_of_word winnathey_checked_crossings_of_word
#define winnathey_same winnathey_checked_same
#define winnathey_better winnathey_checked_better
#define winnathey_normal_form_of_window winnathey_checked_normal_form_of_window
#define winnathey_product_of_windows winnathey_checked_product_of_windows
#define winnathey_inverse_of_window winnathey_checked_inverse_of_window
#define winnathey_length_of_window winnathey_checked_length_of_window
#define winnathey_crossings_of_window winnathey_checked_crossings_of_window
#define winnathey_delay_table winnathey_checked_delay_table
#define winnathey_rewrite winnathey_checked_rewrite
#define winnathey_rewrite_steps winnathey_checked_rewrite_steps
#define winnathey_rewrite_to_end winnathey_checked_rewrite_to_end
#define winnathey_fallback winnathey_checked_fallback
#define winnathey_split winnathey_checked_split
#define winnathey_between winnathey_checked_between
#define winnathey_book_check winnathey_checked_book_check
#define winnathey_preset winnathey_checked_preset
#define winnathey_presets winnathey_checked_presets
#define winnathey_append winnathey_checked_append
#define winnathey_second_book_check winnathey_checked_second_book_check
#define winnathey_second_preset winnathey_checked_second_preset
#define winnathey_second_presets winnathey_checked_second_presets
#define winnathey_second_append winnathey_checked_second_append
#define winnathey_to_second winnathey_checked_to_second
#define winnathey_to_first winnathey_checked_to_first

#undef WINNATHEY_IN
#undef WINNATHEY_OUT
#undef WINNATHEY_CHECK

#ifdef __cplusplus
}
#endif

#endif
