/* The functions of winnathey_checked.h: each with every pair of memory that may not overlap, from each side and by
   one element, with memory that just touches, and with each pointer NULL. Ends with status 1 and names the line if an
   overlap or a NULL is not found, if something is called nevertheless, or if one is found where none is. */
#include <inttypes.h>
#include <stdio.h>
#include <string.h>

#include "winnathey_checked.h"

static int failed;

static void expect(int line, int right, int64_t answer)
{
    if (!right) {
        printf("line %d: %" PRId64 "\n", line, answer);
        failed = 1;
    }
}

static void expect_apart(int line, int64_t answer)
{
    expect(line, answer != WINNATHEY_OVERLAP && answer != WINNATHEY_NULL, answer);
}

static void expect_only(int line, int64_t wanted, int64_t answer)
{
    expect(line, answer == wanted, answer);
}

#define OVERLAPS(call) expect_only(__LINE__, WINNATHEY_OVERLAP, (call))
#define IS_NULL(call) expect_only(__LINE__, WINNATHEY_NULL, (call))
#define APART(call) expect_apart(__LINE__, (call))

/* So many elements of 8 bytes that their number of bytes is 2^64, which 64 bits take for 0; and a few more. */
#define HUGE (UINT64_C(1) << 61)

/* All of it is lent in parts, as bytes, lanes and numbers. */
static union {
    uint8_t b[4096];
    int8_t l[4096];
    uint16_t s[2048];
    uint64_t n[512];
} m;

int main(void)
{
    memset(&m, 1, sizeof m);
    uint8_t *b = m.b;
    int8_t *l = m.l;
    uint16_t *s = m.s;
    uint64_t *n = m.n;
    uint8_t before[sizeof m];
    memcpy(before, &m, sizeof m);

    /* An output at its input, around it, inside it, and by one element at either end. */
    OVERLAPS(winnathey_normal_form_of_word(1, 2, b, 8, b, 8));
    OVERLAPS(winnathey_normal_form_of_word(1, 2, b + 8, 8, b, 64));
    OVERLAPS(winnathey_normal_form_of_word(1, 2, b, 64, b + 8, 8));
    OVERLAPS(winnathey_normal_form_of_word(1, 2, b, 8, b + 7, 8));
    OVERLAPS(winnathey_normal_form_of_word(1, 2, b + 7, 8, b, 8));
    OVERLAPS(winnathey_window_of_word(1, 2, b, 8, l + 7, 8));
    OVERLAPS(winnathey_inverse_of_word(1, 2, b, 8, b + 7, 8));
    OVERLAPS(winnathey_normal_form_of_window(1, 2, l, 3, b + 2, 8));
    OVERLAPS(winnathey_inverse_of_window(1, 2, l, 3, l + 2, 8));
    OVERLAPS(winnathey_crossings_of_word(1, 2, b + 16, 8, n, 3));
    OVERLAPS(winnathey_crossings_of_window(1, 2, l + 23, 3, n, 3));
    OVERLAPS(winnathey_preset(b + 31, 8, 0, n, 4));
    OVERLAPS(winnathey_presets(b + 39, 8, 0, n, 5));
    OVERLAPS(winnathey_second_preset(b + 31, 8, 0, n, 4));
    OVERLAPS(winnathey_second_presets(b + 39, 8, 0, n, 5));
    OVERLAPS(winnathey_to_second(b, 8, b + 7, 64));
    OVERLAPS(winnathey_to_first(b, 8, b + 7, 64));

    /* An output at the first and at the second of two inputs. */
    OVERLAPS(winnathey_product_of_words(1, 2, b, 8, b + 64, 8, b + 7, 8));
    OVERLAPS(winnathey_product_of_words(1, 2, b, 8, b + 64, 8, b + 71, 8));
    OVERLAPS(winnathey_product_of_windows(1, 2, l, 3, l + 64, 3, l + 2, 3));
    OVERLAPS(winnathey_product_of_windows(1, 2, l, 3, l + 64, 3, l + 66, 3));
    OVERLAPS(winnathey_fallback(1, 2, b, 8, b + 64, 8, s + 3, 8));
    OVERLAPS(winnathey_fallback(1, 2, b, 8, b + 64, 8, s + 35, 8));
    OVERLAPS(winnathey_between(1, 2, 3, l, 3, l + 64, 3, b + 2, 8));
    OVERLAPS(winnathey_between(1, 2, 3, l, 3, l + 64, 3, b + 66, 8));
    OVERLAPS(winnathey_append(b, 8, 1, 2, b + 64, 8, b + 7, 8));
    OVERLAPS(winnathey_append(b, 8, 1, 2, b + 64, 8, b + 71, 8));
    OVERLAPS(winnathey_second_append(b, 8, 1, 2, b + 64, 8, b + 7, 8));
    OVERLAPS(winnathey_second_append(b, 8, 1, 2, b + 64, 8, b + 71, 8));

    /* Each output at the input, and each pair of outputs. */
    OVERLAPS(winnathey_rewrite(1, 2, b, 8, 0, b + 7, 8, b + 64, 3));
    OVERLAPS(winnathey_rewrite(1, 2, b, 8, 0, b + 64, 8, b + 7, 3));
    OVERLAPS(winnathey_rewrite(1, 2, b, 8, 0, b + 64, 8, b + 71, 3));
    OVERLAPS(winnathey_split(1, 2, 1, b, 8, b + 7, 8, b + 64, 8, n + 32, 2));
    OVERLAPS(winnathey_split(1, 2, 1, b, 8, b + 64, 8, b + 7, 8, n + 32, 2));
    OVERLAPS(winnathey_split(1, 2, 1, b, 8, b + 64, 8, b + 128, 8, n, 2));
    OVERLAPS(winnathey_split(1, 2, 1, b, 8, b + 64, 8, b + 71, 8, n + 32, 2));
    OVERLAPS(winnathey_split(1, 2, 1, b, 8, b + 64, 8, b + 128, 8, n + 8, 2));
    OVERLAPS(winnathey_split(1, 2, 1, b, 8, b + 64, 8, b + 128, 8, n + 16, 2));
    OVERLAPS(winnathey_delay_table(1, 2, n, 8, l + 63, 8, b + 128, 8, n + 32, 3));
    OVERLAPS(winnathey_delay_table(1, 2, n, 8, l + 128, 8, b + 63, 8, n + 32, 3));
    OVERLAPS(winnathey_delay_table(1, 2, n, 8, l + 128, 8, b + 256, 8, n + 7, 3));
    OVERLAPS(winnathey_delay_table(1, 2, n, 8, l + 128, 8, b + 135, 8, n + 64, 3));
    OVERLAPS(winnathey_delay_table(1, 2, n, 8, l + 128, 8, b + 256, 8, n + 16, 3));
    OVERLAPS(winnathey_delay_table(1, 2, n, 8, l + 128, 8, b + 256, 8, n + 32, 3));

    /* Of the six of a rewriting, each pair. */
    for (int i = 0; i < 6; i++)
        for (int j = 0; j < i; j++) {
            uint8_t *at[6];
            for (int k = 0; k < 6; k++)
                at[k] = b + 128 * (k == i ? j : k);
            OVERLAPS(winnathey_rewrite_to_end(1, 2, at[0], 8, at[1], 8, (uint16_t *)(void *)at[2], 8,
                                              (uint16_t *)(void *)at[3], 8, at[4], 8, (uint64_t *)(void *)at[5], 1));
        }

    /* Lengths whose bytes are more than 64 bits hold. */
    OVERLAPS(winnathey_crossings_of_word(1, 2, b + 64, 8, n, HUGE));
    OVERLAPS(winnathey_crossings_of_word(1, 2, b + 64, 8, n, HUGE + 1));
    OVERLAPS(winnathey_crossings_of_window(1, 2, l + 64, 3, n, UINT64_MAX));
    OVERLAPS(winnathey_fallback(1, 2, b + 64, 8, b + 128, 8, s, UINT64_C(1) << 63));
    OVERLAPS(winnathey_presets(b + 64, 8, 0, n, HUGE));
    IS_NULL(winnathey_crossings_of_word(1, 2, b, 8, NULL, HUGE));

    /* NULL with a length above 0, for each pointer of each function. */
    IS_NULL(winnathey_refusal_message(1, NULL, 8));
    IS_NULL(winnathey_window_of_word(1, 2, NULL, 8, l, 8));
    IS_NULL(winnathey_window_of_word(1, 2, b, 8, NULL, 8));
    IS_NULL(winnathey_normal_form_of_word(1, 2, NULL, 8, b, 8));
    IS_NULL(winnathey_normal_form_of_word(1, 2, b, 8, NULL, 8));
    IS_NULL(winnathey_product_of_words(1, 2, NULL, 8, b, 8, b + 64, 8));
    IS_NULL(winnathey_product_of_words(1, 2, b, 8, NULL, 8, b + 64, 8));
    IS_NULL(winnathey_product_of_words(1, 2, b, 8, b, 8, NULL, 8));
    IS_NULL(winnathey_inverse_of_word(1, 2, NULL, 8, b, 8));
    IS_NULL(winnathey_inverse_of_word(1, 2, b, 8, NULL, 8));
    IS_NULL(winnathey_length_of_word(1, 2, NULL, 1));
    IS_NULL(winnathey_crossings_of_word(1, 2, NULL, 8, n, 3));
    IS_NULL(winnathey_crossings_of_word(1, 2, b, 8, NULL, 3));
    IS_NULL(winnathey_same(1, 2, NULL, 8, 1, 2, b, 8));
    IS_NULL(winnathey_same(1, 2, b, 8, 1, 2, NULL, 8));
    IS_NULL(winnathey_better(1, 2, NULL, 8, b, 8));
    IS_NULL(winnathey_better(1, 2, b, 8, NULL, 8));
    IS_NULL(winnathey_normal_form_of_window(1, 2, NULL, 3, b, 8));
    IS_NULL(winnathey_normal_form_of_window(1, 2, l, 3, NULL, 8));
    IS_NULL(winnathey_product_of_windows(1, 2, NULL, 3, l, 3, l + 64, 3));
    IS_NULL(winnathey_product_of_windows(1, 2, l, 3, NULL, 3, l + 64, 3));
    IS_NULL(winnathey_product_of_windows(1, 2, l, 3, l, 3, NULL, 3));
    IS_NULL(winnathey_inverse_of_window(1, 2, NULL, 3, l, 8));
    IS_NULL(winnathey_inverse_of_window(1, 2, l, 3, NULL, 8));
    IS_NULL(winnathey_length_of_window(1, 2, NULL, 3));
    IS_NULL(winnathey_crossings_of_window(1, 2, NULL, 3, n, 3));
    IS_NULL(winnathey_crossings_of_window(1, 2, l, 3, NULL, 3));
    IS_NULL(winnathey_delay_table(1, 2, NULL, 8, l + 128, 8, b + 256, 8, n + 64, 3));
    IS_NULL(winnathey_delay_table(1, 2, n, 8, NULL, 8, b + 256, 8, n + 64, 3));
    IS_NULL(winnathey_delay_table(1, 2, n, 8, l + 128, 8, NULL, 8, n + 64, 3));
    IS_NULL(winnathey_delay_table(1, 2, n, 8, l + 128, 8, b + 256, 8, NULL, 3));
    IS_NULL(winnathey_rewrite(1, 2, NULL, 8, 0, b + 64, 8, b + 128, 3));
    IS_NULL(winnathey_rewrite(1, 2, b, 8, 0, NULL, 8, b + 128, 3));
    IS_NULL(winnathey_rewrite(1, 2, b, 8, 0, b + 64, 8, NULL, 3));
    IS_NULL(winnathey_rewrite_steps(1, 2, NULL, 8));
    IS_NULL(winnathey_rewrite_to_end(1, 2, NULL, 8, b + 8, 8, s + 8, 8, s + 16, 8, b + 64, 8, n + 16, 1));
    IS_NULL(winnathey_rewrite_to_end(1, 2, b, 8, NULL, 8, s + 8, 8, s + 16, 8, b + 64, 8, n + 16, 1));
    IS_NULL(winnathey_rewrite_to_end(1, 2, b, 8, b + 8, 8, NULL, 8, s + 16, 8, b + 64, 8, n + 16, 1));
    IS_NULL(winnathey_rewrite_to_end(1, 2, b, 8, b + 8, 8, s + 8, 8, NULL, 8, b + 64, 8, n + 16, 1));
    IS_NULL(winnathey_rewrite_to_end(1, 2, b, 8, b + 8, 8, s + 8, 8, s + 16, 8, NULL, 8, n + 16, 1));
    IS_NULL(winnathey_rewrite_to_end(1, 2, b, 8, b + 8, 8, s + 8, 8, s + 16, 8, b + 64, 8, NULL, 1));
    IS_NULL(winnathey_fallback(1, 2, NULL, 8, b, 8, s + 32, 8));
    IS_NULL(winnathey_fallback(1, 2, b, 8, NULL, 8, s + 32, 8));
    IS_NULL(winnathey_fallback(1, 2, b, 8, b, 8, NULL, 8));
    IS_NULL(winnathey_split(1, 2, 1, NULL, 8, b + 64, 8, b + 128, 8, n + 32, 2));
    IS_NULL(winnathey_split(1, 2, 1, b, 8, NULL, 8, b + 128, 8, n + 32, 2));
    IS_NULL(winnathey_split(1, 2, 1, b, 8, b + 64, 8, NULL, 8, n + 32, 2));
    IS_NULL(winnathey_split(1, 2, 1, b, 8, b + 64, 8, b + 128, 8, NULL, 2));
    IS_NULL(winnathey_between(1, 2, 3, NULL, 3, l, 3, b + 64, 8));
    IS_NULL(winnathey_between(1, 2, 3, l, 3, NULL, 3, b + 64, 8));
    IS_NULL(winnathey_between(1, 2, 3, l, 3, l, 3, NULL, 8));
    IS_NULL(winnathey_book_check(NULL, 2));
    IS_NULL(winnathey_preset(NULL, 8, 0, n, 4));
    IS_NULL(winnathey_preset(b + 64, 8, 0, NULL, 4));
    IS_NULL(winnathey_presets(NULL, 8, 0, n, 5));
    IS_NULL(winnathey_presets(b + 64, 8, 0, NULL, 5));
    IS_NULL(winnathey_append(NULL, 8, 1, 2, b, 8, b + 64, 64));
    IS_NULL(winnathey_append(b, 8, 1, 2, NULL, 8, b + 64, 64));
    IS_NULL(winnathey_append(b, 8, 1, 2, b, 8, NULL, 64));
    IS_NULL(winnathey_second_book_check(NULL, 2));
    IS_NULL(winnathey_second_preset(NULL, 8, 0, n, 4));
    IS_NULL(winnathey_second_preset(b + 64, 8, 0, NULL, 4));
    IS_NULL(winnathey_second_presets(NULL, 8, 0, n, 5));
    IS_NULL(winnathey_second_presets(b + 64, 8, 0, NULL, 5));
    IS_NULL(winnathey_second_append(NULL, 8, 1, 2, b, 8, b + 64, 64));
    IS_NULL(winnathey_second_append(b, 8, 1, 2, NULL, 8, b + 64, 64));
    IS_NULL(winnathey_second_append(b, 8, 1, 2, b, 8, NULL, 64));
    IS_NULL(winnathey_to_second(NULL, 8, b + 64, 64));
    IS_NULL(winnathey_to_second(b, 8, NULL, 64));
    IS_NULL(winnathey_to_first(NULL, 8, b + 64, 64));
    IS_NULL(winnathey_to_first(b, 8, NULL, 64));

    if (memcmp(before, &m, sizeof m) != 0) {
        printf("an overlapping call wrote\n");
        failed = 1;
    }

    /* Memory that touches, inputs that are the same, and nothing lent. */
    APART(winnathey_normal_form_of_word(1, 2, b, 8, b + 8, 8));
    APART(winnathey_normal_form_of_word(1, 2, b + 8, 8, b, 8));
    APART(winnathey_normal_form_of_word(1, 2, b, 0, b, 8));
    APART(winnathey_normal_form_of_word(1, 2, b + 4, 0, b, 8));
    APART(winnathey_normal_form_of_word(1, 2, b, 8, b, 0));
    APART(winnathey_normal_form_of_word(1, 2, NULL, 0, NULL, 0));
    APART(winnathey_product_of_words(1, 2, b, 8, b, 8, b + 8, 8));
    APART(winnathey_product_of_words(1, 2, b, 8, b + 4, 8, b + 12, 8));
    APART(winnathey_crossings_of_word(1, 2, b + 24, 8, n, 3));
    APART(winnathey_fallback(1, 2, b, 8, b, 8, s + 4, 8));
    APART(winnathey_rewrite(1, 2, b, 8, 0, b + 8, 8, b + 16, 3));
    APART(winnathey_length_of_word(1, 2, NULL, 0));
    APART(winnathey_same(1, 2, NULL, 0, 1, 2, b, 8));
    APART(winnathey_book_check(NULL, 0));
    APART(winnathey_append(NULL, 0, 1, 2, NULL, 0, b, 64));
    APART(winnathey_refusal_message(0, NULL, 0));
    printf("%s\n", failed ? "failed" : "overlap and NULL: found where they are, and nowhere else");
    return failed;
}
