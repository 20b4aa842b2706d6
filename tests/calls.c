/* Every call of winnathey.h, with each refusal among the answers. Each line printed is a call, its answer and what it wrote. Ends with status 1 if a
   refused call wrote anything or a refusal never came. It is C and C++ at once. */
#include <inttypes.h>
#include <stdint.h>
#include <stdio.h>
#include <string.h>

#include "winnathey.h"

#define ROOM 40
#define FILL 0x5a

/* The outputs, filled before each call with what no call below writes. */
static int8_t lanes[ROOM];
static uint8_t bytes[ROOM];
static uint8_t rule[ROOM];
static uint64_t fields[ROOM];
static uint16_t places[ROOM];
static uint16_t sizes[ROOM];
static uint64_t counts[ROOM];

static int failed;
#define LAST WINNATHEY_LAST_REFUSAL

static int seen[LAST + 1]; /* by the refusal's number; none fits is at 0 */
static int seen_no_fallback;

static void fill(void)
{
    memset(lanes, FILL, sizeof lanes);
    memset(bytes, FILL, sizeof bytes);
    memset(rule, FILL, sizeof rule);
    memset(fields, FILL, sizeof fields);
    memset(places, FILL, sizeof places);
    memset(sizes, FILL, sizeof sizes);
    memset(counts, FILL, sizeof counts);
}

/* An entry of an output, by the first letter of the output's name. */
static int64_t entry(char output, int i)
{
    switch (output) {
    case 'l':
        return lanes[i];
    case 'b':
        return bytes[i];
    case 'r':
        return rule[i];
    case 'p':
        return places[i];
    case 's':
        return sizes[i];
    case 'c':
        return (int64_t)counts[i];
    default:
        return (int64_t)fields[i];
    }
}

/* Prints an output up to the last entry that was written, and says how many those are. */
static int show(const char *name)
{
    int written = ROOM;
    while (written > 0 && (entry(*name, written - 1) & 0xff) == FILL)
        written--;
    if (written > 0)
        printf(", %s", name);
    for (int i = 0; i < written; i++)
        printf(" %" PRId64, entry(*name, i));
    return written;
}

static void told(const char *call, int64_t answer)
{
    printf("%s = ", call);
    if (answer == WINNATHEY_NONE_FITS)
        printf("none fits");
    else if (answer == WINNATHEY_NO_FALLBACK)
        printf("no fallback");
    else
        printf("%" PRId64, answer);
    int written = show("lanes") + show("bytes") + show("rule") + show("fields") + show("counts") + show("places")
                  + show("sizes");
    printf("\n");
    if (answer >= 0)
        return;
    if (written > 0) {
        printf("a refused call wrote\n");
        failed = 1;
    }
    if (answer == WINNATHEY_NONE_FITS)
        seen[0] = 1;
    else if (answer == WINNATHEY_NO_FALLBACK)
        seen_no_fallback = 1;
    else if (answer >= -LAST)
        seen[-answer] = 1;
}

/* A message, which is longer than the outputs below. */
static void message(uint32_t refusal)
{
    char text[WINNATHEY_MAX_MESSAGE];
    int64_t length = winnathey_refusal_message(refusal, (uint8_t *)text, sizeof text);
    printf("refusal %" PRIu32 ": %.*s\n", refusal, (int)length, text);
}

#define CALL(call)           \
    do {                     \
        fill();              \
        told(#call, (call)); \
    } while (0)

static const uint8_t w1[] = {1}, w2[] = {2}, w9[] = {9}, w0[] = {0};
static const uint8_t w12[] = {1, 2}, w11[] = {1, 1}, w34[] = {3, 4};
static const uint8_t w133[] = {1, 3, 3}, w12121[] = {1, 2, 1, 2, 1};
static const uint8_t w121[] = {1, 2, 1}, w212[] = {2, 1, 2}, w1212[] = {1, 2, 1, 2};
static const uint8_t d5_word[] = {5, 2, 3, 5, 1, 2};
static const uint8_t too_long[4097] = {0};

static const int8_t straight3[] = {1, 2, 3}, straight4[] = {1, 2, 3, 4};
static const int8_t b2[] = {-1, -2}, a2[] = {2, 3, 1}, least[] = {-128, 2}, odd[] = {-1, 2, 3, 4};
static const int8_t d5[] = {3, -5, 1, 4, -2};

static const uint8_t one_byte[] = {0}, no_presets[] = {0, 0}, bad_count[] = {1, 0}, bad_end[] = {0, 0, 0};
static const uint8_t book[] = {2, 2, 4, 0, 1, 2, 1, 2, 3, 5, 6, 0, 5, 2, 3, 5, 1, 2, 0, 0, 8, 0, 2, 0};
static const uint8_t bad_letter[] = {2, 2, 1, 0, 3, 0, 0, 1, 0};
static const uint8_t second_book[] = {2, 2, 2, 4, 0, 1, 2, 1, 2, 3, 5, 5, 6, 0, 5, 2, 3, 5, 1, 2, 0, 0, 9, 0, 2, 0};
static const uint8_t bad_lanes[] = {1, 2, 2, 0, 0, 0, 0, 1, 0};
static const uint8_t bad_rank[] = {2, 33, 0, 0, 0, 0, 1, 0};
static const uint8_t wide[] = {1, 31, 32, 0, 0, 1, 32, 33, 0, 0, 0, 0, 5, 0, 2, 0};
static const uint8_t retired[] = {1, 1, 1, 0, 1, 0, 0, 1, 0}, second_retired[] = {1, 1, 2, 1, 0, 1, 0, 0, 1, 0};
static uint8_t full[65533]; /* one record of 65,525 letters */
static uint8_t heads[56174]; /* 9,362 records without letters: in the second edition 65,536 bytes */

static void library(void)
{
    CALL(winnathey_version());
    CALL(winnathey_refusal_message(5, bytes, ROOM));
    CALL(winnathey_refusal_message(5, bytes, 39));
    CALL(winnathey_refusal_message(5, bytes, 38));
    CALL(winnathey_refusal_message(5, NULL, 0));
    CALL(winnathey_refusal_message(0, bytes, ROOM));
    CALL(winnathey_refusal_message(0, NULL, 0));
    CALL(winnathey_refusal_message(22, bytes, ROOM));
    CALL(winnathey_refusal_message(261, bytes, ROOM));
    CALL(winnathey_refusal_message(UINT32_MAX, bytes, ROOM));
    for (uint32_t k = 1; k <= WINNATHEY_LAST_REFUSAL; k++)
        message(k);
    if (winnathey_version() != WINNATHEY_VERSION_NUMBER) {
        printf("the header is not the library's: %s\n", WINNATHEY_VERSION);
        failed = 1;
    }
}

static void words(void)
{
    CALL(winnathey_window_of_word(1, 2, w121, 3, lanes, 3));
    CALL(winnathey_window_of_word(2, 2, w1212, 4, lanes, ROOM));
    CALL(winnathey_window_of_word(1, 2, NULL, 0, lanes, ROOM));
    CALL(winnathey_window_of_word(1, 2, w121, 3, lanes, 2));
    CALL(winnathey_window_of_word(1, 2, w121, 3, NULL, 0));
    CALL(winnathey_window_of_word(0, 2, w121, 3, lanes, 3));
    CALL(winnathey_window_of_word(257, 2, w121, 3, lanes, 3));
    CALL(winnathey_window_of_word(1, 258, w121, 3, lanes, 3));
    CALL(winnathey_window_of_word(1, 2, w9, 1, lanes, 3));

    CALL(winnathey_normal_form_of_word(2, 2, w1212, 4, bytes, 4));
    CALL(winnathey_normal_form_of_word(3, 5, d5_word, 6, bytes, ROOM));
    CALL(winnathey_normal_form_of_word(1, 2, w11, 2, NULL, 0));
    CALL(winnathey_normal_form_of_word(1, 2, NULL, 0, NULL, 0));
    CALL(winnathey_normal_form_of_word(2, 2, w1212, 4, bytes, 3));
    CALL(winnathey_normal_form_of_word(4, 2, w1212, 4, bytes, 4));
    CALL(winnathey_normal_form_of_word(2, 65, w1212, 4, bytes, 4));
    CALL(winnathey_normal_form_of_word(UINT32_MAX, UINT32_MAX, w1212, 4, bytes, 4));
    CALL(winnathey_normal_form_of_word(2, 2, too_long, 4097, bytes, 4));

    CALL(winnathey_product_of_words(1, 2, w12, 2, w1, 1, bytes, ROOM));
    CALL(winnathey_product_of_words(1, 2, w1, 1, NULL, 0, bytes, ROOM));
    CALL(winnathey_product_of_words(1, 2, NULL, 0, NULL, 0, NULL, 0));
    CALL(winnathey_product_of_words(1, 2, w1, 1, w2, 1, bytes, 1));
    CALL(winnathey_product_of_words(1, 2, w1, 1, w0, 1, bytes, ROOM));
    CALL(winnathey_product_of_words(65537, 2, w1, 1, w2, 1, bytes, ROOM));

    CALL(winnathey_inverse_of_word(1, 2, w12, 2, bytes, ROOM));
    CALL(winnathey_inverse_of_word(1, 2, NULL, 0, NULL, 0));
    CALL(winnathey_inverse_of_word(1, 2, w12, 2, bytes, 1));
    CALL(winnathey_inverse_of_word(1, 64, w12, 2, bytes, ROOM));

    CALL(winnathey_length_of_word(2, 2, w1212, 4));
    CALL(winnathey_length_of_word(1, 2, NULL, 0));
    CALL(winnathey_length_of_word(257, 259, w12, 2));
    CALL(winnathey_length_of_word(1, 259, w12, 2));
    CALL(winnathey_length_of_word(1, 2, too_long, 4097));

    CALL(winnathey_crossings_of_word(2, 2, w1212, 4, counts, 3));
    CALL(winnathey_crossings_of_word(1, 2, NULL, 0, counts, 3));
    CALL(winnathey_crossings_of_word(1, 259, w12, 2, counts, 3));
    CALL(winnathey_crossings_of_word(1, 2, w9, 1, counts, 3));
    CALL(winnathey_crossings_of_word(2, 2, w1212, 4, counts, ROOM));
    CALL(winnathey_crossings_of_word(2, 2, w1212, 4, counts, 2));
    CALL(winnathey_crossings_of_word(2, 2, w1212, 4, NULL, 0));
    CALL(winnathey_crossings_of_word(1, 2, NULL, 0, NULL, 0));
    CALL(winnathey_crossings_of_word(1, 2, w9, 1, NULL, 0));

    CALL(winnathey_same(1, 2, w121, 3, 1, 2, w212, 3));
    CALL(winnathey_same(1, 2, w1, 1, 1, 2, w2, 1));
    CALL(winnathey_same(2, 4, NULL, 0, 3, 4, NULL, 0));
    CALL(winnathey_same(1, 2, w9, 1, 4, 2, w1, 1));
    CALL(winnathey_same(1, 2, w1, 1, 257, 2, w1, 1));
    CALL(winnathey_same(1, 2, w1, 1, 1, 258, w1, 1));

    CALL(winnathey_better(1, 2, w121, 3, w212, 3));
    CALL(winnathey_better(1, 2, w212, 3, w121, 3));
    CALL(winnathey_better(1, 2, w11, 2, NULL, 0));
    CALL(winnathey_better(1, 2, w1, 1, w2, 1));
    CALL(winnathey_better(257, 2, w1, 1, w1, 1));
    CALL(winnathey_better(1, 258, w1, 1, w1, 1));
}

static void windows(void)
{
    CALL(winnathey_normal_form_of_window(3, 5, d5, 5, bytes, ROOM));
    CALL(winnathey_normal_form_of_window(2, 2, b2, 2, bytes, 4));
    CALL(winnathey_normal_form_of_window(1, 2, straight3, 3, NULL, 0));
    CALL(winnathey_normal_form_of_window(2, 2, b2, 2, bytes, 3));
    CALL(winnathey_normal_form_of_window(258, 2, b2, 2, bytes, 4));
    CALL(winnathey_normal_form_of_window(2, 2, NULL, 0, bytes, 4));

    CALL(winnathey_product_of_windows(1, 2, a2, 3, a2, 3, lanes, ROOM));
    CALL(winnathey_product_of_windows(2, 2, b2, 2, b2, 2, lanes, 2));
    CALL(winnathey_product_of_windows(1, 2, a2, 3, a2, 3, lanes, 2));
    CALL(winnathey_product_of_windows(1, 2, a2, 3, NULL, 0, NULL, 0));
    CALL(winnathey_product_of_windows(3, 4, straight4, 4, odd, 4, lanes, ROOM));
    CALL(winnathey_product_of_windows(1, 258, a2, 3, a2, 3, lanes, ROOM));

    CALL(winnathey_inverse_of_window(1, 2, a2, 3, lanes, 3));
    CALL(winnathey_inverse_of_window(3, 5, d5, 5, lanes, ROOM));
    CALL(winnathey_inverse_of_window(1, 2, a2, 3, NULL, 0));
    CALL(winnathey_inverse_of_window(2, 2, least, 2, lanes, 2));
    CALL(winnathey_inverse_of_window(1, 1, b2, 2, lanes, 2));

    CALL(winnathey_length_of_window(3, 5, d5, 5));
    CALL(winnathey_length_of_window(1, 2, NULL, 0));
    CALL(winnathey_length_of_window(3, 4, odd, 4));
    CALL(winnathey_length_of_window(0, 0, NULL, 0));

    CALL(winnathey_crossings_of_window(3, 5, d5, 5, counts, 3));
    CALL(winnathey_crossings_of_window(1, 2, a2, 3, counts, 3));
    CALL(winnathey_crossings_of_window(3, 4, odd, 4, counts, 3));
    CALL(winnathey_crossings_of_window(258, 2, b2, 2, counts, 3));
    CALL(winnathey_crossings_of_window(3, 5, d5, 5, counts, ROOM));
    CALL(winnathey_crossings_of_window(3, 5, d5, 5, counts, 2));
    CALL(winnathey_crossings_of_window(3, 5, d5, 5, NULL, 0));
    CALL(winnathey_crossings_of_window(1, 2, NULL, 0, NULL, 0));
}

static void tables(void)
{
    CALL(winnathey_delay_table(1, 2, fields, ROOM, lanes, ROOM, bytes, ROOM, counts, 3));
    CALL(winnathey_delay_table(2, 2, fields, 5, lanes, 2, bytes, 4, counts, 3));
    CALL(winnathey_delay_table(3, 5, fields, 21, lanes, 5, bytes, 20, counts, 3));
    CALL(winnathey_delay_table(2, 2, fields, 4, lanes, 2, bytes, 4, counts, 3));
    CALL(winnathey_delay_table(2, 2, fields, 5, lanes, 1, bytes, 4, counts, 3));
    CALL(winnathey_delay_table(2, 2, fields, 5, lanes, 2, bytes, 3, counts, 3));
    CALL(winnathey_delay_table(2, 2, NULL, 0, NULL, 0, NULL, 0, counts, 3));
    CALL(winnathey_delay_table(1, 20, fields, ROOM, lanes, ROOM, bytes, ROOM, counts, 3));
    CALL(winnathey_delay_table(2, 17, NULL, 0, NULL, 0, NULL, 0, counts, 3));
    CALL(winnathey_delay_table(3, 17, fields, ROOM, lanes, ROOM, bytes, ROOM, counts, 3));
    CALL(winnathey_delay_table(1, 64, fields, ROOM, lanes, ROOM, bytes, ROOM, counts, 3));
    CALL(winnathey_delay_table(1, 258, fields, ROOM, lanes, ROOM, bytes, ROOM, counts, 3));
    CALL(winnathey_delay_table(257, 2, fields, ROOM, lanes, ROOM, bytes, ROOM, counts, 3));
    CALL(winnathey_delay_table(2, 2, fields, 5, lanes, 2, bytes, 4, counts, ROOM));
    CALL(winnathey_delay_table(2, 2, fields, 5, lanes, 2, bytes, 4, counts, 2));
    CALL(winnathey_delay_table(2, 2, fields, 5, lanes, 2, bytes, 4, NULL, 0));
    CALL(winnathey_delay_table(2, 2, NULL, 0, NULL, 0, NULL, 0, NULL, 0));
    CALL(winnathey_delay_table(2, 17, fields, ROOM, lanes, ROOM, bytes, ROOM, NULL, 0));
}

static void rewrites(void)
{
    CALL(winnathey_rewrite(3, 4, w34, 2, 0, bytes, 2, rule, 3));
    CALL(winnathey_rewrite(2, 4, w34, 2, 0, bytes, 2, rule, 3));
    CALL(winnathey_rewrite(1, 2, w11, 2, 0, NULL, 0, rule, ROOM));
    CALL(winnathey_rewrite(1, 2, w121, 3, 0, bytes, ROOM, rule, ROOM));
    CALL(winnathey_rewrite(1, 2, w121, 3, 0, bytes, 2, rule, 3));
    CALL(winnathey_rewrite(1, 2, w121, 3, 0, bytes, 3, rule, 2));
    CALL(winnathey_rewrite(1, 2, w121, 3, 0, bytes, 3, NULL, 0));
    CALL(winnathey_rewrite(2, 4, w34, 2, 0, NULL, 0, NULL, 0));
    CALL(winnathey_rewrite(1, 2, w121, 3, 3, bytes, 3, rule, 3));
    CALL(winnathey_rewrite(1, 2, NULL, 0, 0, bytes, 3, rule, 3));
    CALL(winnathey_rewrite(257, 2, w121, 3, 0, bytes, 3, rule, 3));
    CALL(winnathey_rewrite(1, 258, w121, 3, 0, bytes, 3, rule, 3));
}

static void traces(void)
{
    CALL(winnathey_rewrite_steps(1, 3, w133, 3));
    CALL(winnathey_rewrite_steps(2, 2, w12121, 5));
    CALL(winnathey_rewrite_steps(1, 2, NULL, 0));
    CALL(winnathey_rewrite_steps(257, 2, w121, 3));
    CALL(winnathey_rewrite_steps(1, 258, w121, 3));
    CALL(winnathey_rewrite_steps(1, 2, w9, 1));
    CALL(winnathey_rewrite_to_end(1, 3, w133, 3, rule, 3, places, 4, sizes, 5, bytes, 2, counts, 1));
    CALL(winnathey_rewrite_to_end(2, 2, w12121, 5, rule, 2, places, 2, sizes, 2, bytes, 3, counts, 1));
    CALL(winnathey_rewrite_to_end(3, 4, w34, 2, rule, ROOM, places, ROOM, sizes, ROOM, bytes, ROOM, counts, 1));
    CALL(winnathey_rewrite_to_end(1, 2, w11, 2, rule, 1, places, 1, sizes, 1, NULL, 0, counts, 1));
    CALL(winnathey_rewrite_to_end(1, 2, w212, 3, NULL, 0, NULL, 0, NULL, 0, bytes, 3, counts, 1));
    CALL(winnathey_rewrite_to_end(1, 3, w133, 3, rule, 2, places, 3, sizes, 3, bytes, 1, counts, 1));
    CALL(winnathey_rewrite_to_end(1, 3, w133, 3, rule, 3, places, 2, sizes, 3, bytes, 1, counts, 1));
    CALL(winnathey_rewrite_to_end(1, 3, w133, 3, rule, 3, places, 3, sizes, 2, bytes, 0, counts, 1));
    CALL(winnathey_rewrite_to_end(1, 3, w133, 3, rule, 3, places, 3, sizes, 3, bytes, 0, counts, 1));
    CALL(winnathey_rewrite_to_end(1, 2, w212, 3, NULL, 0, NULL, 0, NULL, 0, NULL, 0, counts, 1));
    CALL(winnathey_rewrite_to_end(4, 2, w121, 3, rule, 0, places, 0, sizes, 0, bytes, 0, counts, 1));
    CALL(winnathey_rewrite_to_end(1, 258, w121, 3, rule, 1, places, 1, sizes, 1, bytes, 3, counts, 1));
    CALL(winnathey_rewrite_to_end(1, 2, too_long, 4097, rule, 0, places, 0, sizes, 0, bytes, 0, counts, 1));
    CALL(winnathey_rewrite_to_end(1, 3, w133, 3, rule, 3, places, 3, sizes, 3, bytes, 1, counts, ROOM));
    CALL(winnathey_rewrite_to_end(1, 3, w133, 3, rule, 3, places, 3, sizes, 3, bytes, 1, NULL, 0));
    CALL(winnathey_rewrite_to_end(1, 3, w133, 3, rule, 2, places, 3, sizes, 3, bytes, 1, NULL, 0));
    CALL(winnathey_rewrite_to_end(1, 3, w133, 3, rule, 3, places, 2, sizes, 3, bytes, 1, NULL, 0));
    CALL(winnathey_rewrite_to_end(1, 3, w133, 3, rule, 3, places, 3, sizes, 2, bytes, 1, NULL, 0));
    CALL(winnathey_rewrite_to_end(1, 2, w11, 2, rule, 1, places, 1, sizes, 1, NULL, 0, NULL, 0));
    CALL(winnathey_rewrite_to_end(1, 2, NULL, 0, NULL, 0, NULL, 0, NULL, 0, NULL, 0, NULL, 0));
    CALL(winnathey_rewrite_to_end(1, 2, w9, 1, NULL, 0, NULL, 0, NULL, 0, NULL, 0, NULL, 0));
}

static void shortest(void)
{
    CALL(winnathey_fallback(1, 2, w121, 3, w12, 2, places, 2));
    CALL(winnathey_fallback(1, 2, w121, 3, w212, 3, places, ROOM));
    CALL(winnathey_fallback(2, 2, w1212, 4, w2, 1, places, 1));
    CALL(winnathey_fallback(1, 2, w1, 1, NULL, 0, NULL, 0));
    CALL(winnathey_fallback(1, 2, NULL, 0, w11, 2, NULL, 0));
    CALL(winnathey_fallback(1, 2, w1, 1, w2, 1, places, ROOM));
    CALL(winnathey_fallback(1, 2, w1, 1, w2, 1, NULL, 0));
    CALL(winnathey_fallback(1, 2, w121, 3, w12, 2, places, 1));
    CALL(winnathey_fallback(1, 2, w121, 3, w12, 2, NULL, 0));
    CALL(winnathey_fallback(1, 2, w121, 3, w0, 1, places, ROOM));
    CALL(winnathey_fallback(1, 2, w9, 1, too_long, 4097, places, ROOM));
    CALL(winnathey_fallback(257, 2, w121, 3, w12, 2, places, ROOM));
    CALL(winnathey_fallback(1, 258, w121, 3, w12, 2, places, ROOM));

    CALL(winnathey_between(1, 2, 3, straight3, 3, a2, 3, bytes, 2));
    CALL(winnathey_between(1, 2, 3, a2, 3, straight3, 3, bytes, ROOM));
    CALL(winnathey_between(2, 2, 3, b2, 2, b2, 2, bytes, ROOM));
    CALL(winnathey_between(1, 2, 0, a2, 3, a2, 3, NULL, 0));
    CALL(winnathey_between(1, 2, 1, straight3, 3, a2, 3, bytes, ROOM));
    CALL(winnathey_between(1, 2, 0, straight3, 3, a2, 3, NULL, 0));
    CALL(winnathey_between(1, 2, 3, straight3, 3, a2, 3, bytes, 1));
    CALL(winnathey_between(1, 2, 3, straight3, 3, a2, 3, NULL, 0));
    CALL(winnathey_between(1, 2, 4, NULL, 0, NULL, 0, NULL, 0));
    CALL(winnathey_between(1, 2, UINT64_MAX, straight3, 3, a2, 3, bytes, ROOM));
    CALL(winnathey_between(1, 2, 3, NULL, 0, a2, 3, bytes, ROOM));
    CALL(winnathey_between(1, 2, 3, straight3, 3, b2, 2, bytes, ROOM));
    CALL(winnathey_between(2, 2, 3, least, 2, NULL, 0, bytes, ROOM));
    CALL(winnathey_between(3, 4, 15, straight4, 4, odd, 4, bytes, ROOM));
    CALL(winnathey_between(257, 2, 3, straight3, 3, a2, 3, bytes, ROOM));
    CALL(winnathey_between(1, 258, 3, straight3, 3, a2, 3, bytes, ROOM));
}

static void splits(void)
{
    CALL(winnathey_split(1, 2, 1, w121, 3, bytes, 1, rule, 2, counts, 2));
    CALL(winnathey_split(1, 2, 2, w121, 3, bytes, ROOM, rule, ROOM, counts, 2));
    CALL(winnathey_split(1, 2, 0, w121, 3, NULL, 0, rule, 3, counts, 2));
    CALL(winnathey_split(1, 2, 3, w121, 3, bytes, 3, NULL, 0, counts, 2));
    CALL(winnathey_split(2, 2, 2, w1212, 4, bytes, 1, rule, 3, counts, 2));
    CALL(winnathey_split(3, 5, 0x1b, d5_word, 6, bytes, ROOM, rule, ROOM, counts, 2));
    CALL(winnathey_split(2, 64, UINT64_MAX, w212, 3, bytes, ROOM, rule, ROOM, counts, 2));
    CALL(winnathey_split(1, 2, 3, NULL, 0, NULL, 0, NULL, 0, counts, 2));
    CALL(winnathey_split(1, 2, 4, w9, 1, bytes, ROOM, rule, ROOM, counts, 2));
    CALL(winnathey_split(1, 63, UINT64_C(1) << 63, w1, 1, bytes, ROOM, rule, ROOM, counts, 2));
    CALL(winnathey_split(1, 2, 3, w9, 1, bytes, ROOM, rule, ROOM, counts, 2));
    CALL(winnathey_split(1, 2, 3, too_long, 4097, bytes, ROOM, rule, ROOM, counts, 2));
    CALL(winnathey_split(1, 2, 1, w121, 3, bytes, 0, rule, 2, counts, 2));
    CALL(winnathey_split(1, 2, 1, w121, 3, bytes, 1, rule, 1, counts, 2));
    CALL(winnathey_split(257, 2, 1, w121, 3, bytes, ROOM, rule, ROOM, counts, 2));
    CALL(winnathey_split(1, 258, 1, w121, 3, bytes, ROOM, rule, ROOM, counts, 2));
    CALL(winnathey_split(1, 2, 1, w121, 3, bytes, 1, rule, 2, counts, ROOM));
    CALL(winnathey_split(1, 2, 1, w121, 3, bytes, 1, rule, 2, counts, 1));
    CALL(winnathey_split(1, 2, 1, w121, 3, bytes, 1, rule, 2, NULL, 0));
    CALL(winnathey_split(1, 2, 3, NULL, 0, NULL, 0, NULL, 0, NULL, 0));
    CALL(winnathey_split(1, 2, 4, w9, 1, bytes, ROOM, rule, ROOM, NULL, 0));
}

static void books(void)
{
    CALL(winnathey_book_check(book, sizeof book));
    CALL(winnathey_book_check(no_presets, sizeof no_presets));
    CALL(winnathey_book_check(full, sizeof full));
    CALL(winnathey_book_check(NULL, 0));
    CALL(winnathey_book_check(one_byte, sizeof one_byte));
    CALL(winnathey_book_check(bad_count, sizeof bad_count));
    CALL(winnathey_book_check(bad_end, sizeof bad_end));

    CALL(winnathey_preset(book, sizeof book, 0, fields, 4));
    CALL(winnathey_preset(book, sizeof book, 1, fields, ROOM));
    CALL(winnathey_preset(book, sizeof book, 2, fields, 4));
    CALL(winnathey_preset(book, sizeof book, SIZE_MAX, fields, 4));
    CALL(winnathey_preset(book, sizeof book, 0, fields, 3));
    CALL(winnathey_preset(book, sizeof book, 0, NULL, 0));
    CALL(winnathey_preset(NULL, 0, 0, fields, 4));
    CALL(winnathey_preset(one_byte, sizeof one_byte, 0, fields, 4));
    CALL(winnathey_preset(bad_letter, sizeof bad_letter, 0, fields, 4));
    CALL(winnathey_preset(full, sizeof full, 0, fields, 4));
    CALL(winnathey_preset(retired, sizeof retired, 0, fields, 4));

    CALL(winnathey_presets(book, sizeof book, 0, fields, ROOM));
    CALL(winnathey_presets(book, sizeof book, 0, fields, 9));
    CALL(winnathey_presets(book, sizeof book, 1, fields, 5));
    CALL(winnathey_presets(book, sizeof book, 2, fields, 5));
    CALL(winnathey_presets(book, sizeof book, 0, fields, 4));
    CALL(winnathey_presets(book, sizeof book, 0, NULL, 0));
    CALL(winnathey_presets(no_presets, sizeof no_presets, 0, fields, 5));
    CALL(winnathey_presets(NULL, 0, 0, fields, 5));
    CALL(winnathey_presets(NULL, 0, 0, NULL, 0));
    CALL(winnathey_presets(one_byte, sizeof one_byte, 0, fields, 5));
    CALL(winnathey_presets(bad_count, sizeof bad_count, 0, fields, 5));
    CALL(winnathey_presets(bad_end, sizeof bad_end, 0, fields, 5));
    CALL(winnathey_presets(bad_letter, sizeof bad_letter, 0, fields, 5));
    CALL(winnathey_presets(full, sizeof full, 0, fields, 10));

    CALL(winnathey_append(no_presets, sizeof no_presets, 2, 2, w1212, 4, bytes, 12));
    CALL(winnathey_append(no_presets, sizeof no_presets, 1, 2, NULL, 0, bytes, ROOM));
    CALL(winnathey_append(book, sizeof book, 1, 2, w1, 1, bytes, ROOM));
    CALL(winnathey_append(book, sizeof book, 1, 2, w1, 1, bytes, 30));
    CALL(winnathey_append(book, sizeof book, 1, 2, w1, 1, NULL, 0));
    CALL(winnathey_append(retired, sizeof retired, 1, 2, w1, 1, bytes, ROOM));
    CALL(winnathey_append(NULL, 0, 2, 2, w1212, 4, bytes, 12));
    CALL(winnathey_append(NULL, 0, 2, 2, w1212, 4, bytes, 11));
    CALL(winnathey_append(NULL, 0, 2, 33, NULL, 0, bytes, ROOM));
    CALL(winnathey_append(one_byte, sizeof one_byte, 2, 2, w1212, 4, bytes, ROOM));
    CALL(winnathey_append(book, sizeof book, 257, 1, w1, 1, bytes, ROOM));
    CALL(winnathey_append(book, sizeof book, 1, 257, w1, 1, bytes, ROOM));
    CALL(winnathey_append(book, sizeof book, 2, 33, w1, 1, bytes, ROOM));
    CALL(winnathey_append(full, sizeof full, 1, 2, NULL, 0, bytes, ROOM));
    CALL(winnathey_append(book, sizeof book, 1, 1, w1, 1, bytes, ROOM));
    CALL(winnathey_append(NULL, 0, 1, 1, NULL, 0, NULL, 0));
    CALL(winnathey_append(book, sizeof book, 1, 1, w2, 1, bytes, ROOM));
    CALL(winnathey_append(full, sizeof full, 1, 1, NULL, 0, bytes, ROOM));
}

static void second_books(void)
{
    CALL(winnathey_second_book_check(second_book, sizeof second_book));
    CALL(winnathey_second_book_check(no_presets, sizeof no_presets));
    CALL(winnathey_second_book_check(book, sizeof book));
    CALL(winnathey_second_book_check(NULL, 0));
    CALL(winnathey_second_book_check(one_byte, sizeof one_byte));

    CALL(winnathey_second_preset(second_book, sizeof second_book, 0, fields, 4));
    CALL(winnathey_second_preset(second_book, sizeof second_book, 1, fields, ROOM));
    CALL(winnathey_second_preset(second_book, sizeof second_book, 2, fields, 4));
    CALL(winnathey_second_preset(second_book, sizeof second_book, 0, fields, 3));
    CALL(winnathey_second_preset(bad_lanes, sizeof bad_lanes, 0, fields, 4));
    CALL(winnathey_second_preset(NULL, 0, 0, fields, 4));

    CALL(winnathey_second_presets(second_book, sizeof second_book, 0, fields, ROOM));
    CALL(winnathey_second_presets(second_book, sizeof second_book, 0, fields, 4));
    CALL(winnathey_second_presets(bad_lanes, sizeof bad_lanes, 0, fields, 5));
    CALL(winnathey_second_presets(NULL, 0, 0, fields, 5));

    CALL(winnathey_second_append(no_presets, sizeof no_presets, 2, 2, w1212, 4, bytes, 13));
    CALL(winnathey_second_append(no_presets, sizeof no_presets, 1, 63, NULL, 0, bytes, ROOM));
    CALL(winnathey_second_append(NULL, 0, 2, 2, w1212, 4, bytes, 13));
    CALL(winnathey_second_append(one_byte, sizeof one_byte, 2, 2, w1212, 4, bytes, 13));
    CALL(winnathey_second_append(second_book, sizeof second_book, 2, 33, w1, 1, bytes, ROOM));
    CALL(winnathey_second_append(second_book, sizeof second_book, 1, 64, w1, 1, bytes, ROOM));
    CALL(winnathey_second_append(second_book, sizeof second_book, 1, 2, w1, 1, bytes, 33));
    CALL(winnathey_second_append(second_book, sizeof second_book, 1, 1, w1, 1, bytes, ROOM));
}

static void editions(void)
{
    CALL(winnathey_to_second(book, sizeof book, bytes, 26));
    CALL(winnathey_to_second(book, sizeof book, bytes, ROOM));
    CALL(winnathey_to_second(no_presets, sizeof no_presets, bytes, ROOM));
    CALL(winnathey_to_second(retired, sizeof retired, bytes, ROOM));
    CALL(winnathey_to_second(book, sizeof book, bytes, 25));
    CALL(winnathey_to_second(book, sizeof book, NULL, 0));
    CALL(winnathey_to_second(NULL, 0, bytes, ROOM));
    CALL(winnathey_to_second(NULL, 0, NULL, 0));
    CALL(winnathey_to_second(one_byte, sizeof one_byte, bytes, ROOM));
    CALL(winnathey_to_second(bad_count, sizeof bad_count, bytes, ROOM));
    CALL(winnathey_to_second(second_book, sizeof second_book, bytes, ROOM));
    CALL(winnathey_to_second(bad_rank, sizeof bad_rank, bytes, ROOM));
    CALL(winnathey_to_second(full, sizeof full, bytes, ROOM));
    CALL(winnathey_to_second(bad_letter, sizeof bad_letter, bytes, ROOM));
    CALL(winnathey_to_second(heads, sizeof heads, bytes, ROOM));

    CALL(winnathey_to_first(second_book, sizeof second_book, bytes, 24));
    CALL(winnathey_to_first(second_book, sizeof second_book, bytes, ROOM));
    CALL(winnathey_to_first(no_presets, sizeof no_presets, bytes, ROOM));
    CALL(winnathey_to_first(second_retired, sizeof second_retired, bytes, ROOM));
    CALL(winnathey_to_first(wide, sizeof wide, bytes, ROOM));
    CALL(winnathey_to_first(second_book, sizeof second_book, bytes, 23));
    CALL(winnathey_to_first(NULL, 0, bytes, ROOM));
    CALL(winnathey_to_first(NULL, 0, NULL, 0));
    CALL(winnathey_to_first(one_byte, sizeof one_byte, bytes, ROOM));
    CALL(winnathey_to_first(bad_end, sizeof bad_end, bytes, ROOM));
    CALL(winnathey_to_first(book, sizeof book, bytes, ROOM));
    CALL(winnathey_to_first(bad_lanes, sizeof bad_lanes, bytes, ROOM));
}

int main(void)
{
    /* Kind 1, rank 1, 65,525 = 0xfff5 letters, then the offset 0 and the count 1. */
    full[0] = full[1] = full[65531] = 1;
    full[2] = 0xf5;
    full[3] = 0xff;
    /* Kind 2, rank 2, no letters; then the offsets and the count. */
    for (size_t k = 0; k < 9362; k++) {
        uint8_t *offset = heads + 4 * 9362 + 2 * k;
        heads[4 * k] = heads[4 * k + 1] = 2;
        offset[0] = (uint8_t)(4 * k & 0xff);
        offset[1] = (uint8_t)(4 * k >> 8);
    }
    heads[sizeof heads - 2] = 9362 & 0xff;
    heads[sizeof heads - 1] = 9362 >> 8;

    library();
    words();
    windows();
    tables();
    rewrites();
    traces();
    shortest();
    splits();
    books();
    second_books();
    editions();

    for (int k = 0; k <= LAST; k++)
        if (!seen[k]) {
            printf("never: %s %d\n", k == 0 ? "none fits," : "refusal", k);
            failed = 1;
        }
    if (!seen_no_fallback) {
        printf("never: no fallback\n");
        failed = 1;
    }
    return failed;
}
