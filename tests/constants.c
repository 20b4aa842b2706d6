/* Every constant of winnathey.h, by what the library does: each refusal comes under its name, each size is enough and one less is not. Prints what is
   wrong; the status is 1 if anything is. It is C and C++ at once. */
#include <inttypes.h>
#include <stdint.h>
#include <stdio.h>
#include <string.h>

#include "winnathey.h"

#define A WINNATHEY_KIND_A
#define B WINNATHEY_KIND_B
#define D WINNATHEY_KIND_D

static int failed;

static void is(const char *what, int64_t answer, int64_t wanted)
{
    if (answer == wanted)
        return;
    printf("%s is %" PRId64 " and not %" PRId64 "\n", what, answer, wanted);
    failed = 1;
}

#define IS(call, wanted) is(#call, call, wanted)

static const uint8_t ones[WINNATHEY_MAX_WORD + 1] = {1, 1};
static const uint8_t ascending[] = {1, 2}, above[] = {3}, two[] = {2}, four[] = {4};
static const int8_t same3[] = {1, 2, 3}, other3[] = {1, 3, 2}, twice[] = {1, 1}, odd[] = {-1, 2, 3, 4};
static const uint8_t nothing[] = {0, 0, 0}, one[] = {1, 0}, preset[] = {2, 2, 0, 0, 0, 0, 1, 0};
static const uint8_t lanes2[] = {1, 2, 2, 0, 0, 0, 0, 1, 0}, lanes33[] = {2, 33, 33, 0, 0, 0, 0, 1, 0};

static int8_t window[WINNATHEY_MAX_LANES];
static uint8_t form[WINNATHEY_MAX_NORMAL_FORM], book[WINNATHEY_MAX_BOOK + 1], out[WINNATHEY_MAX_BOOK], rule[WINNATHEY_RULE];
static uint16_t places[WINNATHEY_MAX_NORMAL_FORM];
static uint64_t numbers[WINNATHEY_LISTED_FIELDS], counts[WINNATHEY_MAX_TABLE_COUNTS], lengths[3];

/* A book of this length: one record, whose letters are none. */
static void fill_book(uint32_t length)
{
    memset(book, 0, sizeof book);
    book[0] = A;
    book[1] = 2;
    book[2] = (uint8_t)((length - 8) & 0xff);
    book[3] = (uint8_t)((length - 8) >> 8);
    book[length - 2] = 1;
}

static void kinds(void)
{
    IS(winnathey_window_of_word(A, 4, NULL, 0, window, sizeof window), 5);
    IS(winnathey_window_of_word(B, 2, two, 1, window, sizeof window), 2);
    IS(window[1], -2);
    IS(winnathey_window_of_word(D, 4, four, 1, window, sizeof window), 4);
    IS(window[2], -4);
}

static void refusals(void)
{
    IS(winnathey_book_check(nothing, 1), -WINNATHEY_REFUSED_BOOK_SIZE);
    IS(winnathey_book_check(one, 2), -WINNATHEY_REFUSED_BOOK_COUNT);
    IS(winnathey_book_check(nothing, 3), -WINNATHEY_REFUSED_BOOK_OFFSET);
    IS(winnathey_preset(nothing, 2, 0, numbers, 4), -WINNATHEY_REFUSED_PRESET_NUMBER);
    IS(winnathey_length_of_word(4, 2, NULL, 0), -WINNATHEY_REFUSED_KIND);
    IS(winnathey_length_of_word(D, 3, NULL, 0), -WINNATHEY_REFUSED_RANK);
    IS(winnathey_length_of_word(A, 2, ones, WINNATHEY_MAX_WORD + 1), -WINNATHEY_REFUSED_WORD_LENGTH);
    IS(winnathey_length_of_word(A, 2, above, 1), -WINNATHEY_REFUSED_LETTER);
    IS(winnathey_length_of_window(A, 2, same3, 2), -WINNATHEY_REFUSED_WINDOW_LENGTH);
    IS(winnathey_length_of_window(B, 2, twice, 2), -WINNATHEY_REFUSED_ENTRY);
    IS(winnathey_length_of_window(D, 4, odd, 4), -WINNATHEY_REFUSED_ODD_NEGATIVES);
    IS(winnathey_rewrite(A, 2, ones, 1, 1, out, 1, rule, 3), -WINNATHEY_REFUSED_PLACE);
    fill_book(65533);
    IS(winnathey_append(book, 65533, A, 2, NULL, 0, out, sizeof out), -WINNATHEY_REFUSED_BOOK_FULL);
    IS(winnathey_window_of_word(A, 2, NULL, 0, window, 2), -WINNATHEY_REFUSED_OUTPUT);
    IS(winnathey_rewrite_to_end(A, 2, ones, 2, NULL, 0, NULL, 0, NULL, 0, out, 2, lengths, 1), -WINNATHEY_REFUSED_STEP_LISTS);
    IS(winnathey_split(A, 2, 4, NULL, 0, form, 9, out, 9, lengths, 2), -WINNATHEY_REFUSED_ALLOWED);
    IS(winnathey_second_preset(lanes2, sizeof lanes2, 0, numbers, 4), -WINNATHEY_REFUSED_LANE_COUNT);
    IS(winnathey_to_first(lanes33, sizeof lanes33, out, sizeof out), -WINNATHEY_REFUSED_FIRST_EDITION_LANES);
    IS(winnathey_between(A, 2, 1, same3, 3, other3, 3, out, 9), -WINNATHEY_REFUSED_UNREACHABLE);
    IS(winnathey_delay_table(B, 17, counts, 9, window, 9, form, 9, lengths, 3), -WINNATHEY_REFUSED_TABLE_RANK);
    IS(winnathey_append(NULL, 0, A, 1, NULL, 0, out, sizeof out), -WINNATHEY_REFUSED_RETIRED_PRESET);
    IS(winnathey_rewrite(A, 2, ascending, 2, 0, out, 2, rule, 3), WINNATHEY_NONE_FITS);
    IS(winnathey_fallback(A, 2, ones, 1, two, 1, places, 9), WINNATHEY_NO_FALLBACK);
    for (uint32_t k = 1; k <= WINNATHEY_LAST_REFUSAL; k++)
        IS(winnathey_refusal_message(k, out, WINNATHEY_MAX_MESSAGE) > 0, 1);
    IS(winnathey_refusal_message(WINNATHEY_LAST_REFUSAL + 1, out, WINNATHEY_MAX_MESSAGE), 0);
}

/* The text of a refusal: the library's message with a 0 behind it, by the number or by what a call returned, cut where
   the room ends. */
static void texts(void)
{
    char text[WINNATHEY_MAX_MESSAGE + 1], whole[WINNATHEY_MAX_MESSAGE + 1];
    for (int k = 1; k <= WINNATHEY_LAST_REFUSAL; k++) {
        int64_t length = winnathey_refusal_message((uint32_t)k, (uint8_t *)whole, WINNATHEY_MAX_MESSAGE);
        whole[length] = 0;
        IS(winnathey_refusal_text(k, text, sizeof text) == text, 1);
        IS(strcmp(text, whole), 0);
        IS(strcmp(winnathey_refusal_text(-k, text, sizeof text), whole), 0);
        memset(text, 'x', sizeof text);
        IS((int64_t)strlen(winnathey_refusal_text(k, text, 5)), 4);
        IS(memcmp(text, whole, 4) == 0 && text[5] == 'x', 1);
        IS((int64_t)strlen(winnathey_refusal_text(k, text, (winnathey_size)length + 1)), length);
        IS((int64_t)strlen(winnathey_refusal_text(k, text, (winnathey_size)length)), length - 1);
    }
    const int64_t none[] = {0, WINNATHEY_LAST_REFUSAL + 1, -WINNATHEY_LAST_REFUSAL - 1, WINNATHEY_NONE_FITS, WINNATHEY_NO_FALLBACK,
                            INT64_MIN, INT64_MAX, INT64_C(4294967301)};
    for (size_t i = 0; i < sizeof none / sizeof *none; i++)
        IS(winnathey_refusal_text(none[i], text, sizeof text)[0], 0);
    IS(winnathey_refusal_text(1, NULL, 0)[0], 0);
    IS(winnathey_refusal_text(1, NULL, 8)[0], 0);
    IS(winnathey_refusal_text(1, text, 1)[0], 0);
}

/* What needs the most of each size needs exactly that. */
static void sizes(void)
{
    const int64_t short_by_one = -WINNATHEY_REFUSED_OUTPUT;
    int8_t longest[WINNATHEY_MAX_LANES];
    for (int i = 0; i < WINNATHEY_MAX_LANES; i++)
        longest[i] = (int8_t)(-1 - i);

    IS(winnathey_window_of_word(B, 64, NULL, 0, window, WINNATHEY_MAX_LANES), WINNATHEY_MAX_LANES);
    IS(winnathey_window_of_word(B, 64, NULL, 0, window, WINNATHEY_MAX_LANES - 1), short_by_one);
    IS(winnathey_length_of_word(B, 65, NULL, 0), -WINNATHEY_REFUSED_RANK);
    IS(winnathey_normal_form_of_window(B, 64, longest, 64, form, WINNATHEY_MAX_NORMAL_FORM - 1), short_by_one);
    IS(winnathey_normal_form_of_window(B, 64, longest, 64, form, WINNATHEY_MAX_NORMAL_FORM), WINNATHEY_MAX_NORMAL_FORM);
    IS(winnathey_length_of_word(B, 64, form, WINNATHEY_MAX_WORD), WINNATHEY_MAX_WORD);
    IS(winnathey_fallback(B, 64, form, WINNATHEY_MAX_WORD, form, WINNATHEY_MAX_WORD, places, WINNATHEY_MAX_NORMAL_FORM), WINNATHEY_MAX_NORMAL_FORM);
    IS(WINNATHEY_MAX_STEPS, (int64_t)WINNATHEY_MAX_WORD * (WINNATHEY_MAX_WORD - 1) / 2);
    fill_book(WINNATHEY_MAX_BOOK);
    IS(winnathey_book_check(book, WINNATHEY_MAX_BOOK), 1);
    IS(winnathey_book_check(book, WINNATHEY_MAX_BOOK + 1), -WINNATHEY_REFUSED_BOOK_SIZE);
    IS(winnathey_crossings_of_word(A, 2, NULL, 0, numbers, WINNATHEY_CROSSINGS), 0);
    IS(winnathey_crossings_of_word(A, 2, NULL, 0, numbers, WINNATHEY_CROSSINGS - 1), short_by_one);
    IS(winnathey_rewrite(A, 2, ones, 2, 0, out, 2, rule, WINNATHEY_RULE), 0);
    IS(winnathey_rewrite(A, 2, ones, 2, 0, out, 2, rule, WINNATHEY_RULE - 1), short_by_one);
    IS(winnathey_preset(preset, sizeof preset, 0, numbers, WINNATHEY_PRESET_FIELDS), WINNATHEY_PRESET_FIELDS);
    IS(winnathey_preset(preset, sizeof preset, 0, numbers, WINNATHEY_PRESET_FIELDS - 1), short_by_one);
    IS(winnathey_presets(preset, sizeof preset, 0, numbers, WINNATHEY_LISTED_FIELDS), 1);
    IS(winnathey_presets(preset, sizeof preset, 0, numbers, WINNATHEY_LISTED_FIELDS - 1), short_by_one);
}

static int64_t table(uint32_t kind, uint32_t rank)
{
    return winnathey_delay_table(kind, rank, counts, WINNATHEY_MAX_TABLE_COUNTS, window, WINNATHEY_MAX_TABLE_LANES, form, WINNATHEY_MAX_TABLE_FORM,
                                 lengths, 3);
}

static void tables(void)
{
    for (uint32_t rank = 1; rank <= 19; rank++)
        IS(table(A, rank) > 0, 1);
    IS((int64_t)lengths[1], WINNATHEY_MAX_TABLE_LANES);
    for (uint32_t rank = 4; rank <= 16; rank++) {
        IS(table(D, rank) > 0, 1);
        IS(table(B, rank) > 0, 1);
    }
    IS((int64_t)lengths[0], WINNATHEY_MAX_TABLE_COUNTS);
    IS((int64_t)lengths[2], WINNATHEY_MAX_TABLE_FORM);
}

static void version(void)
{
    char text[64];
    int number = WINNATHEY_VERSION_NUMBER;
    snprintf(text, sizeof text, "%d.%d.%d", number / 1000000, number / 1000 % 1000, number % 1000);
    IS(strcmp(text, WINNATHEY_VERSION), 0);
    IS(winnathey_version(), WINNATHEY_VERSION_NUMBER);
}

int main(void)
{
    kinds();
    refusals();
    texts();
    sizes();
    tables();
    version();
    return failed;
}
