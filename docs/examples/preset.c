/* The window and the normal form of some presets, and a refusal. */
#include <inttypes.h>
#include <stdint.h>
#include <stdio.h>

#include "winnathey.h"

/* Prints what a preset shows and its normal form. Answers 0, or the refusal's number. */
static int show(uint32_t kind, uint32_t rank, const uint8_t *word, size_t letters)
{
    int8_t window[WINNATHEY_MAX_LANES];
    uint8_t form[WINNATHEY_MAX_NORMAL_FORM];

    printf("kind %" PRIu32 ", rank %" PRIu32 ", word", kind, rank);
    for (size_t i = 0; i < letters; i++)
        printf(" %d", word[i]);
    printf("\n");

    int64_t lanes = winnathey_window_of_word(kind, rank, word, letters, window, sizeof window);
    if (lanes < 0) {
        printf("  refused %" PRId64 "\n", -lanes);
        return (int)-lanes;
    }
    printf("  window");
    for (int64_t i = 0; i < lanes; i++)
        printf(" %d", window[i]);
    printf("\n");

    int64_t length = winnathey_normal_form_of_window(kind, rank, window, (winnathey_size)lanes, form,
                                                     sizeof form);
    if (length < 0) {
        printf("  refused %" PRId64 "\n", -length);
        return (int)-length;
    }
    printf("  normal form");
    for (int64_t i = 0; i < length; i++)
        printf(" %d", form[i]);
    printf("\n");
    return 0;
}

int main(void)
{
    const uint8_t mirrors[] = {1, 2, 1, 2};
    const uint8_t crossing[] = {4, 4, 2, 5, 3, 5, 1, 2};
    const uint8_t wrong[] = {1, 2, 3};

    if (show(WINNATHEY_KIND_B, 2, mirrors, sizeof mirrors) != 0)
        return 1;
    if (show(WINNATHEY_KIND_D, 5, crossing, sizeof crossing) != 0)
        return 1;
    /* Kind B at rank 2 has no step 3. */
    return show(WINNATHEY_KIND_B, 2, wrong, sizeof wrong) == WINNATHEY_REFUSED_LETTER ? 0 : 1;
}
