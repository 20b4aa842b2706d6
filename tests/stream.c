/* Random calls of every function of winnathey.h, right and wrong ones, with outputs that are long enough and too
   short. The calls follow from the seed alone. Every answer and every byte that a call may write goes into one hash,
   so that two libraries that print the same hashes did the same. Of each call it is also checked that nothing is
   written behind an output's length, and nothing at all if the answer is negative.

   A hosted program prints the hash now and then: stream CALLS SEED [STACK], where STACK is the size in bytes of the
   stack that the calls get. For WebAssembly it exports stream_start, stream_run, stream_seen and stream_wrong. */
#include <stddef.h>
#include <stdint.h>

#include "winnathey.h"

/* ---- numbers from the seed (splitmix64) and the hash (FNV-1a over 64 bits) */

static uint64_t state;
static uint64_t hash;

static uint64_t next(void)
{
    uint64_t z = state += UINT64_C(0x9e3779b97f4a7c15);
    z = (z ^ (z >> 30)) * UINT64_C(0xbf58476d1ce4e5b9);
    z = (z ^ (z >> 27)) * UINT64_C(0x94d049bb133111eb);
    return z ^ (z >> 31);
}

static uint32_t below(uint32_t n)
{
    return (uint32_t)((next() >> 32) * n >> 32);
}

static int once_in(uint32_t n)
{
    return below(n) == 0;
}

static void add(uint64_t x)
{
    hash = (hash ^ x) * UINT64_C(0x100000001b3);
    hash ^= hash >> 29;
}

/* ---- outputs */

#define SLACK 16    /* bytes behind an output that no call may write */
#define WATCHED 512 /* bytes at its front that a refused call may not write, of which a copy is made */

enum { LANES, BYTES, SECOND, FAMILIES, PLACES, LENGTHS, COUNTS, NUMBERS, OUTPUTS };

static int8_t lanes[64 + SLACK];
static uint8_t bytes[65535 + SLACK], second[4096 + SLACK], families[1024 + SLACK];
static uint16_t places[4096 + SLACK / 2], lengths[1024 + SLACK / 2];
static uint64_t counts[2048 + SLACK / 8], numbers[8 + SLACK / 8];

static const struct output {
    void *start;
    uint32_t element, room;
} outputs[OUTPUTS] = {
    {lanes, 1, 64},   {bytes, 1, 65535},   {second, 1, 4096},  {families, 1, 1024},
    {places, 2, 4096}, {lengths, 2, 1024}, {counts, 8, 2048}, {numbers, 8, 8},
};

/* The outputs of the present call: which, and their lengths. */
static int lent[OUTPUTS];
static uint32_t lent_length[OUTPUTS];
static int lent_count;
static uint8_t before[OUTPUTS][WATCHED + SLACK];

/* What was seen: of each answer below 0 how often, of each function how many calls. */
static uint64_t seen[128];
static uint64_t wrong;
static uint64_t calls;

static uint32_t least(uint32_t a, uint32_t b)
{
    return a < b ? a : b;
}

/* Lends an output of this many elements: mostly as many as are given, else fewer. */
static uint32_t lend(int which, uint32_t most)
{
    const struct output *o = &outputs[which];
    uint32_t length = least(most, o->room);
    if (once_in(8))
        length = once_in(2) ? below(length + 1) : least(length, below(6));
    lent[lent_count] = which;
    lent_length[lent_count] = length;
    const uint8_t *from = (const uint8_t *)o->start;
    uint32_t watched = least(length * o->element, WATCHED);
    for (uint32_t i = 0; i < watched; i++)
        before[lent_count][i] = from[i];
    for (uint32_t i = 0; i < SLACK; i++)
        before[lent_count][WATCHED + i] = from[length * o->element + i];
    lent_count++;
    return length;
}

/* Takes an answer: what the call may have written goes into the hash. */
static void took(int function, int64_t answer)
{
    calls++;
    add((uint64_t)function);
    add((uint64_t)answer);
    if (answer < 0 && answer > -128)
        seen[-answer]++;
    for (int k = 0; k < lent_count; k++) {
        const struct output *o = &outputs[lent[k]];
        const uint8_t *now = (const uint8_t *)o->start;
        uint32_t size = lent_length[k] * o->element, watched = least(size, WATCHED);
        for (uint32_t i = 0; i < SLACK; i++)
            wrong += now[size + i] != before[k][WATCHED + i];
        if (answer < 0)
            for (uint32_t i = 0; i < watched; i++)
                wrong += now[i] != before[k][i];
        else
            /* An answer counts elements of some output; eight bytes for each are enough for all. */
            for (uint32_t i = 0; i < least(size, (uint32_t)answer * 40 + 64); i++)
                add(now[i]);
    }
    lent_count = 0;
}

/* ---- inputs */

static uint32_t some_kind(void)
{
    static const uint32_t odd[] = {0, 4, 5, 255, 256, 257, 258, 0x80000001u, 0xffffffffu};
    return once_in(40) ? odd[below(sizeof odd / sizeof *odd)] : 1 + below(3);
}

/* A rank that is small most of the time. */
static uint32_t some_rank(uint32_t kind)
{
    static const uint32_t odd[] = {0, 1, 2, 3, 32, 33, 63, 64, 65, 255, 256, 258, 0x80000004u, 0xffffffffu};
    if (once_in(30))
        return odd[below(sizeof odd / sizeof *odd)];
    uint32_t low = kind == 1 ? 1 : kind == 2 ? 2 : 4, high = kind == 1 ? 63 : 64;
    return once_in(5) ? low + below(high - low + 1) : low + below(9);
}

static uint8_t word1[4200], word2[4200];

/* A word for a rank: mostly right. */
static uint32_t some_word(uint8_t *word, uint32_t rank, uint32_t most)
{
    uint32_t length = below(most + 1), steps = rank < 1 ? 1 : least(rank, 64);
    if (once_in(300))
        length = once_in(2) ? 4096 : once_in(2) ? 4097 : below(4097);
    for (uint32_t i = 0; i < length; i++)
        word[i] = (uint8_t)(1 + below(steps));
    if (length > 0 && once_in(20))
        word[below(length)] = (uint8_t)(once_in(2) ? 0 : steps + 1 + below(190));
    return length;
}

static int8_t window1[72], window2[72];

/* A window for a kind and a rank: mostly right. */
static uint32_t some_window(int8_t *window, uint32_t kind, uint32_t rank)
{
    uint32_t length = least(kind == 1 ? rank + 1 : rank, 64), negatives = 0;
    for (uint32_t i = 0; i < length; i++)
        window[i] = (int8_t)(i + 1);
    for (uint32_t i = length; i > 1; i--) {
        uint32_t j = below(i);
        int8_t held = window[i - 1];
        window[i - 1] = window[j];
        window[j] = held;
    }
    for (uint32_t i = 0; kind != 1 && i < length; i++)
        if (once_in(2)) {
            window[i] = (int8_t)-window[i];
            negatives++;
        }
    if (kind == 3 && negatives % 2 == 1 && !once_in(20))
        window[0] = (int8_t)-window[0];
    if (length > 0 && once_in(20))
        window[below(length)] = (int8_t)(below(256) - 128);
    if (once_in(30))
        length = below(length + 4);
    return length;
}

/* Allowed steps: some, all, or one too many. */
static uint64_t some_steps(uint32_t rank)
{
    uint64_t all = rank >= 64 ? UINT64_MAX : (UINT64_C(1) << rank) - 1;
    if (once_in(20))
        return next();
    return once_in(4) ? all : next() & all;
}

/* ---- books: two that grow by what was appended, one of each edition, and changed copies of them; and two large ones
   */

static uint8_t grown[2][1024], changed[65600];
static uint32_t grown_length[2];

static void two(uint8_t *at, uint32_t x)
{
    at[0] = (uint8_t)(x & 0xff);
    at[1] = (uint8_t)(x >> 8);
}

/* A book of an edition, 0 or 1, into `changed`. */
static uint32_t some_book(int edition)
{
    uint32_t length = grown_length[edition];
    if (once_in(800)) {
        /* One record of 65,525 letters. */
        for (uint32_t i = 0; i < 65533; i++)
            changed[i] = 1;
        two(changed + 2, 65525);
        two(changed + 65529, 0);
        two(changed + 65531, 1);
        changed[4 + edition] = 2;
        return once_in(2) ? 65533 : 65536 + below(3);
    }
    if (once_in(800)) {
        /* 9,362 records without letters, which are too large in the second edition. */
        for (uint32_t k = 0; k < 9362; k++) {
            changed[4 * k] = changed[4 * k + 1] = 2;
            two(changed + 4 * k + 2, 0);
            two(changed + 4 * 9362 + 2 * k, 4 * k);
        }
        two(changed + 6 * 9362, 9362);
        return 6 * 9362 + 2;
    }
    for (uint32_t i = 0; i < length; i++)
        changed[i] = grown[edition][i];
    if (length > 0 && once_in(4))
        for (uint32_t n = 1 + below(3); n > 0; n--)
            changed[below(length)] = (uint8_t)(once_in(2) ? below(8) : below(256));
    if (once_in(30))
        length = below(length + 1);
    return length;
}

/* Appends a preset to the book that grows, and takes it if it is accepted and not yet long. */
static void append(int edition)
{
    uint32_t kind = some_kind(), rank = some_rank(kind), length = some_word(word1, rank, 12);
    uint32_t book = once_in(3) ? some_book(edition) : grown_length[edition];
    const uint8_t *from = book == grown_length[edition] ? grown[edition] : changed;
    uint32_t room = lend(BYTES, 65535);
    int64_t answer = edition == 0 ? winnathey_append(from, book, kind, rank, word1, length, bytes, room)
                                  : winnathey_second_append(from, book, kind, rank, word1, length, bytes, room);
    took(24 + edition, answer);
    if (answer >= 0 && from == grown[edition]) {
        grown_length[edition] = answer <= 400 ? (uint32_t)answer : 0;
        for (uint32_t i = 0; i < grown_length[edition]; i++)
            grown[edition][i] = bytes[i];
    }
}

/* ---- one call */

static void call(void)
{
    uint32_t kind = some_kind(), rank = some_rank(kind), function = below(33);
    uint32_t most = once_in(10) ? 200 : 24;
    int edition;
    switch (function) {
    case 0: {
        uint32_t l = some_word(word1, rank, most), room = lend(LANES, 64);
        took(0, winnathey_window_of_word(kind, rank, word1, l, lanes, room));
        break;
    }
    case 1: {
        uint32_t l = some_word(word1, rank, most), room = lend(BYTES, 4096);
        took(1, winnathey_normal_form_of_word(kind, rank, word1, l, bytes, room));
        break;
    }
    case 2: {
        uint32_t l = some_word(word1, rank, most), m = some_word(word2, rank, most), room = lend(BYTES, 4096);
        took(2, winnathey_product_of_words(kind, rank, word1, l, word2, m, bytes, room));
        break;
    }
    case 3: {
        uint32_t l = some_word(word1, rank, most), room = lend(BYTES, 4096);
        took(3, winnathey_inverse_of_word(kind, rank, word1, l, bytes, room));
        break;
    }
    case 4: {
        uint32_t l = some_word(word1, rank, most);
        took(4, winnathey_length_of_word(kind, rank, word1, l));
        break;
    }
    case 5: {
        uint32_t l = some_word(word1, rank, most), room = lend(NUMBERS, 8);
        took(5, winnathey_crossings_of_word(kind, rank, word1, l, numbers, room));
        break;
    }
    case 6: {
        /* Often the same lanes, and often the same word or its normal form. */
        uint32_t kind2 = once_in(4) ? some_kind() : kind, rank2 = once_in(4) ? some_rank(kind2) : rank;
        uint32_t l = some_word(word1, rank, most), m = some_word(word2, rank2, 6);
        if (once_in(2)) {
            int64_t form = winnathey_normal_form_of_word(kind, rank, word1, l, word2, 4096);
            m = form < 0 ? 0 : (uint32_t)form;
        }
        took(6, winnathey_same(kind, rank, word1, l, kind2, rank2, word2, m));
        took(7, winnathey_better(kind, rank, word1, l, word2, m));
        took(7, winnathey_better(kind, rank, word2, m, word1, l));
        break;
    }
    case 7: {
        uint32_t l = some_word(word1, rank, 4), m = some_word(word2, rank, 4);
        took(7, winnathey_better(kind, rank, word1, l, word2, m));
        break;
    }
    case 8: {
        uint32_t l = some_window(window1, kind, rank), room = lend(BYTES, 4096);
        took(8, winnathey_normal_form_of_window(kind, rank, window1, l, bytes, room));
        break;
    }
    case 9: {
        uint32_t l = some_window(window1, kind, rank), m = some_window(window2, kind, rank), room = lend(LANES, 64);
        took(9, winnathey_product_of_windows(kind, rank, window1, l, window2, m, lanes, room));
        break;
    }
    case 10: {
        uint32_t l = some_window(window1, kind, rank), room = lend(LANES, 64);
        took(10, winnathey_inverse_of_window(kind, rank, window1, l, lanes, room));
        break;
    }
    case 11: {
        uint32_t l = some_window(window1, kind, rank);
        took(11, winnathey_length_of_window(kind, rank, window1, l));
        break;
    }
    case 12: {
        uint32_t l = some_window(window1, kind, rank), room = lend(NUMBERS, 8);
        took(12, winnathey_crossings_of_window(kind, rank, window1, l, numbers, room));
        break;
    }
    case 13: {
        uint32_t a, b, c, d;
        if (!once_in(4))
            break; /* it takes longer than the others */
        a = lend(COUNTS, 257), b = lend(LANES, 20), c = lend(BYTES, 256), d = lend(NUMBERS, 8);
        took(13, winnathey_delay_table(kind, rank, counts, a, lanes, b, bytes, c, numbers, d));
        break;
    }
    case 14:
    case 15: {
        uint32_t l = some_word(word1, rank, function == 14 ? 6 : most), a, b;
        uint64_t place = once_in(30) ? next() : below(l + 1);
        a = lend(BYTES, 4096), b = lend(FAMILIES, 8);
        took(14, winnathey_rewrite(kind, rank, word1, l, place, bytes, a, families, b));
        break;
    }
    case 16: {
        uint32_t l = some_word(word1, rank, 30);
        took(16, winnathey_rewrite_steps(kind, rank, word1, l));
        break;
    }
    case 17: {
        uint32_t l = some_word(word1, rank, 20), a, b, c, d, e;
        a = lend(FAMILIES, 1024), b = lend(PLACES, 1024), c = lend(LENGTHS, 1024), d = lend(BYTES, 4096), e = lend(NUMBERS, 8);
        took(17, winnathey_rewrite_to_end(kind, rank, word1, l, families, a, places, b, lengths, c, bytes, d, numbers, e));
        break;
    }
    case 18:
    case 19: {
        /* A simpler word is often the present one without some letters. */
        uint32_t l = some_word(word1, rank, most), m = 0, room = lend(PLACES, 4096);
        if (function == 18)
            m = some_word(word2, rank, 4);
        else
            for (uint32_t i = 0; i < l; i++)
                if (once_in(2))
                    word2[m++] = word1[i];
        took(18, winnathey_fallback(kind, rank, word1, l, word2, m, places, room));
        break;
    }
    case 20: {
        uint32_t l = some_word(word1, rank, most), a = lend(BYTES, 4096), b = lend(SECOND, 4096), c = lend(NUMBERS, 8);
        took(20, winnathey_split(kind, rank, some_steps(rank), word1, l, bytes, a, second, b, numbers, c));
        break;
    }
    case 21: {
        uint32_t l = some_window(window1, kind, rank), m = some_window(window2, kind, rank), room = lend(BYTES, 4096);
        took(21, winnathey_between(kind, rank, some_steps(rank), window1, l, window2, m, bytes, room));
        break;
    }
    case 22: {
        /* From a window by some allowed steps. */
        uint32_t l = some_window(window1, kind, rank), m, room, steps = below(12);
        uint64_t allowed = some_steps(rank);
        int8_t led[64];
        for (m = 0; m < steps;) {
            uint32_t step = below(least(rank, 64) + 1);
            if (step > 0 && allowed >> (step - 1) & 1)
                word1[m++] = (uint8_t)step;
            else
                steps--;
        }
        int64_t entries = winnathey_window_of_word(kind, rank, word1, m, led, 64);
        int64_t reached = winnathey_product_of_windows(kind, rank, window1, l, led, entries < 0 ? 0 : (uint64_t)entries, window2, 64);
        room = lend(BYTES, 4096);
        took(21, winnathey_between(kind, rank, allowed, window1, l, window2, reached < 0 ? 0 : (uint64_t)reached, bytes, room));
        break;
    }
    case 23:
    case 24:
    case 25:
        append((int)(next() & 1));
        break;
    case 26: {
        edition = (int)(next() & 1);
        uint32_t l = some_book(edition);
        took(26 + edition, edition == 0 ? winnathey_book_check(changed, l) : winnathey_second_book_check(changed, l));
        break;
    }
    case 27: {
        edition = (int)(next() & 1);
        uint32_t l = some_book(edition), room = lend(NUMBERS, 8);
        uint64_t number = once_in(20) ? next() : below(12);
        took(28 + edition, edition == 0 ? winnathey_preset(changed, l, number, numbers, room)
                                        : winnathey_second_preset(changed, l, number, numbers, room));
        break;
    }
    case 28: {
        edition = (int)(next() & 1);
        uint32_t l = some_book(edition), room = lend(COUNTS, 400);
        uint64_t number = once_in(20) ? next() : below(6);
        took(30 + edition, edition == 0 ? winnathey_presets(changed, l, number, counts, room)
                                        : winnathey_second_presets(changed, l, number, counts, room));
        break;
    }
    case 29:
    case 30: {
        edition = (int)(next() & 1);
        uint32_t l = some_book(edition), room = lend(BYTES, 65535);
        took(32 + edition, edition == 0 ? winnathey_to_second(changed, l, bytes, room) : winnathey_to_first(changed, l, bytes, room));
        break;
    }
    case 31: {
        uint32_t refusal = once_in(10) ? (uint32_t)next() : below(24), room = lend(BYTES, 256);
        took(34, winnathey_refusal_message(refusal, bytes, room));
        break;
    }
    default:
        took(35, winnathey_version());
        break;
    }
}

/* ---- the stream */

void stream_start(uint64_t seed)
{
    state = seed;
    hash = UINT64_C(0xcbf29ce484222325);
}

/* So many calls more, or one or two above that. The hash so far. */
uint64_t stream_run(uint32_t more)
{
    uint64_t end = calls + more;
    while (calls < end)
        call();
    return hash;
}

/* How often the answer was -number. */
uint64_t stream_seen(uint32_t number)
{
    return seen[number];
}

/* How many bytes were written that must not be. */
uint64_t stream_wrong(void)
{
    return wrong;
}

#if __STDC_HOSTED__
#include <inttypes.h>
#include <stdio.h>
#include <stdlib.h>
#include <sys/mman.h>
#include <ucontext.h>

static uint32_t wanted;
static ucontext_t back;

/* Not in one piece, so that the stack of the calls is not that of printf. */
static void run(void)
{
    stream_run(wanted);
}

static void run_on(char *stack, size_t size)
{
    ucontext_t on;
    if (stack == NULL) {
        run();
        return;
    }
    getcontext(&on);
    on.uc_stack.ss_sp = stack;
    on.uc_stack.ss_size = size;
    on.uc_link = &back;
    makecontext(&on, run, 0);
    swapcontext(&back, &on);
}

int main(int argc, char **argv)
{
    uint32_t total = argc > 1 ? (uint32_t)strtoul(argv[1], NULL, 10) : 1000000;
    size_t size = argc > 3 ? strtoul(argv[3], NULL, 10) : 0, page = 65536;
    char *stack = NULL;
    if (size > 0) {
        /* The page below the stack cannot be touched. */
        char *area = (char *)mmap(NULL, page + size, PROT_READ | PROT_WRITE, MAP_PRIVATE | MAP_ANONYMOUS, -1, 0);
        if (area == MAP_FAILED || mprotect(area, page, PROT_NONE) != 0)
            return 2;
        stack = area + page;
    }
    stream_start(argc > 2 ? strtoull(argv[2], NULL, 10) : 1);
    for (uint32_t done = 0; done < total; done += wanted) {
        wanted = least(total - done, 50000);
        run_on(stack, size);
        printf("%" PRIu32 " %016" PRIx64 "\n", done + wanted, hash);
    }
    for (uint32_t k = 1; k < 128; k++)
        if (stream_seen(k) > 0)
            printf("refused %" PRIu32 ": %" PRIu64 "\n", k, stream_seen(k));
    printf("wrong bytes: %" PRIu64 "\n", stream_wrong());
    return stream_wrong() > 0;
}
#endif
