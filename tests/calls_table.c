/*
 * Runs the table of calls and answers, calls.jsonl, which it reads from standard input: each call with inputs and
 * outputs of just the row's sizes, in memory that is filled, and compares the answer and every byte of that memory.
 * It reads the form that the generator writes and no other, and ends with status 1 at the first line that has another
 * form or at the first row that is not answered as stored. Prints how many rows there were.
 */
#include <stdarg.h>
#include <stdio.h>
#include <stdlib.h>
#include <string.h>

#include "winnathey.h"

#define MAX_LINE 4000000
#define MAX_FIELDS 6
#define MAX_ARENA 1400000
#define GUARD 64
#define FILL 0x5a

static char *line;
static const char *at;
static unsigned long rows;

static void fail(const char *format, ...)
{
    va_list arguments;

    va_start(arguments, format);
    printf("row %lu: ", rows);
    vprintf(format, arguments);
    printf("\n%.300s\n", line);
    va_end(arguments);
    exit(1);
}

/* ---- reading */

static void expect(const char *text)
{
    size_t length = strlen(text);

    if (strncmp(at, text, length) != 0)
        fail("not %s at %.20s", text, at);
    at += length;
}

static int next_is(char sign)
{
    if (*at != sign)
        return 0;
    at++;
    return 1;
}

/* A number without a sign, a plus or zeros in front of it. */
static uint64_t digits(void)
{
    uint64_t number = 0;
    const char *start = at;

    while (*at >= '0' && *at <= '9') {
        if (number > (UINT64_MAX - (uint64_t)(*at - '0')) / 10)
            fail("a number of more than 64 bits");
        number = number * 10 + (uint64_t)(*at++ - '0');
    }
    if (at == start || (*start == '0' && at > start + 1))
        fail("no number at %.20s", start);
    return number;
}

static int64_t whole(void)
{
    int negative = next_is('-');
    uint64_t number = digits();

    if (number > INT64_MAX || (negative && number == 0))
        fail("a number that is too large, or -0");
    return negative ? -(int64_t)number : (int64_t)number;
}

static unsigned nibble(void)
{
    const char *known = "0123456789abcdef";
    const char *found = *at ? strchr(known, *at) : NULL;

    if (!found)
        fail("no digit at %.20s", at);
    at++;
    return (unsigned)(found - known);
}

/* A field: a number, or a list of them with the size of its elements in bytes. */
struct field {
    const char *name;
    size_t name_len;
    uint64_t number;
    size_t count;
    size_t size;
    uint8_t *bytes;
};

struct fields {
    struct field of[MAX_FIELDS];
    size_t count;
};

static struct field *find(struct fields *fields, const char *name)
{
    size_t i;

    for (i = 0; i < fields->count; i++)
        if (fields->of[i].name_len == strlen(name) && memcmp(fields->of[i].name, name, strlen(name)) == 0)
            return &fields->of[i];
    fail("no field %s", name);
    return NULL;
}

/* The size of an element, by the field's name and whether it is of words or windows. */
static size_t size_of(const char *name, size_t length, const char *call)
{
    static const char *const wide[] = { "counts", "fields", "written" };
    static const char *const two[] = { "places" };
    size_t i;

    for (i = 0; i < sizeof wide / sizeof *wide; i++)
        if (strlen(wide[i]) == length && memcmp(wide[i], name, length) == 0)
            return 8;
    for (i = 0; i < sizeof two / sizeof *two; i++)
        if (strlen(two[i]) == length && memcmp(two[i], name, length) == 0)
            return 2;
    if (length == 7 && memcmp(name, "lengths", 7) == 0)
        return strcmp(call, "rewrite_to_end") == 0 ? 2 : 8;
    return 1;
}

static void put(struct field *field, size_t room, int64_t number)
{
    uint8_t *to = field->bytes + field->count * field->size;
    uint64_t wide = (uint64_t)number;
    uint16_t two = (uint16_t)number;
    uint8_t one = (uint8_t)number;

    if ((field->count + 1) * field->size > room)
        fail("a list that is too long");
    if (field->size == 8)
        memcpy(to, &wide, 8);
    else if (field->size == 2)
        memcpy(to, &two, 2);
    else
        memcpy(to, &one, 1);
    field->count++;
}

static void list(struct field *field, size_t room)
{
    expect("[");
    if (next_is(']'))
        return;
    do {
        int64_t number = whole();
        if ((field->size == 1 && (number < -128 || number > 255)) || (field->size == 2 && (number < 0 || number > 65535)))
            fail("an element that is too large");
        put(field, room, number);
    } while (next_is(','));
    expect("]");
}

/* A book: parts with blanks between them, each of bytes, perhaps repeated. */
static void book(struct field *field, size_t room)
{
    expect("\"");
    while (!next_is('"')) {
        size_t start = field->count, length, times, i;
        while (*at != ' ' && *at != '"' && *at != '*') {
            unsigned high = nibble();
            put(field, room, (int64_t)(16 * high + nibble()));
        }
        length = field->count - start;
        if (length == 0)
            fail("an empty part");
        if (next_is('*'))
            for (times = digits(); times > 1; times--)
                for (i = 0; i < length; i++)
                    put(field, room, field->bytes[start + i]);
        if (next_is(' ') && *at == '"')
            fail("a blank at the end");
    }
}

/* A text of decimal numbers with blanks between them: a set, or counts. */
static void decimals(struct field *field, size_t room)
{
    expect("\"");
    do {
        put(field, room, (int64_t)digits());
    } while (next_is(' '));
    expect("\"");
}

/* The fields of an object, whose elements go to the memory that is given. Returns how many bytes they take there. */
static size_t object(struct fields *fields, const char *call, uint8_t *memory, size_t room)
{
    int is_book = strstr(call, "append") || strncmp(call, "to_", 3) == 0;
    size_t all = room;

    fields->count = 0;
    expect("{");
    do {
        struct field *field = &fields->of[fields->count++];
        if (fields->count > MAX_FIELDS)
            fail("more than %d fields", MAX_FIELDS);
        memset(field, 0, sizeof *field);
        expect("\"");
        field->name = at;
        while ((*at >= 'a' && *at <= 'z') || (*at >= '0' && *at <= '9') || *at == '_')
            at++;
        field->name_len = (size_t)(at - field->name);
        expect("\":");
        field->size = size_of(field->name, field->name_len, call);
        field->bytes = memory;
        if (*at == '[') {
            list(field, room);
        } else if (*at == '"' && field->name_len == 7 && memcmp(field->name, "allowed", 7) == 0) {
            field->size = 8;
            decimals(field, room);
            if (field->count != 1)
                fail("a set of more than one number");
            memcpy(&field->number, field->bytes, 8);
        } else if (*at == '"' && field->size == 8) {
            decimals(field, room);
        } else if (*at == '"' && (is_book || (field->name_len == 4 && memcmp(field->name, "book", 4) == 0))) {
            book(field, room);
        } else {
            field->number = digits();
        }
        /* The next list begins at a multiple of 8. */
        {
            size_t used = (field->count * field->size + 7) / 8 * 8;
            memory += used;
            room -= used;
        }
    } while (next_is(','));
    expect("}");
    return all - room;
}

/* ---- calling */

static struct fields given, room, written;
static uint8_t *given_memory, *given_before, *written_memory, *arena, *due;
static size_t arena_used;

/* The outputs in the arena, in the row's order: where each begins and how many places it has. */
struct output {
    uint8_t *start;
    winnathey_size places;
};

static struct output output(const char *name, const char *call)
{
    struct field *places = find(&room, name);
    size_t size = size_of(name, strlen(name), call), i;
    struct output found;

    if (places->number > MAX_ARENA / 8 || arena_used + 3 * GUARD + size * places->number > MAX_ARENA)
        fail("outputs that are too long");
    found.start = arena + arena_used + GUARD;
    found.places = places->number;
    for (i = 0; i < written.count; i++) {
        struct field *field = &written.of[i];
        if (field->name_len == strlen(name) && memcmp(field->name, name, field->name_len) == 0) {
            if (field->count > places->number)
                fail("more is written to %s than it has places", name);
            memcpy(due + arena_used + GUARD, field->bytes, field->count * field->size);
        }
    }
    arena_used += (GUARD + size * places->number + GUARD + 7) / 8 * 8;
    return found;
}

#define NUMBER(name) ((uint32_t)find(&given, name)->number)
#define SIZE(name) ((winnathey_size)find(&given, name)->number)
#define SET(name) (find(&given, name)->number)
/* A list and its length; with no elements, NULL. */
#define LIST(type, name) \
    (find(&given, name)->count ? (const type *)(void *)find(&given, name)->bytes : NULL), \
        (winnathey_size)find(&given, name)->count
#define BYTES(name) LIST(uint8_t, name)
#define ENTRIES(name) LIST(int8_t, name)
#define GROUP NUMBER("kind"), NUMBER("rank")
#define OUT(type, index) (type *)(void *)outputs[index].start, outputs[index].places
#define IS(name) (strcmp(call, name) == 0)

static const char *const OUTPUTS[][2] = {
    { "window_of_word", "out" },
    { "normal_form_of_word", "out" },
    { "product_of_words", "out" },
    { "inverse_of_word", "out" },
    { "crossings_of_word", "counts" },
    { "normal_form_of_window", "out" },
    { "product_of_windows", "out" },
    { "inverse_of_window", "out" },
    { "crossings_of_window", "counts" },
    { "delay_table", "counts window normal_form lengths" },
    { "rewrite", "out rule" },
    { "rewrite_to_end", "families places lengths out written" },
    { "fallback", "places" },
    { "split", "first second lengths" },
    { "between", "out" },
    { "preset", "fields" },
    { "presets", "fields" },
    { "append", "out" },
    { "second_preset", "fields" },
    { "second_presets", "fields" },
    { "second_append", "out" },
    { "to_second", "out" },
    { "to_first", "out" },
};

static int64_t of_words(const char *call, const struct output *outputs)
{
    if (IS("window_of_word"))
        return winnathey_window_of_word(GROUP, BYTES("word"), OUT(int8_t, 0));
    if (IS("normal_form_of_word"))
        return winnathey_normal_form_of_word(GROUP, BYTES("word"), OUT(uint8_t, 0));
    if (IS("product_of_words"))
        return winnathey_product_of_words(GROUP, BYTES("first"), BYTES("second"), OUT(uint8_t, 0));
    if (IS("inverse_of_word"))
        return winnathey_inverse_of_word(GROUP, BYTES("word"), OUT(uint8_t, 0));
    if (IS("length_of_word"))
        return winnathey_length_of_word(GROUP, BYTES("word"));
    if (IS("crossings_of_word"))
        return winnathey_crossings_of_word(GROUP, BYTES("word"), OUT(uint64_t, 0));
    if (IS("same"))
        return winnathey_same(NUMBER("kind1"), NUMBER("rank1"), BYTES("word1"), NUMBER("kind2"), NUMBER("rank2"),
                              BYTES("word2"));
    if (IS("better"))
        return winnathey_better(GROUP, BYTES("first"), BYTES("second"));
    if (IS("rewrite"))
        return winnathey_rewrite(GROUP, BYTES("word"), SIZE("place"), OUT(uint8_t, 0), OUT(uint8_t, 1));
    if (IS("rewrite_steps"))
        return winnathey_rewrite_steps(GROUP, BYTES("word"));
    if (IS("rewrite_to_end"))
        return winnathey_rewrite_to_end(GROUP, BYTES("word"), OUT(uint8_t, 0), OUT(uint16_t, 1), OUT(uint16_t, 2),
                                        OUT(uint8_t, 3), OUT(uint64_t, 4));
    if (IS("fallback"))
        return winnathey_fallback(GROUP, BYTES("present"), BYTES("simpler"), OUT(uint16_t, 0));
    if (IS("split"))
        return winnathey_split(GROUP, SET("allowed"), BYTES("word"), OUT(uint8_t, 0), OUT(uint8_t, 1), OUT(uint64_t, 2));
    fail("no call %s", call);
    return 0;
}

static int64_t of_windows(const char *call, const struct output *outputs)
{
    if (IS("normal_form_of_window"))
        return winnathey_normal_form_of_window(GROUP, ENTRIES("window"), OUT(uint8_t, 0));
    if (IS("product_of_windows"))
        return winnathey_product_of_windows(GROUP, ENTRIES("first"), ENTRIES("second"), OUT(int8_t, 0));
    if (IS("inverse_of_window"))
        return winnathey_inverse_of_window(GROUP, ENTRIES("window"), OUT(int8_t, 0));
    if (IS("length_of_window"))
        return winnathey_length_of_window(GROUP, ENTRIES("window"));
    if (IS("crossings_of_window"))
        return winnathey_crossings_of_window(GROUP, ENTRIES("window"), OUT(uint64_t, 0));
    if (IS("delay_table"))
        return winnathey_delay_table(GROUP, OUT(uint64_t, 0), OUT(int8_t, 1), OUT(uint8_t, 2), OUT(uint64_t, 3));
    if (IS("between"))
        return winnathey_between(GROUP, SET("allowed"), ENTRIES("from"), ENTRIES("to"), OUT(uint8_t, 0));
    return of_words(call, outputs);
}

static int64_t called(const char *call, const struct output *outputs)
{
    if (IS("book_check"))
        return winnathey_book_check(BYTES("book"));
    if (IS("preset"))
        return winnathey_preset(BYTES("book"), SIZE("number"), OUT(uint64_t, 0));
    if (IS("presets"))
        return winnathey_presets(BYTES("book"), SIZE("first"), OUT(uint64_t, 0));
    if (IS("append"))
        return winnathey_append(BYTES("book"), GROUP, BYTES("word"), OUT(uint8_t, 0));
    if (IS("second_book_check"))
        return winnathey_second_book_check(BYTES("book"));
    if (IS("second_preset"))
        return winnathey_second_preset(BYTES("book"), SIZE("number"), OUT(uint64_t, 0));
    if (IS("second_presets"))
        return winnathey_second_presets(BYTES("book"), SIZE("first"), OUT(uint64_t, 0));
    if (IS("second_append"))
        return winnathey_second_append(BYTES("book"), GROUP, BYTES("word"), OUT(uint8_t, 0));
    if (IS("to_second"))
        return winnathey_to_second(BYTES("book"), OUT(uint8_t, 0));
    if (IS("to_first"))
        return winnathey_to_first(BYTES("book"), OUT(uint8_t, 0));
    return of_windows(call, outputs);
}

/* Places the outputs of a call in the arena, which is filled, and what is due in another. */
static void place(const char *call, struct output *outputs)
{
    char name[20];
    const char *names = "";
    size_t i, count = 0;

    arena_used = 0;
    for (i = 0; i < sizeof OUTPUTS / sizeof *OUTPUTS; i++)
        if (IS(OUTPUTS[i][0]))
            names = OUTPUTS[i][1];
    while (*names) {
        size_t length = strcspn(names, " ");
        memcpy(name, names, length);
        name[length] = 0;
        outputs[count++] = output(name, call);
        names += length + (names[length] == ' ');
    }
    if (room.count != count)
        fail("not the outputs of %s", call);
}

static void run_row(void)
{
    char call[40];
    struct output outputs[5];
    int64_t answer, stored;
    size_t length, given_used;

    at = line;
    expect("{\"call\":\"");
    length = strcspn(at, "\"");
    if (length >= sizeof call)
        fail("a long name");
    memcpy(call, at, length);
    call[length] = 0;
    at += length;
    expect("\",\"given\":");
    given_used = object(&given, call, given_memory, MAX_ARENA);
    room.count = written.count = 0;
    if (strncmp(at, ",\"room\":", 8) == 0) {
        expect(",\"room\":");
        object(&room, call, written_memory, 0);
    }
    expect(",\"answer\":");
    stored = whole();
    if (IS("better") && strncmp(at, ",\"refused\":", 11) == 0) {
        int64_t refusal;
        expect(",\"refused\":");
        refusal = whole();
        if (winnathey_same(GROUP, BYTES("first"), GROUP, BYTES("second")) != -refusal)
            fail("winnathey_same does not return %lld", (long long)-refusal);
    }
    if (strncmp(at, ",\"written\":", 11) == 0) {
        expect(",\"written\":");
        object(&written, call, written_memory, MAX_ARENA);
    }
    expect("}\n");
    if (*at)
        fail("more behind a row");
    memcpy(given_before, given_memory, given_used);
    place(call, outputs);
    answer = called(call, outputs);
    if (answer != stored)
        fail("%s returns %lld and not %lld", call, (long long)answer, (long long)stored);
    if (memcmp(arena, due, arena_used + GUARD) != 0)
        fail("%s does not write what is stored", call);
    if (memcmp(given_before, given_memory, given_used) != 0)
        fail("%s changes an input", call);
    memset(arena, FILL, arena_used + GUARD);
    memset(due, FILL, arena_used + GUARD);
}

static uint8_t *memory(size_t bytes)
{
    uint8_t *made = (uint8_t *)malloc(bytes);

    if (!made)
        exit(2);
    return made;
}

int main(void)
{
    line = (char *)memory(MAX_LINE);
    given_memory = memory(MAX_ARENA);
    given_before = memory(MAX_ARENA);
    written_memory = memory(MAX_ARENA);
    arena = memory(MAX_ARENA);
    due = memory(MAX_ARENA);
    memset(arena, FILL, MAX_ARENA);
    memset(due, FILL, MAX_ARENA);
    while (fgets(line, MAX_LINE, stdin)) {
        rows++;
        run_row();
    }
    if (ferror(stdin) || rows == 0) {
        printf("no rows were read\n");
        return 1;
    }
    printf("%lu\n", rows);
    return 0;
}
