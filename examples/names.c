/* Holds every name of mizbulett.h to what the calls do; MIZBULETT_VERSION alone shows in no call. Prints one line where all hold. */
#include <inttypes.h>
#include <stdio.h>
#include <stdlib.h>
#include <string.h>

#include "mizbulett.h"

/* The bytes of a trace of most slots and one more, and more numbers than any call writes. */
static uint8_t trace[MIZBULETT_SIZE(MIZBULETT_MAX_SLOTS + 1)];
enum { ROOM = 16 };
static uint64_t out[ROOM];

/* What no call writes to `out`. */
#define UNWRITTEN UINT64_MAX

/* Ends the program with 1 where a number is not the expected one, and says in which line. */
#define EXPECT(given, expected) expect(__LINE__, #given, given, expected)

static void expect(int line, const char *expression, uint64_t given, uint64_t expected)
{
    if (given != expected) {
        fprintf(stderr, "examples/names.c:%d: %s is %" PRIu64 ", not %" PRIu64 "\n", line, expression, given, expected);
        exit(1);
    }
}

/* Expects a call to be accepted, and to write as many numbers. */
#define EXPECT_VALUES(call, values)       \
    do {                                  \
        erase();                          \
        EXPECT(call, MIZBULETT_ACCEPTED); \
        EXPECT(written(), values);        \
    } while (0)

static void erase(void)
{
    for (int place = 0; place < ROOM; place++) {
        out[place] = UNWRITTEN;
    }
}

/* How many numbers of `out` there are up to the last written one. */
static uint64_t written(void)
{
    uint64_t values = ROOM;
    while (values > 0 && out[values - 1] == UNWRITTEN) {
        values--;
    }
    return values;
}

/* A load of five from seed 1: the number that it hands back, whatever the width. */
enum { COUNT = 5, HANDED_BACK = 217083232 };

/* The codes, each with the codeword of the message whose highest bit alone is one: its last digit differs between O and E.
 * And with the positions that a load of five from seed 1 inverts: they differ between the widths. */
static const struct code {
    uint64_t number, width, message_bits, steps, codeword, positions[COUNT];
} codes[] = {
    {MIZBULETT_CODE_36_O, 36, 19, 128, 0x777777778, {16, 15, 34, 30, 18}},
    {MIZBULETT_CODE_36_E, 36, 19, 128, 0x777777777, {16, 15, 34, 30, 18}},
    {MIZBULETT_CODE_40_O, 40, 22, 1024, 0x7777777778, {16, 21, 26, 20, 0}},
    {MIZBULETT_CODE_40_E, 40, 22, 1024, 0x7777777777, {16, 21, 26, 20, 0}},
};

/* The calls on words: each takes the highest bit of a message, a word or marks, and not the bit above it. */
static void check_words(struct code code)
{
    const uint64_t message = UINT64_C(1) << (code.message_bits - 1), top_bit = UINT64_C(1) << (code.width - 1);

    EXPECT_VALUES(mizbulett_encode(code.number, message, out), MIZBULETT_ENCODE_VALUES);
    EXPECT(out[MIZBULETT_ENCODE_WORD], code.codeword);
    EXPECT(mizbulett_encode(code.number, 2 * message, out), MIZBULETT_MESSAGE_TOO_LARGE);

    EXPECT_VALUES(mizbulett_decode(code.number, code.codeword, out), MIZBULETT_DECODE_VALUES);
    EXPECT(out[MIZBULETT_DECODE_MESSAGE], message);
    EXPECT(mizbulett_decode(code.number, top_bit, out), MIZBULETT_NOT_A_CODEWORD);
    EXPECT(mizbulett_decode(code.number, 2 * top_bit, out), MIZBULETT_WORD_TOO_WIDE);

    /* The highest bit wrong, and the lowest three marked, two of which are wrong too. */
    EXPECT_VALUES(mizbulett_correct(code.number, code.codeword ^ top_bit ^ 3, 7, out), MIZBULETT_CORRECT_VALUES);
    EXPECT(out[MIZBULETT_CORRECT_CODEWORD], code.codeword);
    EXPECT(out[MIZBULETT_CORRECT_MESSAGE], message);
    EXPECT(out[MIZBULETT_CORRECT_WRONG], 1);
    EXPECT(out[MIZBULETT_CORRECT_MARKS], 3);
    EXPECT(out[MIZBULETT_CORRECT_MARKED_WRONG], 2);
    EXPECT(mizbulett_correct(code.number, code.codeword, top_bit, out), MIZBULETT_ACCEPTED);
    EXPECT(mizbulett_correct(code.number, code.codeword, 2 * top_bit, out), MIZBULETT_WORD_TOO_WIDE);
    EXPECT(mizbulett_correct(code.number, 2 * top_bit, 0, out), MIZBULETT_WORD_TOO_WIDE);
    EXPECT(mizbulett_correct(code.number, code.codeword ^ 15, 0, out), MIZBULETT_NONE_NEAR);
}

/* A trace of one slot: the last step, the highest reading and the last position are taken, and not the next ones. */
static void check_slot(struct code code)
{
    const size_t len = MIZBULETT_SIZE(1);

    EXPECT(mizbulett_make(trace, len, code.number, 1), MIZBULETT_ACCEPTED);
    EXPECT(mizbulett_put(trace, len, 0, code.steps - 1, MIZBULETT_OVER), MIZBULETT_ACCEPTED);
    EXPECT(mizbulett_put(trace, len, 0, code.steps, 0), MIZBULETT_TOO_LARGE);
    EXPECT(mizbulett_put(trace, len, 0, 0, MIZBULETT_OVER + 1), MIZBULETT_TOO_LARGE);
    EXPECT(mizbulett_flip(trace, len, 0, code.width - 1), MIZBULETT_ACCEPTED);
    EXPECT(mizbulett_flip(trace, len, 0, code.width), MIZBULETT_NO_POSITION);
    for (uint64_t position = 0; position < 3; position++) {
        EXPECT(mizbulett_mark(trace, len, 0, position), MIZBULETT_ACCEPTED);
    }
    EXPECT(mizbulett_flip(trace, len, 0, 0), MIZBULETT_ACCEPTED);
    EXPECT(mizbulett_flip(trace, len, 0, 2), MIZBULETT_ACCEPTED);

    EXPECT_VALUES(mizbulett_read(trace, len, 0, out), MIZBULETT_READ_VALUES);
    EXPECT(out[MIZBULETT_READ_STEP], code.steps - 1);
    EXPECT(out[MIZBULETT_READ_READING], MIZBULETT_OVER);
    EXPECT(out[MIZBULETT_READ_WRONG], 1);
    EXPECT(out[MIZBULETT_READ_MARKS], 3);
    EXPECT(out[MIZBULETT_READ_MARKED_WRONG], 2);
}

/* A list of puts into the slots of a trace, with as many steps as readings. */
static uint64_t put_list(size_t len, uint64_t start, const uint64_t *steps, const uint64_t *readings, size_t count)
{
    return mizbulett_put_list(trace, len, start, steps, count, readings, count);
}

/* Lists that fill a trace from its second slot on, whose last step and reading are the highest. They leave what single puts leave. A
 * list that is both steps and readings is taken, and an empty one, which leaves everything. */
static void check_put_list(struct code code)
{
    enum { SLOTS = 4, START = 1, LISTED = SLOTS - START };
    const size_t len = MIZBULETT_SIZE(SLOTS);
    const uint64_t steps[LISTED] = {5, 0, code.steps - 1}, readings[LISTED] = {6, 7, MIZBULETT_OVER};
    uint8_t single[MIZBULETT_SIZE(SLOTS)];

    EXPECT(mizbulett_make(trace, len, code.number, SLOTS), MIZBULETT_ACCEPTED);
    for (int i = 0; i < LISTED; i++) {
        EXPECT(mizbulett_put(trace, len, START + i, steps[i], readings[i]), MIZBULETT_ACCEPTED);
    }
    memcpy(single, trace, len);
    EXPECT(mizbulett_make(trace, len, code.number, SLOTS), MIZBULETT_ACCEPTED);
    EXPECT(put_list(len, START, steps, readings, LISTED), MIZBULETT_ACCEPTED);
    EXPECT(put_list(len, SLOTS - 1, steps, readings, 0), MIZBULETT_ACCEPTED);
    EXPECT(memcmp(trace, single, len), 0);

    EXPECT(put_list(len, 0, readings, readings, 2), MIZBULETT_ACCEPTED);
    EXPECT(mizbulett_read(trace, len, 1, out), MIZBULETT_ACCEPTED);
    EXPECT(out[MIZBULETT_READ_STEP], 7);
    EXPECT(out[MIZBULETT_READ_READING], 7);
}

/* What a list of puts refuses, in order: each call but the empty one also meets what is refused behind it. No byte changes. */
static void check_put_list_refused(struct code code)
{
    enum { SLOTS = 2 };
    const size_t len = MIZBULETT_SIZE(SLOTS);
    const uint64_t steps[] = {0, code.steps, 0}, readings[] = {0, MIZBULETT_OVER + 1, 0}, fit[] = {0, 0};
    uint8_t zeros[MIZBULETT_SIZE(0)] = {0}, before[MIZBULETT_SIZE(SLOTS)];

    EXPECT(mizbulett_make(trace, len, code.number, SLOTS), MIZBULETT_ACCEPTED);
    memcpy(before, trace, len);
    EXPECT(mizbulett_put_list(zeros, sizeof zeros - 1, SLOTS, steps, 3, readings, 2), MIZBULETT_BUFFER_SHORT);
    EXPECT(mizbulett_put_list(zeros, sizeof zeros, SLOTS, steps, 3, readings, 2), MIZBULETT_TRAILER_UNFIT);
    EXPECT(mizbulett_put_list(trace, len, SLOTS, steps, 3, readings, 2), MIZBULETT_NO_SLOT);
    EXPECT(mizbulett_put_list(trace, len, UINT64_MAX, steps, 3, readings, 2), MIZBULETT_NO_SLOT);
    EXPECT(mizbulett_put_list(trace, len, SLOTS, steps, 0, readings, 0), MIZBULETT_NO_SLOT);
    EXPECT(mizbulett_put_list(trace, len, 0, steps, 3, readings, 2), MIZBULETT_PAST_END);
    EXPECT(mizbulett_put_list(trace, len, 1, steps, 2, readings, 3), MIZBULETT_PAST_END);
    EXPECT(mizbulett_put_list(trace, len, 0, steps, 2, readings, 3), MIZBULETT_UNEVEN);
    EXPECT(mizbulett_put_list(trace, len, 0, steps, 2, readings, 1), MIZBULETT_UNEVEN);
    EXPECT(mizbulett_put_list(trace, len, 0, steps, 0, readings, 2), MIZBULETT_UNEVEN);
    EXPECT(mizbulett_put_list(trace, len, 0, steps, 2, fit, 2), MIZBULETT_TOO_LARGE);
    EXPECT(mizbulett_put_list(trace, len, 0, fit, 2, readings, 2), MIZBULETT_TOO_LARGE);
    EXPECT(memcmp(trace, before, len), 0);
}

/* Expects the only slot to read step 1 and reading 2, with no wrong bit and as many marks. */
static void expect_whole(size_t len, uint64_t marks)
{
    EXPECT(mizbulett_read(trace, len, 0, out), MIZBULETT_ACCEPTED);
    EXPECT(out[MIZBULETT_READ_STEP], 1);
    EXPECT(out[MIZBULETT_READ_READING], 2);
    EXPECT(out[MIZBULETT_READ_WRONG], 0);
    EXPECT(out[MIZBULETT_READ_MARKS], marks);
    EXPECT(out[MIZBULETT_READ_MARKED_WRONG], 0);
}

/* A load from a wider number: its low 32 bits are the seed, whatever the register holds above them. */
static uint64_t load_cut(size_t len, uint64_t slot, uint64_t count, uint64_t wide_seed)
{
    return mizbulett_load(trace, len, slot, (uint32_t)wide_seed, count, out);
}

/* A load: the flips that undo it, the same load that does, the seed handed back, and the highest count. */
static void check_load(struct code code)
{
    const size_t len = MIZBULETT_SIZE(1);
    /* Called through a pointer, so that the whole number reaches the call. */
    uint64_t (*volatile load)(size_t, uint64_t, uint64_t, uint64_t) = load_cut;

    EXPECT(mizbulett_make(trace, len, code.number, 1), MIZBULETT_ACCEPTED);
    EXPECT(mizbulett_put(trace, len, 0, 1, 2), MIZBULETT_ACCEPTED);
    EXPECT_VALUES(mizbulett_load(trace, len, 0, 1, COUNT, out), MIZBULETT_LOAD_VALUES);
    EXPECT(out[MIZBULETT_LOAD_NUMBER], HANDED_BACK);
    for (int i = 0; i < COUNT; i++) {
        EXPECT(mizbulett_flip(trace, len, 0, code.positions[i]), MIZBULETT_ACCEPTED);
    }
    expect_whole(len, 0);

    EXPECT(mizbulett_mark(trace, len, 0, 3), MIZBULETT_ACCEPTED);
    EXPECT(mizbulett_load(trace, len, 0, UINT32_MAX, code.width, out), MIZBULETT_ACCEPTED);
    EXPECT(mizbulett_load(trace, len, 0, UINT32_MAX, code.width, out), MIZBULETT_ACCEPTED);
    EXPECT_VALUES(mizbulett_load(trace, len, 0, UINT32_MAX, 0, out), MIZBULETT_LOAD_VALUES);
    EXPECT(out[MIZBULETT_LOAD_NUMBER], UINT32_MAX);
    expect_whole(len, 1);

    EXPECT(mizbulett_load(trace, len, 0, 1, COUNT, out), MIZBULETT_ACCEPTED);
    EXPECT_VALUES(load(len, 0, COUNT, UINT64_MAX << 32 | 1), MIZBULETT_LOAD_VALUES);
    EXPECT(out[MIZBULETT_LOAD_NUMBER], HANDED_BACK);
    expect_whole(len, 1);

    erase();
    EXPECT(mizbulett_load(trace, len, 0, 1, code.width + 1, out), MIZBULETT_TOO_MANY);
    EXPECT(mizbulett_load(trace, len, 0, 1, UINT64_C(1) << 32, out), MIZBULETT_TOO_MANY);
    EXPECT(written(), 0);
    expect_whole(len, 1);
}

/* A number that is no code. */
static void check_unknown(uint64_t number)
{
    EXPECT(mizbulett_encode(number, 0, out), MIZBULETT_UNKNOWN_CODE);
    EXPECT(mizbulett_decode(number, 0, out), MIZBULETT_UNKNOWN_CODE);
    EXPECT(mizbulett_correct(number, 0, 0, out), MIZBULETT_UNKNOWN_CODE);
    EXPECT(mizbulett_make(trace, sizeof trace, number, 1), MIZBULETT_UNKNOWN_CODE);
}

/* For each number of slots its size is enough, and one byte less is not. */
static void check_sizes(void)
{
    for (uint64_t slots = 1; slots <= MIZBULETT_MAX_SLOTS; slots++) {
        EXPECT(mizbulett_make(trace, MIZBULETT_SIZE(slots), MIZBULETT_CODE_36_O, slots), MIZBULETT_ACCEPTED);
        EXPECT(mizbulett_make(trace, MIZBULETT_SIZE(slots) - 1, MIZBULETT_CODE_36_O, slots), MIZBULETT_BUFFER_SHORT);
    }
    EXPECT(mizbulett_make(trace, sizeof trace, MIZBULETT_CODE_36_O, 0), MIZBULETT_WRONG_COUNT);
    EXPECT(mizbulett_make(trace, sizeof trace, MIZBULETT_CODE_36_O, MIZBULETT_MAX_SLOTS + 1), MIZBULETT_WRONG_COUNT);
}

/* Puts a reading and inverts four of its bits, one too many to mend. */
static void lose(size_t len, uint64_t slot)
{
    EXPECT(mizbulett_put(trace, len, slot, 0, 0), MIZBULETT_ACCEPTED);
    for (uint64_t position = 0; position < 4; position++) {
        EXPECT(mizbulett_flip(trace, len, slot, position), MIZBULETT_ACCEPTED);
    }
}

/* Makes the bytes of a slot none that any call writes: its first is neither 0 nor 1. */
static void spoil(uint64_t slot)
{
    trace[MIZBULETT_SIZE(slot) - MIZBULETT_SIZE(0)] = 2;
}

/* What a read refuses: no trace, no slot, and a slot that is blank, lost or bad. */
static void check_read(void)
{
    const size_t len = MIZBULETT_SIZE(1);
    uint8_t zeros[MIZBULETT_SIZE(0)] = {0};

    EXPECT(mizbulett_read(zeros, sizeof zeros - 1, 0, out), MIZBULETT_BUFFER_SHORT);
    EXPECT(mizbulett_read(zeros, sizeof zeros, 0, out), MIZBULETT_TRAILER_UNFIT);
    EXPECT(mizbulett_make(trace, len, MIZBULETT_CODE_36_O, 1), MIZBULETT_ACCEPTED);
    EXPECT(mizbulett_read(trace, len, 1, out), MIZBULETT_NO_SLOT);
    EXPECT(mizbulett_read(trace, len, 0, out), MIZBULETT_SLOT_BLANK);
    lose(len, 0);
    EXPECT(mizbulett_read(trace, len, 0, out), MIZBULETT_NONE_NEAR);
    spoil(0);
    EXPECT(mizbulett_read(trace, len, 0, out), MIZBULETT_SLOT_BAD);
    EXPECT(mizbulett_clear(trace, len, 0), MIZBULETT_ACCEPTED);
    EXPECT(mizbulett_read(trace, len, 0, out), MIZBULETT_SLOT_BLANK);
}

/* What a load refuses before a count above the width: no trace, no slot, and a slot that is blank or bad. It writes no value. */
static void check_load_refused(void)
{
    const size_t len = MIZBULETT_SIZE(1);
    uint8_t zeros[MIZBULETT_SIZE(0)] = {0};

    erase();
    EXPECT(mizbulett_load(zeros, sizeof zeros - 1, 1, 1, UINT64_MAX, out), MIZBULETT_BUFFER_SHORT);
    EXPECT(mizbulett_load(zeros, sizeof zeros, 1, 1, UINT64_MAX, out), MIZBULETT_TRAILER_UNFIT);
    EXPECT(mizbulett_make(trace, len, MIZBULETT_CODE_36_O, 1), MIZBULETT_ACCEPTED);
    EXPECT(mizbulett_load(trace, len, 1, 1, UINT64_MAX, out), MIZBULETT_NO_SLOT);
    EXPECT(mizbulett_load(trace, len, 0, 1, UINT64_MAX, out), MIZBULETT_SLOT_BLANK);
    spoil(0);
    EXPECT(mizbulett_load(trace, len, 0, 1, UINT64_MAX, out), MIZBULETT_SLOT_BAD);
    EXPECT(written(), 0);
}

/* A survey whose eleven numbers are all different, after one without a pressure. */
static void check_survey(void)
{
    enum { BLANK = 2, READ = 3, OVER = 4, UNDER = 5, LOST = 6, BAD = 7, SLOTS = BLANK + READ + OVER + UNDER + LOST + BAD };
    static const uint64_t pressures[READ] = {10, 20, MIZBULETT_OVER - 1};
    const size_t len = MIZBULETT_SIZE(SLOTS);
    uint64_t slot = BLANK;

    EXPECT(mizbulett_make(trace, len, MIZBULETT_CODE_36_O, SLOTS), MIZBULETT_ACCEPTED);
    for (int over = 0; over < OVER; over++) {
        EXPECT(mizbulett_put(trace, len, slot++, 0, MIZBULETT_OVER), MIZBULETT_ACCEPTED);
    }
    for (int under = 0; under < UNDER; under++) {
        EXPECT(mizbulett_put(trace, len, slot++, 0, MIZBULETT_UNDER), MIZBULETT_ACCEPTED);
    }
    for (int lost = 0; lost < LOST; lost++) {
        lose(len, slot++);
    }
    for (int bad = 0; bad < BAD; bad++) {
        spoil(slot++);
    }
    EXPECT_VALUES(mizbulett_survey(trace, len, out), MIZBULETT_SURVEY_VALUES);
    EXPECT(out[MIZBULETT_SURVEY_PRESENT], 0);

    for (int read = 0; read < READ; read++) {
        EXPECT(mizbulett_put(trace, len, slot++, 0, pressures[read]), MIZBULETT_ACCEPTED);
    }
    EXPECT_VALUES(mizbulett_survey(trace, len, out), MIZBULETT_SURVEY_VALUES);
    EXPECT(out[MIZBULETT_SURVEY_BLANK], BLANK);
    EXPECT(out[MIZBULETT_SURVEY_READ], READ);
    EXPECT(out[MIZBULETT_SURVEY_OVER], OVER);
    EXPECT(out[MIZBULETT_SURVEY_UNDER], UNDER);
    EXPECT(out[MIZBULETT_SURVEY_LOST], LOST);
    EXPECT(out[MIZBULETT_SURVEY_BAD], BAD);
    EXPECT(out[MIZBULETT_SURVEY_SUM], 4124);
    EXPECT(out[MIZBULETT_SURVEY_PRESENT], 1);
    EXPECT(out[MIZBULETT_SURVEY_SMALLEST], 10);
    EXPECT(out[MIZBULETT_SURVEY_LARGEST], 4094);
    EXPECT(out[MIZBULETT_SURVEY_MEAN], 1374);

    /* The lowest pressure is the reading after MIZBULETT_UNDER. */
    EXPECT(mizbulett_put(trace, len, SLOTS - 1, 0, MIZBULETT_UNDER + 1), MIZBULETT_ACCEPTED);
    EXPECT(mizbulett_survey(trace, len, out), MIZBULETT_ACCEPTED);
    EXPECT(out[MIZBULETT_SURVEY_READ], READ);
    EXPECT(out[MIZBULETT_SURVEY_SMALLEST], MIZBULETT_UNDER + 1);
}

int main(void)
{
    for (size_t i = 0; i < sizeof codes / sizeof codes[0]; i++) {
        check_words(codes[i]);
        check_slot(codes[i]);
        check_put_list(codes[i]);
        check_put_list_refused(codes[i]);
        check_load(codes[i]);
    }
    check_unknown(0);
    check_unknown(5);
    check_sizes();
    check_read();
    check_load_refused();
    check_survey();
    printf("c names ok\n");
    return 0;
}
