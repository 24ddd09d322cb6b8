/* A trace of five slots: pressures and readings that are none, damage by hand and from a seed, mended or not; then a survey. */
#include <inttypes.h>
#include <stdio.h>

#include "mizbulett.h"

enum { SLOTS = 5, SIZE = MIZBULETT_SIZE(SLOTS) };

static void expect_accepted(const char *call, uint64_t number)
{
    if (number != MIZBULETT_ACCEPTED) {
        printf("%s: refused %" PRIu64 "\n", call, number);
    }
}

/* A reading under or over the converter's range is no pressure. */
static int is_pressure(uint64_t reading)
{
    return reading > MIZBULETT_UNDER && reading < MIZBULETT_OVER;
}

static void print_slot(const uint8_t *trace, uint64_t slot)
{
    uint64_t out[MIZBULETT_READ_VALUES];
    uint64_t number = mizbulett_read(trace, SIZE, slot, out);
    if (number != MIZBULETT_ACCEPTED) {
        printf("slot %" PRIu64 ": refused %" PRIu64 "\n", slot, number);
    } else {
        printf("slot %" PRIu64 ": step %" PRIu64 " reading %" PRIu64 ", %" PRIu64 " wrong, %" PRIu64 " marked, %" PRIu64
               " of them wrong%s\n", slot,
               out[MIZBULETT_READ_STEP], out[MIZBULETT_READ_READING], out[MIZBULETT_READ_WRONG], out[MIZBULETT_READ_MARKS],
               out[MIZBULETT_READ_MARKED_WRONG], is_pressure(out[MIZBULETT_READ_READING]) ? "" : ", no pressure");
    }
}

/* Damages a slot as the seed says, and gives the number handed back: the seed of a next load. */
static uint32_t load_slot(uint8_t *trace, uint64_t slot, uint32_t seed, uint64_t count)
{
    uint64_t out[MIZBULETT_LOAD_VALUES] = {0};
    expect_accepted("load", mizbulett_load(trace, SIZE, slot, seed, count, out));
    printf("load %" PRIu64 " %" PRIu32 " %" PRIu64 ": handed back %" PRIu64 "\n", slot, seed, count, out[MIZBULETT_LOAD_NUMBER]);
    return (uint32_t)out[MIZBULETT_LOAD_NUMBER];
}

int main(void)
{
    uint8_t trace[SIZE];
    uint64_t out[MIZBULETT_SURVEY_VALUES];

    expect_accepted("make", mizbulett_make(trace, SIZE, MIZBULETT_CODE_36_O, SLOTS));

    /* Slots 0 to 2 from lists, as a pump sends them, and slot 3 by itself. */
    const uint64_t steps[] = {74, 75, 76}, readings[] = {2385, MIZBULETT_OVER, 2401};
    expect_accepted("put_list", mizbulett_put_list(trace, SIZE, 0, steps, 3, readings, 3));
    expect_accepted("put", mizbulett_put(trace, SIZE, 3, 77, MIZBULETT_UNDER));

    /* Slot 0: two wrong bits and three marks, one of them on a wrong bit: 2 * 1 + 3 is at most 7, and it is mended. */
    expect_accepted("flip", mizbulett_flip(trace, SIZE, 0, 3));
    expect_accepted("flip", mizbulett_flip(trace, SIZE, 0, 35));
    expect_accepted("mark", mizbulett_mark(trace, SIZE, 0, 35));
    expect_accepted("mark", mizbulett_mark(trace, SIZE, 0, 20));
    expect_accepted("mark", mizbulett_mark(trace, SIZE, 0, 21));

    /* Slot 2: four wrong bits, one too many. */
    for (uint64_t position = 0; position < 4; position++) {
        expect_accepted("flip", mizbulett_flip(trace, SIZE, 2, 9 * position));
    }

    /* Slots 1 and 3: as many wrong bits as are mended, the same ones wherever these loads are made. */
    uint32_t next = load_slot(trace, 1, 1, 3);
    load_slot(trace, 3, next, 3);

    /* A step that the code has no room for, lists past the end, and more bits than a word has: refused, and nothing changes. */
    printf("put 4 128 900: refused %" PRIu64 "\n", mizbulett_put(trace, SIZE, 4, 128, 900));
    printf("puts 3 74,75,76 2385,4095,2401: refused %" PRIu64 "\n", mizbulett_put_list(trace, SIZE, 3, steps, 3, readings, 3));
    printf("load 0 1 37: refused %" PRIu64 "\n", mizbulett_load(trace, SIZE, 0, 1, 37, out));

    for (uint64_t slot = 0; slot < SLOTS; slot++) {
        print_slot(trace, slot);
    }
    expect_accepted("survey", mizbulett_survey(trace, SIZE, out));
    printf("blank %" PRIu64 " read %" PRIu64 " over %" PRIu64 " under %" PRIu64 " lost %" PRIu64 " bad %" PRIu64 "\n",
           out[MIZBULETT_SURVEY_BLANK], out[MIZBULETT_SURVEY_READ], out[MIZBULETT_SURVEY_OVER], out[MIZBULETT_SURVEY_UNDER],
           out[MIZBULETT_SURVEY_LOST], out[MIZBULETT_SURVEY_BAD]);
    if (out[MIZBULETT_SURVEY_PRESENT] == 1) {
        printf("pressures from %" PRIu64 " to %" PRIu64 ", mean %" PRIu64 "\n", out[MIZBULETT_SURVEY_SMALLEST],
               out[MIZBULETT_SURVEY_LARGEST], out[MIZBULETT_SURVEY_MEAN]);
    } else {
        printf("no pressure\n");
    }
    return 0;
}
