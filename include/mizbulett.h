/*
 * Mizbulett: traces of an infusion pump's line pressure, kept in a buffer that the caller lends.
 *
 * A trace has N slots. A slot is blank, or holds one reading with its step, as a codeword of 36 or 40 bits in which up to
 * three wrong bits, or up to seven bits that are known to be doubtful (marked), are mended: a read gives what was last
 * put while 2 * wrong + marks is at most 7, and refuses at 8. docs/FORMAT.md has the codes, the bytes and the refusals.
 *
 * What mending can't tell. Beyond 8 a read refuses, or gives the reading of another codeword to which the damage came near.
 * Of the 376,992 sets of five wrong bits in a word of 36 bits, 24,864 bring it that near (6.6 %); at 40 bits 58,968 of
 * 658,008 do (9.0 %). The word is then as near to the other codeword as three wrong bits would bring it, so whoever mends
 * three wrong bits can't tell the two apart. With marks fewer wrong bits do: with seven marks on other bits one can be
 * enough, and a read then gives wrong 0 and marked_wrong 7. Many reads in which 2 * wrong + marks is 6 or 7, as with three
 * wrong bits, or many lost ones, are a warning: such a trace is one to look at before any limit is set from it.
 *
 * A reading of 0 (MIZBULETT_UNDER) is under the converter's range, as when the sensor's plug is out; at 4095 (MIZBULETT_OVER)
 * the converter tops out. Neither is a pressure, and a survey counts neither as one. A read gives them like any other reading.
 *
 * Every function returns 0 where the call is accepted, and else one number, below. A refused call writes nothing: neither
 * the buffer nor `out`. Any numbers and any bytes may be passed; the smallest number that applies is returned, but 5 on a
 * read and 13 on a list of puts come after all others.
 *
 * Every function is proved to return exactly what its definition says, for every input, under these duties of the caller,
 * which no proof covers:
 *   - `buf`, `out`, `steps` and `readings` are not NULL, not even where they are empty;
 *   - `buf` has `len` bytes, `out` has as many numbers as its declaration says, `steps` has `step_count` and `readings` has
 *     `reading_count`, and none of them has more than PTRDIFF_MAX bytes;
 *   - `out`, `steps` and `readings` do not overlap `buf` and are aligned for uint64_t; `steps` and `readings` may be the
 *     same list, or overlap each other;
 *   - nobody else writes `buf` or `out`, nor reads what is written, nor writes `steps` or `readings`, while the call runs.
 * Nothing is kept between calls. Calls on different buffers may run at the same time.
 *
 * Figures of the archive that `rt lib --cpu=x86-64` writes in crates/mizbulett, with rattle-kit-13f:
 *   machine   x86-64 with the System V calling convention (ELF); position independent; SSE registers and the red zone are used.
 *             Without --cpu it is written for x86-64-v2, and needs SSE4.1 and POPCNT
 *   size      19.5 kB, of which 12.2 kB are code and constants (ls, size)
 *   memory    no heap, and no data that is written: .data and .bss have 0 bytes (size, nm)
 *   symbols   the twelve functions below are defined, and memset is needed (nm -g)
 *   stack     600 bytes at most, beside what memset takes: of a painted stack no call used more, on traces of 4,000 damaged
 *             slots. The most is a survey's, with mending below it. No function calls itself
 * They are measured, not proved: no theorem bounds the stack. And nothing but the tests (examples/run, bench/run) holds this
 * header, mizbulett.rs and examples/trace.py to the source: link what was built from one commit.
 */
#ifndef MIZBULETT_H
#define MIZBULETT_H

#include <stddef.h>
#include <stdint.h>

/* Raised whenever a call is added, or a call's numbers or values change; docs/CHANGES.md says which. Neither the linker nor a call compares it: a caller
 * that was compiled with another version's header, or declares the calls by hand, as from Python, may lend too short an `out`,
 * which is then overrun, and take one value for another. Compile every caller anew. */
#define MIZBULETT_VERSION 5

/* The most slots that a trace has, and the bytes of a trace of n slots: what a buffer needs at least. */
#define MIZBULETT_MAX_SLOTS 4000
#define MIZBULETT_SIZE(n) (UINT64_C(11) * (n) + 8)

/* The readings under and over the converter's range. Pressures are the readings above the one and below the other: 1 to 4094. */
#define MIZBULETT_UNDER 0
#define MIZBULETT_OVER 4095

#ifdef __cplusplus
extern "C" {
#endif

/* What is returned. */
enum {
    MIZBULETT_ACCEPTED = 0,
    MIZBULETT_UNKNOWN_CODE = 1,      /* the code is not 1 to 4 */
    MIZBULETT_MESSAGE_TOO_LARGE = 2, /* the message has more than 19 bits (codes 1, 2) or 22 bits (codes 3, 4) */
    MIZBULETT_WORD_TOO_WIDE = 3,     /* the word or the marks have a bit above the width: 36 (codes 1, 2) or 40 (codes 3, 4) */
    MIZBULETT_NOT_A_CODEWORD = 4,    /* strict reading only */
    MIZBULETT_NONE_NEAR = 5,         /* no codeword is near: too much is damaged to mend */
    MIZBULETT_WRONG_COUNT = 6,       /* the number of slots is not 1 to MIZBULETT_MAX_SLOTS */
    MIZBULETT_BUFFER_SHORT = 7,      /* under 8 bytes; for make: under MIZBULETT_SIZE(slots) */
    MIZBULETT_TRAILER_UNFIT = 8,     /* the buffer's last 8 bytes are no trailer of a trace that fits the buffer */
    MIZBULETT_NO_SLOT = 9,           /* the slot is not below the number of slots */
    MIZBULETT_SLOT_BAD = 10,         /* the slot's bytes are none that any call writes */
    MIZBULETT_SLOT_BLANK = 11,       /* the slot is blank */
    MIZBULETT_NO_POSITION = 12,      /* the position is not below the width */
    MIZBULETT_TOO_LARGE = 13,        /* a step is not below 128 (codes 1, 2) or 1024 (codes 3, 4), or a reading is above 4095 */
    MIZBULETT_TOO_MANY = 14,         /* the count of a load is above the width */
    MIZBULETT_PAST_END = 15,         /* the start of a list of puts plus the number of steps is above the number of slots */
    MIZBULETT_UNEVEN = 16            /* the lists of steps and readings differ in length */
};

/* The codes, by the bits of a word and the rule for the top row, O or E. */
enum {
    MIZBULETT_CODE_36_O = 1,
    MIZBULETT_CODE_36_E = 2,
    MIZBULETT_CODE_40_O = 3,
    MIZBULETT_CODE_40_E = 4
};

/*
 * Words. A word is a number of 36 bits (codes 1, 2) or 40 bits (codes 3, 4). Position 0 is its highest bit. Marks are a
 * word whose ones are the doubtful positions. A message is step * 4096 + reading.
 */

/* The places in each call's `out`, and how many there are. */
enum { MIZBULETT_ENCODE_WORD = 0, MIZBULETT_ENCODE_VALUES = 1 };

enum { MIZBULETT_DECODE_MESSAGE = 0, MIZBULETT_DECODE_VALUES = 1 };

enum {
    MIZBULETT_CORRECT_CODEWORD = 0,
    MIZBULETT_CORRECT_MESSAGE = 1,
    MIZBULETT_CORRECT_WRONG = 2,        /* the positions that differ from the codeword and are not marked */
    MIZBULETT_CORRECT_MARKS = 3,        /* the marked positions */
    MIZBULETT_CORRECT_MARKED_WRONG = 4, /* the marked positions that differ from the codeword */
    MIZBULETT_CORRECT_VALUES = 5
};

/* The codeword of a message. Refusals 1, 2. */
uint64_t mizbulett_encode(uint64_t code, uint64_t message, uint64_t out[MIZBULETT_ENCODE_VALUES]);

/* The message of a codeword, and of no other word. Refusals 1, 3, 4. */
uint64_t mizbulett_decode(uint64_t code, uint64_t word, uint64_t out[MIZBULETT_DECODE_VALUES]);

/* The only codeword with 2 * wrong + marks at most 7, where wrong counts the positions that differ and are not marked. What
 * stands at a marked position doesn't change this sum. Refusals 1, 3, 5. */
uint64_t mizbulett_correct(uint64_t code, uint64_t word, uint64_t marks, uint64_t out[MIZBULETT_CORRECT_VALUES]);

/*
 * Traces. A trace lies at the buffer's end: slots of 11 bytes, then a trailer of 8. The bytes before it are the caller's,
 * and no call changes them. Slots are numbered from 0.
 *
 * The trailer says what the trace is: buf[len - 4] * 256 + buf[len - 3] is its number of slots, buf[len - 2] its code, and
 * buf[len - 1] the edition of the layout, 1. Rely on them where a survey of the buffer is not refused.
 */

enum {
    MIZBULETT_LOAD_NUMBER = 0, /* the number handed back: below 2 to the power 32, and fit to be the next load's seed */
    MIZBULETT_LOAD_VALUES = 1
};

enum {
    MIZBULETT_READ_STEP = 0,
    MIZBULETT_READ_READING = 1,      /* a pressure where it is above MIZBULETT_UNDER and below MIZBULETT_OVER, and only there */
    MIZBULETT_READ_WRONG = 2,        /* the positions that differ from the codeword and are not marked */
    MIZBULETT_READ_MARKS = 3,        /* the marked positions */
    MIZBULETT_READ_MARKED_WRONG = 4, /* the marked positions that differ from the codeword: that of the reading given */
    MIZBULETT_READ_VALUES = 5
};

enum {
    MIZBULETT_SURVEY_BLANK = 0,
    MIZBULETT_SURVEY_READ = 1,     /* slots with a pressure: a reading of 1 to 4094 */
    MIZBULETT_SURVEY_OVER = 2,     /* slots with a reading of MIZBULETT_OVER */
    MIZBULETT_SURVEY_UNDER = 3,    /* slots with a reading of MIZBULETT_UNDER */
    MIZBULETT_SURVEY_LOST = 4,     /* slots whose read is refused MIZBULETT_NONE_NEAR */
    MIZBULETT_SURVEY_BAD = 5,      /* slots whose read is refused MIZBULETT_SLOT_BAD */
    MIZBULETT_SURVEY_SUM = 6,      /* of the pressures */
    MIZBULETT_SURVEY_PRESENT = 7,  /* 1 where there is a pressure, else 0 */
    MIZBULETT_SURVEY_SMALLEST = 8, /* this and the next two are 0, and no pressures, where MIZBULETT_SURVEY_PRESENT is 0 */
    MIZBULETT_SURVEY_LARGEST = 9,
    MIZBULETT_SURVEY_MEAN = 10,    /* rounded down */
    MIZBULETT_SURVEY_VALUES = 11
};

/* Makes a trace of blank slots at the end of buf. Refusals 1, 6, 7. */
uint64_t mizbulett_make(uint8_t *buf, size_t len, uint64_t code, uint64_t slots);

/* Writes a step and a reading into a slot, whatever it held, with no marks. Refusals 7, 8, 9, 13. */
uint64_t mizbulett_put(uint8_t *buf, size_t len, uint64_t slot, uint64_t step, uint64_t reading);

/* A list of puts, all or nothing: writes steps and readings in order into the slots from `start` on, as the single puts would.
 * Nothing is written before every number of both lists has passed. Empty lists are accepted if the slot `start` exists.
 * Refusals 7, 8, 9, 15, 16, 13, in this order: 9 is of `start`, 13 of any step or reading. */
uint64_t mizbulett_put_list(uint8_t *buf, size_t len, uint64_t start, const uint64_t *steps, size_t step_count,
                            const uint64_t *readings, size_t reading_count);

/* Inverts one stored bit of a slot. Refusals 7 to 12. */
uint64_t mizbulett_flip(uint8_t *buf, size_t len, uint64_t slot, uint64_t position);

/* Marks one stored bit of a slot as doubtful; a second mark changes nothing. Refusals 7 to 12. */
uint64_t mizbulett_mark(uint8_t *buf, size_t len, uint64_t slot, uint64_t position);

/* A fault load, which can be repeated: inverts `count` different stored bits of a slot, drawn from `seed` by the generator of
 * docs/FORMAT.md, and hands back the generator's number, which may be the next load's seed. Marks stay. The same seed and count
 * invert the same positions in any slot of a width, so the same load again undoes it. A count of 0 inverts nothing and hands the
 * seed back. Every seed is fit; C cuts a wider number to 32 bits before the call. Refusals 7 to 11, as a flip's, then 14. */
uint64_t mizbulett_load(uint8_t *buf, size_t len, uint64_t slot, uint32_t seed, uint64_t count, uint64_t out[MIZBULETT_LOAD_VALUES]);

/* Blanks a slot, whatever it held. Refusals 7, 8, 9. */
uint64_t mizbulett_clear(uint8_t *buf, size_t len, uint64_t slot);

/* Mends a slot; the buffer stays as it is. Refusals 7 to 11, then 5. */
uint64_t mizbulett_read(const uint8_t *buf, size_t len, uint64_t slot, uint64_t out[MIZBULETT_READ_VALUES]);

/* Counts the slots by what a read of each gives, and sums up the pressures: the readings 1 to 4094 alone. Refusals 7, 8. */
uint64_t mizbulett_survey(const uint8_t *buf, size_t len, uint64_t out[MIZBULETT_SURVEY_VALUES]);

#ifdef __cplusplus
}
#endif

#endif
