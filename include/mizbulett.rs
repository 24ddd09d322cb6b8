//! The library's C interface for Rust, without `unsafe` for the caller. `mizbulett.h` documents every call, number and value.
//! A refused call answers its number and changes nothing.
#![allow(dead_code)]

/// The most slots that a trace has.
pub const MAX_SLOTS: u64 = 4000;

/// The bytes of a trace of n slots: what a buffer needs at least.
pub const fn size(n: u64) -> usize {
    11 * n as usize + 8
}

/// The readings under and over the converter's range. Pressures are the readings above the one and below the other: 1 to 4094.
pub const UNDER: u64 = 0;
pub const OVER: u64 = 4095;

// What a refused call answers.
pub const UNKNOWN_CODE: u64 = 1;
pub const MESSAGE_TOO_LARGE: u64 = 2;
pub const WORD_TOO_WIDE: u64 = 3;
pub const NOT_A_CODEWORD: u64 = 4;
pub const NONE_NEAR: u64 = 5;
pub const WRONG_COUNT: u64 = 6;
pub const BUFFER_SHORT: u64 = 7;
pub const TRAILER_UNFIT: u64 = 8;
pub const NO_SLOT: u64 = 9;
pub const SLOT_BAD: u64 = 10;
pub const SLOT_BLANK: u64 = 11;
pub const NO_POSITION: u64 = 12;
pub const TOO_LARGE: u64 = 13;
pub const TOO_MANY: u64 = 14;
pub const PAST_END: u64 = 15;
pub const UNEVEN: u64 = 16;

// The codes, by the bits of a word and the rule for the top row.
pub const CODE_36_O: u64 = 1;
pub const CODE_36_E: u64 = 2;
pub const CODE_40_O: u64 = 3;
pub const CODE_40_E: u64 = 4;

// The places in each call's values, and how many there are.
pub const ENCODE_WORD: usize = 0;
pub const ENCODE_VALUES: usize = 1;

pub const DECODE_MESSAGE: usize = 0;
pub const DECODE_VALUES: usize = 1;

pub const CORRECT_CODEWORD: usize = 0;
pub const CORRECT_MESSAGE: usize = 1;
pub const CORRECT_WRONG: usize = 2;
pub const CORRECT_MARKS: usize = 3;
pub const CORRECT_MARKED_WRONG: usize = 4;
pub const CORRECT_VALUES: usize = 5;

pub const LOAD_NUMBER: usize = 0;
pub const LOAD_VALUES: usize = 1;

pub const READ_STEP: usize = 0;
pub const READ_READING: usize = 1;
pub const READ_WRONG: usize = 2;
pub const READ_MARKS: usize = 3;
pub const READ_MARKED_WRONG: usize = 4;
pub const READ_VALUES: usize = 5;

pub const SURVEY_BLANK: usize = 0;
pub const SURVEY_READ: usize = 1;
pub const SURVEY_OVER: usize = 2;
pub const SURVEY_UNDER: usize = 3;
pub const SURVEY_LOST: usize = 4;
pub const SURVEY_BAD: usize = 5;
pub const SURVEY_SUM: usize = 6;
pub const SURVEY_PRESENT: usize = 7;
pub const SURVEY_SMALLEST: usize = 8;
pub const SURVEY_LARGEST: usize = 9;
pub const SURVEY_MEAN: usize = 10;
pub const SURVEY_VALUES: usize = 11;

mod c {
    use super::{CORRECT_VALUES, DECODE_VALUES, ENCODE_VALUES, LOAD_VALUES, READ_VALUES, SURVEY_VALUES};

    extern "C" {
        pub fn mizbulett_encode(code: u64, message: u64, out: *mut [u64; ENCODE_VALUES]) -> u64;
        pub fn mizbulett_decode(code: u64, word: u64, out: *mut [u64; DECODE_VALUES]) -> u64;
        pub fn mizbulett_correct(code: u64, word: u64, marks: u64, out: *mut [u64; CORRECT_VALUES]) -> u64;
        pub fn mizbulett_make(buf: *mut u8, len: usize, code: u64, slots: u64) -> u64;
        pub fn mizbulett_put(buf: *mut u8, len: usize, slot: u64, step: u64, reading: u64) -> u64;
        pub fn mizbulett_put_list(
            buf: *mut u8,
            len: usize,
            start: u64,
            steps: *const u64,
            step_count: usize,
            readings: *const u64,
            reading_count: usize,
        ) -> u64;
        pub fn mizbulett_flip(buf: *mut u8, len: usize, slot: u64, position: u64) -> u64;
        pub fn mizbulett_mark(buf: *mut u8, len: usize, slot: u64, position: u64) -> u64;
        pub fn mizbulett_load(buf: *mut u8, len: usize, slot: u64, seed: u32, count: u64, out: *mut [u64; LOAD_VALUES]) -> u64;
        pub fn mizbulett_clear(buf: *mut u8, len: usize, slot: u64) -> u64;
        pub fn mizbulett_read(buf: *const u8, len: usize, slot: u64, out: *mut [u64; READ_VALUES]) -> u64;
        pub fn mizbulett_survey(buf: *const u8, len: usize, out: *mut [u64; SURVEY_VALUES]) -> u64;
    }
}

fn accepted<T>(number: u64, value: T) -> Result<T, u64> {
    if number == 0 { Ok(value) } else { Err(number) }
}

fn answer<const N: usize>(call: impl FnOnce(*mut [u64; N]) -> u64) -> Result<[u64; N], u64> {
    let mut out = [0; N];
    let number = call(&mut out);
    accepted(number, out)
}

/// The codeword of a message.
pub fn encode(code: u64, message: u64) -> Result<u64, u64> {
    answer(|out| unsafe { c::mizbulett_encode(code, message, out) }).map(|out| out[ENCODE_WORD])
}

/// The message of a codeword.
pub fn decode(code: u64, word: u64) -> Result<u64, u64> {
    answer(|out| unsafe { c::mizbulett_decode(code, word, out) }).map(|out| out[DECODE_MESSAGE])
}

/// The near codeword, its message, wrong, marks and marked wrong.
pub fn correct(code: u64, word: u64, marks: u64) -> Result<[u64; CORRECT_VALUES], u64> {
    answer(|out| unsafe { c::mizbulett_correct(code, word, marks, out) })
}

pub fn make(buf: &mut [u8], code: u64, slots: u64) -> Result<(), u64> {
    accepted(unsafe { c::mizbulett_make(buf.as_mut_ptr(), buf.len(), code, slots) }, ())
}

pub fn put(buf: &mut [u8], slot: u64, step: u64, reading: u64) -> Result<(), u64> {
    accepted(unsafe { c::mizbulett_put(buf.as_mut_ptr(), buf.len(), slot, step, reading) }, ())
}

/// All of them, or none.
pub fn put_list(buf: &mut [u8], start: u64, steps: &[u64], readings: &[u64]) -> Result<(), u64> {
    let number = unsafe {
        c::mizbulett_put_list(buf.as_mut_ptr(), buf.len(), start, steps.as_ptr(), steps.len(), readings.as_ptr(), readings.len())
    };
    accepted(number, ())
}

pub fn flip(buf: &mut [u8], slot: u64, position: u64) -> Result<(), u64> {
    accepted(unsafe { c::mizbulett_flip(buf.as_mut_ptr(), buf.len(), slot, position) }, ())
}

pub fn mark(buf: &mut [u8], slot: u64, position: u64) -> Result<(), u64> {
    accepted(unsafe { c::mizbulett_mark(buf.as_mut_ptr(), buf.len(), slot, position) }, ())
}

/// The number handed back, which may be the next load's seed.
pub fn load(buf: &mut [u8], slot: u64, seed: u32, count: u64) -> Result<u32, u64> {
    let out = answer(|out| unsafe { c::mizbulett_load(buf.as_mut_ptr(), buf.len(), slot, seed, count, out) })?;
    Ok(u32::try_from(out[LOAD_NUMBER]).expect("a number of 32 bits"))
}

pub fn clear(buf: &mut [u8], slot: u64) -> Result<(), u64> {
    accepted(unsafe { c::mizbulett_clear(buf.as_mut_ptr(), buf.len(), slot) }, ())
}

/// Step, reading, wrong, marks and marked wrong.
pub fn read(buf: &[u8], slot: u64) -> Result<[u64; READ_VALUES], u64> {
    answer(|out| unsafe { c::mizbulett_read(buf.as_ptr(), buf.len(), slot, out) })
}

/// Smallest, largest and mean of the readings 1 to 4094.
#[derive(Clone, Copy, Debug, PartialEq)]
pub struct Pressures {
    pub smallest: u64,
    pub largest: u64,
    pub mean: u64,
}

/// How many slots a read gives what for, the sum of the readings 1 to 4094, and what is known of them where there is one.
#[derive(Clone, Copy, Debug, PartialEq)]
pub struct Survey {
    pub blank: u64,
    pub read: u64,
    pub over: u64,
    pub under: u64,
    pub lost: u64,
    pub bad: u64,
    pub sum: u64,
    pub pressures: Option<Pressures>,
}

pub fn survey(buf: &[u8]) -> Result<Survey, u64> {
    let out = answer(|out| unsafe { c::mizbulett_survey(buf.as_ptr(), buf.len(), out) })?;
    let pressures = Pressures { smallest: out[SURVEY_SMALLEST], largest: out[SURVEY_LARGEST], mean: out[SURVEY_MEAN] };
    Ok(Survey {
        blank: out[SURVEY_BLANK],
        read: out[SURVEY_READ],
        over: out[SURVEY_OVER],
        under: out[SURVEY_UNDER],
        lost: out[SURVEY_LOST],
        bad: out[SURVEY_BAD],
        sum: out[SURVEY_SUM],
        pressures: (out[SURVEY_PRESENT] == 1).then_some(pressures),
    })
}
