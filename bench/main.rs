//! Compares the library with a second implementation in plain Rust, then measures both in one process. It stops at the first difference.

mod codes;
#[path = "../include/mizbulett.rs"]
mod library;
mod trace;

use codes::{Code, Correction, Mend, CODES};
use std::array::from_fn;
use std::collections::BTreeMap;
use std::env::consts::{ARCH, OS};
use std::iter::once;
use trace::{Answer, Call, Trace, SLOT};

/// The decoders of the second implementation: the plain one, and the one with byte tables.
const DECODERS: [(&str, Mend); 2] = [("plain", Code::mend_plain), ("bytes", Code::mend_bytes)];

/// How a codeword is damaged.
#[derive(Clone, Copy)]
enum Damage {
    /// So many wrong bits.
    Errors(u64),
    /// 1 to 7 marks, and any number of wrong bits that may then be mended.
    Marks,
    /// Any word in its place.
    Random,
}

/// The classes of words: name, damage, and how many of 100 words of the mix have it.
const CLASSES: [(&str, Damage, u64); 7] = [
    ("clean", Damage::Errors(0), 40),
    ("1 error", Damage::Errors(1), 10),
    ("2 errors", Damage::Errors(2), 10),
    ("3 errors", Damage::Errors(3), 10),
    ("marks", Damage::Marks, 20),
    ("4 errors", Damage::Errors(4), 5),
    ("random", Damage::Random, 5),
];

/// A fixed generator (SplitMix64).
struct Random(u64);

impl Random {
    fn next(&mut self) -> u64 {
        self.0 = self.0.wrapping_add(0x9E37_79B9_7F4A_7C15);
        let z = (self.0 ^ self.0 >> 30).wrapping_mul(0xBF58_476D_1CE4_E5B9);
        let z = (z ^ z >> 27).wrapping_mul(0x94D0_49BB_1331_11EB);
        z ^ z >> 31
    }

    fn below(&mut self, n: u64) -> u64 {
        self.next() % n
    }

    /// A reading, or one time in three one at either end of the range or beyond it.
    fn reading(&mut self) -> u64 {
        match self.below(15) {
            0 => 0,
            1 => 1,
            2 => 4094,
            3 => 4095,
            4 => 4096,
            _ => self.below(4096),
        }
    }

    /// A step, or one time in four one at either end of the range or beyond it, up to 64 bits.
    fn step(&mut self, steps: u64) -> u64 {
        match self.below(20) {
            0 => 0,
            1 => 1,
            2 => steps - 1,
            3 => steps,
            4 => self.next(),
            _ => self.below(steps),
        }
    }

    /// A list of puts. Of ten, one starts so near 2 to the power 64 that start and steps could wrap, one goes to the last slot or past it, and one
    /// has no steps; one time in eight the lists may differ in length.
    fn put_list(&mut self, code: &Code, slots: u64) -> Call {
        let (start, steps) = match self.below(10) {
            0 => (u64::MAX - self.below(3), self.below(5)),
            1 => (self.below(slots + 1), slots + self.below(2)),
            2 => (self.below(slots + 1), 0),
            _ => {
                let start = self.below(slots);
                (start, 1 + self.below(slots - start))
            }
        };
        let readings = if self.below(8) == 0 { self.below(slots + 2) } else { steps };
        Call::PutList {
            start,
            steps: (0..steps).map(|_| self.step(code.steps())).collect(),
            readings: (0..readings).map(|_| self.reading()).collect(),
        }
    }

    /// A seed: what the last load handed back, one at either end, a power of 2, or any.
    fn seed(&mut self, handed_back: u32) -> u32 {
        match self.below(8) {
            0..3 => handed_back,
            3 => 0,
            4 => u32::MAX,
            5 => 1 << self.below(32),
            _ => self.next() as u32,
        }
    }

    /// A load's count: 1 to 4, or one time in two 0, any below the width, the width, one more, 1 to 4 with a high bit, or nearly 2 to the power 64.
    fn count(&mut self, width: u64) -> u64 {
        let few = 1 + self.below(4);
        match self.below(12) {
            0 => 0,
            1 => self.below(width),
            2 => width,
            3 => width + 1,
            4 => few | 1 << (6 + self.below(58)),
            5 => u64::MAX - self.below(2),
            _ => few,
        }
    }

    /// A slot's bytes that no call writes: another state, a blank slot that is not all zero, or at 36 bits an unused bit of word or marks.
    fn bad_slot(&mut self, code: &Code) -> [u8; SLOT] {
        let mut bytes = [0; SLOT].map(|_: u8| self.next() as u8);
        let kinds = if code.width() == 36 { 3 } else { 2 };
        match self.below(kinds) {
            0 => bytes[0] |= 2,
            1 => {
                bytes[0] = 0;
                bytes[1 + self.below(10) as usize] |= 1 << self.below(8);
            }
            _ => {
                bytes[0] = 1;
                bytes[1 + 5 * self.below(2) as usize] |= 16 << self.below(4);
            }
        }
        bytes
    }

    /// A word with `count` ones outside `taken`.
    fn bits(&mut self, width: u32, count: u64, taken: u64) -> u64 {
        let mut bits = 0u64;
        while (bits.count_ones() as u64) < count {
            bits |= 1 << self.below(width as u64) & !taken;
        }
        bits
    }

    fn message(&mut self, code: &Code) -> u64 {
        self.below(1 << code.message_bits())
    }

    /// A damaged codeword, with marks.
    fn damaged(&mut self, code: &Code, damage: Damage) -> (u64, u64) {
        let width = code.width();
        let codeword = code.encode(self.message(code));
        match damage {
            Damage::Errors(count) => (codeword ^ self.bits(width, count, 0), 0),
            Damage::Marks => {
                let count = 1 + self.below(7);
                let marks = self.bits(width, count, 0);
                let wrong = self.below((7 - count) / 2 + 1);
                (codeword ^ self.bits(width, wrong, marks) ^ self.next() & marks, marks)
            }
            Damage::Random => (self.below(1 << width), 0),
        }
    }

    /// A word of the mix.
    fn mixed(&mut self, code: &Code) -> (u64, u64) {
        let mut k = self.below(100);
        for (_, damage, share) in CLASSES {
            if k < share {
                return self.damaged(code, damage);
            }
            k -= share;
        }
        unreachable!("the shares of the classes are 100 in all")
    }

    /// A word of the mix, or one time in four one under 1 to 8 marks more, so that wrong bits and marks may be too many.
    fn marked(&mut self, code: &Code) -> (u64, u64) {
        let (word, marks) = self.mixed(code);
        let more = if self.below(4) == 0 { 1 + self.below(8) } else { 0 };
        (word, marks | self.bits(code.width(), more, marks))
    }
}

fn expect<T: PartialEq + std::fmt::Debug>(what: &str, library: T, plain: T) {
    if library != plain {
        eprintln!("{what}: the library answers {library:?}, the second implementation {plain:?}");
        std::process::exit(1);
    }
}

/// What the library and both decoders give for a word under marks.
fn compare_mending(code: &Code, word: u64, marks: u64) -> Option<Correction> {
    let corrected = library::correct(code.number, word, marks);
    let wide = (word | marks) >> code.width() != 0;
    for (decoder, mend) in DECODERS {
        let mended = if wide { Err(3) } else { mend(code, word, marks).ok_or(5) };
        expect(&format!("code {} mends {word:X} under {marks:X} ({decoder})", code.number), corrected, mended);
    }
    corrected.ok()
}

/// Every answer of the word calls on many words, fit and unfit.
fn compare_words(code: &Code, random: &mut Random, count: u64) {
    let number = code.number;
    for _ in 0..count {
        let message = random.below(1 << (code.message_bits() + 1));
        let fit = message < 1 << code.message_bits();
        let written = if fit { Ok(code.encode(message)) } else { Err(2) };
        expect(&format!("code {number} writes {message}"), library::encode(number, message), written);
        let (word, marks) = random.marked(code);
        let (word, marks) = match random.below(50) {
            0 => (word | 1 << code.width(), marks),
            1 => (word, marks | 1 << code.width()),
            2 => (word, random.below(1 << code.width())),
            _ => (word, marks),
        };
        let read = if word >> code.width() != 0 { Err(3) } else { code.decode(word).ok_or(4) };
        expect(&format!("code {number} reads {word:X}"), library::decode(number, word), read);
        compare_mending(code, word, marks);
    }
}

/// Library and decoders against a search through all codewords, so that nothing rests on a projection alone.
fn compare_search(code: &Code, random: &mut Random) {
    let codewords: Vec<u64> = (0..1 << code.message_bits()).map(|m| code.encode(m)).collect();
    for _ in 0..200 {
        let (word, marks) = random.marked(code);
        let corrected = compare_mending(code, word, marks);
        expect(&format!("code {}, search for {word:X} under {marks:X}", code.number), corrected, code.search(&codewords, word, marks));
    }
}

fn random_call(random: &mut Random, code: &Code, slots: u64, handed_back: u32) -> Call {
    let slot = random.below(slots + 1);
    let position = random.below(code.width() as u64 + 1);
    match random.below(16) {
        0 | 1 => Call::Put { slot, step: random.step(code.steps()), reading: random.reading() },
        2..=5 => Call::Flip { slot, position },
        6 | 7 => Call::Mark { slot, position },
        8 if random.below(3) == 0 => Call::Clear { slot },
        9 => Call::Survey,
        10 | 11 => Call::Load { slot, seed: random.seed(handed_back), count: random.count(code.width() as u64) },
        12 | 13 => random.put_list(code, slots),
        _ => Call::Read { slot },
    }
}

fn run(b: &mut [u8], call: &Call) -> Answer {
    match *call {
        Call::Put { slot, step, reading } => library::put(b, slot, step, reading).map(|_| vec![]),
        Call::PutList { start, ref steps, ref readings } => library::put_list(b, start, steps, readings).map(|_| vec![]),
        Call::Flip { slot, position } => library::flip(b, slot, position).map(|_| vec![]),
        Call::Mark { slot, position } => library::mark(b, slot, position).map(|_| vec![]),
        Call::Load { slot, seed, count } => library::load(b, slot, seed, count).map(|number| vec![number as u64]),
        Call::Clear { slot } => library::clear(b, slot).map(|_| vec![]),
        Call::Read { slot } => library::read(b, slot).map(|v| v.to_vec()),
        Call::Survey => survey(b),
    }
}

fn survey(b: &[u8]) -> Answer {
    let s = library::survey(b)?;
    let mut values = vec![s.blank, s.read, s.over, s.under, s.lost, s.bad, s.sum];
    values.extend(s.pressures.map(|p| [p.smallest, p.largest, p.mean]).into_iter().flatten());
    Ok(values)
}

/// How many calls of a kind were accepted (0), or refused with a number.
type Coverage = BTreeMap<&'static str, BTreeMap<u64, u64>>;

fn kind(call: &Call) -> &'static str {
    match call {
        Call::Put { .. } => "put",
        Call::PutList { steps, readings, .. } if steps.is_empty() && readings.is_empty() => "list of no puts",
        Call::PutList { .. } => "list of puts",
        Call::Flip { .. } => "flip",
        Call::Mark { .. } => "mark",
        Call::Load { .. } => "load",
        Call::Clear { .. } => "clear",
        Call::Read { .. } => "read",
        Call::Survey => "survey",
    }
}

/// A call of both. Gives the number that a load handed back.
fn compare_call(call: &Call, library: Answer, plain: Answer, coverage: &mut Coverage) -> Option<u32> {
    expect(&format!("{call:?}"), &library, &plain);
    let answered = plain.as_ref().err().copied().unwrap_or(0);
    *coverage.entry(kind(call)).or_default().entry(answered).or_default() += 1;
    let Call::Load { .. } = call else { return None };
    plain.ok().map(|values| values[0] as u32)
}

/// A random list of trace calls, between which slots are spoilt: each answer, and the bytes after each. Then a survey of the bytes, a call on too
/// few of them, and one on an unfit trailer.
fn compare_list(code: &Code, random: &mut Random, coverage: &mut Coverage) {
    let slots = 1 + random.below(3);
    let len = library::size(slots) as u64 + random.below(20);
    let mut buffer: Vec<u8> = (0..len).map(|_| random.next() as u8).collect();
    let mut plain = Trace::new(code, slots as usize, &buffer);
    expect("making", library::make(&mut buffer, code.number, slots), Ok(()));
    expect("the bytes after making", &buffer, &plain.bytes());
    let mut handed_back = 0;
    for _ in 0..random.below(60) {
        if random.below(40) == 0 {
            let (slot, bytes) = (random.below(slots), random.bad_slot(code));
            let place = buffer.len() - library::size(slots - slot);
            buffer[place..place + SLOT].copy_from_slice(&bytes);
            plain.spoil(slot, bytes);
        }
        let call = random_call(random, code, slots, handed_back);
        handed_back = compare_call(&call, run(&mut buffer, &call), plain.run(&call), coverage).unwrap_or(handed_back);
        expect(&format!("the bytes after {call:?}"), &buffer, &plain.bytes());
    }
    for (decoder, mend) in DECODERS {
        expect(&format!("a survey of the bytes ({decoder})"), survey(&buffer), trace::survey(code, &buffer, mend));
    }

    let short = buffer[..random.below(8) as usize].to_vec();
    // Bit 3 inverted makes a trailer unfit, in whichever byte.
    let place = buffer.len() - 1 - random.below(8) as usize;
    buffer[place] ^= random.next() as u8 | 8;
    for (refusal, found) in [(7, short), (8, buffer)] {
        let mut left = found.clone();
        let call = random_call(random, code, slots, handed_back);
        compare_call(&call, run(&mut left, &call), Err(refusal), coverage);
        expect("the bytes after a call without a trace", left, found);
    }
}

/// The processor time that this thread has taken, in nanoseconds.
fn thread_time() -> f64 {
    #[repr(C)]
    struct Timespec {
        seconds: i64,
        nanoseconds: i64,
    }
    extern "C" {
        fn clock_gettime(clock: i32, time: *mut Timespec) -> i32;
    }
    const CLOCK_THREAD_CPUTIME_ID: i32 = 3;
    let mut time = Timespec { seconds: 0, nanoseconds: 0 };
    assert_eq!(unsafe { clock_gettime(CLOCK_THREAD_CPUTIME_ID, &mut time) }, 0, "there is no clock of thread time");
    time.seconds as f64 * 1e9 + time.nanoseconds as f64
}

/// What an implementation does in a measurement: it makes the calls of a chunk, counted from 0, and gives a checksum of their answers.
type Job<'a> = Box<dyn FnMut(usize) -> u64 + 'a>;

/// How often each measurement is made, the chunks that it has for each code, and the calls of a chunk: as many as a trace has slots.
const ROUNDS: usize = 21;
const CHUNKS: usize = 16;
const CHUNK: usize = library::MAX_SLOTS as usize;

/// The nanoseconds of a call: of each job, in each round, the mean over the codes. Each code has its jobs. They take turns chunk by chunk, in an
/// order that rotates, and their checksums have to agree.
fn interleave(what: &str, chunks: usize, mut codes: Vec<Vec<Job>>) -> Vec<[f64; ROUNDS]> {
    let count = codes[0].len();
    let calls = (codes.len() * chunks * CHUNK) as f64;
    let mut times = vec![[0.0; ROUNDS]; count];
    for round in 0..ROUNDS {
        for jobs in &mut codes {
            for chunk in 0..chunks {
                let mut checksums = vec![0; count];
                for turn in 0..count {
                    let job = (round + chunk + turn) % count;
                    let start = thread_time();
                    checksums[job] = jobs[job](chunk);
                    times[job][round] += (thread_time() - start) / calls;
                }
                for &plain in &checksums[1..] {
                    expect(&format!("{what}, checksums of what is measured"), checksums[0], plain);
                }
            }
        }
    }
    times
}

/// First quartile, median and third quartile.
fn quartiles(mut values: [f64; ROUNDS]) -> [f64; 3] {
    values.sort_by(f64::total_cmp);
    [1, 2, 3].map(|quarters| values[quarters * (ROUNDS - 1) / 4])
}

/// A row of the measurement, from the times of the library, of plain Rust and, where there are any, of plain Rust with byte tables.
fn print_row(call: &str, times: &[[f64; ROUNDS]]) {
    let nanoseconds = |job: &[f64; ROUNDS]| format!("{:.1}", quartiles(*job)[1]);
    let ratio = |job: &[f64; ROUNDS]| {
        let [first, median, third] = quartiles(from_fn(|round| times[0][round] / job[round]));
        format!("{median:.2} ({first:.2} to {third:.2})")
    };
    let (library, plain, to_plain) = (nanoseconds(&times[0]), nanoseconds(&times[1]), ratio(&times[1]));
    let bytes = times.get(2).map(nanoseconds).unwrap_or_default();
    let to_bytes = times.get(2).map(ratio).unwrap_or_default();
    println!("{}", format!("{call:10} {library:>8} {plain:>8} {bytes:>8}   {to_plain:21} {to_bytes}").trim_end());
}

fn checksum(sum: u64, answer: u64) -> u64 {
    sum.wrapping_mul(31).wrapping_add(answer)
}

/// A job that makes a call for each input.
fn each<'a, T>(inputs: &'a [T], mut call: impl FnMut(&T) -> u64 + 'a) -> Job<'a> {
    Box::new(move |chunk| inputs[CHUNK * chunk..][..CHUNK].iter().fold(0, |sum, input| checksum(sum, call(input))))
}

/// For each code the inputs of so many chunks.
fn inputs<T>(chunks: usize, mut input: impl FnMut(&Code) -> T) -> Vec<Vec<T>> {
    CODES.iter().map(|code| (0..chunks * CHUNK).map(|_| input(code)).collect()).collect()
}

/// The jobs of each code, on what it is given.
fn for_codes<'a, T>(given: impl IntoIterator<Item = T>, of_code: impl Fn(&'static Code, T) -> Vec<Job<'a>>) -> Vec<Vec<Job<'a>>> {
    CODES.iter().zip(given).map(|(code, given)| of_code(code, given)).collect()
}

fn measure_mending(class: &str, words: &[Vec<(u64, u64)>]) {
    let packed = |[codeword, message, wrong, marks, marked_wrong]: Correction| {
        codeword ^ message << 32 ^ wrong << 56 ^ marked_wrong << 58 ^ marks << 61
    };
    let jobs = for_codes(words, |code, words| {
        let mut jobs = vec![each(words, move |&(word, marks)| library::correct(code.number, word, marks).map_or(u64::MAX, packed))];
        jobs.extend(DECODERS.map(|(_, mend)| each(words, move |&(word, marks)| mend(code, word, marks).map_or(u64::MAX, packed))));
        jobs
    });
    print_row(class, &interleave(class, CHUNKS, jobs));
}

fn measure_encode(random: &mut Random) {
    let messages = inputs(CHUNKS, |code| random.message(code));
    let jobs = for_codes(&messages, |code, messages| {
        vec![each(messages, |&m| library::encode(code.number, m).expect("a fit message")), each(messages, |&m| code.encode(m))]
    });
    print_row("encode", &interleave("encode", CHUNKS, jobs));
}

fn measure_decode(random: &mut Random) {
    let codewords = inputs(CHUNKS, |code| code.encode(random.message(code)));
    let jobs = for_codes(&codewords, |code, codewords| {
        vec![each(codewords, |&c| library::decode(code.number, c).expect("a codeword")), each(codewords, |&c| code.decode(c).expect("a codeword"))]
    });
    print_row("decode", &interleave("decode", CHUNKS, jobs));
}

/// A trace of blank slots, as many as a chunk has calls.
fn blank_trace(code: &Code) -> Vec<u8> {
    let mut buffer = vec![0; library::size(CHUNK as u64)];
    library::make(&mut buffer, code.number, CHUNK as u64).expect("a buffer with room");
    buffer
}

/// A trace with these words in its slots.
fn trace_of(code: &Code, words: &[(u64, u64)]) -> Vec<u8> {
    let mut buffer = blank_trace(code);
    for (slot, &(word, marks)) in buffer.chunks_mut(SLOT).zip(words) {
        slot.copy_from_slice(&trace::written(word, marks));
    }
    buffer
}

/// Surveys of traces with these words in their slots. A chunk is a survey, and a call is a slot of it.
fn measure_survey(words: &[Vec<(u64, u64)>]) {
    let of_code = |(code, words): (_, &Vec<_>)| words.chunks(CHUNK).map(|words| trace_of(code, words)).collect();
    let traces: Vec<Vec<Vec<u8>>> = CODES.iter().zip(words).map(of_code).collect();
    let sum = |answer: Answer| answer.expect("a trace").into_iter().fold(0, checksum);
    let jobs = for_codes(&traces, |code, traces| {
        let mut jobs: Vec<Job> = vec![Box::new(move |chunk| sum(survey(&traces[chunk])))];
        jobs.extend(DECODERS.map(|(_, mend)| -> Job { Box::new(move |chunk| sum(trace::survey(code, &traces[chunk], mend))) }));
        jobs
    });
    print_row("survey", &interleave("survey", CHUNKS, jobs));
}

/// Puts one by one and the same puts in lists, on the bytes of all slots. All of them take turns, so that they can be compared with each other,
/// and each has to leave the same bytes.
fn measure_puts(random: &mut Random) {
    const LISTS: [usize; 3] = [1, 25, CHUNK];
    let put = |code: &Code| (random.below(code.steps()), random.below(4096));
    let puts: Vec<(Vec<u64>, Vec<u64>)> = inputs(1, put).into_iter().map(|puts| puts.into_iter().unzip()).collect();
    let mut buffers: Vec<Vec<Vec<u8>>> = CODES.iter().map(|code| vec![blank_trace(code); 2 + 2 * LISTS.len()]).collect();
    let jobs = for_codes(puts.iter().zip(&mut buffers), |code, ((steps, readings), buffers)| {
        let mut ways: Vec<Box<dyn Fn(&mut [u8])>> = vec![
            Box::new(move |b| (0..CHUNK).for_each(|i| library::put(b, i as u64, steps[i], readings[i]).expect("a fit put"))),
            Box::new(move |b| (0..CHUNK).for_each(|i| trace::put(code, b, i as u64, steps[i], readings[i]).expect("a fit put"))),
        ];
        for count in LISTS {
            let lists = move || (0..).step_by(count).zip(steps.chunks(count).zip(readings.chunks(count)));
            ways.push(Box::new(move |b| lists().for_each(|(start, (s, r))| library::put_list(b, start, s, r).expect("fit lists"))));
            ways.push(Box::new(move |b| lists().for_each(|(start, (s, r))| trace::put_list(code, b, start, s, r).expect("fit lists"))));
        }
        let jobs = ways.into_iter().zip(buffers).map(|(way, buffer)| -> Job {
            Box::new(move |_| {
                way(buffer);
                0
            })
        });
        jobs.collect()
    });
    let times = interleave("puts", CHUNKS, jobs);
    for left in buffers {
        left.iter().for_each(|bytes| expect("the bytes after the puts", &left[0], bytes));
    }
    let calls = once("put".to_string()).chain(LISTS.map(|count| format!("puts {count}")));
    calls.zip(times.chunks(2)).for_each(|(call, times)| print_row(&call, times));
}

/// A trace of both, with a reading in each slot.
fn written_trace(code: &'static Code, slots: u64, random: &mut Random) -> (Vec<u8>, Trace<'static>) {
    let mut buffer = vec![0; library::size(slots)];
    let mut plain = Trace::new(code, slots as usize, &buffer);
    library::make(&mut buffer, code.number, slots).expect("a buffer with room");
    for slot in 0..slots {
        let call = Call::Put { slot, step: slot, reading: random.below(4096) };
        expect("a slot to load", run(&mut buffer, &call), plain.run(&call));
    }
    (buffer, plain)
}

/// Loads of three positions and of all, made by both on the slots of a trace. The library's slots are bytes that it checks first; the second
/// implementation's are not.
fn measure_loads(random: &mut Random) {
    const SLOTS: u64 = 48;
    const LOAD_CHUNKS: usize = 2;
    let loads = inputs(LOAD_CHUNKS, |_| (random.below(SLOTS), random.next() as u32));
    for (call, most) in [("load 3", 3), ("load all", u32::MAX)] {
        let mut traces: Vec<_> = CODES.iter().map(|code| written_trace(code, SLOTS, random)).collect();
        let jobs = for_codes(loads.iter().zip(&mut traces), |code, (loads, (buffer, plain))| {
            let count = most.min(code.width()) as u64;
            vec![
                each(loads, move |&(slot, seed)| library::load(buffer, slot, seed, count).expect("a fit load") as u64),
                each(loads, move |&(slot, seed)| plain.load(slot, seed, count).expect("a fit load")),
            ]
        });
        print_row(call, &interleave(call, LOAD_CHUNKS, jobs));
        traces.into_iter().for_each(|(buffer, plain)| expect("the bytes after the loads", buffer, plain.bytes()));
    }
}

/// The processor's name, as Linux gives it.
fn processor() -> Option<String> {
    let info = std::fs::read_to_string("/proc/cpuinfo").ok()?;
    let line = info.lines().find(|line| line.starts_with("model name"))?;
    Some(line.split_once(": ")?.1.to_string())
}

fn main() {
    let mut random = Random(20261115);
    let mut coverage = Coverage::new();
    for code in CODES.iter() {
        compare_words(code, &mut random, 200_000);
        compare_search(code, &mut random);
        for _ in 0..2_500 {
            compare_list(code, &mut random, &mut coverage);
        }
    }
    println!("compared: for each code 200000 words, by both decoders, 200 by a search through all codewords, and 2500 lists of calls, no difference");
    println!("calls in these lists, by what they answered (0: accepted)");
    for (kind, answers) in &coverage {
        println!("{kind:15} {:6}: {answers:?}", answers.values().sum::<u64>());
    }

    println!("measured: library, plain Rust and plain Rust with byte tables, in turn in one process, {CHUNK} calls at a time");
    println!("thread time in nanoseconds, mean over codes 1 to 4, median of {ROUNDS} rounds; ratios: median (first to third quartile)");
    println!("clean to mix: a word mended; survey: a slot, of {CHUNK} with the words of the mix; put, and puts in lists of so many: a slot");
    println!("{:10} {:>8} {:>8} {:>8}   {:21} {}", "call", "library", "plain", "bytes", "library/plain", "library/bytes");
    for (class, damage, _) in CLASSES {
        measure_mending(class, &inputs(CHUNKS, |code| random.damaged(code, damage)));
    }
    let mix = inputs(CHUNKS, |code| random.mixed(code));
    measure_mending("mix", &mix);
    measure_survey(&mix);
    measure_encode(&mut random);
    measure_decode(&mut random);
    measure_puts(&mut random);
    measure_loads(&mut random);

    println!("machine: {}, {OS} {ARCH}", processor().unwrap_or("unknown processor".to_string()));
    let rustc = option_env!("BENCH_RUSTC").unwrap_or("rustc of unknown version");
    let flags = option_env!("BENCH_FLAGS").unwrap_or("unknown flags");
    println!("plain, bytes: {rustc}, {flags}, default target");
    let kit = option_env!("BENCH_KIT").unwrap_or("a kit of unknown version");
    println!("library: rt lib --cpu=x86-64 of {kit}, x86-64 without extensions");
}
