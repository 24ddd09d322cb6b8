//! A trace of five slots: pressures and readings that are none, damage by hand and from a seed, mended or not; then a survey.

#[path = "../include/mizbulett.rs"]
mod mizbulett;

use mizbulett::{flip, load, make, mark, put, put_list, read, size, survey, CODE_36_O, OVER, UNDER};

const SLOTS: u64 = 5;

/// Lists as a pump sends them.
const STEPS: [u64; 3] = [74, 75, 76];
const READINGS: [u64; 3] = [2385, OVER, 2401];

/// Damages a slot as the seed says, and gives the number handed back: the seed of a next load.
fn load_slot(trace: &mut [u8], slot: u64, seed: u32, count: u64) -> Result<u32, u64> {
    let number = load(trace, slot, seed, count)?;
    println!("load {slot} {seed} {count}: handed back {number}");
    Ok(number)
}

/// Makes and damages the trace. The number is that of a refused call.
fn shift(trace: &mut [u8]) -> Result<(), u64> {
    make(trace, CODE_36_O, SLOTS)?;

    // Slots 0 to 2 from lists, and slot 3 by itself.
    put_list(trace, 0, &STEPS, &READINGS)?;
    put(trace, 3, 77, UNDER)?;

    // Slot 0: two wrong bits and three marks, one of them on a wrong bit: 2 * 1 + 3 is at most 7, and it is mended.
    for position in [3, 35] {
        flip(trace, 0, position)?;
    }
    for position in [35, 20, 21] {
        mark(trace, 0, position)?;
    }

    // Slot 2: four wrong bits, one too many.
    for position in [0, 9, 18, 27] {
        flip(trace, 2, position)?;
    }

    // Slots 1 and 3: as many wrong bits as are mended, the same ones wherever these loads are made.
    let next = load_slot(trace, 1, 1, 3)?;
    load_slot(trace, 3, next, 3)?;
    Ok(())
}

fn main() {
    let mut trace = [0; size(SLOTS)];
    shift(&mut trace).expect("every call is accepted");

    // A step that the code has no room for, lists past the end, and more bits than a word has: refused, and nothing changes.
    let refused = put(&mut trace, 4, 128, 900).expect_err("128 steps have the numbers 0 to 127");
    println!("put 4 128 900: refused {refused}");
    let refused = put_list(&mut trace, 3, &STEPS, &READINGS).expect_err("two slots are left");
    println!("puts 3 74,75,76 2385,4095,2401: refused {refused}");
    let refused = load(&mut trace, 0, 1, 37).expect_err("a word has 36 bits");
    println!("load 0 1 37: refused {refused}");

    for slot in 0..SLOTS {
        match read(&trace, slot) {
            Ok([step, reading, wrong, marks, marked_wrong]) => {
                // A reading under or over the converter's range is no pressure.
                let note = if UNDER < reading && reading < OVER { "" } else { ", no pressure" };
                println!("slot {slot}: step {step} reading {reading}, {wrong} wrong, {marks} marked, {marked_wrong} of them wrong{note}");
            }
            Err(number) => println!("slot {slot}: refused {number}"),
        }
    }
    let counts = survey(&trace).expect("a whole trace");
    let mizbulett::Survey { blank, read, over, under, lost, bad, .. } = counts;
    println!("blank {blank} read {read} over {over} under {under} lost {lost} bad {bad}");
    match counts.pressures {
        Some(p) => println!("pressures from {} to {}, mean {}", p.smallest, p.largest, p.mean),
        None => println!("no pressure"),
    }
}
