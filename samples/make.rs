//! Writes the sample traces into a folder.

#[path = "../include/mizbulett.rs"]
mod mizbulett;

use mizbulett::{flip, make, mark, put, size, CODE_36_E, CODE_36_O, CODE_40_E, CODE_40_O, OVER, UNDER};
use std::path::Path;

/// A blank trace behind some free bytes.
fn trace(free: usize, code: u64, slots: u64) -> Vec<u8> {
    let mut bytes = vec![0; free + size(slots)];
    make(&mut bytes, code, slots).expect("room for the slots");
    bytes
}

fn store(bytes: &mut [u8], slot: u64, reading: u64) {
    put(bytes, slot, slot, reading).expect("a slot, and a step that is in range");
}

/// Wrong and doubtful bits of a slot.
fn damage(bytes: &mut [u8], slot: u64, wrong: &[u64], doubtful: &[u64]) {
    for &position in wrong {
        flip(bytes, slot, position).expect("a position of a written slot");
    }
    for &position in doubtful {
        mark(bytes, slot, position).expect("a position of a written slot");
    }
}

/// Eight hours, a reading every ten minutes: a calm line, with the small damage of an optical reader.
fn shift() -> Vec<u8> {
    let mut bytes = trace(0, CODE_36_O, 48);
    for slot in 0..46 {
        store(&mut bytes, slot, 820 + (slot * 37) % 53 + slot % 7 * 4);
    }
    damage(&mut bytes, 9, &[17], &[]);
    damage(&mut bytes, 23, &[2, 30], &[30, 31]);
    damage(&mut bytes, 31, &[], &[4, 5, 6, 7]);
    bytes
}

/// A line that blocks: the pressure climbs until the converter tops out.
fn blocked() -> Vec<u8> {
    let mut bytes = trace(0, CODE_40_O, 24);
    for slot in 0u64..24 {
        let climbed = 760 + slot % 3 * 6 + slot.saturating_sub(8) * 310;
        store(&mut bytes, slot, climbed.min(OVER));
    }
    bytes
}

/// A line whose sensor plug was out for half of the night: the converter gave 0, also where the optical reader had trouble.
fn unplugged() -> Vec<u8> {
    let mut bytes = trace(0, CODE_40_E, 24);
    for slot in 0..24 {
        store(&mut bytes, slot, if (7..19).contains(&slot) { UNDER } else { 840 + slot * 29 % 41 });
    }
    damage(&mut bytes, 12, &[33], &[34]);
    bytes
}

/// A spoilt card with a name before the slots: lost, bad, blank, over-range, under-range and mended slots.
fn damaged() -> Vec<u8> {
    let name = b"WARD 7 BED 3";
    let slots = 12;
    let mut bytes = trace(name.len(), CODE_36_E, slots);
    bytes[..name.len()].copy_from_slice(name);
    for slot in 0..10 {
        let reading = match slot {
            6 => OVER,
            7 => UNDER,
            _ => 1310 + slot * 11,
        };
        store(&mut bytes, slot, reading);
    }
    damage(&mut bytes, 1, &[0, 12, 24], &[]);
    damage(&mut bytes, 2, &[0, 9, 18, 27], &[]);
    damage(&mut bytes, 4, &[1, 2, 3], &[1, 2, 3, 4, 5, 6, 7]);
    damage(&mut bytes, 5, &[], &[8, 9, 10, 11, 12, 13, 14, 15]);
    let state_of_slot_8 = bytes.len() - size(slots - 8);
    bytes[state_of_slot_8] = 0x41;
    bytes
}

fn main() {
    let folder = std::env::args().nth(1).expect("the folder to write to");
    for (name, bytes) in [("shift", shift()), ("blocked", blocked()), ("unplugged", unplugged()), ("damaged", damaged())] {
        std::fs::write(Path::new(&folder).join(name).with_extension("trace"), bytes).expect("a folder that can be written to");
    }
}
