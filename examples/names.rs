//! Holds the names of mizbulett.rs to those of mizbulett.h, by the two texts, and `size` to the library. Prints one line where all hold.

#[path = "../include/mizbulett.rs"]
mod mizbulett;

use mizbulett::{make, size, BUFFER_SHORT, CODE_36_O, MAX_SLOTS};
use std::collections::{BTreeMap, BTreeSet};

/// Names, with their values as they are written.
type Names = BTreeMap<String, String>;

/// What C alone has: an accepted call's number (in Rust it is `Ok`), the size as a macro, and the header's version and guard.
const C_ALONE: [&str; 4] = ["ACCEPTED", "SIZE(n)", "VERSION", "H"];

/// A name and its value, parted by a sign. A name alone has an empty value.
fn named(entry: &str, sign: &str) -> (String, String) {
    let (name, value) = entry.split_once(sign).unwrap_or((entry, ""));
    (name.trim().trim_start_matches("MIZBULETT_").to_string(), value.trim().to_string())
}

/// The macros and the names in the enums of the header, without its comments.
fn header_names() -> Names {
    let parts = include_str!("../include/mizbulett.h").split("/*");
    let code: String = parts.map(|part| part.split_once("*/").map_or(part, |(_, behind)| behind)).collect();
    let macros = code.lines().filter_map(|line| line.strip_prefix("#define "));
    let enums = code.split("enum {").skip(1).filter_map(|behind| behind.split('}').next());
    let entries = enums.flat_map(|body| body.split(','));
    macros.map(|entry| named(entry, " ")).chain(entries.map(|entry| named(entry, " = "))).collect()
}

/// The constants of mizbulett.rs.
fn rust_names() -> Names {
    let lines = include_str!("../include/mizbulett.rs").lines();
    let constants = lines.filter_map(|line| line.strip_prefix("pub const ")?.strip_suffix(';'));
    let entries = constants.map(|constant| constant.replace(": u64 =", " =").replace(": usize =", " ="));
    entries.map(|entry| named(&entry, " = ")).collect()
}

fn main() {
    let (mut header, rust) = (header_names(), rust_names());
    for name in C_ALONE {
        assert!(header.remove(name).is_some(), "{name} is not in the header");
    }
    let names: BTreeSet<_> = header.keys().chain(rust.keys()).collect();
    for name in names {
        assert_eq!(header.get(name), rust.get(name), "{name}: on the left in mizbulett.h, on the right in mizbulett.rs");
    }

    // For each number of slots its size is enough, and one byte less is not.
    let mut trace = vec![0; size(MAX_SLOTS)];
    for slots in 1..=MAX_SLOTS {
        assert_eq!(make(&mut trace[..size(slots)], CODE_36_O, slots), Ok(()), "{slots} slots");
        assert_eq!(make(&mut trace[..size(slots) - 1], CODE_36_O, slots), Err(BUFFER_SHORT), "{slots} slots");
    }
    println!("rust names ok");
}
