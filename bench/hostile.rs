//! Searches for keys whose hashes share their first bits, so that a table of the program finds one home for all of them.
//!
//! usage: hostile searched|marked|named COUNT SECONDS prints up to COUNT values of 16 bytes, as hexadecimal digits, one a line. It stops when it has
//! them, or when so many seconds of the clock have passed.
//!
//! The hash is a port of these texts, line by line:
//! - the fold of bytes: FoldHasher of the language's core library (hash/fold.rt). A number is written as its bytes, the lowest first.
//! - `searched`: `hash_of` of crates/key_table/src/index.rt, of a `Key` of crates/rows/src/change.rt. Its derived Hash writes the table's name
//!   (crates/rows/src/name.rt: the bytes of the text, no length), then the index (4 bytes), then the values. The primary key of one column of
//!   bytes writes those bytes alone (crates/row_images/src/key_values.rt: `Short` and `Shared`).
//! - `marked`: the mark of a key (crates/audit/src/marks.rt: the table's name, one byte for the index, and the word of the value as a journal
//!   has it) is a key of 8 bytes in the table of crates/audit/src/owners.rt, so its `hash_of` is of these 8 bytes.
//! - `named`: the name of a table is a key of the table of names (crates/rows/src/schema.rt), and its hash writes its bytes alone.
//! - the home of a hash is `hash * slots >> 32` (crates/key_table/src/slots.rt). Hashes that share their first 15 bits have homes that are no
//!   further apart than the 32768th part of the slots.

use std::io::Write;
use std::time::{Duration, Instant};

const MULTIPLIER: u64 = 0x9e37_79b9_7f4a_7c15;
const INITIAL: u64 = 0x243f_6a88_85a3_08d3;
const TABLE: &[u8] = b"t";
const SHARED_BITS: u32 = 15;
const DIGITS: &[u8; 16] = b"0123456789abcdef";

fn folded_multiply(a: u64, b: u64) -> u64 {
    let product = a as u128 * b as u128;
    product as u64 ^ (product >> 64) as u64
}

fn read_u32(bytes: &[u8], at: usize) -> u64 {
    u32::from_le_bytes(bytes[at..at + 4].try_into().unwrap()) as u64
}

fn read_u64(bytes: &[u8], at: usize) -> u64 {
    u64::from_le_bytes(bytes[at..at + 8].try_into().unwrap())
}

fn read_short(bytes: &[u8]) -> u64 {
    let len = bytes.len();
    if len >= 4 {
        read_u32(bytes, 0) | read_u32(bytes, len - 4) << 32
    } else if len > 0 {
        bytes[0] as u64 | (bytes[len / 2] as u64) << 8 | (bytes[len - 1] as u64) << 16
    } else {
        0
    }
}

/// The state after one write.
fn write(state: u64, bytes: &[u8]) -> u64 {
    let len = bytes.len();
    if len <= 8 {
        return folded_multiply(state ^ read_short(bytes), MULTIPLIER ^ (2 * len as u64));
    }
    let mut state = state.wrapping_add(len as u64);
    let mut at = 0;
    while len - at > 16 {
        state = folded_multiply(read_u64(bytes, at) ^ state, read_u64(bytes, at + 8) ^ MULTIPLIER);
        at += 16;
    }
    folded_multiply(read_u64(bytes, len.saturating_sub(16)) ^ state, read_u64(bytes, len - 8) ^ MULTIPLIER)
}

fn joined(hash: u64) -> u32 {
    (hash ^ (hash >> 32)) as u32
}

/// The hash of a primary key. The state is that after the table's name and the index.
fn hash_of_key(state: u64, value: &[u8]) -> u32 {
    joined(write(state, value))
}

/// The hash of the mark of a primary key. The state is that after the table's name and the index.
fn hash_of_mark(state: u64, value: &[u8; 16]) -> u32 {
    let mut word = [b'x'; 33];
    for (at, byte) in value.iter().enumerate() {
        word[2 * at + 1] = DIGITS[(byte >> 4) as usize];
        word[2 * at + 2] = DIGITS[(byte & 15) as usize];
    }
    let mark = write(state, &word);
    joined(write(INITIAL, &mark.to_le_bytes()))
}

/// The name of 16 hexadecimal digits of a number.
fn name_of(number: u64) -> [u8; 16] {
    std::array::from_fn(|at| DIGITS[(number >> (60 - 4 * at) & 15) as usize])
}

/// The value of 32 bytes whose first 16 make the state 0, whatever their first 8 are.
fn zeroed(first: u64) -> [u8; 32] {
    let mut value = [0x5a; 32];
    value[..8].copy_from_slice(&first.to_le_bytes());
    value[8..16].copy_from_slice(&MULTIPLIER.to_le_bytes());
    value
}

fn main() {
    let words: Vec<String> = std::env::args().collect();
    let (is_marked, is_named) = (words[1] == "marked", words[1] == "named");
    let count: usize = words[2].parse().unwrap();
    let end = Instant::now() + Duration::from_secs(words[3].parse().unwrap());
    let after_name = write(INITIAL, TABLE);
    let (key, mark) = (write(after_name, &0_u32.to_le_bytes()), write(after_name, &[0]));
    // (by the code above, not by a run: a factor 0 makes the state 0, and what is written then is the same)
    assert_eq!(hash_of_key(key, &zeroed(1)), hash_of_key(key, &zeroed(2)));
    let mut out = std::io::BufWriter::new(std::io::stdout().lock());
    let (mut found, mut number) = (0, 0_u64);
    while found < count && Instant::now() < end {
        for _ in 0..1 << 16 {
            number += 1;
            let mut value = [0; 16];
            value[..8].copy_from_slice(&number.wrapping_mul(MULTIPLIER).to_le_bytes());
            value[8..].copy_from_slice(&(!number).to_le_bytes());
            if is_named {
                value = name_of(number.wrapping_mul(MULTIPLIER));
            }
            let hash = if is_marked {
                hash_of_mark(mark, &value)
            } else if is_named {
                joined(write(INITIAL, &value))
            } else {
                hash_of_key(key, &value)
            };
            if hash >> (32 - SHARED_BITS) == 0 && found < count {
                found += 1;
                for byte in value {
                    write!(out, "{byte:02x}").unwrap();
                }
                writeln!(out).unwrap();
            }
        }
    }
}
