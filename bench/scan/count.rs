//! Counts the places of a file where the bytes 00 00 01 stand, read in pieces of 65,536 bytes. It is there to be measured
//! beside `vodserve scan`: `count memchr FILE` looks for each byte 01 with the C library's memchr, `count loop FILE` looks
//! at each byte in turn. One file, no crates: `rustc --edition 2024 -O count.rs`.

use std::ffi::{c_int, c_void};
use std::fs::File;
use std::io::Read;

const PIECE: usize = 65_536;

unsafe extern "C" {
    fn memchr(bytes: *const c_void, byte: c_int, len: usize) -> *const c_void;
}

/// The place of the first byte 01.
fn find_one(bytes: &[u8]) -> Option<usize> {
    // Safety: memchr looks at the bytes of this slice alone, and answers null or a place within it.
    let found = unsafe { memchr(bytes.as_ptr().cast(), 1, bytes.len()) };
    if found.is_null() {
        return None;
    }
    Some(found.addr() - bytes.as_ptr().addr())
}

/// How many bytes 01 from place 2 on have two bytes 00 before them.
fn count_by_memchr(bytes: &[u8]) -> u64 {
    let mut count = 0;
    let mut at = 2;
    while at < bytes.len() {
        let Some(ahead) = find_one(&bytes[at..]) else {
            break;
        };
        at += ahead;
        count += u64::from(bytes[at - 1] == 0 && bytes[at - 2] == 0);
        at += 1;
    }
    count
}

fn count_by_loop(bytes: &[u8]) -> u64 {
    bytes.windows(3).map(|three| u64::from(three == [0, 0, 1])).sum()
}

fn main() {
    let words: Vec<String> = std::env::args().skip(1).collect();
    let count = match words[0].as_str() {
        "memchr" => count_by_memchr,
        "loop" => count_by_loop,
        other => panic!("no way of counting: {other}"),
    };
    let mut file = File::open(&words[1]).expect("the file opens");
    // The last two bytes of a piece stand before the next one; before the first one stand two that belong to no prefix.
    let mut bytes = vec![0xFF; PIECE + 2];
    let mut prefixes = 0;
    loop {
        let len = file.read(&mut bytes[2..]).expect("the file is read");
        if len == 0 {
            break;
        }
        prefixes += count(&bytes[..len + 2]);
        bytes.copy_within(len..len + 2, 0);
    }
    println!("{prefixes}");
}
