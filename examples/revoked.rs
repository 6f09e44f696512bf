//! Asks a key revocation list about each key of an authorized_keys file.
//!
//!     rustc -O revoked.rs -l krl
//!     ./revoked revoked.krl ~/.ssh/authorized_keys
//!
//! It ends with 0 where no key is revoked, with 1 where one is, with 255 where that is not known.

use std::convert::TryFrom;
use std::ffi::CStr;
use std::os::raw::c_char;
use std::process::ExitCode;
use std::{env, fs, io};

extern "C" {
    fn krl_check_line(list: *const u8, list_len: usize, line: *const u8, line_len: usize) -> i32;
    fn krl_fault_text(answer: i32, buffer: *mut c_char, size: usize) -> usize;
}

/// Whether a list revokes the key of a line: 0 where it does not, 1 where it does, below zero why
/// that is not known.
fn check_line(list: &[u8], line: &[u8]) -> i32 {
    // The slices have these lengths, and nobody writes them meanwhile.
    unsafe { krl_check_line(list.as_ptr(), list.len(), line.as_ptr(), line.len()) }
}

/// The words for an answer.
fn words(answer: i32) -> String {
    let mut text = [0; 65];
    // The buffer has this size, and ends in a zero byte then.
    unsafe { krl_fault_text(answer, text.as_mut_ptr(), text.len()) };
    unsafe { CStr::from_ptr(text.as_ptr()) }.to_string_lossy().into_owned()
}

fn asked(list: &str, keys: &str) -> io::Result<u8> {
    let list = fs::read(list)?;
    let mut status = 0;
    for (at, line) in fs::read(keys)?.split(|byte| *byte == b'\n').enumerate() {
        // A comment, or nothing.
        if matches!(line.iter().find(|it| !it.is_ascii_whitespace()), None | Some(b'#')) {
            continue;
        }
        let answer = check_line(&list, line);
        println!("line {}: {}", at + 1, words(answer));
        status = status.max(u8::try_from(answer).unwrap_or(255));
    }
    Ok(status)
}

fn main() -> ExitCode {
    let words: Vec<String> = env::args().skip(1).collect();
    match words.as_slice() {
        [list, keys] => ExitCode::from(asked(list, keys).unwrap_or_else(|fault| {
            eprintln!("{fault}");
            255
        })),
        _ => ExitCode::from(255),
    }
}
