//! Prints why a list revokes a blob: why LIST BLOB.

use std::{env, fs};

extern "C" {
    fn krl_why(list: *const u8, list_len: usize, blob: *const u8, blob_len: usize) -> i32;
}

fn main() -> std::io::Result<()> {
    let words: Vec<String> = env::args().collect();
    let list = fs::read(&words[1])?;
    let blob = fs::read(&words[2])?;
    // The vectors have these lengths, and nobody writes them meanwhile.
    let answer = unsafe { krl_why(list.as_ptr(), list.len(), blob.as_ptr(), blob.len()) };
    println!("{answer}");
    Ok(())
}
