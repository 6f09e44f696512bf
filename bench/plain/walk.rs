//! Opens each directory of a tree and reads each file: all that an audit asks of the system. Prints
//! how many bytes the files have.

use std::fs::{self, File};
use std::io::{self, Read};
use std::path::Path;

fn bytes_below(folder: &Path, buffer: &mut [u8]) -> io::Result<usize> {
    let mut total = 0;
    for entry in fs::read_dir(folder)? {
        let entry = entry?;
        if entry.file_type()?.is_dir() {
            total += bytes_below(&entry.path(), buffer)?;
            continue;
        }
        let mut file = File::open(entry.path())?;
        loop {
            let count = file.read(buffer)?;
            if count == 0 {
                break;
            }
            total += count;
        }
    }
    Ok(total)
}

fn main() -> io::Result<()> {
    let folder = std::env::args().nth(1).unwrap_or_default();
    println!("{}", bytes_below(Path::new(&folder), &mut [0; 65_536])?);
    Ok(())
}
