//! Copies standard input line by line, from memory to memory, as often as its argument says, and writes the last copy: what
//! the time of reading and writing a message is compared with.
use std::hint::black_box;
use std::io::{self, BufRead, Read, Write};

fn copy(bytes: &[u8], copied: &mut Vec<u8>) -> io::Result<()> {
    let mut input = bytes;
    let mut line = Vec::new();
    copied.clear();
    while input.read_until(b'\n', &mut line)? > 0 {
        copied.write_all(&line)?;
        line.clear();
    }
    Ok(())
}

fn main() -> io::Result<()> {
    let repeats = std::env::args().nth(1).and_then(|word| word.parse().ok()).unwrap_or(1);
    let mut bytes = Vec::new();
    io::stdin().read_to_end(&mut bytes)?;
    let mut copied = Vec::new();
    for _ in 0..repeats {
        copy(black_box(&bytes), black_box(&mut copied))?;
    }
    io::stdout().write_all(&copied)
}
