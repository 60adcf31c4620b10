//! Copies lines as plain Rust would: std's `read_until`, which searches with memchr, and one write a line.
use std::fs::File;
use std::io::{self, BufRead, BufReader, Write};
use std::os::fd::FromRawFd;

fn main() -> io::Result<()> {
    let mut input = BufReader::with_capacity(4096, io::stdin().lock());
    // Standard output without a buffer.
    let mut output = unsafe { File::from_raw_fd(1) };
    let mut line = Vec::new();
    while input.read_until(b'\n', &mut line)? > 0 {
        if line.last() != Some(&b'\n') {
            line.push(b'\n');
        }
        output.write_all(&line)?;
        line.clear();
    }
    Ok(())
}
