//! What bench/mapping/main.rs does, over `serde_json::Value`.

use serde_json::{Value, json};
use std::fs::File;
use std::io::{BufRead, BufReader, Write};
use std::os::fd::FromRawFd;

/// What is printed of a line, or nothing where it is dropped.
fn mapped(way: &str, line: &[u8], out: &mut Vec<u8>) -> Option<()> {
    let value: Value = serde_json::from_slice(line).ok()?;
    match way {
        "copy" => serde_json::to_writer(&mut *out, &value).ok()?,
        "drop" if value["level"] == "debug" => return None,
        "drop" => out.extend_from_slice(line),
        _ => {
            let sum = value["ms"].as_i64()?.checked_add(1)?;
            serde_json::to_writer(&mut *out, &json!({ "a": sum })).ok()?;
        }
    }
    out.push(b'\n');
    Some(())
}

fn main() {
    let way = std::env::args().nth(1).unwrap_or_default();
    let mut input = BufReader::with_capacity(1 << 16, std::io::stdin());
    // SAFETY: nothing else in this program has the standard output.
    let mut output = unsafe { File::from_raw_fd(1) };
    let (mut line, mut out) = (Vec::new(), Vec::new());
    while input.read_until(b'\n', &mut line).unwrap() > 0 {
        if line.ends_with(b"\n") {
            line.pop();
        }
        out.clear();
        if mapped(&way, &line, &mut out).is_some() {
            output.write_all(&out).unwrap();
        }
        line.clear();
    }
}
