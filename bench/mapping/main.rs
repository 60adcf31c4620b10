//! What three mappings do, line by line with one write a line, in plain Rust with std alone: `rustc -O main.rs`, and then
//! main copy, main drop or main add.

#[path = "../std/json.rs"]
mod json;

use json::{Json, read, write};
use std::fs::File;
use std::io::{BufRead, BufReader, Write};
use std::os::fd::FromRawFd;

fn member<'a>(value: &'a Json, name: &str) -> Option<&'a Json> {
    match value {
        Json::Object(members) => members.get(name),
        _ => None,
    }
}

/// What is printed of a line, or nothing where it is dropped.
fn mapped(way: &str, line: &[u8], out: &mut Vec<u8>) -> Option<()> {
    let value = read(line)?;
    match way {
        "copy" => write(&value, out),
        "drop" => match member(&value, "level") {
            Some(Json::Text(level)) if level == "debug" => return None,
            _ => out.extend_from_slice(line),
        },
        _ => match member(&value, "ms") {
            Some(Json::Int(n)) => {
                let sum = Json::Int(n.checked_add(1)?);
                write(&Json::Object([("a".to_string(), sum)].into()), out);
            }
            _ => return None,
        },
    }
    out.push(b'\n');
    Some(())
}

fn main() {
    let way = std::env::args().nth(1).unwrap_or_default();
    let mut input = BufReader::with_capacity(1 << 16, std::io::stdin());
    // SAFETY: nothing else in this program has the standard output.
    let mut output = unsafe { File::from_raw_fd(1) };
    let (mut line, mut out) = (Vec::new(), Vec::new());
    while input.read_until(b'\n', &mut line).unwrap() > 0 {
        if line.ends_with(b"\n") {
            line.pop();
        }
        out.clear();
        if mapped(&way, &line, &mut out).is_some() {
            output.write_all(&out).unwrap();
        }
        line.clear();
    }
}
