//! What crates/bt_value_bench times, over a small JSON tree of its own, with std alone: `rustc -O main.rs`.

mod json;

use json::{Json, read, write};
use std::io::Read;
use std::time::Instant;

const WAYS: [&str; 3] = ["read", "read_write", "look"];

fn go(way: &str, line: &[u8], buffer: &mut Vec<u8>) -> usize {
    let Some(value) = read(line) else {
        return 1_000_000;
    };
    match way {
        "read" => matches!(value, Json::Object(_)) as usize,
        "read_write" => {
            buffer.clear();
            write(&value, buffer);
            buffer.len()
        }
        _ => match value {
            Json::Object(members) => matches!(members.get("level"), Some(Json::Text(t)) if t == "error") as usize,
            _ => 0,
        },
    }
}

fn main() {
    let rounds = std::env::args().nth(1).and_then(|a| a.parse().ok()).unwrap_or(0);
    let mut all = Vec::new();
    std::io::stdin().read_to_end(&mut all).unwrap();
    let lines: Vec<&[u8]> = all.split(|b| *b == b'\n').filter(|l| !l.is_empty()).collect();
    let mut buffer = Vec::new();
    for _ in 0..rounds {
        for way in WAYS {
            let start = Instant::now();
            let mut sum = 0usize;
            for line in &lines {
                sum = sum.wrapping_add(go(way, line, &mut buffer));
            }
            println!("{way} {} {sum}", start.elapsed().as_micros());
        }
    }
}
