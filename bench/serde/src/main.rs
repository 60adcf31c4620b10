//! What crates/bt_value_bench times, in plain Rust over `serde_json::Value`.

use serde_json::Value;
use std::io::Read;
use std::time::Instant;

const WAYS: [&str; 3] = ["read", "read_write", "look"];

fn go(way: &str, line: &[u8], buffer: &mut Vec<u8>) -> usize {
    let Ok(value) = serde_json::from_slice::<Value>(line) else {
        return 1_000_000;
    };
    match way {
        "read" => 1,
        "read_write" => {
            buffer.clear();
            serde_json::to_writer(&mut *buffer, &value).unwrap();
            buffer.len()
        }
        _ => (value["level"] == "error") as usize,
    }
}

fn main() {
    let rounds = std::env::args().nth(1).and_then(|a| a.parse().ok()).unwrap_or(0);
    let mut all = Vec::new();
    std::io::stdin().read_to_end(&mut all).unwrap();
    let lines: Vec<&[u8]> = all.split(|b| *b == b'\n').filter(|l| !l.is_empty()).collect();
    let mut buffer = Vec::new();
    for _ in 0..rounds {
        for way in WAYS {
            let start = Instant::now();
            let mut sum = 0usize;
            for line in &lines {
                sum = sum.wrapping_add(go(way, line, &mut buffer));
            }
            println!("{way} {} {sum}", start.elapsed().as_micros());
        }
    }
}
