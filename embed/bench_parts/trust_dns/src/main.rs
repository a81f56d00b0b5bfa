//! Reads and writes the messages of a file for so many seconds, and prints the nanoseconds of a message: FILE SECONDS.
use std::time::{Duration, Instant};
use trust_dns_proto::op::Message;

fn main() {
    let words: Vec<String> = std::env::args().collect();
    let (file, seconds) = (std::fs::read(&words[1]).unwrap(), words[2].parse().unwrap());
    let messages = messages(&file);
    let (began, mut count) = (Instant::now(), 0);
    while began.elapsed() < Duration::from_secs(seconds) {
        for message in &messages {
            let written = Message::from_vec(message).unwrap().to_vec().unwrap();
            assert!(std::hint::black_box(written).len() > 12);
        }
        count += messages.len();
    }
    println!("{}", began.elapsed().as_nanos() / count as u128);
}

/// The messages of a file, each behind its length.
fn messages(mut file: &[u8]) -> Vec<&[u8]> {
    let mut found = Vec::new();
    while let [high, low, rest @ ..] = file {
        let (message, rest) = rest.split_at(usize::from(*high) << 8 | usize::from(*low));
        found.push(message);
        file = rest;
    }
    found
}
