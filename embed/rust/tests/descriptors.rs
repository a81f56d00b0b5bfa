//! What is open while look-ups wait, and behind them. It is a program of its own, since it counts
//! what all of it has open.

mod common;

use std::time::{Duration, Instant};
use std::{fs, thread};

use common::{Does, Server, TRUNCATED};

/// What takes longer will not come.
const LONG: Duration = Duration::from_secs(30);

/// How many sockets this program has open.
fn sockets() -> usize {
    let open = fs::read_dir("/proc/self/fd").unwrap();
    let places = open.filter_map(|entry| fs::read_link(entry.ok()?.path()).ok());
    places
        .filter(|place| place.to_string_lossy().starts_with("socket:"))
        .count()
}

#[test]
fn what_is_dropped_is_closed() {
    let server = Server::new(
        |asked| match (asked.by_stream, asked.name().starts_with('s')) {
            (false, true) => vec![Does::Says(asked.reply(TRUNCATED, &[], &[]))],
            _ => Vec::new(),
        },
    );
    let before = sockets();
    let resolver = server.resolver();
    let waiting: Vec<_> = (0..10)
        .map(|number| resolver.start_lookup_ip(format!("d{number}.")).unwrap())
        .collect();
    assert_eq!(sockets(), before + 10);
    drop(waiting);
    assert_eq!(sockets(), before);
    // One that waits on a stream.
    let waiting = resolver.start_lookup_ip("s.").unwrap();
    let start = Instant::now();
    while !server.asked().contains(&("s.".to_owned(), true)) {
        resolver.poll(Duration::from_millis(20)).unwrap();
        assert!(start.elapsed() < LONG);
    }
    assert!(sockets() > before);
    assert!(
        waiting
            .wait_for(Duration::from_millis(20))
            .unwrap_err()
            .is_timeout()
    );
    drop(resolver);
    // The server's side of a stream is closed when it sees that ours is.
    let start = Instant::now();
    while sockets() != before && start.elapsed() < LONG {
        thread::sleep(Duration::from_millis(20));
    }
    assert_eq!(sockets(), before);
    let found = server.resolver();
    let waiting = found.start_lookup_ip("d.").unwrap();
    drop(waiting);
    assert_eq!(sockets(), before);
}
