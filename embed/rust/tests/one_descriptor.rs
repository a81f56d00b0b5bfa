//! A look-up where a single descriptor is left: a channel that cannot be opened waits for another
//! one to be closed.

mod common;

use std::fs::File;
use std::process::Command;
use std::{env, iter};

use common::Server;
use yimarotu::Resolver;

/// Says to this program that it is the one with few descriptors, and which server it asks.
const SERVER: &str = "YIMAROTU_TEST_SERVER";

#[test]
fn is_enough() {
    match env::var(SERVER) {
        Ok(server) => look_up(&server),
        Err(_) => run_with_few(&Server::good(7)),
    }
}

fn run_with_few(server: &Server) {
    let ended = Command::new("sh")
        .args(["-c", "ulimit -n 64 && exec \"$0\" --exact is_enough"])
        .arg(env::current_exe().unwrap())
        .env(SERVER, server.address.to_string())
        .output()
        .unwrap();
    assert!(ended.status.success(), "{ended:?}");
    // A question for each family.
    assert_eq!(server.asked().len(), 2);
}

fn look_up(server: &str) {
    let server = server.parse().unwrap();
    let resolver = Resolver::builder_without_system()
        .server(server)
        .build()
        .unwrap();
    let mut files: Vec<_> = iter::from_fn(|| File::open("/dev/null").ok()).collect();
    assert!(files.len() < 64);
    drop(files.pop());
    let found = resolver.lookup_ip("www.example.test.").unwrap();
    assert_eq!(found.iter().count(), 2);
}
