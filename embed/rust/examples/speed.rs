//! How many look-ups a second: speed [SECONDS [ADDRESS:PORT]], so many for each figure. Prints
//! those of what is in the cache, as a multiple of those of getaddrinfo for a name of the hosts;
//! and those of names that are asked once, of a server of its own on loopback. Where the server is
//! at the address that /etc/resolv.conf names, at port 53, getaddrinfo is asked for such names,
//! too. So it is in a network of its own:
//!
//! ```sh
//! unshare --mount --net sh -c 'ip link set lo up; echo nameserver 127.0.0.1 >conf
//!     mount --bind conf /etc/resolv.conf; speed 2 127.0.0.1:53'
//! ```

use std::net::{SocketAddr, ToSocketAddrs, UdpSocket};
use std::time::{Duration, Instant};
use std::{env, error, fs, thread};

use yimarotu::Resolver;

/// Look-ups that wait at once, and rounds.
const CROWD: usize = 100;
const ROUNDS: u32 = 5;

fn main() -> Result<(), Box<dyn error::Error>> {
    let words: Vec<String> = env::args().skip(1).collect();
    let seconds: f64 = words.first().map_or(Ok(2.0), |word| word.parse())?;
    let address = words.get(1).map_or("127.0.0.1:0", String::as_str);
    let server = serve(UdpSocket::bind(address)?)?;
    let resolver = Resolver::builder_without_system().server(server).build()?;
    resolver.lookup_ip("cached.test.")?;

    let found = |name: &str| usize::from(resolver.lookup_ip(name).is_ok());
    let told = |name: &str| usize::from((name, 0).to_socket_addrs().is_ok());
    let mut calls: Vec<Box<dyn Fn(usize) -> usize>> = vec![
        Box::new(|_| found("cached.test.")),
        Box::new(|_| told("localhost")),
        Box::new(|at| found(&format!("a{at}.test."))),
        Box::new(|at| {
            let names = (0..CROWD).map(|number| format!("b{at}x{number}.test."));
            resolver
                .lookup_ip_all(names)
                .iter()
                .filter(|found| found.is_ok())
                .count()
        }),
    ];
    if is_of_system(server) {
        calls.push(Box::new(|at| told(&format!("c{at}.test."))));
    }
    let time = Duration::from_secs_f64(seconds / f64::from(ROUNDS));
    let rates = rates(&calls, time);
    println!(
        "in the cache: {:.0} a second, {:.2} of getaddrinfo's",
        rates[0],
        rates[0] / rates[1]
    );
    println!("asked once, one at a time: {:.0} a second", rates[2]);
    println!(
        "asked once, {CROWD} at once: {:.2} of one at a time",
        rates[3] / rates[2]
    );
    if let Some(theirs) = rates.get(4) {
        println!(
            "asked once, one at a time: {:.2} of getaddrinfo's",
            rates[2] / theirs
        );
    }
    Ok(())
}

/// How many a second of each call, which has a number and tells how many it did: the most of all
/// rounds. In a round each comes once.
fn rates(calls: &[Box<dyn Fn(usize) -> usize + '_>], time: Duration) -> Vec<f64> {
    let (mut most, mut number) = (vec![0.0; calls.len()], 0);
    for _ in 0..ROUNDS {
        for (call, most) in calls.iter().zip(&mut most) {
            let (start, mut done) = (Instant::now(), 0);
            while start.elapsed() < time {
                done += call(number);
                number += 1;
            }
            *most = f64::max(*most, done as f64 / start.elapsed().as_secs_f64());
        }
    }
    most
}

/// Whether the system asks this server.
fn is_of_system(server: SocketAddr) -> bool {
    let conf = fs::read_to_string("/etc/resolv.conf").unwrap_or_default();
    server.port() == 53 && conf.trim() == format!("nameserver {}", server.ip())
}

/// A server that answers each question with an address of the family that is asked.
fn serve(socket: UdpSocket) -> std::io::Result<SocketAddr> {
    let address = socket.local_addr()?;
    thread::spawn(move || {
        let mut room = [0; 512];
        while let Ok((length, from)) = socket.recv_from(&mut room) {
            if let Some(reply) = reply_to(&room[..length]) {
                let _ = socket.send_to(&reply, from);
            }
        }
    });
    Ok(address)
}

/// The reply, where there is one question.
fn reply_to(question: &[u8]) -> Option<Vec<u8>> {
    let (header, rest) = question.split_at_checked(12)?;
    let end = rest.iter().position(|octet| *octet == 0)? + 5;
    let asked = rest.get(..end)?;
    let (record_type, data) = match asked[end - 3] {
        28 => (28, &b"\x20\x01\x0d\xb8\0\0\0\0\0\0\0\0\0\0\0\x01"[..]),
        _ => (1, &b"\xc0\0\x02\x01"[..]),
    };
    let head = [header[0], header[1], 0x81, 0x80, 0, 1, 0, 1, 0, 0, 0, 0];
    let record = [
        0xc0,
        12,
        0,
        record_type,
        0,
        1,
        0,
        0,
        14,
        16,
        0,
        data.len() as u8,
    ];
    Some([&head[..], asked, &record, data].concat())
}
