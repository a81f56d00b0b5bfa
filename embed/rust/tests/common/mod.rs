//! Name servers of the tests' own, on loopback.
#![allow(dead_code, reason = "no test uses all of it")]

use std::io::{Read, Write};
use std::net::{IpAddr, Ipv4Addr, SocketAddr, TcpListener, TcpStream, UdpSocket};
use std::sync::atomic::{AtomicBool, AtomicUsize, Ordering};
use std::sync::{Arc, Mutex};
use std::thread;
use std::time::Duration;

use yimarotu::{Resolver, ResolverBuilder};

/// A question that came to a server.
pub struct Asked {
    pub octets: Vec<u8>,
    pub by_stream: bool,
    /// How many came before it.
    pub before: usize,
}

/// What a server does, in order.
pub enum Does {
    Waits(Duration),
    Says(Vec<u8>),
    /// From another port than it was asked at.
    SaysFromElsewhere(Vec<u8>),
    /// Closes the stream.
    Closes,
}

impl Asked {
    /// The labels of the name, in lower case, with a dot behind each; and where the question ends.
    fn read(&self) -> (String, usize) {
        let (mut name, mut at) = (String::new(), 12);
        while self.octets[at] != 0 {
            let end = at + 1 + usize::from(self.octets[at]);
            name += &String::from_utf8_lossy(&self.octets[at + 1..end]).to_lowercase();
            name.push('.');
            at = end;
        }
        (name, at + 5)
    }

    pub fn name(&self) -> String {
        self.read().0
    }

    pub fn record_type(&self) -> u16 {
        let end = self.read().1;
        u16::from_be_bytes([self.octets[end - 4], self.octets[end - 3]])
    }

    /// A reply with these flags and this code, answers and authorities.
    pub fn reply(&self, flags: u16, answers: &[Vec<u8>], authorities: &[Vec<u8>]) -> Vec<u8> {
        let counts = [1, answers.len() as u16, authorities.len() as u16, 0];
        let counts: Vec<u8> = counts.into_iter().flat_map(u16::to_be_bytes).collect();
        let question = &self.octets[12..self.read().1];
        let records = [answers, authorities].concat().concat();
        [
            &self.octets[..2],
            &flags.to_be_bytes(),
            &counts,
            question,
            &records,
        ]
        .concat()
    }
}

/// The flags of a response, and codes.
pub const RESPONSE: u16 = 0x8180;
pub const TRUNCATED: u16 = 0x8380;
pub const SERVFAIL: u16 = 2;
pub const NXDOMAIN: u16 = 3;
pub const REFUSED: u16 = 5;

/// A record of the name that is asked.
pub fn record(record_type: u16, ttl: u32, data: &[u8]) -> Vec<u8> {
    let (of_type, length) = (record_type.to_be_bytes(), (data.len() as u16).to_be_bytes());
    [
        &b"\xc0\x0c"[..],
        &of_type,
        b"\0\x01",
        &ttl.to_be_bytes(),
        &length,
        data,
    ]
    .concat()
}

pub fn address(last: u8) -> Vec<u8> {
    record(1, 60, &[192, 0, 2, last])
}

pub fn address_of_six(last: u8) -> Vec<u8> {
    record(
        28,
        60,
        &[&b"\x20\x01\x0d\xb8"[..], &[0; 11], &[last]].concat(),
    )
}

/// The SOA record of the zone of the root, whose last number, 30, bounds how long there is no such
/// name.
pub fn soa() -> Vec<u8> {
    let data = [&b"\0\0"[..], &[0; 16], &30_u32.to_be_bytes()].concat();
    let length = (data.len() as u16).to_be_bytes();
    [&b"\0\0\x06\0\x01\0\0\0\x78"[..], &length, &data].concat()
}

/// What is believed: an address of the family that is asked, whose last octet is this.
pub fn with_address(asked: &Asked, last: u8) -> Vec<u8> {
    let answer = if asked.record_type() == 28 {
        address_of_six(last)
    } else {
        address(last)
    };
    asked.reply(RESPONSE, &[answer], &[])
}

type Behaviour = dyn Fn(&Asked) -> Vec<Does> + Send + Sync;

/// A server by datagrams and by streams. It ends when it is dropped.
pub struct Server {
    pub address: SocketAddr,
    inside: Arc<Inside>,
}

struct Inside {
    behaviour: Box<Behaviour>,
    count: AtomicUsize,
    names: Mutex<Vec<(String, bool)>>,
    is_over: AtomicBool,
}

impl Server {
    pub fn new(behaviour: impl Fn(&Asked) -> Vec<Does> + Send + Sync + 'static) -> Server {
        Server::at(Ipv4Addr::LOCALHOST.into(), behaviour)
    }

    pub fn at(
        address: IpAddr,
        behaviour: impl Fn(&Asked) -> Vec<Does> + Send + Sync + 'static,
    ) -> Server {
        let (listener, socket) = listen(address);
        let address = socket.local_addr().unwrap();
        let inside = Arc::new(Inside {
            behaviour: Box::new(behaviour),
            count: AtomicUsize::new(0),
            names: Mutex::default(),
            is_over: AtomicBool::new(false),
        });
        let (of_datagrams, of_streams) = (inside.clone(), inside.clone());
        thread::spawn(move || of_datagrams.datagrams(&socket.into()));
        thread::spawn(move || of_streams.streams(&listener));
        Server { address, inside }
    }

    /// One that answers each question with an address that ends with this octet.
    pub fn good(last: u8) -> Server {
        Server::new(move |asked| vec![Does::Says(with_address(asked, last))])
    }

    pub fn silent() -> Server {
        Server::new(|_| Vec::new())
    }

    /// The names that were asked, in lower case, and whether by a stream.
    pub fn asked(&self) -> Vec<(String, bool)> {
        self.inside.names.lock().unwrap().clone()
    }

    /// A builder that asks this server.
    pub fn builder(&self) -> ResolverBuilder {
        Resolver::builder_without_system().server(self.address)
    }

    /// A resolver that asks this server, for IPv4 addresses alone.
    pub fn resolver(&self) -> Resolver {
        self.builder()
            .option("ip_strategy", "Ipv4Only")
            .build()
            .unwrap()
    }
}

impl Drop for Server {
    fn drop(&mut self) {
        self.inside.is_over.store(true, Ordering::Relaxed);
    }
}

/// A port at which nobody is, and nobody will be: a socket has it that hears itself alone.
pub struct Nobody(UdpSocket);

impl Nobody {
    pub fn new() -> Nobody {
        let socket = UdpSocket::bind((Ipv4Addr::LOCALHOST, 0)).unwrap();
        socket.connect(socket.local_addr().unwrap()).unwrap();
        Nobody(socket)
    }

    pub fn address(&self) -> SocketAddr {
        self.0.local_addr().unwrap()
    }
}

/// Sockets of one port for both.
fn listen(address: IpAddr) -> (TcpListener, UdpSocket) {
    loop {
        let listener = TcpListener::bind((address, 0)).unwrap();
        let port = listener.local_addr().unwrap().port();
        if let Ok(socket) = UdpSocket::bind((address, port)) {
            socket
                .set_read_timeout(Some(Duration::from_millis(50)))
                .unwrap();
            listener.set_nonblocking(true).unwrap();
            return (listener, socket);
        }
    }
}

impl Inside {
    fn ask(&self, octets: Vec<u8>, by_stream: bool) -> Vec<Does> {
        let before = self.count.fetch_add(1, Ordering::Relaxed);
        let asked = Asked {
            octets,
            by_stream,
            before,
        };
        self.names.lock().unwrap().push((asked.name(), by_stream));
        (self.behaviour)(&asked)
    }

    fn datagrams(self: &Arc<Inside>, socket: &Arc<UdpSocket>) {
        let mut room = [0; 2048];
        while !self.is_over.load(Ordering::Relaxed) {
            let Ok((length, from)) = socket.recv_from(&mut room) else {
                continue;
            };
            let (inside, socket) = (self.clone(), socket.clone());
            let octets = room[..length].to_vec();
            thread::spawn(move || {
                for does in inside.ask(octets, false) {
                    match does {
                        Does::Waits(time) => thread::sleep(time),
                        Does::Says(reply) => drop(socket.send_to(&reply, from)),
                        Does::SaysFromElsewhere(reply) => {
                            let any = (socket.local_addr().unwrap().ip(), 0);
                            drop(UdpSocket::bind(any).unwrap().send_to(&reply, from));
                        }
                        Does::Closes => {}
                    }
                }
            });
        }
    }

    fn streams(self: &Arc<Inside>, listener: &TcpListener) {
        while !self.is_over.load(Ordering::Relaxed) {
            match listener.accept() {
                Ok((stream, _)) => {
                    let inside = self.clone();
                    thread::spawn(move || inside.stream(stream));
                }
                Err(_) => thread::sleep(Duration::from_millis(5)),
            }
        }
    }

    fn stream(&self, mut stream: TcpStream) {
        stream.set_nonblocking(false).unwrap();
        let mut length = [0; 2];
        while stream.read_exact(&mut length).is_ok() {
            let mut octets = vec![0; usize::from(u16::from_be_bytes(length))];
            if stream.read_exact(&mut octets).is_err() {
                return;
            }
            for does in self.ask(octets, true) {
                match does {
                    Does::Waits(time) => thread::sleep(time),
                    Does::Says(reply) | Does::SaysFromElsewhere(reply) => {
                        let length = (reply.len() as u16).to_be_bytes();
                        // In two pieces, the first one cut within the length.
                        let whole = [&length[..], &reply].concat();
                        drop(stream.write_all(&whole[..1]));
                        thread::sleep(Duration::from_millis(2));
                        drop(stream.write_all(&whole[1..]));
                    }
                    Does::Closes => return,
                }
            }
        }
    }
}
