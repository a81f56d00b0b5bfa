//! Sockets for the channels of a session. It opens them, moves octets and waits, and decides
//! nothing.

use std::io::{self, ErrorKind, Read, Write};
use std::net::{IpAddr, SocketAddr, SocketAddrV6, TcpStream, UdpSocket};
use std::os::fd::AsRawFd;
use std::time::Duration;

use crate::ffi::system::{self, PollFd};
use crate::{ChannelFailure, Protocol};

/// The most that a datagram, or a piece of a stream, can be.
const ROOM: usize = 1 << 16;
/// What may wait for a stream.
const OUT: usize = 1 << 20;
/// No wait is longer: else nobody would see that the program stood still within one.
pub(crate) const LONGEST: Duration = Duration::from_secs(1);
/// A descriptor that poll passes over.
const NONE: i32 = -1;
/// Where the machine slept for so long, it matters when something came.
const SLEPT: Duration = Duration::from_secs(1);
/// More datagrams than a socket holds.
const MOST_LET_GO: usize = 4096;

/// What happened on a channel.
pub(crate) enum Event<'a> {
    Came(&'a [u8]),
    Failed(ChannelFailure),
}

enum Socket {
    Datagram(UdpSocket),
    Stream {
        stream: TcpStream,
        /// What waits to be sent.
        out: Vec<u8>,
    },
}

struct Channel {
    number: u64,
    socket: Socket,
}

/// The channels that are open, each with what is waited for beside it, at the same place.
#[derive(Default)]
pub(crate) struct Network {
    channels: Vec<Channel>,
    polled: Vec<PollFd>,
    room: Vec<u8>,
    /// How long the machine had slept when that was asked last.
    asleep: Duration,
}

impl Network {
    /// Opens a channel; or tells why it failed.
    pub(crate) fn open(
        &mut self,
        channel: u64,
        protocol: Protocol,
        server: SocketAddr,
    ) -> Result<(), ChannelFailure> {
        let socket = socket_to(server, protocol)
            .map_err(|error| failure_to_open(&error, server, protocol))?;
        self.polled.push(PollFd {
            fd: socket.fd(),
            events: system::POLLIN,
            revents: 0,
        });
        self.channels.push(Channel {
            number: channel,
            socket,
        });
        Ok(())
    }

    /// Sends octets on a channel, as far as it goes; or tells why it failed.
    pub(crate) fn send(&mut self, channel: u64, octets: &[u8]) -> Result<(), ChannelFailure> {
        let Some(place) = self.place_of(channel) else {
            return Ok(());
        };
        match &mut self.channels[place].socket {
            Socket::Datagram(socket) => match socket.send(octets) {
                Err(error) if !is_for_later(&error) => Err(failure_of(&error)),
                _ => Ok(()),
            },
            Socket::Stream { out, .. } if out.len() + octets.len() > OUT => {
                Err(ChannelFailure::Unreachable)
            }
            Socket::Stream { out, .. } => {
                out.extend_from_slice(octets);
                self.flush(place)
            }
        }
    }

    /// Closes a channel.
    pub(crate) fn close(&mut self, channel: u64) {
        if let Some(place) = self.place_of(channel) {
            self.channels.swap_remove(place);
            self.polled.swap_remove(place);
        }
    }

    /// Whether no channel is open.
    pub(crate) fn is_empty(&self) -> bool {
        self.channels.is_empty()
    }

    /// Whether the machine slept since this was asked last.
    pub(crate) fn has_slept(&mut self) -> bool {
        self.has_slept_for(system::asleep())
    }

    /// The same, where it has slept for so long in all.
    fn has_slept_for(&mut self, asleep: Duration) -> bool {
        let before = std::mem::replace(&mut self.asleep, asleep);
        asleep >= before + SLEPT
    }

    /// Lets go of what came: datagrams are read and not told. Of a stream it is not known what came
    /// by when, so it is closed: gives the numbers of those that were not before.
    pub(crate) fn let_go(&mut self) -> Vec<u64> {
        let mut closed = Vec::new();
        for (channel, polled) in self.channels.iter().zip(&mut self.polled) {
            polled.revents = 0;
            match &channel.socket {
                Socket::Datagram(socket) => empty(socket),
                Socket::Stream { .. } if polled.fd == NONE => {}
                Socket::Stream { .. } => {
                    polled.fd = NONE;
                    closed.push(channel.number);
                }
            }
        }
        closed
    }

    /// Waits until something happens, for so long at most. Tells whether something did.
    pub(crate) fn wait(&mut self, longest: Duration) -> io::Result<bool> {
        let milliseconds = i32::try_from(longest.as_millis()).unwrap_or(i32::MAX);
        system::wait_for(&mut self.polled, milliseconds)
    }

    /// The places of channels on which something happened in the latest wait.
    pub(crate) fn ready(&self) -> Vec<usize> {
        let is_ready = |place: &usize| self.polled[*place].revents != 0;
        (0..self.polled.len()).filter(is_ready).collect()
    }

    /// Whether the channel at a place is a stream.
    pub(crate) fn is_stream(&self, place: usize) -> bool {
        matches!(self.channels[place].socket, Socket::Stream { .. })
    }

    /// The channel at a place, and what happened there, if anything did.
    pub(crate) fn look_at(&mut self, place: usize) -> (u64, Option<Event<'_>>) {
        let number = self.channels[place].number;
        let event = match self.take(place) {
            Ok(0) => None,
            Ok(length) => Some(Event::Came(&self.room[..length])),
            Err(failure) => Some(Event::Failed(failure)),
        };
        (number, event)
    }

    /// Sends what waits, and puts what came at the front of the room; gives its length. A datagram
    /// of no octets is none. A stream that failed is looked at no more: it would always be ready.
    fn take(&mut self, place: usize) -> Result<usize, ChannelFailure> {
        let happened = std::mem::take(&mut self.polled[place].revents);
        let sent = match happened & system::POLLOUT {
            0 => Ok(()),
            _ => self.flush(place),
        };
        let got = match happened & !system::POLLOUT {
            0 => sent.map(|()| 0),
            _ => sent.and_then(|()| self.receive(place)),
        };
        if got.is_err() && self.is_stream(place) {
            self.polled[place].fd = NONE;
        }
        got
    }

    fn place_of(&self, channel: u64) -> Option<usize> {
        self.channels.iter().position(|it| it.number == channel)
    }

    /// Sends what waits for a stream, as far as it goes.
    fn flush(&mut self, place: usize) -> Result<(), ChannelFailure> {
        let Socket::Stream { stream, out } = &mut self.channels[place].socket else {
            return Ok(());
        };
        match stream.write(out) {
            Ok(sent) => drop(out.drain(..sent)),
            Err(error) if is_for_later(&error) => {}
            Err(error) => return Err(failure_of(&error)),
        }
        let of_out = if out.is_empty() { 0 } else { system::POLLOUT };
        self.polled[place].events = system::POLLIN | of_out;
        Ok(())
    }

    /// Puts what came at the front of the room, and gives its length.
    fn receive(&mut self, place: usize) -> Result<usize, ChannelFailure> {
        self.room.resize(ROOM, 0);
        let (got, is_stream) = match &mut self.channels[place].socket {
            Socket::Datagram(socket) => (socket.recv(&mut self.room), false),
            Socket::Stream { stream, .. } => (stream.read(&mut self.room), true),
        };
        match got {
            Ok(0) if is_stream => Err(ChannelFailure::Closed),
            Ok(length) => Ok(length),
            Err(error) if is_for_later(&error) => Ok(0),
            Err(error) => Err(failure_of(&error)),
        }
    }
}

impl Socket {
    fn fd(&self) -> i32 {
        match self {
            Socket::Datagram(socket) => socket.as_raw_fd(),
            Socket::Stream { stream, .. } => stream.as_raw_fd(),
        }
    }
}

/// Reads what a socket holds, and errors that ICMP told, and looks at none of it.
fn empty(socket: &UdpSocket) {
    for _ in 0..MOST_LET_GO {
        match socket.recv(&mut [0]) {
            Err(error) if is_for_later(&error) => return,
            _ => {}
        }
    }
}

/// A socket of its own, connected to a server.
fn socket_to(server: SocketAddr, protocol: Protocol) -> io::Result<Socket> {
    match protocol {
        Protocol::Udp => Ok(Socket::Datagram(system::socket_to(server, false)?.into())),
        Protocol::Tcp => {
            let stream = TcpStream::from(system::socket_to(server, true)?);
            stream.set_nodelay(true)?;
            Ok(Socket::Stream {
                stream,
                out: Vec::new(),
            })
        }
    }
}

/// The address of a server's socket. The scope of a link-local address is the name of an interface,
/// or its number.
pub(crate) fn socket_address(address: IpAddr, port: u16, scope: &[u8]) -> SocketAddr {
    match address {
        IpAddr::V4(_) => SocketAddr::new(address, port),
        IpAddr::V6(address) => SocketAddrV6::new(address, port, 0, scope_id(scope)).into(),
    }
}

fn scope_id(scope: &[u8]) -> u32 {
    let text = std::str::from_utf8(scope).unwrap_or_default();
    match text {
        "" => 0,
        text => system::interface(text)
            .or_else(|| text.parse().ok())
            .unwrap_or(0),
    }
}

fn is_for_later(error: &io::Error) -> bool {
    let of_now = [
        ErrorKind::WouldBlock,
        ErrorKind::NotConnected,
        ErrorKind::Interrupted,
    ];
    of_now.contains(&error.kind())
}

/// Why a channel could not be opened. That no address is left may say of a stream that no port is;
/// else it says that there is none of the family of its server.
fn failure_to_open(error: &io::Error, server: SocketAddr, protocol: Protocol) -> ChannelFailure {
    let is_of_number = [system::EMFILE, system::ENFILE, system::ENOBUFS]
        .contains(&error.raw_os_error().unwrap_or_default());
    match error.kind() {
        _ if is_of_number => ChannelFailure::Local,
        ErrorKind::OutOfMemory | ErrorKind::AddrInUse | ErrorKind::WouldBlock => {
            ChannelFailure::Local
        }
        ErrorKind::AddrNotAvailable if protocol == Protocol::Tcp && has_source(server) => {
            ChannelFailure::Local
        }
        _ => failure_of(error),
    }
}

/// Whether this machine has an address to ask a server from: a socket for datagrams takes one as it
/// is connected.
fn has_source(server: SocketAddr) -> bool {
    let connected = system::socket_to(server, false);
    !matches!(connected, Err(error) if error.kind() == ErrorKind::AddrNotAvailable)
}

/// Why a channel failed that was opened. Octets may have gone out on it, so whatever is wanting
/// here, it is no more than a channel that leads nowhere.
fn failure_of(error: &io::Error) -> ChannelFailure {
    match error.kind() {
        ErrorKind::ConnectionRefused => ChannelFailure::Refused,
        _ => ChannelFailure::Unreachable,
    }
}

#[cfg(test)]
mod tests {
    use super::*;

    #[test]
    fn what_came_before_the_machine_woke_is_let_go() {
        let server = UdpSocket::bind("127.0.0.1:0").unwrap();
        let mut network = Network::default();
        let place = server.local_addr().unwrap();
        network.open(1, Protocol::Udp, place).unwrap();
        network.send(1, b"question").unwrap();
        let (_, peer) = server.recv_from(&mut [0; 16]).unwrap();
        let mut heard = Vec::new();
        for (reply, is_let_go) in [(b"one", true), (b"two", false)] {
            server.send_to(reply, peer).unwrap();
            network.wait(LONGEST).unwrap();
            if is_let_go {
                assert!(network.let_go().is_empty());
            }
            if let (number, Some(Event::Came(octets))) = network.look_at(0) {
                heard.push((number, octets.to_vec()));
            }
        }
        assert_eq!(heard, [(1, b"two".to_vec())]);
    }

    #[test]
    fn no_address_is_no_port_of_a_stream() {
        let server = SocketAddr::from(([127, 0, 0, 1], 53));
        let error = io::Error::from(ErrorKind::AddrNotAvailable);
        let wanted = [
            (Protocol::Udp, ChannelFailure::Unreachable),
            (Protocol::Tcp, ChannelFailure::Local),
        ];
        for (protocol, failure) in wanted {
            assert_eq!(failure_to_open(&error, server, protocol), failure);
        }
    }

    #[test]
    fn a_sleep_is_told_once() {
        let mut network = Network::default();
        let slept = [0, 999, 999, 1998, 2998, 2998, 60_000, 60_000];
        let told = slept.map(|it| network.has_slept_for(Duration::from_millis(it)));
        let wanted = [false, false, false, false, true, false, true, false];
        assert_eq!(told, wanted);
    }

    #[test]
    fn scopes_are_names_or_numbers() {
        let address: IpAddr = "fe80::1".parse().unwrap();
        let wanted =
            |id| SocketAddr::from(SocketAddrV6::new("fe80::1".parse().unwrap(), 53, 0, id));
        assert_eq!(
            socket_address(address, 53, b"lo"),
            wanted(system::interface("lo").unwrap())
        );
        assert_eq!(socket_address(address, 53, b"7"), wanted(7));
        assert_eq!(socket_address(address, 53, b""), wanted(0));
        assert_eq!(socket_address(address, 53, b"\xff"), wanted(0));
    }
}
