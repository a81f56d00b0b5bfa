//! What is asked of the system, and std has no call for. The numbers are those of Linux.

use std::ffi::{CString, c_char, c_int, c_uint, c_void};
use std::io;
use std::net::SocketAddr;
use std::os::fd::{FromRawFd, OwnedFd, RawFd};
use std::time::Duration;

const CLOCK_MONOTONIC: c_int = 1;
const CLOCK_BOOTTIME: c_int = 7;
const AF_INET: u16 = 2;
const AF_INET6: u16 = 10;
const SOCK_STREAM: c_int = 1;
const SOCK_DGRAM: c_int = 2;
const SOCK_NONBLOCK: c_int = 0o4000;
const SOCK_CLOEXEC: c_int = 0o2000000;
const EINPROGRESS: i32 = 115;
const HOST_NAME_ROOM: usize = 256;

/// No descriptor is left, of this program or of the machine, or no memory for a buffer.
pub(crate) const ENFILE: i32 = 23;
pub(crate) const EMFILE: i32 = 24;
pub(crate) const ENOBUFS: i32 = 105;

pub(crate) const POLLIN: i16 = 1;
pub(crate) const POLLOUT: i16 = 4;

/// A descriptor that is waited for, and for what; and what happened there.
#[repr(C)]
#[derive(Clone, Copy, Debug)]
pub(crate) struct PollFd {
    pub(crate) fd: RawFd,
    pub(crate) events: i16,
    pub(crate) revents: i16,
}

#[repr(C)]
struct TimeSpec {
    seconds: i64,
    nanoseconds: i64,
}

#[repr(C)]
struct SockAddrIn {
    family: u16,
    port: u16,
    address: [u8; 4],
    zero: [u8; 8],
}

#[repr(C)]
struct SockAddrIn6 {
    family: u16,
    port: u16,
    flow_info: u32,
    address: [u8; 16],
    scope_id: u32,
}

unsafe extern "C" {
    fn clock_gettime(clock: c_int, time: *mut TimeSpec) -> c_int;
    fn getrandom(room: *mut c_void, length: usize, flags: c_uint) -> isize;
    fn gethostname(name: *mut c_char, length: usize) -> c_int;
    fn if_nametoindex(name: *const c_char) -> c_uint;
    fn poll(polled: *mut PollFd, count: usize, timeout: c_int) -> c_int;
    fn socket(family: c_int, kind: c_int, protocol: c_int) -> c_int;
    fn connect(fd: c_int, address: *const c_void, length: u32) -> c_int;
}

/// The time of the clock that does not go back, and counts while the machine sleeps.
pub(crate) fn time() -> Duration {
    time_by(CLOCK_BOOTTIME)
}

/// How long the machine has slept since it was started.
pub(crate) fn asleep() -> Duration {
    time_by(CLOCK_BOOTTIME).saturating_sub(time_by(CLOCK_MONOTONIC))
}

fn time_by(clock: c_int) -> Duration {
    let mut time = TimeSpec {
        seconds: 0,
        nanoseconds: 0,
    };
    // SAFETY: it writes the time that it is given, which is laid out as a timespec of 64 bits.
    unsafe { clock_gettime(clock, &raw mut time) };
    Duration::new(time.seconds as u64, time.nanoseconds as u32)
}

/// Octets that nobody knows.
pub(crate) fn random() -> io::Result<[u8; 32]> {
    let mut octets = [0; 32];
    // SAFETY: it writes at most so many octets there, and up to 256 in one go (getrandom(2)).
    let written = unsafe { getrandom(octets.as_mut_ptr().cast(), octets.len(), 0) };
    match written {
        32 => Ok(octets),
        _ => Err(io::Error::last_os_error()),
    }
}

/// The name of this host; no octets where it cannot be told.
pub(crate) fn host_name() -> Vec<u8> {
    let mut room = vec![0; HOST_NAME_ROOM];
    // SAFETY: it writes at most so many octets there.
    let ended = unsafe { gethostname(room.as_mut_ptr().cast(), room.len()) };
    let length = room.iter().position(|octet| *octet == 0).unwrap_or(0);
    room.truncate(if ended == 0 { length } else { 0 });
    room
}

/// The number of the interface with this name, where there is one.
pub(crate) fn interface(name: &str) -> Option<u32> {
    let name = CString::new(name).ok()?;
    // SAFETY: the name ends with a zero.
    Some(unsafe { if_nametoindex(name.as_ptr()) }).filter(|index| *index != 0)
}

/// Waits for what may happen on the descriptors, for so many milliseconds at most. Tells whether
/// something did, or a signal came.
pub(crate) fn wait_for(polled: &mut [PollFd], milliseconds: i32) -> io::Result<bool> {
    // SAFETY: it reads and writes so many of them.
    let ready = unsafe { poll(polled.as_mut_ptr(), polled.len(), milliseconds) };
    match ready {
        0.. => Ok(ready > 0),
        _ => match io::Error::last_os_error() {
            error if error.kind() == io::ErrorKind::Interrupted => Ok(true),
            error => Err(error),
        },
    }
}

/// A socket that is connected to a server, or of a stream will be: no call of it waits. Its port is
/// one that the system draws.
pub(crate) fn socket_to(server: SocketAddr, is_stream: bool) -> io::Result<OwnedFd> {
    let family = if server.is_ipv4() { AF_INET } else { AF_INET6 };
    let kind = if is_stream { SOCK_STREAM } else { SOCK_DGRAM };
    // SAFETY: it takes numbers.
    let fd = unsafe { socket(c_int::from(family), kind | SOCK_NONBLOCK | SOCK_CLOEXEC, 0) };
    if fd < 0 {
        return Err(io::Error::last_os_error());
    }
    // SAFETY: the descriptor was opened just now, and nobody else has it.
    let owned = unsafe { OwnedFd::from_raw_fd(fd) };
    let ended = match server {
        SocketAddr::V4(server) => connect_to(
            fd,
            &SockAddrIn {
                family,
                port: server.port().to_be(),
                address: server.ip().octets(),
                zero: [0; 8],
            },
        ),
        SocketAddr::V6(server) => connect_to(
            fd,
            &SockAddrIn6 {
                family,
                port: server.port().to_be(),
                flow_info: 0,
                address: server.ip().octets(),
                scope_id: server.scope_id(),
            },
        ),
    };
    match ended {
        Err(error) if error.raw_os_error() != Some(EINPROGRESS) => Err(error),
        _ => Ok(owned),
    }
}

/// An address of a socket, as the system has it.
trait SocketAddress {}

impl SocketAddress for SockAddrIn {}
impl SocketAddress for SockAddrIn6 {}

fn connect_to<A: SocketAddress>(fd: RawFd, address: &A) -> io::Result<()> {
    let length = size_of::<A>() as u32;
    // SAFETY: it reads so many octets there, which are laid out as an address of that family.
    let ended = unsafe { connect(fd, (&raw const *address).cast(), length) };
    if ended == 0 {
        Ok(())
    } else {
        Err(io::Error::last_os_error())
    }
}
