//! A session that asks name servers by itself, without input or output, for a program with a loop
//! of its own.

use std::net::{IpAddr, Ipv4Addr, Ipv6Addr};
use std::time::Duration;

use crate::ffi::library::{self, Handle, YimarotuAction, YimarotuAddress, numbers};
use crate::{Moment, RecordType, ResponseCode, SessionError};

/// The texts that a session is opened over.
///
/// ```
/// use yimarotu::Texts;
///
/// let texts = Texts { settings: "server 192.0.2.53\noption ndots 2\n", ..Texts::default() };
/// assert!(texts.hosts.is_empty());
/// ```
#[derive(Clone, Copy, Debug, Default)]
pub struct Texts<'a> {
    /// A file resolv.conf. One of no octets says as much as one without lines: 127.0.0.1 is asked.
    pub conf: &'a [u8],
    /// The name of this host: its domain is searched where `conf` names none.
    pub hostname: &'a [u8],
    /// Lines that count in place of what `conf` says: `docs/EMBED.md`, "Settings".
    pub settings: &'a str,
    /// A file of hosts.
    pub hosts: &'a [u8],
}

impl Texts<'_> {
    pub(crate) fn raw(&self) -> library::Texts<'_> {
        library::Texts {
            conf: self.conf,
            hostname: self.hostname,
            settings: self.settings.as_bytes(),
            hosts: self.hosts,
        }
    }
}

/// What goes over a channel.
#[derive(Clone, Copy, Debug, PartialEq, Eq, Hash)]
pub enum Protocol {
    /// Datagrams: a socket of its own, connected to the server, and kept after an ICMP error.
    Udp,
    /// A stream. Messages are in it with their lengths, which the library reads and writes.
    Tcp,
}

/// What a program has to do next for a [`Session`].
#[derive(Clone, Copy, Debug, PartialEq, Eq)]
#[non_exhaustive]
pub enum Action<'a> {
    /// Nothing, until something happens.
    Nothing,
    /// Nothing of its own: it calls [`Session::next`] again.
    Continue,
    /// It opens a channel to a server. One that cannot be opened has failed
    /// ([`ChannelFailure::Local`]).
    Open {
        /// The number of the channel, which is never used twice.
        channel: u64,
        /// What goes over it.
        protocol: Protocol,
        /// The address of the server.
        address: IpAddr,
        /// Its port.
        port: u16,
        /// Of a link-local address the name of an interface, or its number; else no octets.
        scope: &'a [u8],
    },
    /// It sends octets on a channel. For a stream that is not connected yet, or is full, they wait
    /// with the program.
    Send {
        /// The number of the channel.
        channel: u64,
        /// The octets.
        octets: &'a [u8],
    },
    /// It closes the channel with this number, also one that failed. Each is closed once.
    Close(u64),
    /// It may read the answer of the look-up with this number.
    Done(u64),
}

/// How a channel fails.
#[derive(Clone, Copy, Debug, PartialEq, Eq, Hash)]
pub enum ChannelFailure {
    /// Nobody listens there.
    Refused,
    /// The server cannot be reached.
    Unreachable,
    /// The stream was closed.
    Closed,
    /// It could not be opened here: no descriptor or no port was left.
    Local,
}

impl ChannelFailure {
    fn number(self) -> u8 {
        match self {
            ChannelFailure::Refused => numbers::CHANNEL_REFUSED,
            ChannelFailure::Unreachable => numbers::CHANNEL_UNREACHABLE,
            ChannelFailure::Closed => numbers::CHANNEL_CLOSED,
            ChannelFailure::Local => numbers::CHANNEL_LOCAL,
        }
    }
}

/// What a look-up came to.
#[derive(Clone, Copy, Debug, PartialEq, Eq, Hash)]
#[non_exhaustive]
pub enum Found {
    /// Records, which may all be in other sections than the answers.
    Records,
    /// A negative answer.
    NoRecords,
    /// A response with another code than those of the two above.
    ResponseCode,
    /// The upstream did not answer in time.
    TimedOut,
    /// The upstream cannot be reached, or failed otherwise.
    Upstream,
    /// The text is no name.
    BadName,
    /// No memory was left within the look-up.
    RanOut,
    /// Another number, which look-ups of sessions do not give.
    Other(u8),
}

impl Found {
    pub(crate) fn of(error: u8) -> Found {
        match error {
            numbers::FOUND => Found::Records,
            numbers::NO_RECORDS => Found::NoRecords,
            numbers::RESPONSE_CODE => Found::ResponseCode,
            numbers::TIMED_OUT => Found::TimedOut,
            numbers::UPSTREAM => Found::Upstream,
            numbers::BAD_NAME => Found::BadName,
            numbers::RAN_OUT => Found::RanOut,
            other => Found::Other(other),
        }
    }
}

/// What a look-up came to, with the message of it.
#[derive(Clone, Debug, PartialEq, Eq)]
#[non_exhaustive]
pub struct Answer {
    /// Which of these it is.
    pub found: Found,
    /// The message of records or of a negative answer, for [`Message::read`](crate::Message::read);
    /// else no octets. Its id is for the program to set.
    pub message: Vec<u8>,
    /// The response code; `NoError` where there is none.
    pub code: ResponseCode,
    /// Of a negative answer: for how many seconds its SOA record lets it be kept, where that is
    /// known.
    pub ttl: Option<u32>,
    /// Of records: the last second at which they may be used, as milliseconds of a moment divided
    /// by 1000.
    pub until: u64,
}

/// The addresses that a look-up came to.
#[derive(Clone, Debug, PartialEq, Eq)]
#[non_exhaustive]
pub struct Addresses {
    /// Which of these it is.
    pub found: Found,
    /// The response code; `NoError` where there is none.
    pub code: ResponseCode,
    /// For how long from the moment on they may be used.
    pub ttl: Duration,
    /// The addresses, in the order of the answer.
    pub addresses: Vec<IpAddr>,
}

/// What a session did and holds.
#[derive(Clone, Copy, Debug, PartialEq, Eq)]
#[non_exhaustive]
pub struct Statistics {
    /// Look-ups that were started.
    pub started: u64,
    /// Of them those that were done at once: from the cache, the hosts, or without a question.
    pub done_at_once: u64,
    /// Messages that were to be sent.
    pub sent: u64,
    /// Look-ups that came to a timeout.
    pub timed_out: u64,
    /// Results in the cache, current or not.
    pub entries: u64,
    /// How many octets they weigh, where the cache is bounded by octets.
    pub octets: Option<u64>,
}

/// Room for what is sent, and for a usual answer.
const ROOM: usize = 512;
const ADDRESSES: usize = 16;

/// What a call told, and what it wrote in a room, which is made as large as it has to be. The call
/// tells its status, and the length.
pub(crate) fn in_room<E: Clone + Default, T>(
    size: usize,
    call: impl Fn(&mut [E]) -> (u8, usize, T),
) -> (u8, Vec<E>, T) {
    let mut room = vec![E::default(); size];
    loop {
        let (status, length, told) = call(&mut room);
        if status != numbers::ROOM {
            room.truncate(length);
            return (status, room, told);
        }
        room.resize(length, E::default());
    }
}

/// The answer of a look-up, as a message of so many octets at most.
pub(crate) fn answer(handle: &Handle, number: u64, limit: usize) -> Result<Answer, SessionError> {
    let (ended, message, told) = in_room(ROOM, |room| {
        let told = handle.answer(number, limit, room);
        (told.status, told.length, told)
    });
    SessionError::of(ended, 0, told.fault)?;
    Ok(Answer {
        found: Found::of(told.error),
        message,
        code: told.code.into(),
        ttl: told.has_ttl.then_some(told.ttl),
        until: told.until,
    })
}

/// A session that asks name servers by itself: a resolver with its hosts and its cache, and
/// look-ups in flight and done, each under a number that the program chose. It does no input or
/// output and knows no clock: the program opens channels, moves octets and tells the time, as
/// [`Session::next`] says; who is asked, which reply is believed and when it is asked again is
/// decided inside. [`Resolver`](crate::Resolver) is such a program.
///
/// It closes itself when it is dropped; channels that are open are the program's. It may be moved
/// to another thread, but threads share none:
///
/// ```compile_fail
/// fn share<T: Sync>() {}
/// share::<yimarotu::Session>();
/// ```
///
/// From its seed all ids of messages follow. So a child of fork, and a machine that was copied,
/// open a session anew, with another seed, and use none that was opened before.
///
/// ```
/// use yimarotu::{Action, Moment, Session, Texts};
///
/// let texts = Texts { settings: "server 192.0.2.53\n", ..Texts::default() };
/// let mut session = Session::open(&texts, &[7; 32], Moment::from_millis(0))?;
/// session.start_ip(1, "www.example.com.", Moment::from_millis(0))?;
/// let mut servers = Vec::new();
/// loop {
///     match session.next()? {
///         Action::Nothing => break,
///         Action::Open { address, .. } => servers.push(address.to_string()),
///         _ => {}
///     }
/// }
/// // A question for each family, at the same time.
/// assert_eq!(servers, ["192.0.2.53", "192.0.2.53"]);
/// # Ok::<(), yimarotu::SessionError>(())
/// ```
pub struct Session {
    handle: Handle,
    /// The octets of the latest action.
    room: Vec<u8>,
}

impl Session {
    /// Opens a session over these texts. The seed is of octets that nobody knows.
    ///
    /// # Errors
    ///
    /// `Script` with the first line of the settings that has a fault, `Hosts`, or `NoMemory`.
    pub fn open(texts: &Texts, seed: &[u8; 32], moment: Moment) -> Result<Session, SessionError> {
        let session = Session {
            handle: Handle::closed(),
            room: vec![0; ROOM],
        };
        let told = session.handle.open(&texts.raw(), seed, moment.as_millis());
        SessionError::of(told.status, told.line, 0).map(|()| session)
    }

    /// One whose calls all fail.
    #[cfg(test)]
    pub(crate) fn closed() -> Session {
        Session {
            handle: Handle::closed(),
            room: vec![0; ROOM],
        }
    }

    /// Starts a look-up of records of a type under a number that is free. Gives whether it waits;
    /// else there is an answer.
    ///
    /// # Errors
    ///
    /// `InUse`, or `NoMemory`; then none was started.
    pub fn start(
        &mut self,
        number: u64,
        name: &str,
        record_type: RecordType,
        moment: Moment,
    ) -> Result<bool, SessionError> {
        let (name, moment) = (name.as_bytes(), moment.as_millis());
        let told = self.handle.start(number, name, record_type.code(), moment);
        SessionError::of(told.status, 0, told.fault).map(|()| told.waits)
    }

    /// The same of the addresses of a host, of the families that the settings say. A text that is
    /// an address is its own answer.
    ///
    /// # Errors
    ///
    /// As of [`Session::start`].
    pub fn start_ip(
        &mut self,
        number: u64,
        host: &str,
        moment: Moment,
    ) -> Result<bool, SessionError> {
        let told = self
            .handle
            .start_ip(number, host.as_bytes(), moment.as_millis());
        SessionError::of(told.status, 0, told.fault).map(|()| told.waits)
    }

    /// Tells what the program has to do next. It is called after each other call that changes the
    /// session, again and again until it says [`Action::Nothing`].
    ///
    /// # Errors
    ///
    /// `NoMemory`; it says the same when it is called again.
    #[allow(
        clippy::should_implement_trait,
        reason = "an action lends the octets of the session"
    )]
    pub fn next(&mut self) -> Result<Action<'_>, SessionError> {
        loop {
            let told = self.handle.next(&mut self.room);
            if told.status != numbers::ROOM {
                SessionError::of(told.status, 0, 0)?;
                let octets = self.room.get(..told.length).unwrap_or_default();
                return Ok(action(&told, octets));
            }
            self.room.resize(told.length, 0);
        }
    }

    /// Octets came on a channel: a datagram, or a piece of a stream, cut anywhere.
    ///
    /// # Errors
    ///
    /// `NoMemory`; they may be handed in again.
    pub fn came(
        &mut self,
        channel: u64,
        octets: &[u8],
        moment: Moment,
    ) -> Result<(), SessionError> {
        SessionError::of(self.handle.came(channel, octets, moment.as_millis()), 0, 0)
    }

    /// A channel failed.
    ///
    /// # Errors
    ///
    /// `NoMemory`.
    pub fn failed(
        &mut self,
        channel: u64,
        failure: ChannelFailure,
        moment: Moment,
    ) -> Result<(), SessionError> {
        let status = self
            .handle
            .failed(channel, failure.number(), moment.as_millis());
        SessionError::of(status, 0, 0)
    }

    /// Time passed.
    ///
    /// # Errors
    ///
    /// `NoMemory`.
    pub fn tick(&mut self, moment: Moment) -> Result<(), SessionError> {
        SessionError::of(self.handle.tick(moment.as_millis()), 0, 0)
    }

    /// For how long from a moment on the program may wait for its channels, where nothing is left
    /// to be done; behind that it calls [`Session::tick`]. `None` where time ends nothing.
    ///
    /// # Errors
    ///
    /// None is known.
    pub fn wait(&self, moment: Moment) -> Result<Option<Duration>, SessionError> {
        let told = self.handle.wait(moment.as_millis());
        SessionError::of(told.status, 0, 0)?;
        Ok(told
            .has_deadline
            .then(|| Duration::from_millis(told.milliseconds)))
    }

    /// What a look-up came to, with a message of so many octets at most, from whose end records are
    /// left out where it would be longer. It may be read again until the look-up is cancelled.
    ///
    /// # Errors
    ///
    /// `NoLookup`, `Waits`, or `NoMemory`.
    pub fn answer(&self, number: u64, limit: usize) -> Result<Answer, SessionError> {
        answer(&self.handle, number, limit)
    }

    /// The addresses that a look-up came to.
    ///
    /// # Errors
    ///
    /// `NoLookup`, `Waits`, or `NoMemory`.
    pub fn addresses(&self, number: u64, moment: Moment) -> Result<Addresses, SessionError> {
        let (ended, room, told) = in_room(ADDRESSES, |room| {
            let told = self.handle.addresses(number, moment.as_millis(), room);
            (told.status, told.count, told)
        });
        SessionError::of(ended, 0, 0)?;
        Ok(Addresses {
            found: Found::of(told.error),
            code: told.code.into(),
            ttl: Duration::from_secs(told.ttl),
            addresses: room.iter().map(address).collect(),
        })
    }

    /// Forgets a look-up, whether it waits or is done, at this moment; its number is free. What it
    /// waited for is not asked on, unless another one waits for it.
    ///
    /// # Errors
    ///
    /// `NoLookup`, or `NoMemory`.
    pub fn cancel(&mut self, number: u64, moment: Moment) -> Result<(), SessionError> {
        SessionError::of(self.handle.cancel(number, moment.as_millis()), 0, 0)
    }

    /// Empties the cache; the look-ups stay.
    ///
    /// # Errors
    ///
    /// `NoMemory`.
    pub fn clear(&mut self) -> Result<(), SessionError> {
        SessionError::of(self.handle.clear(), 0, 0)
    }

    /// Drops from the cache what it has for a name, of a type; the look-ups stay. What is no name
    /// clears nothing.
    ///
    /// # Errors
    ///
    /// `NoMemory`.
    pub fn clear_name(&mut self, name: &str, record_type: RecordType) -> Result<(), SessionError> {
        SessionError::of(
            self.handle.clear_name(name.as_bytes(), record_type.code()),
            0,
            0,
        )
    }

    /// Asks the servers that a file resolv.conf names from now on, and no others. The cache is
    /// emptied where `clears` says so.
    ///
    /// # Errors
    ///
    /// `NoMemory`.
    pub fn set_servers(&mut self, conf: &[u8], clears: bool) -> Result<(), SessionError> {
        SessionError::of(self.handle.servers(conf, clears), 0, 0)
    }

    /// What the session did and holds.
    ///
    /// # Errors
    ///
    /// None is known.
    pub fn statistics(&self) -> Result<Statistics, SessionError> {
        let told = self.handle.statistics();
        SessionError::of(told.status, 0, 0)?;
        Ok(Statistics {
            started: told.started,
            done_at_once: told.done_at_once,
            sent: told.sent,
            timed_out: told.timed_out,
            entries: told.entries,
            octets: told.is_bounded.then_some(told.octets),
        })
    }
}

fn action<'a>(told: &YimarotuAction, octets: &'a [u8]) -> Action<'a> {
    let channel = told.channel;
    match told.kind {
        numbers::CONTINUE => Action::Continue,
        numbers::OPEN => opening(told, octets),
        numbers::SEND => Action::Send { channel, octets },
        numbers::CLOSE => Action::Close(channel),
        numbers::LOOKED_UP => Action::Done(told.number),
        _ => Action::Nothing,
    }
}

/// The octets are an address, and its scope behind it.
fn opening<'a>(told: &YimarotuAction, octets: &'a [u8]) -> Action<'a> {
    let (address, scope) = match (
        told.family,
        octets.split_first_chunk(),
        octets.split_first_chunk(),
    ) {
        (4, Some((address, scope)), _) => (Ipv4Addr::from(*address).into(), scope),
        (_, _, Some((address, scope))) => (Ipv6Addr::from(*address).into(), scope),
        _ => return Action::Continue,
    };
    let protocol = if told.protocol == numbers::STREAM {
        Protocol::Tcp
    } else {
        Protocol::Udp
    };
    Action::Open {
        channel: told.channel,
        protocol,
        address,
        port: told.port,
        scope,
    }
}

fn address(told: &YimarotuAddress) -> IpAddr {
    match told.octets {
        [first, second, third, fourth, ..] if told.family == 4 => {
            Ipv4Addr::new(first, second, third, fourth).into()
        }
        octets => Ipv6Addr::from(octets).into(),
    }
}
