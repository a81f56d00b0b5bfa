//! Sessions that are fed by hand, for a transport of one's own; and messages and scripts, which
//! need no session.

use crate::ffi::library::{self, Handle, YimarotuProgress, numbers};
use crate::session::{self, Answer, Texts, in_room};
use crate::{RecordType, SessionError};

/// How a question fails.
#[derive(Clone, Copy, Debug, PartialEq, Eq, Hash)]
pub enum Failure {
    /// Nothing came back in time.
    Timeout,
    /// The upstream cannot be reached.
    Refused,
    /// The upstream failed otherwise.
    Upstream,
    /// No memory was left for what came back.
    Memory,
}

impl Failure {
    fn number(self) -> u8 {
        match self {
            Failure::Timeout => numbers::FAIL_TIMEOUT,
            Failure::Refused => numbers::FAIL_REFUSED,
            Failure::Upstream => numbers::FAIL_UPSTREAM,
            Failure::Memory => numbers::FAIL_MEMORY,
        }
    }
}

/// A question to send.
#[derive(Clone, Debug, PartialEq, Eq)]
pub struct Question {
    /// The message. Its id is 0, and for the program to set.
    pub message: Vec<u8>,
    /// Whether the case of its name is to be varied.
    pub mixed: bool,
}

/// A session that is fed by hand: it tells which question each look-up waits for, and goes on with
/// what came back. The program sees to it that this is the response: by its QR bit, an id and a
/// port that nobody can guess, its question, and whom it comes from; and that it is not truncated.
/// Moments are in seconds.
///
/// It closes itself when it is dropped, and may be moved to another thread; but threads share none:
///
/// ```compile_fail
/// fn share<T: Sync>() {}
/// share::<yimarotu::FedSession>();
/// ```
///
/// ```
/// use yimarotu::{Failure, FedSession, Found, RecordType};
///
/// let mut session = FedSession::open("option ip_strategy Ipv4Only\n", b"192.0.2.9 printer\n", 0)?;
/// assert_eq!(session.start(1, "www.example.com.", RecordType::A, 0), Ok(true));
/// let question = session.question(1)?;
/// assert!(question.message.starts_with(b"\0\0\x01\0\0\x01"));
/// session.fail(1, Failure::Timeout)?;
/// assert_eq!(session.answer(1, 512)?.found, Found::TimedOut);
/// # Ok::<(), yimarotu::SessionError>(())
/// ```
pub struct FedSession {
    handle: Handle,
}

impl FedSession {
    /// Opens a session with these settings, over what a file of hosts says, read at this second.
    /// The settings are the lines of a script that set something (`docs/SCRIPTS.md`,
    /// "Configuration") and `option cache_octets N`.
    ///
    /// # Errors
    ///
    /// `Script` with the first line that has a fault, `Hosts`, or `NoMemory`.
    pub fn open(settings: &str, hosts: &[u8], moment: u64) -> Result<FedSession, SessionError> {
        let session = FedSession {
            handle: Handle::closed(),
        };
        let told = session
            .handle
            .open_fed(settings.as_bytes(), hosts, milliseconds(moment));
        SessionError::of(told.status, told.line, 0).map(|()| session)
    }

    /// The same, and behind the settings, in place of which it counts, what a file resolv.conf says
    /// on a host of this name: its search list, `ndots`, `no-aaaa` and `edns0`. Whom to ask is the
    /// program's affair ([`read_servers`]).
    ///
    /// # Errors
    ///
    /// As of [`FedSession::open`].
    pub fn open_with(texts: &Texts, moment: u64) -> Result<FedSession, SessionError> {
        let session = FedSession {
            handle: Handle::closed(),
        };
        let told = session
            .handle
            .open_fed_with(&texts.raw(), milliseconds(moment));
        SessionError::of(told.status, told.line, 0).map(|()| session)
    }

    /// Starts a look-up of records of a type under a number that is free. Gives whether it waits.
    ///
    /// # Errors
    ///
    /// `InUse`, or `NoMemory`; then none was started.
    pub fn start(
        &mut self,
        number: u64,
        name: &str,
        record_type: RecordType,
        moment: u64,
    ) -> Result<bool, SessionError> {
        let (name, moment) = (name.as_bytes(), milliseconds(moment));
        progress(&self.handle.start(number, name, record_type.code(), moment))
    }

    /// The same of the addresses of a host.
    ///
    /// # Errors
    ///
    /// As of [`FedSession::start`].
    pub fn start_ip(&mut self, number: u64, host: &str, moment: u64) -> Result<bool, SessionError> {
        progress(
            &self
                .handle
                .start_ip(number, host.as_bytes(), milliseconds(moment)),
        )
    }

    /// The question that a look-up waits for.
    ///
    /// # Errors
    ///
    /// `NoLookup`, `Done`, `Unwritable`, or `NoMemory`.
    pub fn question(&self, number: u64) -> Result<Question, SessionError> {
        let (ended, message, (mixed, fault)) = in_room(512, |room| {
            let told = self.handle.question(number, room);
            (told.status, told.length, (told.mixed, told.fault))
        });
        SessionError::of(ended, 0, fault).map(|()| Question { message, mixed })
    }

    /// Goes on with the message that came back. Gives whether the look-up waits again.
    ///
    /// # Errors
    ///
    /// `Message`, `NoLookup`, `Done`, or `NoMemory`.
    pub fn feed(&mut self, number: u64, message: &[u8]) -> Result<bool, SessionError> {
        progress(&self.handle.feed(number, message))
    }

    /// Goes on with the failure of a question. Gives whether the look-up waits again.
    ///
    /// # Errors
    ///
    /// `NoLookup`, `Done`, or `NoMemory`.
    pub fn fail(&mut self, number: u64, failure: Failure) -> Result<bool, SessionError> {
        progress(&self.handle.fail(number, failure.number()))
    }

    /// What a look-up came to, with a message of so many octets at most.
    ///
    /// # Errors
    ///
    /// `NoLookup`, `Waits`, or `NoMemory`.
    pub fn answer(&self, number: u64, limit: usize) -> Result<Answer, SessionError> {
        session::answer(&self.handle, number, limit)
    }

    /// Forgets a look-up; its number is free.
    ///
    /// # Errors
    ///
    /// `NoLookup`, or `NoMemory`.
    pub fn cancel(&mut self, number: u64) -> Result<(), SessionError> {
        // Such a session looks at no moment here.
        SessionError::of(self.handle.cancel(number, 0), 0, 0)
    }

    /// Drops from the cache what it has for a name, of a type; the look-ups stay.
    ///
    /// # Errors
    ///
    /// `NoMemory`.
    pub fn clear_name(&mut self, name: &str, record_type: RecordType) -> Result<(), SessionError> {
        SessionError::of(
            self.handle.clear_name(name.as_bytes(), record_type.code()),
            0,
            0,
        )
    }

    /// Empties the cache; the look-ups stay.
    ///
    /// # Errors
    ///
    /// `NoMemory`.
    pub fn clear(&mut self) -> Result<(), SessionError> {
        SessionError::of(self.handle.clear(), 0, 0)
    }
}

fn progress(told: &YimarotuProgress) -> Result<bool, SessionError> {
    SessionError::of(told.status, 0, told.fault).map(|()| told.waits)
}

/// A moment in seconds, as the library counts.
fn milliseconds(moment: u64) -> u64 {
    moment.saturating_mul(1000)
}

/// A message that is read and written again, in at most so many octets.
///
/// # Errors
///
/// `Message` or `Unwritable`, each with its fault, or `NoMemory`.
///
/// ```
/// use yimarotu::{SessionError, rewrite};
///
/// let question = b"\0\x07\x01\0\0\x01\0\0\0\0\0\0\x01a\0\0\x01\0\x01";
/// assert_eq!(rewrite(question, 512)?, question);
/// assert_eq!(rewrite(b"short", 512), Err(SessionError::Message { fault: 1 }));
/// # Ok::<(), SessionError>(())
/// ```
pub fn rewrite(message: &[u8], limit: usize) -> Result<Vec<u8>, SessionError> {
    let (ended, octets, fault) = in_room(512, |room| {
        let told = library::rewrite(message, limit, room);
        (told.status, told.length, told.fault)
    });
    SessionError::of(ended, 0, fault).map(|()| octets)
}

/// The servers that a file resolv.conf names, each on a line of its own, with `%` and its scope
/// behind it where it is link-local and has one; 127.0.0.1 where no line names one.
///
/// # Errors
///
/// `NoMemory`.
pub fn read_servers(conf: &[u8]) -> Result<Vec<u8>, SessionError> {
    let (ended, text, ()) = in_room(512, |room| {
        let told = library::read_servers(conf, room);
        (told.status, told.length, ())
    });
    SessionError::of(ended, 0, 0).map(|()| text)
}

/// The text of a replay of a script, over what a file of hosts says.
///
/// # Errors
///
/// `Script` with the line of its first fault, `Hosts`, or `NoMemory`.
pub fn replay(script: &[u8], hosts: &[u8]) -> Result<Vec<u8>, SessionError> {
    let (ended, text, line) = in_room(65536, |room| {
        let told = library::replay(script, hosts, room);
        (told.status, told.length, told.line)
    });
    SessionError::of(ended, line, 0).map(|()| text)
}

/// The version of the library: its three numbers.
pub fn version() -> (u32, u32, u32) {
    let version = library::version();
    (version >> 16, version >> 8 & 255, version & 255)
}
