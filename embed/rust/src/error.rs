//! Why something did not come about.

use std::{fmt, io};

use crate::ffi::library::numbers;
use crate::records::{Message, Query, Record, ResponseCode};

/// Why a call of a session did not end well. Then nothing changed.
#[derive(Clone, Copy, Debug, PartialEq, Eq)]
#[non_exhaustive]
pub enum SessionError {
    /// A line of the settings, or of a script, has a fault.
    Script {
        /// The number of the line, from 1; 0 where no one line has it.
        line: usize,
    },
    /// No memory was left.
    NoMemory,
    /// A line of the hosts is not UTF-8.
    Hosts,
    /// The octets are no DNS message.
    Message {
        /// Why: a number of `yimarotu.h`.
        fault: u8,
    },
    /// The message cannot be written.
    Unwritable {
        /// Why: a number of `yimarotu.h`.
        fault: u8,
    },
    /// Another look-up has this number.
    InUse,
    /// No look-up has this number.
    NoLookup,
    /// The look-up waits, and has no answer yet.
    Waits,
    /// The look-up is done, and has no question any more.
    Done,
    /// Another status, which these calls do not give: a number of `yimarotu.h`.
    Other(u8),
}

impl SessionError {
    /// What a status says, with the line or the fault that came with it.
    pub(crate) fn of(status: u8, line: usize, fault: u8) -> Result<(), SessionError> {
        Err(match status {
            numbers::OK => return Ok(()),
            numbers::SCRIPT => SessionError::Script { line },
            numbers::NO_MEMORY => SessionError::NoMemory,
            numbers::HOSTS => SessionError::Hosts,
            numbers::MESSAGE => SessionError::Message { fault },
            numbers::UNWRITABLE => SessionError::Unwritable { fault },
            numbers::IN_USE => SessionError::InUse,
            numbers::NO_LOOKUP => SessionError::NoLookup,
            numbers::WAITS => SessionError::Waits,
            numbers::DONE => SessionError::Done,
            other => SessionError::Other(other),
        })
    }
}

impl fmt::Display for SessionError {
    fn fmt(&self, f: &mut fmt::Formatter<'_>) -> fmt::Result {
        match self {
            SessionError::Script { line: 0 } => write!(f, "the settings have a fault"),
            SessionError::Script { line } => write!(f, "line {line} of the settings has a fault"),
            SessionError::NoMemory => write!(f, "no memory was left"),
            SessionError::Hosts => write!(f, "a line of the hosts is not UTF-8"),
            SessionError::Message { fault } => write!(f, "no DNS message: fault {fault}"),
            SessionError::Unwritable { fault } => write!(f, "unwritable message: fault {fault}"),
            SessionError::InUse => write!(f, "another look-up has this number"),
            SessionError::NoLookup => write!(f, "no look-up has this number"),
            SessionError::Waits => write!(f, "the look-up has no answer yet"),
            SessionError::Done => write!(f, "the look-up is done"),
            SessionError::Other(status) => write!(f, "status {status}"),
        }
    }
}

impl std::error::Error for SessionError {}

/// A negative answer: the name, or the type, is not there.
#[derive(Clone, Debug, PartialEq, Eq)]
#[non_exhaustive]
pub struct NoRecords {
    /// The question of the response; after an alias another one than was looked up.
    pub query: Option<Query>,
    /// `NXDomain` where there is no such name; `NoError` where it has no record of the type.
    pub response_code: ResponseCode,
    /// For how many seconds its SOA record lets it be kept, where it has one.
    pub negative_ttl: Option<u32>,
    /// The SOA record of its zone, where it has one.
    pub soa: Option<Record>,
    /// All records of its authority section.
    pub authorities: Vec<Record>,
}

impl NoRecords {
    pub(crate) fn of(message: Message, response_code: ResponseCode, ttl: Option<u32>) -> NoRecords {
        let Message {
            queries,
            authorities,
            ..
        } = message;
        let is_soa = |record: &&Record| record.record_type() == crate::RecordType::SOA;
        NoRecords {
            query: queries.into_iter().next(),
            response_code,
            negative_ttl: ttl,
            soa: authorities.iter().find(is_soa).cloned(),
            authorities,
        }
    }
}

/// What a look-up came to where it has no records, or why it could not be done.
#[derive(Debug)]
#[non_exhaustive]
pub enum ResolveErrorKind {
    /// A negative answer.
    NoRecordsFound(Box<NoRecords>),
    /// A response with another code than `NoError` and `NXDomain`.
    ResponseCode(ResponseCode),
    /// The name servers did not answer in time.
    Timeout,
    /// The time that the call was given has passed. The look-up was given up.
    TimeLimit,
    /// No name server can be reached, or they failed otherwise.
    Upstream,
    /// The text is no name.
    BadName,
    /// No memory was left.
    NoMemory,
    /// A call of the session did not end well, as where a line of the settings has a fault.
    Session(SessionError),
    /// The system did not do what was asked of it.
    Io(io::Error),
}

/// The error of a look-up. It is what `hickory-resolver` calls `NetError`.
#[derive(Debug)]
pub struct ResolveError {
    kind: ResolveErrorKind,
}

impl ResolveError {
    /// Which error it is.
    pub fn kind(&self) -> &ResolveErrorKind {
        &self.kind
    }

    /// Which error it is, by value.
    pub fn into_kind(self) -> ResolveErrorKind {
        self.kind
    }

    /// Whether the answer is negative: no such name, or no record of the type.
    pub fn is_no_records_found(&self) -> bool {
        self.no_records().is_some()
    }

    /// Whether there is no such name.
    pub fn is_nx_domain(&self) -> bool {
        self.no_records()
            .is_some_and(|none| none.response_code == ResponseCode::NXDomain)
    }

    /// Whether time ran out: that of the name servers, or that of the call.
    pub fn is_timeout(&self) -> bool {
        matches!(
            self.kind,
            ResolveErrorKind::Timeout | ResolveErrorKind::TimeLimit
        )
    }

    /// The negative answer, where it is one.
    pub fn no_records(&self) -> Option<&NoRecords> {
        match &self.kind {
            ResolveErrorKind::NoRecordsFound(none) => Some(none),
            _ => None,
        }
    }

    /// For how many seconds a negative answer may be kept, where that is known.
    pub fn negative_ttl(&self) -> Option<u32> {
        self.no_records().and_then(|none| none.negative_ttl)
    }

    /// The SOA record of a negative answer, where it has one.
    pub fn into_soa(self) -> Option<Record> {
        match self.kind {
            ResolveErrorKind::NoRecordsFound(none) => none.soa,
            _ => None,
        }
    }
}

impl fmt::Display for ResolveError {
    fn fmt(&self, f: &mut fmt::Formatter<'_>) -> fmt::Result {
        match &self.kind {
            ResolveErrorKind::NoRecordsFound(none) => {
                write!(f, "no records were found: {}", none.response_code)
            }
            ResolveErrorKind::ResponseCode(code) => write!(f, "the response has the code {code}"),
            ResolveErrorKind::Timeout => write!(f, "the name servers did not answer in time"),
            ResolveErrorKind::TimeLimit => write!(f, "the time of the call has passed"),
            ResolveErrorKind::Upstream => write!(f, "no name server could be asked"),
            ResolveErrorKind::BadName => write!(f, "the text is no name"),
            ResolveErrorKind::NoMemory => write!(f, "no memory was left"),
            ResolveErrorKind::Session(error) => write!(f, "{error}"),
            ResolveErrorKind::Io(error) => write!(f, "{error}"),
        }
    }
}

impl std::error::Error for ResolveError {
    fn source(&self) -> Option<&(dyn std::error::Error + 'static)> {
        match &self.kind {
            ResolveErrorKind::Session(error) => Some(error),
            ResolveErrorKind::Io(error) => Some(error),
            _ => None,
        }
    }
}

impl From<ResolveErrorKind> for ResolveError {
    fn from(kind: ResolveErrorKind) -> ResolveError {
        ResolveError { kind }
    }
}

impl From<SessionError> for ResolveError {
    fn from(error: SessionError) -> ResolveError {
        match error {
            SessionError::NoMemory => ResolveErrorKind::NoMemory.into(),
            error => ResolveErrorKind::Session(error).into(),
        }
    }
}

impl From<io::Error> for ResolveError {
    fn from(error: io::Error) -> ResolveError {
        ResolveErrorKind::Io(error).into()
    }
}

impl From<ResolveError> for io::Error {
    fn from(error: ResolveError) -> io::Error {
        let kind = match &error.kind {
            ResolveErrorKind::NoRecordsFound(_) => io::ErrorKind::NotFound,
            ResolveErrorKind::Timeout | ResolveErrorKind::TimeLimit => io::ErrorKind::TimedOut,
            ResolveErrorKind::BadName => io::ErrorKind::InvalidInput,
            ResolveErrorKind::NoMemory => io::ErrorKind::OutOfMemory,
            ResolveErrorKind::Io(error) => error.kind(),
            _ => io::ErrorKind::Other,
        };
        io::Error::new(kind, error)
    }
}
