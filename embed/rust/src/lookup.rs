//! What a look-up found.

use std::iter::FusedIterator;
use std::net::IpAddr;
use std::time::Instant;
use std::{slice, vec};

use crate::error::NoRecords;
use crate::records::{Message, Query, RData, Record};
use crate::session::{Answer, Found};
use crate::{Moment, ResolveError, ResolveErrorKind, SessionError};

/// The records that a look-up found. They may all be in other sections than the answers.
#[derive(Clone, Debug, PartialEq, Eq)]
pub struct Lookup {
    query: Query,
    message: Message,
    valid_until: Instant,
}

impl Lookup {
    /// The question of the response; after an alias another one than was looked up.
    pub fn query(&self) -> &Query {
        &self.query
    }

    /// All of it.
    pub fn message(&self) -> &Message {
        &self.message
    }

    /// The records of the answer section. Beside those of the type that was asked there may be
    /// others, as the aliases that led to them.
    pub fn answers(&self) -> &[Record] {
        &self.message.answers
    }

    /// The records of the authority section.
    pub fn authorities(&self) -> &[Record] {
        &self.message.authorities
    }

    /// The records of the additional section.
    pub fn additionals(&self) -> &[Record] {
        &self.message.additionals
    }

    /// The data of the records of the answer section.
    pub fn iter(&self) -> LookupIter<'_> {
        LookupIter(self.answers().iter())
    }

    /// The last moment at which the records may be used. An `Instant` does not count while the
    /// machine sleeps.
    pub fn valid_until(&self) -> Instant {
        self.valid_until
    }
}

impl From<Lookup> for Message {
    fn from(lookup: Lookup) -> Message {
        lookup.message
    }
}

impl<'a> IntoIterator for &'a Lookup {
    type Item = &'a RData;
    type IntoIter = LookupIter<'a>;

    fn into_iter(self) -> LookupIter<'a> {
        self.iter()
    }
}

/// The data of the answers of a [`Lookup`].
#[derive(Clone, Debug)]
pub struct LookupIter<'a>(slice::Iter<'a, Record>);

impl<'a> Iterator for LookupIter<'a> {
    type Item = &'a RData;

    fn next(&mut self) -> Option<&'a RData> {
        self.0.next().map(Record::data)
    }
}

impl FusedIterator for LookupIter<'_> {}

/// The addresses of a host.
#[derive(Clone, Debug, PartialEq, Eq)]
pub struct LookupIp(Lookup);

impl LookupIp {
    /// The addresses, in the order of the answer.
    pub fn iter(&self) -> LookupIpIter<'_> {
        LookupIpIter(self.0.answers().iter())
    }

    /// The question of the response.
    pub fn query(&self) -> &Query {
        self.0.query()
    }

    /// The last moment at which the addresses may be used.
    pub fn valid_until(&self) -> Instant {
        self.0.valid_until()
    }

    /// All records that were found.
    pub fn as_lookup(&self) -> &Lookup {
        &self.0
    }
}

impl From<Lookup> for LookupIp {
    fn from(lookup: Lookup) -> LookupIp {
        LookupIp(lookup)
    }
}

impl From<LookupIp> for Lookup {
    fn from(lookup: LookupIp) -> Lookup {
        lookup.0
    }
}

impl IntoIterator for LookupIp {
    type Item = IpAddr;
    type IntoIter = LookupIpIntoIter;

    fn into_iter(self) -> LookupIpIntoIter {
        LookupIpIntoIter(self.0.message.answers.into_iter())
    }
}

impl<'a> IntoIterator for &'a LookupIp {
    type Item = IpAddr;
    type IntoIter = LookupIpIter<'a>;

    fn into_iter(self) -> LookupIpIter<'a> {
        self.iter()
    }
}

/// The addresses of a [`LookupIp`], lent.
#[derive(Clone, Debug)]
pub struct LookupIpIter<'a>(slice::Iter<'a, Record>);

impl Iterator for LookupIpIter<'_> {
    type Item = IpAddr;

    fn next(&mut self) -> Option<IpAddr> {
        self.0.find_map(|record| record.data.ip_addr())
    }
}

impl FusedIterator for LookupIpIter<'_> {}

/// The addresses of a [`LookupIp`].
#[derive(Debug)]
pub struct LookupIpIntoIter(vec::IntoIter<Record>);

impl Iterator for LookupIpIntoIter {
    type Item = IpAddr;

    fn next(&mut self) -> Option<IpAddr> {
        self.0.find_map(|record| record.data.ip_addr())
    }
}

impl FusedIterator for LookupIpIntoIter {}

/// The look-up of an answer, at this moment; or why there is none.
pub(crate) fn lookup_of(answer: Answer, now: Moment) -> Result<Lookup, ResolveError> {
    match answer.found {
        Found::Records => {
            let message = read(&answer.message)?;
            let query = message.queries.first().cloned().ok_or(NO_MESSAGE)?;
            let valid_until = Moment::end_of_second(answer.until).instant(now);
            Ok(Lookup {
                query,
                message,
                valid_until,
            })
        }
        Found::NoRecords => {
            let none = NoRecords::of(read(&answer.message)?, answer.code, answer.ttl);
            Err(ResolveErrorKind::NoRecordsFound(none.into()).into())
        }
        Found::ResponseCode => Err(ResolveErrorKind::ResponseCode(answer.code).into()),
        Found::TimedOut => Err(ResolveErrorKind::Timeout.into()),
        Found::BadName => Err(ResolveErrorKind::BadName.into()),
        Found::RanOut => Err(ResolveErrorKind::NoMemory.into()),
        Found::Upstream | Found::Other(_) => Err(ResolveErrorKind::Upstream.into()),
    }
}

/// Each message of the library has a question, and can be read: this is never told.
const NO_MESSAGE: SessionError = SessionError::Message { fault: 0 };

/// The message that the library wrote.
fn read(octets: &[u8]) -> Result<Message, ResolveError> {
    Ok(Message::read(octets).map_err(|_| NO_MESSAGE)?)
}
