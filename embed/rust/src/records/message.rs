//! Messages, and their reader.

use std::fmt;

use super::{DNSClass, MX, Name, RData, RecordType, SOA, SRV, TXT};

/// A question: what is asked of a name.
#[derive(Clone, Debug, PartialEq, Eq, Hash)]
pub struct Query {
    /// The name.
    pub name: Name,
    /// The type of the records that are wanted.
    pub query_type: RecordType,
    /// Their class.
    pub query_class: DNSClass,
}

impl Query {
    /// The name.
    pub fn name(&self) -> &Name {
        &self.name
    }

    /// The type of the records that are wanted.
    pub fn query_type(&self) -> RecordType {
        self.query_type
    }

    /// Their class.
    pub fn query_class(&self) -> DNSClass {
        self.query_class
    }
}

impl fmt::Display for Query {
    fn fmt(&self, f: &mut fmt::Formatter<'_>) -> fmt::Result {
        write!(f, "{} {} {}", self.name, self.query_class, self.query_type)
    }
}

/// A record. It is printed as a line of a zone's file: owner, TTL, class, type and data.
#[derive(Clone, Debug, PartialEq, Eq, Hash)]
pub struct Record {
    /// The owner.
    pub name: Name,
    /// The class.
    pub dns_class: DNSClass,
    /// For how many seconds it may be kept.
    pub ttl: u32,
    /// The data, which have the type.
    pub data: RData,
}

impl Record {
    /// The owner.
    pub fn name(&self) -> &Name {
        &self.name
    }

    /// The type.
    pub fn record_type(&self) -> RecordType {
        self.data.record_type()
    }

    /// The class.
    pub fn dns_class(&self) -> DNSClass {
        self.dns_class
    }

    /// For how many seconds it may be kept.
    pub fn ttl(&self) -> u32 {
        self.ttl
    }

    /// The data.
    pub fn data(&self) -> &RData {
        &self.data
    }
}

impl fmt::Display for Record {
    fn fmt(&self, f: &mut fmt::Formatter<'_>) -> fmt::Result {
        let Record {
            name,
            dns_class,
            ttl,
            data,
        } = self;
        write!(f, "{name} {ttl} {dns_class} {} {data}", self.record_type())
    }
}

/// A message: what a look-up came to, as [`Session::answer`](crate::Session::answer) gives it.
#[derive(Clone, Debug, Default, PartialEq, Eq)]
#[non_exhaustive]
pub struct Message {
    /// The questions: one.
    pub queries: Vec<Query>,
    /// The records of the answer section.
    pub answers: Vec<Record>,
    /// Those of the authority section.
    pub authorities: Vec<Record>,
    /// Those of the additional section.
    pub additionals: Vec<Record>,
}

/// The octets are no whole message.
#[derive(Clone, Copy, Debug, PartialEq, Eq)]
pub struct BadMessage;

impl fmt::Display for BadMessage {
    fn fmt(&self, f: &mut fmt::Formatter<'_>) -> fmt::Result {
        f.write_str("no whole DNS message")
    }
}

impl std::error::Error for BadMessage {}

impl Message {
    /// Reads a message that the library wrote. One that came from elsewhere is handed to
    /// [`rewrite`](crate::rewrite) first, which refuses what is none and writes names in data of
    /// old types whole.
    ///
    /// # Errors
    ///
    /// The octets end within it, or a name is none.
    pub fn read(octets: &[u8]) -> Result<Message, BadMessage> {
        read_message(octets).ok_or(BadMessage)
    }
}

/// The octets of a message, and the place in it that is read next. What is not there is `None`.
#[derive(Clone, Copy)]
struct Reader<'a> {
    octets: &'a [u8],
    at: usize,
}

/// Of a header, what stands before the counts of its sections, and a name at most (RFC 1035,
/// sections 2.3.4 and 4.1.1).
const BEFORE_COUNTS: usize = 4;
const NAME_SIZE: usize = 255;

impl<'a> Reader<'a> {
    fn take(&mut self, length: usize) -> Option<&'a [u8]> {
        let end = self.at.checked_add(length)?;
        let taken = self.octets.get(self.at..end)?;
        self.at = end;
        Some(taken)
    }

    fn array<const N: usize>(&mut self) -> Option<[u8; N]> {
        self.take(N)?.try_into().ok()
    }

    fn octet(&mut self) -> Option<u8> {
        self.array().map(u8::from_be_bytes)
    }

    fn short(&mut self) -> Option<u16> {
        self.array().map(u16::from_be_bytes)
    }

    fn long(&mut self) -> Option<u32> {
        self.array().map(u32::from_be_bytes)
    }

    /// A name. Each pointer leads to before the place where its labels began, so that it ends.
    fn name(&mut self) -> Option<Name> {
        let mut name = Name::root();
        let mut labels = *self;
        let (mut began, mut end) = (self.at, None);
        loop {
            match labels.octet()? {
                0 => break,
                length @ 1..=63 => name.push(length, labels.take(usize::from(length))?),
                high @ 192.. => {
                    let low = labels.octet()?;
                    let place = usize::from(u16::from_be_bytes([high & 63, low]));
                    end.get_or_insert(labels.at);
                    if place >= began {
                        return None;
                    }
                    (began, labels.at) = (place, place);
                }
                _ => return None,
            }
            if name.size() > NAME_SIZE {
                return None;
            }
        }
        self.at = end.unwrap_or(labels.at);
        Some(name)
    }

    fn query(&mut self) -> Option<Query> {
        Some(Query {
            name: self.name()?,
            query_type: self.short()?.into(),
            query_class: self.short()?.into(),
        })
    }

    fn record(&mut self) -> Option<Record> {
        let (name, record_type) = (self.name()?, RecordType::from(self.short()?));
        let (dns_class, ttl) = (DNSClass::from(self.short()?), self.long()?);
        let length = usize::from(self.short()?);
        let data = self.data(record_type, length)?;
        Some(Record {
            name,
            dns_class,
            ttl,
            data,
        })
    }

    /// The data of a record, which take exactly so many octets.
    fn data(&mut self, record_type: RecordType, length: usize) -> Option<RData> {
        let end = self.at.checked_add(length)?;
        let mut inside = Reader {
            octets: self.octets.get(..end)?,
            at: self.at,
        };
        let data = match record_type {
            RecordType::A => RData::A(inside.array::<4>()?.into()),
            RecordType::AAAA => RData::AAAA(inside.array::<16>()?.into()),
            RecordType::CNAME => RData::CNAME(inside.name()?),
            RecordType::NS => RData::NS(inside.name()?),
            RecordType::PTR => RData::PTR(inside.name()?),
            RecordType::MX => RData::MX(inside.mx()?),
            RecordType::SRV => RData::SRV(inside.srv()?),
            RecordType::TXT => RData::TXT(inside.txt(end)?),
            RecordType::SOA => RData::SOA(inside.soa()?),
            code => RData::Unknown {
                code,
                octets: inside.take(length)?.to_vec(),
            },
        };
        self.at = end;
        (inside.at == end).then_some(data)
    }

    fn mx(&mut self) -> Option<MX> {
        Some(MX {
            preference: self.short()?,
            exchange: self.name()?,
        })
    }

    fn srv(&mut self) -> Option<SRV> {
        Some(SRV {
            priority: self.short()?,
            weight: self.short()?,
            port: self.short()?,
            target: self.name()?,
        })
    }

    fn txt(&mut self, end: usize) -> Option<TXT> {
        let mut txt_data = Vec::new();
        while self.at < end {
            let length = self.octet()?;
            txt_data.push(self.take(usize::from(length))?.to_vec());
        }
        Some(TXT { txt_data })
    }

    fn soa(&mut self) -> Option<SOA> {
        Some(SOA {
            mname: self.name()?,
            rname: self.name()?,
            serial: self.long()?,
            refresh: self.long()?,
            retry: self.long()?,
            expire: self.long()?,
            minimum: self.long()?,
        })
    }

    fn records(&mut self, count: u16) -> Option<Vec<Record>> {
        (0..count).map(|_| self.record()).collect()
    }
}

fn read_message(octets: &[u8]) -> Option<Message> {
    let mut reader = Reader {
        octets,
        at: BEFORE_COUNTS,
    };
    let mut counts = [0; 4];
    for count in &mut counts {
        *count = reader.short()?;
    }
    let [queries, answers, authorities, additionals] = counts;
    Some(Message {
        queries: (0..queries)
            .map(|_| reader.query())
            .collect::<Option<_>>()?,
        answers: reader.records(answers)?,
        authorities: reader.records(authorities)?,
        additionals: reader.records(additionals)?,
    })
}

#[cfg(test)]
mod tests {
    use super::*;

    /// A message with the question for records of `a.b.`, and with one answer of this type and
    /// these data.
    fn message(record_type: u16, data: &[u8]) -> Vec<u8> {
        let (of_type, length) = (record_type.to_be_bytes(), (data.len() as u16).to_be_bytes());
        let header = [0, 0, 0x81, 0x80, 0, 1, 0, 1, 0, 0, 0, 0];
        let question = [&b"\x01a\x01b\0"[..], &of_type, b"\0\x01"].concat();
        let record = [
            &b"\xc0\x0c"[..],
            &of_type,
            b"\0\x01\0\0\0\x3c",
            &length,
            data,
        ]
        .concat();
        [&header[..], &question, &record].concat()
    }

    fn line(record_type: u16, data: &[u8]) -> String {
        Message::read(&message(record_type, data)).unwrap().answers[0].to_string()
    }

    #[test]
    fn reads_data_of_each_type() {
        assert_eq!(line(1, &[192, 0, 2, 1]), "a.b. 60 IN A 192.0.2.1");
        let address = [&b"\x20\x01\x0d\xb8"[..], &[0; 11], b"\x01"].concat();
        assert_eq!(line(28, &address), "a.b. 60 IN AAAA 2001:db8::1");
        assert_eq!(line(5, b"\x01c\xc0\x0c"), "a.b. 60 IN CNAME c.a.b.");
        assert_eq!(line(2, b"\xc0\x0e"), "a.b. 60 IN NS b.");
        assert_eq!(line(12, b"\0"), "a.b. 60 IN PTR .");
        assert_eq!(line(15, b"\0\x0a\x01m\xc0\x0e"), "a.b. 60 IN MX 10 m.b.");
        assert_eq!(
            line(33, b"\0\x01\0\x02\x01\xbb\x01s\0"),
            "a.b. 60 IN SRV 1 2 443 s."
        );
        assert_eq!(
            line(16, b"\x03v=\"\0\x01\xe9"),
            r#"a.b. 60 IN TXT "v=\"" "" "\233""#
        );
        let numbers: Vec<u8> = (1..=5_u32).flat_map(u32::to_be_bytes).collect();
        let soa = [&b"\x01n\0\x01r\0"[..], &numbers].concat();
        assert_eq!(line(6, &soa), "a.b. 60 IN SOA n. r. 1 2 3 4 5");
        assert_eq!(line(65280, b"\0\xff"), "a.b. 60 IN TYPE65280 \\# 2 00ff");
        assert_eq!(line(65280, b""), "a.b. 60 IN TYPE65280 \\# 0");
    }

    #[test]
    fn refuses_what_is_no_message() {
        for data in [
            &b"\xc0\x21"[..],
            b"\xc0\xff",
            b"\x40",
            b"\x01",
            b"\0\0",
            b"\xc0",
            b"",
        ] {
            assert_eq!(
                Message::read(&message(2, data)),
                Err(BadMessage),
                "{data:?}"
            );
        }
        let whole = message(15, b"\0\x0a\x01m\xc0\x0e");
        for length in 0..whole.len() {
            assert_eq!(Message::read(&whole[..length]), Err(BadMessage), "{length}");
        }
        // 127 labels of one octet are the longest name; 128 are too long.
        let labels = |count| [&b"\x01x".repeat(count)[..], b"\0"].concat();
        assert!(Message::read(&message(2, &labels(127))).is_ok());
        assert_eq!(Message::read(&message(2, &labels(128))), Err(BadMessage));
    }

    #[test]
    fn never_panics() {
        let whole = message(6, &[&b"\x01n\xc0\x0c\x01r\xc0\x0e"[..], &[7; 20]].concat());
        let mut state = 1_u32;
        for _ in 0..100_000 {
            let mut octets = whole.clone();
            for _ in 0..3 {
                state = state.wrapping_mul(1_664_525).wrapping_add(1_013_904_223);
                let at = (state >> 8) as usize % octets.len();
                octets[at] = (state >> 24) as u8;
            }
            let _ = Message::read(&octets).map(|it| format!("{it:?}"));
        }
    }
}
