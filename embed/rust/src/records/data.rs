//! The data of records.

use std::fmt;
use std::net::{IpAddr, Ipv4Addr, Ipv6Addr};

use super::{Name, RecordType};

/// The data of a record.
#[derive(Clone, Debug, PartialEq, Eq, Hash)]
#[non_exhaustive]
pub enum RData {
    /// An IPv4 address.
    A(Ipv4Addr),
    /// An IPv6 address.
    AAAA(Ipv6Addr),
    /// The name that the owner is an alias of.
    CNAME(Name),
    /// A name server.
    NS(Name),
    /// A name that the owner leads to.
    PTR(Name),
    /// A host that takes mail.
    MX(MX),
    /// Where a service is.
    SRV(SRV),
    /// Strings.
    TXT(TXT),
    /// The start of a zone.
    SOA(SOA),
    /// Data of another type, as they stand in a message.
    Unknown {
        /// The type.
        code: RecordType,
        /// The data.
        octets: Vec<u8>,
    },
}

impl RData {
    /// The type of the record.
    pub fn record_type(&self) -> RecordType {
        match self {
            RData::A(_) => RecordType::A,
            RData::AAAA(_) => RecordType::AAAA,
            RData::CNAME(_) => RecordType::CNAME,
            RData::NS(_) => RecordType::NS,
            RData::PTR(_) => RecordType::PTR,
            RData::MX(_) => RecordType::MX,
            RData::SRV(_) => RecordType::SRV,
            RData::TXT(_) => RecordType::TXT,
            RData::SOA(_) => RecordType::SOA,
            RData::Unknown { code, .. } => *code,
        }
    }

    /// The address, where it is one.
    pub fn ip_addr(&self) -> Option<IpAddr> {
        match self {
            RData::A(address) => Some(IpAddr::V4(*address)),
            RData::AAAA(address) => Some(IpAddr::V6(*address)),
            _ => None,
        }
    }
}

/// A host that takes mail (RFC 1035, section 3.3.9).
#[derive(Clone, Debug, PartialEq, Eq, Hash)]
pub struct MX {
    /// The lower, the sooner it is tried.
    pub preference: u16,
    /// The host.
    pub exchange: Name,
}

/// Where a service is (RFC 2782).
#[derive(Clone, Debug, PartialEq, Eq, Hash)]
pub struct SRV {
    /// The lower, the sooner it is tried.
    pub priority: u16,
    /// How often it is taken among those of the same priority.
    pub weight: u16,
    /// The port.
    pub port: u16,
    /// The host.
    pub target: Name,
}

/// Strings, of up to 255 octets each (RFC 1035, section 3.3.14).
#[derive(Clone, Debug, PartialEq, Eq, Hash)]
pub struct TXT {
    /// The strings. They need not be UTF-8.
    pub txt_data: Vec<Vec<u8>>,
}

/// The start of a zone (RFC 1035, section 3.3.13). Times are in seconds.
#[derive(Clone, Debug, PartialEq, Eq, Hash)]
pub struct SOA {
    /// The first name server.
    pub mname: Name,
    /// The mailbox of who answers for it.
    pub rname: Name,
    /// The number of its version.
    pub serial: u32,
    /// After how long a copy looks for a newer one.
    pub refresh: u32,
    /// After how long it tries again.
    pub retry: u32,
    /// After how long a copy that is not renewed counts no more.
    pub expire: u32,
    /// The bound of the TTL of negative answers (RFC 2308, section 4).
    pub minimum: u32,
}

impl fmt::Display for RData {
    fn fmt(&self, f: &mut fmt::Formatter<'_>) -> fmt::Result {
        match self {
            RData::A(address) => address.fmt(f),
            RData::AAAA(address) => address.fmt(f),
            RData::CNAME(name) | RData::NS(name) | RData::PTR(name) => name.fmt(f),
            RData::MX(data) => data.fmt(f),
            RData::SRV(data) => data.fmt(f),
            RData::TXT(data) => data.fmt(f),
            RData::SOA(data) => data.fmt(f),
            RData::Unknown { octets, .. } => {
                // (RFC 3597, section 5)
                write!(f, "\\# {}", octets.len())?;
                f.write_str(if octets.is_empty() { "" } else { " " })?;
                octets.iter().try_for_each(|octet| write!(f, "{octet:02x}"))
            }
        }
    }
}

impl fmt::Display for MX {
    fn fmt(&self, f: &mut fmt::Formatter<'_>) -> fmt::Result {
        write!(f, "{} {}", self.preference, self.exchange)
    }
}

impl fmt::Display for SRV {
    fn fmt(&self, f: &mut fmt::Formatter<'_>) -> fmt::Result {
        let SRV {
            priority,
            weight,
            port,
            target,
        } = self;
        write!(f, "{priority} {weight} {port} {target}")
    }
}

/// The strings in quotes, as in a file of a zone (RFC 1035, section 5.1).
impl fmt::Display for TXT {
    fn fmt(&self, f: &mut fmt::Formatter<'_>) -> fmt::Result {
        for (at, string) in self.txt_data.iter().enumerate() {
            f.write_str(if at == 0 { "\"" } else { " \"" })?;
            for octet in string {
                match octet {
                    b'"' | b'\\' => write!(f, "\\{}", char::from(*octet))?,
                    b' '..=b'~' => write!(f, "{}", char::from(*octet))?,
                    _ => write!(f, "\\{octet:03}")?,
                }
            }
            f.write_str("\"")?;
        }
        Ok(())
    }
}

impl fmt::Display for SOA {
    fn fmt(&self, f: &mut fmt::Formatter<'_>) -> fmt::Result {
        write!(f, "{} {} {} ", self.mname, self.rname, self.serial)?;
        write!(
            f,
            "{} {} {} {}",
            self.refresh, self.retry, self.expire, self.minimum
        )
    }
}
