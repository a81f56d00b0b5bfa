//! Types, classes and response codes: words for numbers.

use std::fmt;
use std::hash::{Hash, Hasher};
use std::str::FromStr;

/// Makes an enum of words for 16-bit numbers, and `Unknown` for all others. Values are equal where
/// their numbers are.
macro_rules! codes {
    ($(#[$about:meta])* $name:ident, $prefix:literal:
        $($(#[$of:meta])* $word:ident $text:literal = $code:literal,)*) => {
        $(#[$about])*
        #[derive(Clone, Copy, Debug)]
        #[non_exhaustive]
        pub enum $name {
            $($(#[$of])* $word,)*
            /// A number without a word here.
            Unknown(u16),
        }

        impl $name {
            /// The number.
            pub fn code(self) -> u16 {
                match self {
                    $($name::$word => $code,)*
                    $name::Unknown(code) => code,
                }
            }
        }

        impl From<u16> for $name {
            fn from(code: u16) -> $name {
                match code {
                    $($code => $name::$word,)*
                    code => $name::Unknown(code),
                }
            }
        }

        impl From<$name> for u16 {
            fn from(it: $name) -> u16 {
                it.code()
            }
        }

        impl PartialEq for $name {
            fn eq(&self, other: &$name) -> bool {
                self.code() == other.code()
            }
        }

        impl Eq for $name {}

        impl Hash for $name {
            fn hash<H: Hasher>(&self, state: &mut H) {
                self.code().hash(state);
            }
        }

        impl fmt::Display for $name {
            fn fmt(&self, f: &mut fmt::Formatter<'_>) -> fmt::Result {
                match $name::from(self.code()) {
                    $($name::$word => f.pad($text),)*
                    $name::Unknown(code) => f.pad(&format!(concat!($prefix, "{}"), code)),
                }
            }
        }

        impl FromStr for $name {
            type Err = UnknownWord;

            fn from_str(text: &str) -> Result<$name, UnknownWord> {
                match text {
                    $($text => Ok($name::$word),)*
                    _ => {
                        let digits = text.strip_prefix($prefix).ok_or(UnknownWord)?;
                        digits.parse::<u16>().map($name::from).map_err(|_| UnknownWord)
                    }
                }
            }
        }
    };
}

/// The text is no word for a number, nor the general form of one, as `TYPE65280`.
#[derive(Clone, Copy, Debug, PartialEq, Eq)]
pub struct UnknownWord;

impl fmt::Display for UnknownWord {
    fn fmt(&self, f: &mut fmt::Formatter<'_>) -> fmt::Result {
        f.write_str("an unknown word")
    }
}

impl std::error::Error for UnknownWord {}

codes! {
    /// The type of a record (RFC 1035, section 3.2.2, and later ones).
    ///
    /// ```
    /// use yimarotu::RecordType;
    ///
    /// assert_eq!(RecordType::AAAA.code(), 28);
    /// assert_eq!("MX".parse(), Ok(RecordType::MX));
    /// assert_eq!(RecordType::from(65280).to_string(), "TYPE65280");
    /// ```
    RecordType, "TYPE":
    /// An IPv4 address.
    A "A" = 1,
    /// A name server of a zone.
    NS "NS" = 2,
    /// The name that this one is an alias of.
    CNAME "CNAME" = 5,
    /// The start of a zone.
    SOA "SOA" = 6,
    /// A name that an address, or another name, leads to.
    PTR "PTR" = 12,
    /// A host that takes mail.
    MX "MX" = 15,
    /// Strings.
    TXT "TXT" = 16,
    /// An IPv6 address.
    AAAA "AAAA" = 28,
    /// Where a service is.
    SRV "SRV" = 33,
    /// A rule that rewrites names (RFC 3403).
    NAPTR "NAPTR" = 35,
    /// A certificate (RFC 4398).
    CERT "CERT" = 37,
    /// An alias of all names below this one (RFC 6672).
    DNAME "DNAME" = 39,
    /// The key of a zone below (RFC 4034).
    DS "DS" = 43,
    /// A fingerprint of a host's key (RFC 4255).
    SSHFP "SSHFP" = 44,
    /// A signature (RFC 4034).
    RRSIG "RRSIG" = 46,
    /// What is not there (RFC 4034).
    NSEC "NSEC" = 47,
    /// A key of a zone (RFC 4034).
    DNSKEY "DNSKEY" = 48,
    /// A certificate of a service (RFC 6698).
    TLSA "TLSA" = 52,
    /// A certificate for mail (RFC 8162).
    SMIMEA "SMIMEA" = 53,
    /// A service and its parameters (RFC 9460).
    SVCB "SVCB" = 64,
    /// The same of HTTPS (RFC 9460).
    HTTPS "HTTPS" = 65,
    /// All types, in a question.
    ANY "ANY" = 255,
    /// An address of a resource (RFC 7553).
    URI "URI" = 256,
    /// Who may issue certificates (RFC 8659).
    CAA "CAA" = 257,
}

codes! {
    /// The class of a record (RFC 1035, section 3.2.4).
    DNSClass, "CLASS":
    /// The internet.
    IN "IN" = 1,
    /// Chaos.
    CH "CH" = 3,
    /// Hesiod.
    HS "HS" = 4,
    /// None (RFC 2136).
    NONE "NONE" = 254,
    /// All classes, in a question.
    ANY "ANY" = 255,
}

codes! {
    /// The code of a response (RFC 1035, section 4.1.1; RFC 6895, section 2.3).
    ResponseCode, "CODE":
    /// No error.
    NoError "NOERROR" = 0,
    /// The server could not read the question.
    FormErr "FORMERR" = 1,
    /// The server failed.
    ServFail "SERVFAIL" = 2,
    /// There is no such name.
    NXDomain "NXDOMAIN" = 3,
    /// The server does not do this.
    NotImp "NOTIMP" = 4,
    /// The server will not do this.
    Refused "REFUSED" = 5,
}
