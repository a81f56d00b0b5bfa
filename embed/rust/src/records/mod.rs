//! Records as values, and the reader of the messages that the library writes.

mod codes;
mod data;
mod message;
mod name;

pub use codes::{DNSClass, RecordType, ResponseCode};
pub use data::{MX, RData, SOA, SRV, TXT};
pub use message::{BadMessage, Message, Query, Record};
pub use name::{IntoName, Name};
