//! Yimarotu, a stub resolver: addresses and records of names, by the calls of `hickory-resolver`.
//! Which reply is believed, who is asked, and when, is decided by a library whose calls are proved;
//! this crate opens sockets, moves octets and tells the time.
//!
//! ```no_run
//! let resolver = yimarotu::Resolver::from_system()?;
//! for address in resolver.lookup_ip("www.example.com")?.iter() {
//!     println!("{address}");
//! }
//! # Ok::<(), yimarotu::ResolveError>(())
//! ```
//!
//! - [`Resolver`] looks up by itself, as the system's files or a builder say; many look-ups at once
//!   from one thread.
//! - [`Session`] is the same without input and output, for a program with a loop of its own.
//! - [`FedSession`] asks nothing: it is fed by hand, for a transport of one's own.
//! - [`hickory`] has the names of `hickory-resolver`, for ports.
//!
//! All of them close themselves when they are dropped, may be moved to another thread, and are
//! shared by none. A child of fork opens its own. The crate is for Linux, and takes memory as Rust
//! does: but where the library finds none it says so.
#![deny(unsafe_code)]
#![warn(missing_docs)]

mod driven;
mod error;
mod fed;
mod ffi;
pub mod hickory;
mod lookup;
mod moment;
mod network;
mod records;
mod resolver;
mod session;

pub use error::{NoRecords, ResolveError, ResolveErrorKind, SessionError};
pub use fed::{Failure, FedSession, Question, read_servers, replay, rewrite, version};
pub use lookup::{Lookup, LookupIp, LookupIpIntoIter, LookupIpIter, LookupIter};
pub use moment::Moment;
pub use records::{
    BadMessage, DNSClass, IntoName, MX, Message, Name, Query, RData, Record, RecordType,
    ResponseCode, SOA, SRV, TXT,
};
pub use resolver::{Pending, Resolver, ResolverBuilder};
pub use session::{
    Action, Addresses, Answer, ChannelFailure, Found, Protocol, Session, Statistics, Texts,
};

/// Whoever has one may hand it to another thread; two threads cannot use one. Where that changed
/// this would not compile: of two impls that both fit, none is chosen.
const _: () = {
    const fn is_send<T: Send>() {}

    trait NotSync<Why> {
        const HOLDS: () = ();
    }
    struct IsSync;
    impl<T: ?Sized> NotSync<()> for T {}
    impl<T: ?Sized + Sync> NotSync<IsSync> for T {}

    is_send::<Session>();
    is_send::<FedSession>();
    is_send::<Resolver>();
    let () = <Session as NotSync<_>>::HOLDS;
    let () = <FedSession as NotSync<_>>::HOLDS;
    let () = <Resolver as NotSync<_>>::HOLDS;
};
