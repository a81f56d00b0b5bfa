//! The names of `hickory-resolver` 0.26, so that a program is ported by a change of its imports:
//! what it takes from `hickory_resolver` it takes from `yimarotu::hickory`, and leaves each
//! `.await` out. `docs/FROM_HICKORY.md` says what differs beside.
//!
//! ```no_run
//! // use hickory_resolver::{TokioResolver, net::NetError, proto::rr::RecordType};
//! use yimarotu::hickory::{TokioResolver, net::NetError, proto::rr::RecordType};
//!
//! let resolver = TokioResolver::builder_tokio()?.build()?;
//! let lookup = resolver.lookup("example.com.", RecordType::MX)?; // .await?
//! # Ok::<(), NetError>(())
//! ```

pub use crate::Resolver;
pub use crate::Resolver as TokioResolver;
pub use crate::ResolverBuilder;
pub use crate::{IntoName, Name};

/// What look-ups find.
pub mod lookup {
    pub use crate::lookup::Lookup;
}

/// The addresses that look-ups find.
pub mod lookup_ip {
    pub use crate::lookup::{LookupIp, LookupIpIntoIter, LookupIpIter};
}

/// Errors.
pub mod net {
    pub use crate::ResolveError as NetError;
    pub use crate::error::NoRecords;
}

/// Messages and records.
pub mod proto {
    /// Messages.
    pub mod op {
        pub use crate::records::{Message, Query, ResponseCode};
    }

    /// Records.
    pub mod rr {
        pub use crate::records::{DNSClass, IntoName, Name, RData, Record, RecordType};

        /// The data of records.
        pub mod rdata {
            pub use crate::records::{MX, SOA, SRV, TXT};
        }
    }
}
