//! A resolver: a session, and sockets for its channels.

use std::cell::RefCell;
use std::fmt::Display;
use std::marker::PhantomData;
use std::net::SocketAddr;
use std::path::Path;
use std::time::Duration;
use std::{fmt, fs};

use crate::driven::Driven;
use crate::ffi::system;
use crate::lookup::lookup_of;
use crate::{
    IntoName, Lookup, LookupIp, Moment, RecordType, ResolveError, Session, SessionError,
    Statistics, Texts,
};

/// Where the system says whom to ask, and which hosts it knows.
const RESOLV_CONF: &str = "/etc/resolv.conf";
const HOSTS: &str = "/etc/hosts";
/// An answer has all its records.
const NO_LIMIT: usize = usize::MAX;

/// A resolver to be: what it will be opened over.
///
/// ```no_run
/// use std::time::Duration;
/// use yimarotu::{Resolver, ResolveError};
///
/// // As the system's files say, but of another server, and for two seconds a call.
/// let resolver = Resolver::builder()?
///     .server("192.0.2.53:5353".parse().expect("an address"))
///     .option("ndots", 2)
///     .time_limit(Duration::from_secs(2))
///     .build()?;
/// # Ok::<(), ResolveError>(())
/// ```
#[derive(Clone, Debug, Default)]
pub struct ResolverBuilder {
    conf: Vec<u8>,
    hostname: Vec<u8>,
    settings: String,
    hosts: Vec<u8>,
    time_limit: Option<Duration>,
}

impl ResolverBuilder {
    /// The octets of a file resolv.conf, in place of the system's.
    #[must_use]
    pub fn resolv_conf(mut self, octets: impl Into<Vec<u8>>) -> ResolverBuilder {
        self.conf = octets.into();
        self
    }

    /// The octets of a file of hosts, in place of the system's.
    #[must_use]
    pub fn hosts(mut self, octets: impl Into<Vec<u8>>) -> ResolverBuilder {
        self.hosts = octets.into();
        self
    }

    /// The name of this host, in place of the system's. Its domain is searched where the file
    /// resolv.conf names none.
    #[must_use]
    pub fn hostname(mut self, name: &str) -> ResolverBuilder {
        self.hostname = name.as_bytes().to_vec();
        self
    }

    /// More lines of settings, which count in place of what resolv.conf says: `docs/EMBED.md`,
    /// "Settings". A fault in one is told by [`ResolverBuilder::build`].
    #[must_use]
    pub fn settings(mut self, lines: &str) -> ResolverBuilder {
        self.settings.push_str(lines);
        if !lines.is_empty() && !lines.ends_with('\n') {
            self.settings.push('\n');
        }
        self
    }

    /// An option, by the name of its field in `ResolverOpts` of `hickory-resolver`: as `ndots`,
    /// `ip_strategy`, `attempts`, or `timeout`, which is in seconds.
    #[must_use]
    pub fn option(self, key: &str, value: impl Display) -> ResolverBuilder {
        self.settings(&format!("option {key} {value}"))
    }

    /// One more server, asked by datagrams and by streams. Those that are named so are asked in
    /// place of those of the file resolv.conf. The scope of a link-local address is its interface's
    /// number.
    #[must_use]
    pub fn server(self, server: SocketAddr) -> ResolverBuilder {
        let scope = match server {
            SocketAddr::V6(server) if server.scope_id() != 0 => format!("%{}", server.scope_id()),
            _ => String::new(),
        };
        self.settings(&format!("server {}{scope} {}", server.ip(), server.port()))
    }

    /// For how long a call waits at most. Without it a call ends when the name servers were given
    /// all the time and all the attempts that the settings say.
    #[must_use]
    pub fn time_limit(mut self, limit: Duration) -> ResolverBuilder {
        self.time_limit = Some(limit);
        self
    }

    /// Opens the resolver.
    ///
    /// # Errors
    ///
    /// A line of the settings has a fault, a line of the hosts is not UTF-8, no memory was left, or
    /// the system has no octets that nobody knows.
    pub fn build(self) -> Result<Resolver, ResolveError> {
        let texts = Texts {
            conf: &self.conf,
            hostname: &self.hostname,
            settings: &self.settings,
            hosts: &self.hosts,
        };
        let session = Session::open(&texts, &system::random()?, Moment::now())?;
        Ok(Resolver {
            driven: Driven::over(session).into(),
            time_limit: self.time_limit,
        })
    }
}

/// A resolver: it looks addresses and records of names up, and keeps them for as long as they may
/// be kept.
///
/// Calls take `&self`, and wait. Look-ups that are started wait together: any call that waits goes
/// on with all of them. A resolver may be moved to another thread, but threads share none; each
/// opens its own:
///
/// ```compile_fail
/// fn share<T: Sync>() {}
/// share::<yimarotu::Resolver>();
/// ```
///
/// A child of fork uses no resolver that was opened before, and opens its own: ids of messages
/// follow from a seed, and both would send the same ones, over the same sockets. A stream that is
/// idle stays open until a call is made.
///
/// ```no_run
/// use yimarotu::{Resolver, ResolveError};
///
/// let resolver = Resolver::from_system()?;
/// for address in resolver.lookup_ip("www.example.com.")?.iter() {
///     println!("{address}");
/// }
/// # Ok::<(), ResolveError>(())
/// ```
pub struct Resolver {
    pub(crate) driven: RefCell<Driven>,
    time_limit: Option<Duration>,
}

/// A call of a type of its own.
macro_rules! lookup_of_type {
    ($name:ident, $record_type:ident) => {
        #[doc = concat!("Looks the ", stringify!($record_type), " records of a name up.")]
        ///
        /// # Errors
        ///
        /// As of [`Resolver::lookup`].
        pub fn $name(&self, name: impl IntoName) -> Result<Lookup, ResolveError> {
            self.lookup(name, RecordType::$record_type)
        }
    };
}

impl Resolver {
    /// Opens a resolver as the system's files say: /etc/resolv.conf, /etc/hosts and the name of
    /// this host. A file that cannot be read counts as one without lines.
    ///
    /// # Errors
    ///
    /// As of [`ResolverBuilder::build`].
    pub fn from_system() -> Result<Resolver, ResolveError> {
        Resolver::builder()?.build()
    }

    /// A builder with what the system's files say.
    ///
    /// # Errors
    ///
    /// None; it answers a `Result` as the call of this name in `hickory-resolver` does.
    pub fn builder() -> Result<ResolverBuilder, ResolveError> {
        Ok(ResolverBuilder {
            conf: octets_of(RESOLV_CONF.as_ref()),
            hostname: system::host_name(),
            hosts: octets_of(HOSTS.as_ref()),
            ..ResolverBuilder::default()
        })
    }

    /// The same, under the name that `hickory-resolver` has for it.
    ///
    /// # Errors
    ///
    /// None.
    pub fn builder_tokio() -> Result<ResolverBuilder, ResolveError> {
        Resolver::builder()
    }

    /// A builder with nothing of the system: it would ask 127.0.0.1.
    ///
    /// ```
    /// let resolver = yimarotu::Resolver::builder_without_system()
    ///     .hosts("192.0.2.9 printer\n2001:db8::9 printer\n")
    ///     .build()?;
    /// let addresses: Vec<_> = resolver.lookup_ip("printer")?.iter().collect();
    /// assert_eq!(addresses.len(), 2);
    /// # Ok::<(), yimarotu::ResolveError>(())
    /// ```
    pub fn builder_without_system() -> ResolverBuilder {
        ResolverBuilder::default()
    }

    /// Looks the addresses of a host up, of the families that the settings say. What is found may have
    /// no address: then its records are in other sections than the answers.
    ///
    /// # Errors
    ///
    /// The answer is negative, the name servers cannot be reached or did not answer, the text is no
    /// name, or the time of the call has passed: [`ResolveError::kind`] tells which.
    pub fn lookup_ip(&self, host: impl IntoName) -> Result<LookupIp, ResolveError> {
        self.start_lookup_ip(host)?.wait()
    }

    /// Looks the records of a type of a name up.
    ///
    /// # Errors
    ///
    /// As of [`Resolver::lookup_ip`].
    pub fn lookup(
        &self,
        name: impl IntoName,
        record_type: RecordType,
    ) -> Result<Lookup, ResolveError> {
        self.start_lookup(name, record_type)?.wait()
    }

    lookup_of_type!(reverse_lookup, PTR);
    lookup_of_type!(ipv4_lookup, A);
    lookup_of_type!(ipv6_lookup, AAAA);
    lookup_of_type!(mx_lookup, MX);
    lookup_of_type!(ns_lookup, NS);
    lookup_of_type!(smimea_lookup, SMIMEA);
    lookup_of_type!(soa_lookup, SOA);
    lookup_of_type!(srv_lookup, SRV);
    lookup_of_type!(tlsa_lookup, TLSA);
    lookup_of_type!(txt_lookup, TXT);
    lookup_of_type!(cert_lookup, CERT);

    /// Looks the addresses of many hosts up at once, and gives what each came to, in their order.
    /// The time limit is that of all.
    ///
    /// ```no_run
    /// # let resolver = yimarotu::Resolver::from_system()?;
    /// let hosts = ["www.example.com.", "www.example.net.", "www.example.org."];
    /// for (host, found) in hosts.iter().zip(resolver.lookup_ip_all(hosts)) {
    ///     println!("{host} {}", found.map_or(0, |found| found.iter().count()));
    /// }
    /// # Ok::<(), yimarotu::ResolveError>(())
    /// ```
    pub fn lookup_ip_all<N: IntoName>(
        &self,
        hosts: impl IntoIterator<Item = N>,
    ) -> Vec<Result<LookupIp, ResolveError>> {
        let started: Vec<_> = hosts
            .into_iter()
            .map(|host| self.start_lookup_ip(host))
            .collect();
        started.into_iter().map(|pending| pending?.wait()).collect()
    }

    /// Starts a look-up of the addresses of a host. Questions are sent at once.
    ///
    /// # Errors
    ///
    /// No memory was left.
    pub fn start_lookup_ip(
        &self,
        host: impl IntoName,
    ) -> Result<Pending<'_, LookupIp>, ResolveError> {
        let host = host.into_name();
        self.start(|session, number, now| session.start_ip(number, &host, now))
    }

    /// Starts a look-up of the records of a type of a name.
    ///
    /// # Errors
    ///
    /// As of [`Resolver::start_lookup_ip`].
    pub fn start_lookup(
        &self,
        name: impl IntoName,
        record_type: RecordType,
    ) -> Result<Pending<'_, Lookup>, ResolveError> {
        let name = name.into_name();
        self.start(|session, number, now| session.start(number, &name, record_type, now))
    }

    fn start<T>(
        &self,
        start: impl FnOnce(&mut Session, u64, Moment) -> Result<bool, SessionError>,
    ) -> Result<Pending<'_, T>, ResolveError> {
        let ends = self.time_limit.map(Moment::after);
        let number = self.driven.borrow_mut().start(start, Moment::now())?;
        // From here on it is cancelled when it is dropped.
        let pending = Pending {
            resolver: self,
            number,
            ends,
            found: PhantomData,
        };
        self.driven.borrow_mut().act()?;
        Ok(pending)
    }

    /// Goes on with the look-ups that wait: waits until something happens, for so long at most, in
    /// whole milliseconds, and does what is to be done then.
    ///
    /// # Errors
    ///
    /// No memory was left, or the system cannot wait.
    pub fn poll(&self, longest: Duration) -> Result<(), ResolveError> {
        let (mut driven, ends) = (self.driven.borrow_mut(), Moment::now() + longest);
        while driven.turn(Moment::now(), Some(ends))? && Moment::now() < ends {}
        Ok(())
    }

    /// Drops from the cache what it has for a name, of a type.
    ///
    /// # Errors
    ///
    /// No memory was left.
    pub fn clear_lookup_cache(
        &self,
        name: impl IntoName,
        record_type: RecordType,
    ) -> Result<(), ResolveError> {
        let mut driven = self.driven.borrow_mut();
        Ok(driven.session.clear_name(&name.into_name(), record_type)?)
    }

    /// Empties the cache.
    ///
    /// # Errors
    ///
    /// No memory was left.
    pub fn clear_cache(&self) -> Result<(), ResolveError> {
        Ok(self.driven.borrow_mut().session.clear()?)
    }

    /// Asks the servers that a file resolv.conf names from now on, and no others; the cache is
    /// emptied where `clears` says so. What waits goes on with the servers that it began with.
    ///
    /// # Errors
    ///
    /// No memory was left.
    pub fn set_servers(&self, resolv_conf: &[u8], clears: bool) -> Result<(), ResolveError> {
        let mut driven = self.driven.borrow_mut();
        driven.session.set_servers(resolv_conf, clears)?;
        driven.act()
    }

    /// What the resolver did and holds.
    ///
    /// # Errors
    ///
    /// None is known.
    pub fn statistics(&self) -> Result<Statistics, ResolveError> {
        Ok(self.driven.borrow().session.statistics()?)
    }
}

impl fmt::Debug for Resolver {
    fn fmt(&self, f: &mut fmt::Formatter<'_>) -> fmt::Result {
        f.debug_struct("Resolver").finish_non_exhaustive()
    }
}

/// The octets of a file; none where it cannot be read, as the C library has it.
fn octets_of(path: &Path) -> Vec<u8> {
    fs::read(path).unwrap_or_default()
}

/// A look-up that was started. When it is dropped it is cancelled, and what only it had open is
/// closed. Where no call waited for ten seconds, what came meanwhile is let go: how long it may be
/// used counts from when it is read. It is asked for anew where its servers have time and attempts
/// left; else it has timed out, though a reply was there. Calls of [`Resolver::poll`] meanwhile
/// take it in.
///
/// ```no_run
/// # use yimarotu::{Resolver, ResolveError};
/// # let resolver = Resolver::from_system()?;
/// let first = resolver.start_lookup_ip("www.example.com.")?;
/// let second = resolver.start_lookup_ip("www.example.net.")?;
/// // Both questions were sent; each wait goes on with both.
/// println!("{:?} {:?}", second.wait()?, first.wait()?);
/// # Ok::<(), ResolveError>(())
/// ```
#[must_use = "it is cancelled when it is dropped"]
pub struct Pending<'r, T> {
    resolver: &'r Resolver,
    number: u64,
    ends: Option<Moment>,
    found: PhantomData<fn() -> T>,
}

impl<T: From<Lookup>> Pending<'_, T> {
    /// Whether it is done: then [`Pending::wait`] does not wait.
    pub fn is_done(&self) -> bool {
        self.resolver.driven.borrow().done.contains(&self.number)
    }

    /// Waits until it is done, and gives what it came to.
    ///
    /// # Errors
    ///
    /// As of [`Resolver::lookup_ip`].
    pub fn wait(self) -> Result<T, ResolveError> {
        let mut driven = self.resolver.driven.borrow_mut();
        driven.wait_for(self.number, self.ends)?;
        let answer = driven.session.answer(self.number, NO_LIMIT)?;
        drop(driven);
        lookup_of(answer, Moment::now()).map(T::from)
    }

    /// The same, for so long at most from now on, whatever the resolver's limit is.
    ///
    /// # Errors
    ///
    /// As of [`Pending::wait`].
    pub fn wait_for(mut self, limit: Duration) -> Result<T, ResolveError> {
        self.ends = Some(Moment::after(limit));
        self.wait()
    }
}

impl<T> Drop for Pending<'_, T> {
    fn drop(&mut self) {
        // Where no memory is left it is forgotten with the session.
        let _ = self.resolver.driven.borrow_mut().cancel(self.number);
    }
}

impl<T> fmt::Debug for Pending<'_, T> {
    fn fmt(&self, f: &mut fmt::Formatter<'_>) -> fmt::Result {
        f.debug_struct("Pending")
            .field("number", &self.number)
            .finish_non_exhaustive()
    }
}
