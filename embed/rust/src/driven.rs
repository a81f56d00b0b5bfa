//! A session, and sockets for its channels.

use std::collections::{HashSet, VecDeque};
use std::time::Duration;

use crate::network::{self, Event, Network};
use crate::{
    Action, ChannelFailure, Moment, ResolveError, ResolveErrorKind, Session, SessionError,
};

/// What came is let go where nobody looked for so long.
const STILL: Duration = Duration::from_secs(10);

/// A session, and the sockets of its channels.
pub(crate) struct Driven {
    pub(crate) session: Session,
    network: Network,
    /// The look-ups that are done, and were not read.
    pub(crate) done: HashSet<u64>,
    /// The number of the latest look-up.
    last: u64,
    /// When somebody looked at the sockets last.
    looked: Moment,
    /// The channels that failed, of which the session was not told yet.
    untold: VecDeque<(u64, ChannelFailure)>,
}

impl Driven {
    /// A session for which no channel is open yet.
    pub(crate) fn over(session: Session) -> Driven {
        Driven {
            session,
            network: Network::default(),
            done: HashSet::new(),
            last: 0,
            looked: Moment::now(),
            untold: VecDeque::new(),
        }
    }

    /// Starts a look-up, and gives its number.
    pub(crate) fn start(
        &mut self,
        start: impl FnOnce(&mut Session, u64, Moment) -> Result<bool, SessionError>,
        now: Moment,
    ) -> Result<u64, SessionError> {
        let number = self.last + 1;
        start(&mut self.session, number, now)?;
        self.last = number;
        Ok(number)
    }

    /// Where the machine slept, or nobody looked at the sockets for long past such a wait, what came
    /// meanwhile is not handed in: its TTLs would count from now. Tells whether that was so.
    fn wake(&mut self, waited: Duration) -> Result<bool, ResolveError> {
        let now = Moment::now();
        if self.network.is_empty() {
            self.looked = now;
        }
        let is_late = now.saturating_duration_since(self.looked) >= waited + STILL;
        if !self.network.has_slept() && !is_late {
            return Ok(false);
        }
        self.looked = now;
        // That is told once: a call for which there is no memory comes behind it.
        let closed = self.network.let_go();
        self.untold
            .extend(closed.into_iter().map(|it| (it, ChannelFailure::Closed)));
        self.session.tick(now)?;
        self.tell_failures()?;
        Ok(true)
    }

    /// Tells the session of channels that failed: also of those for which it had no memory before.
    fn tell_failures(&mut self) -> Result<(), SessionError> {
        while let Some((channel, failure)) = self.untold.front() {
            self.session.failed(*channel, *failure, Moment::now())?;
            self.untold.pop_front();
        }
        Ok(())
    }

    /// Does what is to be done.
    pub(crate) fn act(&mut self) -> Result<(), ResolveError> {
        self.wake(Duration::ZERO)?;
        loop {
            self.tell_failures()?;
            let failed = match self.session.next()? {
                Action::Nothing => return Ok(()),
                Action::Continue => None,
                Action::Open {
                    channel,
                    protocol,
                    address,
                    port,
                    scope,
                } => {
                    let server = network::socket_address(address, port, scope);
                    let opened = self.network.open(channel, protocol, server);
                    opened.err().map(|failure| (channel, failure))
                }
                Action::Send { channel, octets } => {
                    let sent = self.network.send(channel, octets);
                    sent.err().map(|failure| (channel, failure))
                }
                Action::Close(channel) => {
                    self.network.close(channel);
                    None
                }
                Action::Done(number) => {
                    self.done.insert(number);
                    None
                }
            };
            self.untold.extend(failed);
        }
    }

    /// Waits until something happens, up to a moment at most, hands it in, and does what is to be
    /// done then. It does not wait where it woke. Tells whether it might have waited for longer,
    /// since nothing happened.
    pub(crate) fn turn(&mut self, now: Moment, ends: Option<Moment>) -> Result<bool, ResolveError> {
        if self.wake(Duration::ZERO)? {
            self.act()?;
            return Ok(false);
        }
        self.looked = now;
        // A millisecond more, since it may be one that began.
        let of_session = self
            .session
            .wait(now)?
            .map(|it| it + Duration::from_millis(1));
        let of_call = ends.map(|ends| ends.saturating_duration_since(now));
        let limit = [of_session, of_call].into_iter().flatten().min();
        let longest = limit.map_or(network::LONGEST, |it| it.min(network::LONGEST));
        let is_over = self.network.wait(longest)? || limit == Some(longest);
        let mut woke = self.wake(longest)?;
        self.looked = Moment::now();
        for place in self.network.ready() {
            woke |= self.hand_in(place)?;
        }
        self.tell_failures()?;
        self.session.tick(Moment::now())?;
        self.act()?;
        Ok(!is_over && !woke)
    }

    /// Hands in what happened on the channel at a place. The machine may have slept since another
    /// was read: then it wakes first. Tells whether it did.
    fn hand_in(&mut self, place: usize) -> Result<bool, ResolveError> {
        let woke = self.wake(Duration::ZERO)?;
        let is_stream = self.network.is_stream(place);
        let (channel, event) = self.network.look_at(place);
        match event {
            None => {}
            Some(Event::Failed(failure)) => self.untold.push_back((channel, failure)),
            Some(Event::Came(octets)) => {
                let came = self.session.came(channel, octets, Moment::now());
                if came.is_err() && is_stream {
                    // What comes behind octets that were lost cannot be read.
                    let failed = (channel, ChannelFailure::Unreachable);
                    self.untold.push_back(failed);
                }
                came?;
            }
        }
        Ok(woke)
    }

    /// Goes on until a look-up is done.
    pub(crate) fn wait_for(
        &mut self,
        number: u64,
        ends: Option<Moment>,
    ) -> Result<(), ResolveError> {
        while !self.done.contains(&number) {
            let now = Moment::now();
            if ends.is_some_and(|ends| ends <= now) {
                return Err(ResolveErrorKind::TimeLimit.into());
            }
            self.turn(now, ends)?;
        }
        Ok(())
    }

    /// Forgets a look-up, and closes what only it had open.
    pub(crate) fn cancel(&mut self, number: u64) -> Result<(), ResolveError> {
        // Time is told only where a place comes free. Else it could end what octets answer that
        // nobody has read yet.
        let moment = if self.done.remove(&number) {
            Moment::default()
        } else {
            Moment::now()
        };
        self.session.cancel(number, moment)?;
        self.act()
    }
}

#[cfg(test)]
mod tests {
    use std::net::{IpAddr, Ipv4Addr, TcpListener, UdpSocket};
    use std::{mem, thread};

    use super::*;
    use crate::{LookupIp, Resolver};

    const AGAIN: IpAddr = IpAddr::V4(Ipv4Addr::new(192, 0, 2, 2));

    /// Answers the next question with one address (RFC 1035, section 4.1).
    fn answer(server: &UdpSocket, address: [u8; 4]) {
        let mut room = [0; 512];
        let (_, peer) = server.recv_from(&mut room).unwrap();
        let end = room[12..].iter().position(|octet| *octet == 0).unwrap() + 17;
        let counts = [0x81, 0x80, 0, 1, 0, 1, 0, 0, 0, 0];
        let record = [0xc0, 12, 0, 1, 0, 1, 0, 0, 0, 60, 0, 4];
        let (id, question) = (&room[..2], &room[12..end]);
        let response = [id, &counts, question, &record, &address].concat();
        server.send_to(&response, peer).unwrap();
    }

    /// A server of the test's own, and a resolver that asks it.
    fn server_and_resolver() -> (UdpSocket, Resolver) {
        let server = UdpSocket::bind("127.0.0.1:0").unwrap();
        let resolver = Resolver::builder_without_system()
            .server(server.local_addr().unwrap())
            .option("ip_strategy", "Ipv4Only")
            .option("timeout", 1)
            .build()
            .unwrap();
        (server, resolver)
    }

    /// The places of so many channels on which something happened.
    fn ready(driven: &mut Driven, count: usize) -> Vec<usize> {
        let began = Moment::now();
        loop {
            driven.network.wait(network::LONGEST).unwrap();
            let places = driven.network.ready();
            if places.len() >= count {
                return places;
            }
            let taken = Moment::now().saturating_duration_since(began);
            assert!(taken < Duration::from_secs(30), "{places:?}");
        }
    }

    fn addresses(found: &LookupIp) -> Vec<IpAddr> {
        found.iter().collect()
    }

    #[test]
    fn a_call_waits_for_longer_than_any_wait() {
        let server = UdpSocket::bind("127.0.0.1:0").unwrap();
        let resolver = Resolver::builder_without_system()
            .server(server.local_addr().unwrap())
            .build()
            .unwrap();
        let _pending = resolver.start_lookup_ip("www.example.test.").unwrap();
        let began = Moment::now();
        assert!(resolver.driven.borrow_mut().turn(began, None).unwrap());
        let taken = Moment::now().saturating_duration_since(began);
        // (the server has five seconds)
        assert!(taken < Duration::from_secs(4), "{taken:?}");
        let (longest, began) = (3 * network::LONGEST / 2, Moment::now());
        resolver.poll(longest).unwrap();
        let taken = Moment::now().saturating_duration_since(began);
        assert!(taken >= longest, "{taken:?}");
    }

    #[test]
    fn what_came_while_nobody_looked_is_let_go() {
        let (server, resolver) = server_and_resolver();
        let pending = resolver.start_lookup_ip("www.example.test.").unwrap();
        answer(&server, [192, 0, 2, 1]);
        ready(&mut resolver.driven.borrow_mut(), 1);
        // (the machine was started longer ago than that)
        resolver.driven.borrow_mut().looked = Moment::default();
        let again = thread::spawn(move || answer(&server, [192, 0, 2, 2]));
        assert_eq!(addresses(&pending.wait().unwrap()), [AGAIN]);
        again.join().unwrap();
    }

    #[test]
    fn what_is_let_go_may_have_timed_out() {
        let server = UdpSocket::bind("127.0.0.1:0").unwrap();
        let resolver = Resolver::builder_without_system()
            .server(server.local_addr().unwrap())
            .settings("option attempts 0\noption timeout 1\noption ip_strategy Ipv4Only")
            .build()
            .unwrap();
        let pending = resolver.start_lookup_ip("www.example.test.").unwrap();
        answer(&server, [192, 0, 2, 1]);
        thread::sleep(Duration::from_millis(1100));
        resolver.driven.borrow_mut().looked = Moment::default();
        let error = pending.wait().unwrap_err();
        assert!(matches!(error.kind(), ResolveErrorKind::Timeout), "{error}");
    }

    #[test]
    fn what_came_before_a_stop_between_two_is_let_go() {
        let (server, resolver) = server_and_resolver();
        let start = |host| resolver.start_lookup_ip(host).unwrap();
        let (first, second) = (start("one.example.test."), start("two.example.test."));
        for _ in 0..2 {
            answer(&server, [192, 0, 2, 1]);
        }
        let mut driven = resolver.driven.borrow_mut();
        let places = ready(&mut driven, 2);
        assert!(!driven.hand_in(places[0]).unwrap());
        driven.looked = Moment::default();
        assert!(driven.hand_in(places[1]).unwrap());
        driven.act().unwrap();
        drop(driven);
        assert!(first.is_done() && !second.is_done());
        let again = thread::spawn(move || answer(&server, [192, 0, 2, 2]));
        assert_eq!(addresses(&second.wait().unwrap()), [AGAIN]);
        again.join().unwrap();
    }

    /// Does something while each call of the session fails, as it may where no memory is left.
    fn while_calls_fail<T>(driven: &mut Driven, act: impl FnOnce(&mut Driven) -> T) -> T {
        let session = mem::replace(&mut driven.session, Session::closed());
        let came_to = act(driven);
        driven.session = session;
        came_to
    }

    #[test]
    fn what_came_is_let_go_where_calls_fail() {
        let (server, resolver) = server_and_resolver();
        let pending = resolver.start_lookup_ip("www.example.test.").unwrap();
        answer(&server, [192, 0, 2, 1]);
        ready(&mut resolver.driven.borrow_mut(), 1);
        resolver.driven.borrow_mut().looked = Moment::default();
        while_calls_fail(&mut resolver.driven.borrow_mut(), Driven::act).unwrap_err();
        let again = thread::spawn(move || answer(&server, [192, 0, 2, 2]));
        assert_eq!(addresses(&pending.wait().unwrap()), [AGAIN]);
        again.join().unwrap();
    }

    #[test]
    fn a_datagram_that_is_lost_fails_no_channel() {
        let (server, resolver) = server_and_resolver();
        let _pending = resolver.start_lookup_ip("www.example.test.").unwrap();
        answer(&server, [192, 0, 2, 1]);
        let mut driven = resolver.driven.borrow_mut();
        let places = ready(&mut driven, 1);
        while_calls_fail(&mut driven, |driven| driven.hand_in(places[0])).unwrap_err();
        assert!(driven.untold.is_empty());
    }

    #[test]
    fn a_failure_is_told_again_where_calls_fail() {
        let listener = TcpListener::bind("127.0.0.1:0").unwrap();
        let server = format!(
            "server 127.0.0.1 {} tcp",
            listener.local_addr().unwrap().port()
        );
        let resolver = Resolver::builder_without_system()
            .settings(&server)
            .option("ip_strategy", "Ipv4Only")
            .option("timeout", 20)
            .build()
            .unwrap();
        let pending = resolver.start_lookup_ip("www.example.test.").unwrap();
        drop(listener.accept().unwrap());
        let mut driven = resolver.driven.borrow_mut();
        ready(&mut driven, 1);
        let told = while_calls_fail(&mut driven, |driven| {
            driven.hand_in(0).unwrap();
            driven.tell_failures()
        });
        told.unwrap_err();
        drop(driven);
        // (where nobody comes any more it is not waited for)
        let _again = thread::spawn(move || drop(listener.accept().unwrap()));
        let began = Moment::now();
        pending.wait().unwrap_err();
        let taken = Moment::now().saturating_duration_since(began);
        assert!(taken < Duration::from_secs(10), "{taken:?}");
    }
}
