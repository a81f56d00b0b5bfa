//! Sessions without a network: made-up octets are handed in.

use std::net::IpAddr;
use std::time::Duration;

use yimarotu::{
    Action, ChannelFailure, Found, Message, Moment, Protocol, RecordType, ResponseCode, Session,
    SessionError, Texts,
};

const NAME: &str = "www.example.test.";

fn open(settings: &str) -> Session {
    let texts = Texts {
        settings,
        ..Texts::default()
    };
    Session::open(&texts, &[7; 32], at(0)).unwrap()
}

fn at(milliseconds: u64) -> Moment {
    Moment::from_millis(milliseconds)
}

/// What was to be done, with octets of its own.
#[derive(Debug, PartialEq)]
enum Did {
    Open(u64, Protocol, IpAddr, u16, Vec<u8>),
    Send(u64, Vec<u8>),
    Close(u64),
    Done(u64),
}

fn act(session: &mut Session) -> Vec<Did> {
    let mut all = Vec::new();
    loop {
        all.push(match session.next().unwrap() {
            Action::Nothing => return all,
            Action::Open {
                channel,
                protocol,
                address,
                port,
                scope,
            } => Did::Open(channel, protocol, address, port, scope.to_vec()),
            Action::Send { channel, octets } => Did::Send(channel, octets.to_vec()),
            Action::Close(channel) => Did::Close(channel),
            Action::Done(number) => Did::Done(number),
            _ => continue,
        });
    }
}

/// The channel that was opened and the question that was sent, where nothing else was done.
fn asked(did: &[Did]) -> (u64, Vec<u8>) {
    let [Did::Open(channel, ..), Did::Send(on, octets)] = did else {
        panic!("{did:?}")
    };
    assert_eq!(channel, on);
    (*channel, octets.clone())
}

/// Where the question ends.
fn end_of_question(message: &[u8]) -> usize {
    12 + message[12..].iter().position(|octet| *octet == 0).unwrap() + 5
}

/// A reply with this code and an address of this TTL, where there is one.
fn reply(question: &[u8], code: u8, ttl: Option<u8>) -> Vec<u8> {
    let header = [question[0], question[1], 0x81, 0x80 | code, 0, 1];
    let counts = [0, u8::from(ttl.is_some()), 0, 0, 0, 0];
    let record = ttl.map(|ttl| {
        [
            &b"\xc0\x0c\0\x01\0\x01\0\0\0"[..],
            &[ttl],
            b"\0\x04\xc0\0\x02\x01",
        ]
        .concat()
    });
    let question = &question[12..end_of_question(question)];
    [&header[..], &counts, question, &record.unwrap_or_default()].concat()
}

#[test]
fn goes_from_a_start_to_an_answer() {
    let mut session = open("server 192.0.2.53 5353\noption ip_strategy Ipv4Only\n");
    assert_eq!(session.start_ip(9, NAME, at(1000)), Ok(true));
    let did = act(&mut session);
    let (channel, question) = asked(&did);
    let server = "192.0.2.53".parse().unwrap();
    assert_eq!(
        did[0],
        Did::Open(channel, Protocol::Udp, server, 5353, Vec::new())
    );
    assert_eq!(
        &question[12..end_of_question(&question)],
        b"\x03www\x07example\x04test\0\0\x01\0\x01"
    );
    assert_eq!(session.answer(9, 512), Err(SessionError::Waits));
    // 5 seconds is how long a message is waited for.
    assert_eq!(session.wait(at(2000)), Ok(Some(Duration::from_secs(4))));
    let mut lie = reply(&question, 0, Some(60));
    lie[0] ^= 1;
    session.came(channel, &lie, at(1500)).unwrap();
    session
        .came(channel + 1, &reply(&question, 0, Some(60)), at(1500))
        .unwrap();
    assert_eq!(act(&mut session), []);
    session
        .came(channel, &reply(&question, 0, Some(60)), at(1500))
        .unwrap();
    let did = act(&mut session);
    assert!(
        did.contains(&Did::Done(9)) && did.contains(&Did::Close(channel)),
        "{did:?}"
    );
    let answer = session.answer(9, 512).unwrap();
    assert_eq!(
        (answer.found, answer.code, answer.until),
        (Found::Records, ResponseCode::NoError, 61)
    );
    let message = Message::read(&answer.message).unwrap();
    assert_eq!(
        message.answers[0].to_string(),
        "www.example.test. 60 IN A 192.0.2.1"
    );
    let addresses = session.addresses(9, at(11_000)).unwrap();
    let wanted: IpAddr = "192.0.2.1".parse().unwrap();
    assert_eq!(
        (addresses.found, addresses.addresses),
        (Found::Records, vec![wanted])
    );
    assert_eq!(addresses.ttl, Duration::from_secs(50));
    assert_eq!(session.wait(at(2000)), Ok(None));
}

#[test]
fn keeps_and_forgets() {
    let mut session =
        open("server 192.0.2.53\noption ip_strategy Ipv4Only\noption cache_octets 10000000\n");
    session.start(1, NAME, RecordType::A, at(0)).unwrap();
    let (channel, question) = asked(&act(&mut session));
    session
        .came(channel, &reply(&question, 0, Some(60)), at(10))
        .unwrap();
    act(&mut session);
    assert_eq!(
        session.start(1, NAME, RecordType::A, at(10)),
        Err(SessionError::InUse)
    );
    assert_eq!(session.start(2, NAME, RecordType::A, at(30_000)), Ok(false));
    assert_eq!(act(&mut session), [Did::Done(2)]);
    let message = Message::read(&session.answer(2, 512).unwrap().message).unwrap();
    assert_eq!(message.answers[0].ttl(), 30);
    assert_eq!(session.cancel(1, at(30_000)), Ok(()));
    assert_eq!(session.cancel(1, at(30_000)), Err(SessionError::NoLookup));
    assert_eq!(session.answer(1, 512), Err(SessionError::NoLookup));
    session.clear_name(NAME, RecordType::A).unwrap();
    assert_eq!(session.start(3, NAME, RecordType::A, at(30_000)), Ok(true));
    let (channel, _) = asked(&act(&mut session));
    // Nobody waits for it any more.
    session.cancel(3, at(30_001)).unwrap();
    assert_eq!(act(&mut session), [Did::Close(channel)]);
    let told = session.statistics().unwrap();
    assert_eq!(
        (told.started, told.done_at_once, told.sent, told.timed_out),
        (3, 1, 2, 0)
    );
    assert_eq!((told.entries, told.octets), (0, Some(0)));
    session.clear().unwrap();
}

#[test]
fn time_and_failures_end_it() {
    let mut session = open("server 192.0.2.53\noption timeout 1\noption attempts 0\n");
    session.start(1, NAME, RecordType::A, at(0)).unwrap();
    asked(&act(&mut session));
    session.tick(at(999)).unwrap();
    assert_eq!(act(&mut session), []);
    session.tick(at(1000)).unwrap();
    assert!(act(&mut session).contains(&Did::Done(1)));
    assert_eq!(session.answer(1, 512).unwrap().found, Found::TimedOut);
    session.start(2, NAME, RecordType::A, at(2000)).unwrap();
    let (channel, question) = asked(&act(&mut session));
    session
        .came(channel, &reply(&question, 5, None), at(2001))
        .unwrap();
    act(&mut session);
    let answer = session.answer(2, 512).unwrap();
    assert_eq!(
        (answer.found, answer.code),
        (Found::ResponseCode, ResponseCode::Refused)
    );
}

/// A session with a look-up, 3, that is asked by a stream, once.
fn by_stream() -> Session {
    let mut session = open("server 192.0.2.53 53 tcp\noption timeout 1\noption attempts 0\n");
    session.start(3, NAME, RecordType::A, at(3000)).unwrap();
    session
}

/// The stream that was opened.
fn opened(did: &[Did]) -> u64 {
    let opened = did.iter().find_map(|it| match it {
        Did::Open(channel, Protocol::Tcp, ..) => Some(*channel),
        _ => None,
    });
    opened.unwrap_or_else(|| panic!("{did:?}"))
}

#[test]
fn a_stream_that_fails_twice_ends_it_before_its_time() {
    for failure in [
        ChannelFailure::Refused,
        ChannelFailure::Unreachable,
        ChannelFailure::Closed,
    ] {
        let mut session = by_stream();
        for _ in 0..2 {
            let channel = opened(&act(&mut session));
            session.failed(channel, failure, at(3000)).unwrap();
        }
        assert!(act(&mut session).contains(&Did::Done(3)), "{failure:?}");
        let found = session.answer(3, 512).unwrap().found;
        assert_eq!(found, Found::Upstream, "{failure:?}");
    }
}

#[test]
fn what_is_wanting_here_does_not_end_it_before_its_time() {
    let mut session = by_stream();
    let channel = opened(&act(&mut session));
    session
        .failed(channel, ChannelFailure::Local, at(3000))
        .unwrap();
    assert_eq!(act(&mut session), [Did::Close(channel)]);
    assert_eq!(session.answer(3, 512), Err(SessionError::Waits));
    session.tick(at(4000)).unwrap();
    assert!(act(&mut session).contains(&Did::Done(3)));
    assert_eq!(session.answer(3, 512).unwrap().found, Found::TimedOut);
}

#[test]
fn tells_the_scope_of_a_server() {
    let texts = Texts {
        conf: b"nameserver fe80::1%eth7\n",
        ..Texts::default()
    };
    let mut session = Session::open(&texts, &[7; 32], at(0)).unwrap();
    session.start(1, NAME, RecordType::A, at(0)).unwrap();
    let did = act(&mut session);
    let Did::Open(_, _, address, 53, scope) = &did[0] else {
        panic!("{did:?}")
    };
    assert_eq!(
        (address.to_string(), &scope[..]),
        ("fe80::1".to_owned(), &b"eth7"[..])
    );
}

#[test]
fn asks_the_servers_that_it_is_told() {
    let mut session = open("server 192.0.2.53\n");
    session
        .set_servers(b"nameserver 192.0.2.54\noptions use-vc\n", false)
        .unwrap();
    session.start(1, NAME, RecordType::A, at(0)).unwrap();
    let did = act(&mut session);
    let Did::Open(_, Protocol::Tcp, address, 53, _) = &did[0] else {
        panic!("{did:?}")
    };
    assert_eq!(address.to_string(), "192.0.2.54");
}

#[test]
fn says_what_it_refuses() {
    let opened = |settings, hosts| {
        let texts = Texts {
            settings,
            hosts,
            ..Texts::default()
        };
        Session::open(&texts, &[7; 32], at(0)).err()
    };
    assert_eq!(
        opened("option ndots 1\nsearch a..b\n", b""),
        Some(SessionError::Script { line: 2 })
    );
    assert_eq!(opened("", b"\xff\n"), Some(SessionError::Hosts));
    assert_eq!(opened("", b""), None);
    let mut session = open("");
    assert_eq!(session.start_ip(1, "a..b", at(0)), Ok(false));
    assert_eq!(session.answer(1, 512).unwrap().found, Found::BadName);
    assert_eq!(session.addresses(1, at(0)).unwrap().found, Found::BadName);
    assert_eq!(
        SessionError::Script { line: 2 }.to_string(),
        "line 2 of the settings has a fault"
    );
}

#[test]
fn finds_more_addresses_than_a_room_has() {
    let lines: String = (0..60)
        .map(|number| format!("192.0.2.{number} host\n"))
        .collect();
    let texts = Texts {
        hosts: lines.as_bytes(),
        settings: "option ip_strategy Ipv4Only\n",
        ..Texts::default()
    };
    let mut session = Session::open(&texts, &[7; 32], at(0)).unwrap();
    session.start_ip(1, "host", at(0)).unwrap();
    assert_eq!(session.addresses(1, at(0)).unwrap().addresses.len(), 60);
    // Without OPT a message holds what there is room for, whole.
    let message = Message::read(&session.answer(1, 512).unwrap().message).unwrap();
    assert!(!message.answers.is_empty() && message.answers.len() < 60);
    let message = Message::read(&session.answer(1, usize::MAX).unwrap().message).unwrap();
    assert_eq!(message.answers.len(), 60);
}
