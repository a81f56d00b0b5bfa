//! Resolvers over name servers of the test's own.

mod common;

use std::collections::HashSet;
use std::net::{IpAddr, Ipv6Addr};
use std::thread;
use std::time::{Duration, Instant};

use common::{
    Does, NXDOMAIN, Nobody, REFUSED, RESPONSE, SERVFAIL, Server, TRUNCATED, address,
    address_of_six, record, soa, with_address,
};
use yimarotu::{
    LookupIp, RData, RecordType, ResolveErrorKind, Resolver, ResponseCode, SessionError,
};

const NAME: &str = "www.example.test.";

fn ip(text: &str) -> IpAddr {
    text.parse().unwrap()
}

fn addresses(found: &LookupIp) -> Vec<IpAddr> {
    found.iter().collect()
}

#[test]
fn finds_addresses_of_both_families() {
    let server = Server::good(7);
    let found = server.builder().build().unwrap().lookup_ip(NAME).unwrap();
    let got: HashSet<IpAddr> = found.iter().collect();
    assert_eq!(got, HashSet::from([ip("192.0.2.7"), ip("2001:db8::7")]));
    assert_eq!(found.query().name().to_string(), NAME);
    assert_eq!(
        addresses(&found),
        found.clone().into_iter().collect::<Vec<_>>()
    );
    // Two questions, each by datagrams.
    assert_eq!(
        server.asked(),
        [(NAME.to_owned(), false), (NAME.to_owned(), false)]
    );
}

#[test]
fn says_how_long_they_may_be_used() {
    let server = Server::good(7);
    let start = Instant::now();
    let found = server.resolver().lookup_ip(NAME).unwrap();
    let left = found.valid_until() - start;
    // The TTL is 60, and a second is used to its end.
    assert!(
        (Duration::from_secs(59)..Duration::from_secs(63)).contains(&left),
        "{left:?}"
    );
}

#[test]
fn asks_a_server_over_ipv6() {
    let loopback = Ipv6Addr::LOCALHOST.into();
    let server = Server::at(loopback, |asked| vec![Does::Says(with_address(asked, 7))]);
    assert_eq!(
        addresses(&server.resolver().lookup_ip(NAME).unwrap()),
        [ip("192.0.2.7")]
    );
}

#[test]
fn finds_records_of_each_type() {
    let server = Server::new(|asked| {
        let data = match asked.record_type() {
            1 => b"\xc0\0\x02\x01".to_vec(),
            2 => b"\x02ns\xc0\x0c".to_vec(),
            5 => b"\x05other\0".to_vec(),
            6 => [&b"\x02ns\0\x04root\0"[..], &[0, 0, 0, 9].repeat(5)].concat(),
            12 => b"\x04host\0".to_vec(),
            15 => b"\0\x0a\x04mail\xc0\x0c".to_vec(),
            16 => b"\x02ab\x01\xff".to_vec(),
            28 => [&b"\x20\x01\x0d\xb8"[..], &[0; 12]].concat(),
            33 => b"\0\x01\0\x02\0\x8f\x04imap\0".to_vec(),
            _ => b"\x01\x02".to_vec(),
        };
        vec![Does::Says(asked.reply(
            RESPONSE,
            &[record(asked.record_type(), 60, &data)],
            &[],
        ))]
    });
    let resolver = server.resolver();
    let wanted = [
        (RecordType::A, "192.0.2.1"),
        (RecordType::NS, "ns.www.example.test."),
        (RecordType::CNAME, "other."),
        (RecordType::SOA, "ns. root. 9 9 9 9 9"),
        (RecordType::PTR, "host."),
        (RecordType::MX, "10 mail.www.example.test."),
        (RecordType::TXT, "\"ab\" \"\\255\""),
        (RecordType::AAAA, "2001:db8::"),
        (RecordType::SRV, "1 2 143 imap."),
        (RecordType::from(65280), "\\# 2 0102"),
    ];
    for (record_type, text) in wanted {
        let found = resolver.lookup(NAME, record_type).unwrap();
        let [record] = found.answers() else {
            panic!("{record_type}: {found:?}")
        };
        assert_eq!(record.record_type(), record_type);
        assert_eq!(record.data().to_string(), text, "{record_type}");
        assert_eq!(record.name().to_string(), NAME);
        assert_eq!(found.iter().next(), Some(record.data()));
    }
    let mx = resolver.mx_lookup(NAME).unwrap();
    let [RData::MX(mx)] = mx.iter().collect::<Vec<_>>()[..] else {
        panic!("{mx:?}")
    };
    assert_eq!((mx.preference, mx.exchange.num_labels()), (10, 4));
    let names = resolver.reverse_lookup(ip("192.0.2.1")).unwrap();
    assert_eq!(
        names.iter().map(ToString::to_string).collect::<Vec<_>>(),
        ["host."]
    );
    assert_eq!(server.asked().last().unwrap().0, "1.2.0.192.in-addr.arpa.");
}

#[test]
fn believes_no_lies() {
    let server = Server::new(|asked| {
        let lie = with_address(asked, 66);
        let other_id = [&[!lie[0], lie[1]], &lie[2..]].concat();
        let mut other_name = lie.clone();
        other_name[13] = b'x';
        let mut question = lie.clone();
        question[2] &= 0x7f;
        vec![
            Does::Says(other_id),
            Does::Says(other_name),
            Does::Says(question),
            Does::Says(b"no message".to_vec()),
            Does::Says(Vec::new()),
            Does::SaysFromElsewhere(lie),
            Does::Waits(Duration::from_millis(100)),
            Does::Says(with_address(asked, 7)),
        ]
    });
    assert_eq!(
        addresses(&server.resolver().lookup_ip(NAME).unwrap()),
        [ip("192.0.2.7")]
    );
    assert_eq!(server.asked().len(), 1);
}

#[test]
fn asks_by_a_stream_where_the_reply_is_cut() {
    let server = Server::new(|asked| {
        let answers: Vec<_> = (1..=200).map(address).collect();
        match asked.by_stream {
            false => vec![Does::Says(asked.reply(TRUNCATED, &[], &[]))],
            true => vec![Does::Says(asked.reply(RESPONSE, &answers, &[]))],
        }
    });
    let found = server.resolver().lookup_ip(NAME).unwrap();
    assert_eq!(found.iter().collect::<HashSet<_>>().len(), 200);
    assert_eq!(
        server.asked(),
        [(NAME.to_owned(), false), (NAME.to_owned(), true)]
    );
}

#[test]
fn asks_once_more_where_a_stream_is_closed() {
    let server = Server::new(|asked| match (asked.by_stream, asked.before) {
        (false, _) => vec![Does::Says(asked.reply(TRUNCATED, &[], &[]))],
        (true, 1) => vec![Does::Closes],
        (true, _) => vec![Does::Says(with_address(asked, 7))],
    });
    assert_eq!(
        addresses(&server.resolver().lookup_ip(NAME).unwrap()),
        [ip("192.0.2.7")]
    );
    let closing = Server::new(|asked| match asked.by_stream {
        false => vec![Does::Says(asked.reply(TRUNCATED, &[], &[]))],
        true => vec![Does::Closes],
    });
    let error = closing.resolver().lookup_ip(NAME).unwrap_err();
    assert!(
        matches!(error.kind(), ResolveErrorKind::Upstream),
        "{error:?}"
    );
}

#[test]
fn asks_the_second_server() {
    let good = Server::good(7);
    let failing = Server::new(|asked| vec![Does::Says(asked.reply(RESPONSE | SERVFAIL, &[], &[]))]);
    let (silent, nobody) = (Server::silent(), Nobody::new());
    let servers = [
        (failing.address, 20),
        (silent.address, 1),
        (nobody.address(), 20),
    ];
    for (first, timeout) in servers {
        let resolver = Resolver::builder_without_system()
            .server(first)
            .server(good.address)
            .option("timeout", timeout)
            .option("server_ordering_strategy", "UserProvidedOrder")
            .option("num_concurrent_reqs", 1)
            .option("ip_strategy", "Ipv4Only")
            .build()
            .unwrap();
        assert_eq!(
            addresses(&resolver.lookup_ip(NAME).unwrap()),
            [ip("192.0.2.7")],
            "{first}"
        );
    }
    assert_eq!(failing.asked().len(), 1);
    assert!(!silent.asked().is_empty());
}

#[test]
fn tells_what_went_wrong() {
    let server = Server::new(|asked| {
        let (flags, authorities) = match asked.name().as_str() {
            "none." => (RESPONSE | NXDOMAIN, vec![soa()]),
            "empty." => (RESPONSE, vec![soa()]),
            "refused." => (RESPONSE | REFUSED, Vec::new()),
            _ => return Vec::new(),
        };
        vec![Does::Says(asked.reply(flags, &[], &authorities))]
    });
    let resolver = server.builder().build().unwrap();
    let error = resolver.lookup_ip("none.").unwrap_err();
    assert!(error.is_no_records_found() && error.is_nx_domain() && !error.is_timeout());
    assert_eq!(error.negative_ttl(), Some(30));
    assert_eq!(error.to_string(), "no records were found: NXDOMAIN");
    let soa = error.into_soa().unwrap();
    assert_eq!(
        (soa.record_type(), soa.name().is_root()),
        (RecordType::SOA, true)
    );
    let error = resolver.lookup("empty.", RecordType::TXT).unwrap_err();
    assert!(error.is_no_records_found() && !error.is_nx_domain());
    assert_eq!(
        error.no_records().unwrap().response_code,
        ResponseCode::NoError
    );
    let error = resolver.lookup("refused.", RecordType::TXT).unwrap_err();
    let code = |kind: &ResolveErrorKind| match kind {
        ResolveErrorKind::ResponseCode(code) => Some(*code),
        _ => None,
    };
    assert_eq!(code(error.kind()), Some(ResponseCode::Refused), "{error:?}");
    let impatient = server
        .builder()
        .option("timeout", 1)
        .option("attempts", 0)
        .build()
        .unwrap();
    let error = impatient.lookup("silent.", RecordType::TXT).unwrap_err();
    assert!(
        matches!(error.kind(), ResolveErrorKind::Timeout),
        "{error:?}"
    );
    assert!(error.is_timeout() && !error.is_no_records_found());
    let error = resolver.lookup_ip("a..b").unwrap_err();
    assert!(
        matches!(error.kind(), ResolveErrorKind::BadName),
        "{error:?}"
    );
    assert_eq!(
        std::io::Error::from(error).kind(),
        std::io::ErrorKind::InvalidInput
    );
    let nobody = Nobody::new();
    let resolver = Resolver::builder_without_system()
        .server(nobody.address())
        .option("timeout", 1)
        .build()
        .unwrap();
    let error = resolver.lookup_ip(NAME).unwrap_err();
    assert!(
        matches!(error.kind(), ResolveErrorKind::Upstream),
        "{error:?}"
    );
    let error = Resolver::builder_without_system()
        .settings("option ndots 1\nno line")
        .build();
    let wanted = SessionError::Script { line: 2 };
    let kind = error.unwrap_err().into_kind();
    assert!(
        matches!(kind, ResolveErrorKind::Session(error) if error == wanted),
        "{kind:?}"
    );
}

#[test]
fn a_call_has_a_time_limit() {
    // The name servers have a minute, and the call less: all of its time, and not theirs.
    let server = Server::silent();
    let limits = [150_000, 1, 999, 1_001].map(Duration::from_micros);
    for limit in limits.into_iter().chain([Duration::from_millis(3); 20]) {
        let resolver = server.builder().option("timeout", 60).time_limit(limit);
        let resolver = resolver.build().unwrap();
        let start = Instant::now();
        let error = resolver.lookup_ip(NAME).unwrap_err();
        assert!(matches!(error.kind(), ResolveErrorKind::TimeLimit) && error.is_timeout());
        let took = start.elapsed();
        assert!(took >= limit && took < Duration::from_secs(30), "{took:?}");
    }
    let limit = Duration::from_millis(10);
    let resolver = server.builder().time_limit(limit).build().unwrap();
    let error = resolver
        .start_lookup_ip(NAME)
        .unwrap()
        .wait_for(Duration::ZERO)
        .unwrap_err();
    assert!(matches!(error.kind(), ResolveErrorKind::TimeLimit));
    let all = resolver.lookup_ip_all(["a.", "b.", "c."]);
    assert!(
        all.iter()
            .all(|found| found.as_ref().unwrap_err().is_timeout())
    );
}

#[test]
fn many_wait_at_once() {
    let server = Server::new(|asked| {
        let last = asked
            .name()
            .trim_matches(|it: char| !it.is_ascii_digit())
            .parse()
            .unwrap();
        vec![
            Does::Waits(Duration::from_millis(300)),
            Does::Says(with_address(asked, last)),
        ]
    });
    let resolver = server
        .builder()
        .option("ip_strategy", "Ipv4Only")
        .option("timeout", 20);
    let resolver = resolver.build().unwrap();
    let start = Instant::now();
    let found = resolver.lookup_ip_all((0..200).map(|number| format!("w{number}.example.test.")));
    for (number, found) in found.iter().enumerate() {
        let found = found.as_ref().unwrap();
        assert_eq!(addresses(found), [ip(&format!("192.0.2.{number}"))]);
    }
    assert!(
        start.elapsed() < Duration::from_secs(30),
        "{:?}",
        start.elapsed()
    );
    assert_eq!(server.asked().len(), 200);
    let statistics = resolver.statistics().unwrap();
    assert_eq!(
        (statistics.started, statistics.entries, statistics.octets),
        (200, 200, None)
    );
}

#[test]
fn pending_ones_are_asked_about() {
    let server = Server::new(|asked| {
        vec![
            Does::Waits(Duration::from_millis(100)),
            Does::Says(with_address(asked, 7)),
        ]
    });
    let resolver = server.resolver();
    let first = resolver.start_lookup_ip("a.").unwrap();
    let second = resolver.start_lookup("b.", RecordType::A).unwrap();
    assert!(!first.is_done() && !second.is_done());
    let start = Instant::now();
    while !(first.is_done() && second.is_done()) {
        resolver.poll(Duration::from_secs(1)).unwrap();
        assert!(start.elapsed() < Duration::from_secs(30));
    }
    assert_eq!(second.wait().unwrap().answers().len(), 1);
    assert_eq!(addresses(&first.wait().unwrap()), [ip("192.0.2.7")]);
}

#[test]
fn keeps_what_it_found() {
    let server = Server::good(7);
    let resolver = server.resolver();
    for _ in 0..3 {
        assert_eq!(
            addresses(&resolver.lookup_ip("WWW.example.test.").unwrap()).len(),
            1
        );
    }
    assert_eq!(server.asked().len(), 1);
    resolver.clear_lookup_cache(NAME, RecordType::AAAA).unwrap();
    resolver.lookup_ip(NAME).unwrap();
    assert_eq!(server.asked().len(), 1);
    resolver.clear_lookup_cache(NAME, RecordType::A).unwrap();
    resolver.lookup_ip(NAME).unwrap();
    assert_eq!(server.asked().len(), 2);
    resolver.clear_cache().unwrap();
    resolver.lookup_ip(NAME).unwrap();
    assert_eq!(server.asked().len(), 3);
    let statistics = resolver.statistics().unwrap();
    assert_eq!(
        (statistics.started, statistics.sent, statistics.timed_out),
        (6, 3, 0)
    );
}

#[test]
fn may_be_moved_to_another_thread() {
    let server = Server::good(7);
    let resolver = server.resolver();
    let first = resolver.lookup_ip(NAME).unwrap();
    let (resolver, second) = thread::spawn(move || {
        let found = resolver.lookup_ip(NAME).unwrap();
        (resolver, found)
    })
    .join()
    .unwrap();
    assert_eq!(addresses(&first), addresses(&second));
    assert_eq!(
        addresses(&resolver.lookup_ip("b.").unwrap()),
        [ip("192.0.2.7")]
    );
    assert_eq!(server.asked().len(), 2);
}

#[test]
fn reads_hosts_and_search_lists() {
    let server = Server::new(|asked| match asked.name().as_str() {
        "www.b.example." => vec![Does::Says(with_address(asked, 7))],
        _ => vec![Does::Says(asked.reply(RESPONSE | NXDOMAIN, &[], &[soa()]))],
    });
    let resolver = server
        .builder()
        .resolv_conf("search a.example b.example\noptions ndots:1\n")
        .hosts("192.0.2.9 printer\n2001:db8::9 printer\n")
        .build()
        .unwrap();
    let found = resolver
        .lookup_ip("printer")
        .unwrap()
        .iter()
        .collect::<HashSet<_>>();
    assert_eq!(found, HashSet::from([ip("192.0.2.9"), ip("2001:db8::9")]));
    assert_eq!(
        addresses(&resolver.lookup_ip("192.0.2.5").unwrap()),
        [ip("192.0.2.5")]
    );
    assert_eq!(
        addresses(&resolver.lookup_ip("2001:db8::5").unwrap()),
        [ip("2001:db8::5")]
    );
    let names = resolver.reverse_lookup(ip("2001:db8::9")).unwrap();
    assert_eq!(names.iter().next().unwrap().to_string(), "printer.");
    assert!(
        resolver
            .lookup_ip("www")
            .unwrap()
            .iter()
            .any(|it| it == ip("192.0.2.7"))
    );
    assert!(
        server
            .asked()
            .iter()
            .any(|(name, _)| name == "www.a.example.")
    );
}

#[test]
fn other_servers_are_asked_from_then_on() {
    let (first, second) = (Server::good(1), Server::good(2));
    let resolver = first
        .builder()
        .option("timeout", 1)
        .option("ip_strategy", "Ipv4Only");
    let resolver = resolver.build().unwrap();
    assert_eq!(
        addresses(&resolver.lookup_ip(NAME).unwrap()),
        [ip("192.0.2.1")]
    );
    // At port 53 of an address where nobody is.
    resolver
        .set_servers(b"nameserver 127.0.0.77\n", true)
        .unwrap();
    assert!(resolver.lookup_ip(NAME).is_err());
    assert_eq!((first.asked().len(), second.asked().len()), (1, 0));
}

#[test]
fn from_the_system() {
    // An address needs no server, whatever the system's files say.
    let resolver = Resolver::from_system().unwrap();
    assert_eq!(
        addresses(&resolver.lookup_ip("192.0.2.7").unwrap()),
        [ip("192.0.2.7")]
    );
    assert_eq!(format!("{resolver:?}"), "Resolver { .. }");
}

#[test]
fn answers_of_both_families_are_told_apart() {
    let server = Server::new(|asked| match asked.record_type() {
        1 => vec![Does::Says(asked.reply(
            RESPONSE,
            &[address(1), address(2)],
            &[],
        ))],
        _ => vec![Does::Says(asked.reply(RESPONSE, &[address_of_six(3)], &[]))],
    });
    let wanted = [
        ("Ipv4Only", &["192.0.2.1", "192.0.2.2"][..]),
        ("Ipv6Only", &["2001:db8::3"]),
        ("Ipv6AndIpv4", &["2001:db8::3", "192.0.2.1", "192.0.2.2"]),
        ("Ipv4AndIpv6", &["192.0.2.1", "192.0.2.2", "2001:db8::3"]),
        ("Ipv4thenIpv6", &["192.0.2.1", "192.0.2.2"]),
        ("Ipv6thenIpv4", &["2001:db8::3"]),
    ];
    for (strategy, texts) in wanted {
        let resolver = server
            .builder()
            .option("ip_strategy", strategy)
            .build()
            .unwrap();
        let got = addresses(&resolver.lookup_ip(NAME).unwrap());
        assert_eq!(
            got,
            texts.iter().map(|text| ip(text)).collect::<Vec<_>>(),
            "{strategy}"
        );
    }
}
