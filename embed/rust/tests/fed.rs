//! Sessions that are fed by hand, messages, and replays to the byte.

use std::fs;
use std::path::Path;

use yimarotu::{
    Failure, FedSession, Found, Message, RecordType, SessionError, Texts, read_servers, replay,
    rewrite, version,
};

const NAME: &str = "www.example.com.";

#[test]
fn replays_to_the_byte() {
    let examples = Path::new(env!("CARGO_MANIFEST_DIR")).join("../../examples");
    let mut count = 0;
    for entry in fs::read_dir(examples).unwrap() {
        let script = entry.unwrap().path();
        if script.extension().is_some_and(|kind| kind == "script") {
            let hosts = fs::read(script.with_extension("hosts")).unwrap_or_default();
            let text = fs::read(script.with_extension("txt")).unwrap();
            match replay(&fs::read(&script).unwrap(), &hosts) {
                Ok(got) => assert_eq!(got, text, "{script:?}"),
                Err(error) => assert!(!text.starts_with(b"at "), "{script:?}: {error}"),
            }
            count += 1;
        }
    }
    assert!(count > 20);
}

#[test]
fn says_what_it_refuses() {
    let faulty = replay(b"at 0 clear\nat x clear\n", b"");
    assert_eq!(faulty, Err(SessionError::Script { line: 2 }));
    assert_eq!(replay(b"at 0 clear\n", b"\xff\n"), Err(SessionError::Hosts));
    let opened = FedSession::open("option ndots x\n", b"", 0);
    assert_eq!(opened.err(), Some(SessionError::Script { line: 1 }));
}

/// A header of this first half, with so many questions and records in its first two sections; and
/// the question.
fn message(flags: u16, answers: u8, authorities: u8, records: &[u8]) -> Vec<u8> {
    let flags = flags.to_be_bytes();
    let header = [
        0,
        0,
        flags[0],
        flags[1],
        0,
        1,
        0,
        answers,
        0,
        authorities,
        0,
        0,
    ];
    [
        &header[..],
        b"\x03www\x07example\x03com\0\0\x01\0\x01",
        records,
    ]
    .concat()
}

/// An address of the name that is asked, for so many seconds.
fn address(ttl: u8) -> Vec<u8> {
    [
        b"\xc0\x0c\0\x01\0\x01\0\0\0",
        &[ttl][..],
        b"\0\x04\xc0\0\x02\x01",
    ]
    .concat()
}

#[test]
fn looks_up_and_keeps() {
    let mut session = FedSession::open("", b"", 100).unwrap();
    assert_eq!(session.start(7, NAME, RecordType::A, 100), Ok(true));
    let question = session.question(7).unwrap();
    // With OPT, which says that 1,232 octets can be taken (RFC 6891, section 6.1.2).
    let mut wanted = message(0x0100, 0, 0, b"\0\0\x29\x04\xd0\0\0\0\0\0\0");
    wanted[11] = 1;
    assert_eq!((question.message, question.mixed), (wanted, false));
    assert_eq!(session.answer(7, 512), Err(SessionError::Waits));
    assert_eq!(
        session.feed(7, b"short"),
        Err(SessionError::Message { fault: 1 })
    );
    assert_eq!(
        session.feed(7, &message(0x8180, 1, 0, &address(60))),
        Ok(false)
    );
    let answer = session.answer(7, 512).unwrap();
    assert_eq!((answer.found, answer.until), (Found::Records, 160));
    assert_eq!(answer.message[4..], message(0, 1, 0, &address(60))[4..]);
    assert_eq!(
        session.start(8, "WWW.example.com.", RecordType::A, 130),
        Ok(false)
    );
    assert_eq!(session.answer(8, 512).unwrap().message[33..], address(30));
    assert_eq!(
        session.start(8, NAME, RecordType::A, 130),
        Err(SessionError::InUse)
    );
    assert_eq!(session.question(8), Err(SessionError::Done));
    assert_eq!(session.cancel(8), Ok(()));
    assert_eq!(session.cancel(8), Err(SessionError::NoLookup));
    assert_eq!(session.clear_name(NAME, RecordType::AAAA), Ok(()));
    assert_eq!(session.start(8, NAME, RecordType::A, 131), Ok(false));
    assert_eq!(session.cancel(8), Ok(()));
    assert_eq!(
        session.clear_name("www.EXAMPLE.com.", RecordType::A),
        Ok(())
    );
    assert_eq!(session.start(8, NAME, RecordType::A, 131), Ok(true));
    assert_eq!(
        session.feed(8, &message(0x8180, 1, 0, &address(60))),
        Ok(false)
    );
    assert_eq!(session.clear(), Ok(()));
    assert_eq!(session.start(9, NAME, RecordType::A, 131), Ok(true));
}

#[test]
fn goes_on_after_failures() {
    let settings = "option ip_strategy Ipv4Only\n";
    let mut session = FedSession::open(settings, b"192.0.2.9 printer.\n", 0).unwrap();
    let failures = [
        (Failure::Timeout, Found::TimedOut),
        (Failure::Refused, Found::Upstream),
        (Failure::Upstream, Found::Upstream),
        (Failure::Memory, Found::RanOut),
    ];
    for (failure, found) in failures {
        assert_eq!(session.start_ip(1, NAME, 0), Ok(true));
        assert_eq!(session.fail(1, failure), Ok(false));
        assert_eq!(session.answer(1, 512).unwrap().found, found);
        assert_eq!(session.cancel(1), Ok(()));
    }
    assert_eq!(session.start_ip(2, "printer.", 0), Ok(false));
    assert!(
        session
            .answer(2, 512)
            .unwrap()
            .message
            .ends_with(&[192, 0, 2, 9])
    );
    assert_eq!(session.start_ip(3, "192.0.2.7", 0), Ok(false));
    let message = Message::read(&session.answer(3, 512).unwrap().message).unwrap();
    assert_eq!(
        message.answers[0].to_string(),
        "192.0.2.7. 86400 IN A 192.0.2.7"
    );
}

#[test]
fn heeds_a_resolv_conf() {
    let conf = b"search a.example\noptions ndots:1 no-aaaa\nnameserver fe80::1%eth0\n";
    let texts = Texts {
        conf,
        settings: "search b.example\n",
        ..Texts::default()
    };
    let mut session = FedSession::open_with(&texts, 0).unwrap();
    assert_eq!(session.start_ip(1, "www", 0), Ok(true));
    assert!(
        session.question(1).unwrap().message[12..].starts_with(b"\x03www\x01b\x07example\0\0\x01")
    );
    assert_eq!(read_servers(conf).unwrap(), b"fe80::1%eth0\n");
    assert_eq!(read_servers(b"").unwrap(), b"127.0.0.1\n");
}

#[test]
fn writes_messages_again() {
    let whole = message(0x8180, 1, 0, &address(60));
    assert_eq!(rewrite(&whole, 512), Ok(whole.clone()));
    assert_eq!(rewrite(&whole, 40), Ok(message(0x8380, 0, 0, b"")));
    assert_eq!(
        rewrite(&whole[..40], 512),
        Err(SessionError::Message { fault: 1 })
    );
    assert_eq!(
        rewrite(&whole, 12),
        Err(SessionError::Unwritable { fault: 23 })
    );
    assert_eq!(version(), (0, 1, 0));
}
