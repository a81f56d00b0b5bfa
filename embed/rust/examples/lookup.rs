//! Looks the addresses of a host up: lookup HOST [SETTINGS]. Whom to ask, and how, the system's
//! files say, or in place of them the settings, lines as "server 192.0.2.53".

use std::env;
use std::process::ExitCode;

use yimarotu::{ResolveError, ResolveErrorKind, Resolver, ResolverBuilder, SessionError};

const NO_RECORDS: u8 = 1;
const USAGE: u8 = 2;
const FAILED: u8 = 3;

fn main() -> ExitCode {
    let words: Vec<String> = env::args().skip(1).collect();
    let (host, builder) = match &words[..] {
        [host] => (host, Resolver::builder()),
        [host, settings] => {
            let builder = Resolver::builder_without_system();
            (host, Ok(builder.settings(settings)))
        }
        _ => {
            eprintln!("usage: lookup HOST [SETTINGS]");
            return ExitCode::from(USAGE);
        }
    };
    match builder.and_then(|builder| look_up(host, builder)) {
        Ok(()) => ExitCode::SUCCESS,
        Err(error) => {
            eprintln!("{host}: {error}");
            ExitCode::from(status_of(&error))
        }
    }
}

fn look_up(host: &str, builder: ResolverBuilder) -> Result<(), ResolveError> {
    for address in builder.build()?.lookup_ip(host)?.iter() {
        println!("{address}");
    }
    Ok(())
}

fn status_of(error: &ResolveError) -> u8 {
    match error.kind() {
        ResolveErrorKind::NoRecordsFound(_) => NO_RECORDS,
        ResolveErrorKind::Session(SessionError::Script { .. }) => USAGE,
        _ => FAILED,
    }
}
