//! Prints the addresses of a host, looked up as the system's files say.

use yimarotu::{ResolveError, Resolver};

fn main() -> Result<(), ResolveError> {
    let host = std::env::args().nth(1).unwrap_or("localhost".to_owned());
    let resolver = Resolver::from_system()?;
    for address in resolver.lookup_ip(host)?.iter() {
        println!("{address}");
    }
    Ok(())
}
