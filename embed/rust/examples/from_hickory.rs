//! A program as it is written with `hickory-resolver` 0.26, by the calls of this crate:
//! from_hickory HOST. Each line that differs has the line that stood there before above it, as a
//! comment: imports, and calls without `.await`.

use std::env;

// use hickory_resolver::TokioResolver;
// use hickory_resolver::net::NetError;
// use hickory_resolver::proto::rr::{RData, RecordType};
use yimarotu::hickory::TokioResolver;
use yimarotu::hickory::net::NetError;
use yimarotu::hickory::proto::rr::{RData, RecordType};

// #[tokio::main]
// async fn main() -> Result<(), NetError> {
fn main() -> Result<(), NetError> {
    let host = env::args()
        .nth(1)
        .unwrap_or_else(|| "www.example.com.".to_owned());
    let resolver = TokioResolver::builder_tokio()?.build()?;

    // let response = resolver.lookup_ip(host.as_str()).await?;
    let response = resolver.lookup_ip(host.as_str())?;
    for address in response.iter() {
        println!("{host} has the address {address}");
        // match resolver.reverse_lookup(address).await {
        match resolver.reverse_lookup(address) {
            Ok(names) => names.answers().iter().for_each(|record| {
                if let RData::PTR(name) = &record.data {
                    println!("{address} has the name {name}");
                }
            }),
            Err(error) if error.is_no_records_found() => println!("{address} has no name"),
            Err(error) => return Err(error),
        }
    }

    // match resolver.lookup(host.as_str(), RecordType::MX).await {
    match resolver.lookup(host.as_str(), RecordType::MX) {
        Ok(lookup) => {
            for record in lookup.answers() {
                if let RData::MX(mx) = &record.data {
                    println!("its mail goes to {} ({})", mx.exchange, mx.preference);
                }
            }
        }
        Err(error) if error.is_nx_domain() => println!("there is no such name"),
        Err(error) if error.is_no_records_found() => println!("nobody takes its mail"),
        Err(error) => return Err(error),
    }
    Ok(())
}
