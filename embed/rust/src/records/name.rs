//! Names.

use std::fmt;
use std::hash::{Hash, Hasher};
use std::net::{IpAddr, Ipv4Addr, Ipv6Addr};

/// A name that was read: labels of 1 to 63 octets, from the host up to the root. Names are equal,
/// and hash alike, but for the case of letters. It is printed with a dot at its end, and `\DDD` for
/// each octet that is not plain.
#[derive(Clone, Default)]
pub struct Name {
    /// Each label with its length before it; the root's, which is empty, is left out.
    octets: Vec<u8>,
}

impl Name {
    /// The name of the root.
    pub fn root() -> Name {
        Name::default()
    }

    /// One more label at its end.
    pub(crate) fn push(&mut self, length: u8, label: &[u8]) {
        self.octets.push(length);
        self.octets.extend_from_slice(label);
    }

    /// How many octets it takes in a message, written whole (RFC 1035, section 3.1).
    pub(crate) fn size(&self) -> usize {
        self.octets.len() + 1
    }

    /// Whether it is the root.
    pub fn is_root(&self) -> bool {
        self.octets.is_empty()
    }

    /// Its labels, the host's first, without the root's.
    pub fn labels(&self) -> impl Iterator<Item = &[u8]> {
        let mut rest = &self.octets[..];
        std::iter::from_fn(move || {
            let (length, behind) = rest.split_first()?;
            let (label, left) = behind.split_at_checked(usize::from(*length))?;
            rest = left;
            Some(label)
        })
    }

    /// How many labels it has, without the root's.
    pub fn num_labels(&self) -> usize {
        self.labels().count()
    }
}

impl PartialEq for Name {
    fn eq(&self, other: &Name) -> bool {
        // The octet of a length is no letter: it is 63 at most.
        self.octets.eq_ignore_ascii_case(&other.octets)
    }
}

impl Eq for Name {}

impl Hash for Name {
    fn hash<H: Hasher>(&self, state: &mut H) {
        self.octets.to_ascii_lowercase().hash(state);
    }
}

impl fmt::Debug for Name {
    fn fmt(&self, f: &mut fmt::Formatter<'_>) -> fmt::Result {
        f.debug_tuple("Name").field(&self.to_string()).finish()
    }
}

/// Whether an octet stands for itself in a text, at its place in a label.
fn is_plain(at: usize, octet: u8) -> bool {
    let of_place = if at == 0 { b'*' } else { b'-' };
    octet.is_ascii_alphanumeric() || octet == b'_' || octet == of_place
}

impl fmt::Display for Name {
    fn fmt(&self, f: &mut fmt::Formatter<'_>) -> fmt::Result {
        let mut text = String::with_capacity(self.size());
        for label in self.labels() {
            for (at, octet) in label.iter().enumerate() {
                match is_plain(at, *octet) {
                    true => text.push(char::from(*octet)),
                    false => text.push_str(&format!("\\{octet:03}")),
                }
            }
            text.push('.');
        }
        f.pad(if text.is_empty() { "." } else { &text })
    }
}

/// What a look-up takes as a name: a text, a [`Name`], or an address, which stands for its name
/// under `in-addr.arpa.` or `ip6.arpa.`
pub trait IntoName {
    /// The text of the name.
    fn into_name(self) -> String;
}

impl IntoName for &str {
    fn into_name(self) -> String {
        self.to_owned()
    }
}

impl IntoName for String {
    fn into_name(self) -> String {
        self
    }
}

impl IntoName for &String {
    fn into_name(self) -> String {
        self.clone()
    }
}

impl IntoName for Name {
    fn into_name(self) -> String {
        self.to_string()
    }
}

impl IntoName for &Name {
    fn into_name(self) -> String {
        self.to_string()
    }
}

impl IntoName for IpAddr {
    fn into_name(self) -> String {
        match self {
            IpAddr::V4(address) => address.into_name(),
            IpAddr::V6(address) => address.into_name(),
        }
    }
}

impl IntoName for Ipv4Addr {
    fn into_name(self) -> String {
        let [first, second, third, fourth] = self.octets();
        format!("{fourth}.{third}.{second}.{first}.in-addr.arpa.")
    }
}

impl IntoName for Ipv6Addr {
    fn into_name(self) -> String {
        let digits = self
            .octets()
            .into_iter()
            .rev()
            .flat_map(|octet| [octet & 15, octet >> 4]);
        digits
            .map(|digit| format!("{digit:x}."))
            .chain(["ip6.arpa.".to_owned()])
            .collect()
    }
}

#[cfg(test)]
mod tests {
    use super::*;

    #[test]
    fn addresses_stand_for_their_names() {
        // RFC 1035, section 3.5, and RFC 3596, section 2.5.
        assert_eq!(
            Ipv4Addr::new(10, 2, 0, 52).into_name(),
            "52.0.2.10.in-addr.arpa."
        );
        let address: Ipv6Addr = "4321:0:1:2:3:4:567:89ab".parse().unwrap();
        let wanted = "b.a.9.8.7.6.5.0.4.0.0.0.3.0.0.0.2.0.0.0.1.0.0.0.0.0.0.0.1.2.3.4.ip6.arpa.";
        assert_eq!(address.into_name(), wanted);
    }

    #[test]
    fn is_printed_as_it_is_read() {
        let mut name = Name::root();
        assert_eq!(
            (name.to_string(), format!("{name:?}")),
            (".".into(), "Name(\".\")".into())
        );
        name.push(4, b"a.-\xff");
        name.push(3, b"*_-");
        assert_eq!(name.to_string(), "a\\046-\\255.*_-.");
        assert_eq!(name.labels().collect::<Vec<_>>(), [&b"a.-\xff"[..], b"*_-"]);
    }
}
