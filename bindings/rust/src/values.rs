//! Prefixes, records and routes.
use crate::ffi::{rpkirtr_record, rpkirtr_route};
use std::fmt;
use std::net::{IpAddr, Ipv4Addr, Ipv6Addr};
use std::str::FromStr;

/// A prefix: an address, and how many of its first bits count.
#[derive(Clone, Copy, Debug, PartialEq, Eq, Hash, PartialOrd, Ord)]
pub struct Prefix {
    /// The address, without a bit after the first `len`.
    pub address: IpAddr,
    /// The length, at most 32 or 128.
    pub len: u8,
}

impl fmt::Display for Prefix {
    fn fmt(&self, f: &mut fmt::Formatter<'_>) -> fmt::Result {
        write!(f, "{}/{}", self.address, self.len)
    }
}

/// A text that is no prefix `ADDRESS/LENGTH`.
#[derive(Clone, Copy, Debug, PartialEq, Eq)]
pub struct PrefixError;

impl fmt::Display for PrefixError {
    fn fmt(&self, f: &mut fmt::Formatter<'_>) -> fmt::Result {
        f.write_str("not a prefix such as 192.0.2.0/24 or 2001:db8::/32")
    }
}

impl std::error::Error for PrefixError {}

impl FromStr for Prefix {
    type Err = PrefixError;

    fn from_str(text: &str) -> Result<Prefix, PrefixError> {
        let (address, len) = text.split_once('/').ok_or(PrefixError)?;
        Ok(Prefix {
            address: address.parse().map_err(|_| PrefixError)?,
            len: len.parse().map_err(|_| PrefixError)?,
        })
    }
}

impl Prefix {
    /// The address in network order with zeros after it, and the number of the family.
    fn octets(&self) -> ([u8; 16], u8) {
        match self.address {
            IpAddr::V4(address) => {
                let mut addr = [0; 16];
                addr[..4].copy_from_slice(&address.octets());
                (addr, 4)
            }
            IpAddr::V6(address) => (address.octets(), 6),
        }
    }
}

/// A validated ROA payload.
#[derive(Clone, Copy, Debug, PartialEq, Eq, Hash)]
pub struct Vrp {
    /// The prefix.
    pub prefix: Prefix,
    /// The maximum length, from the prefix's own to 32 or 128.
    pub max_len: u8,
    /// The AS that may originate it.
    pub asn: u32,
}

impl fmt::Display for Vrp {
    fn fmt(&self, f: &mut fmt::Formatter<'_>) -> fmt::Result {
        write!(f, "{}-{} AS{}", self.prefix, self.max_len, self.asn)
    }
}

impl Vrp {
    pub(crate) fn to_record(self) -> rpkirtr_record {
        let (addr, family) = self.prefix.octets();
        rpkirtr_record { addr, asn: self.asn, family, len: self.prefix.len, max_len: self.max_len, zero_: 0 }
    }

    pub(crate) fn of_record(record: &rpkirtr_record) -> Vrp {
        let address = if record.family == 4 {
            let [a, b, c, d, ..] = record.addr;
            IpAddr::V4(Ipv4Addr::new(a, b, c, d))
        } else {
            IpAddr::V6(Ipv6Addr::from(record.addr))
        };
        Vrp { prefix: Prefix { address, len: record.len }, max_len: record.max_len, asn: record.asn }
    }
}

/// A route: its prefix, and its origin, which is `None` for the origin NONE (RFC 6811 section 2).
#[derive(Clone, Copy, Debug, PartialEq, Eq, Hash)]
pub struct Route {
    /// The prefix.
    pub prefix: Prefix,
    /// The AS of the origin.
    pub origin: Option<u32>,
}

impl Route {
    pub(crate) fn to_route(self) -> rpkirtr_route {
        let (addr, family) = self.prefix.octets();
        rpkirtr_route {
            addr,
            origin: self.origin.unwrap_or(0),
            family,
            len: self.prefix.len,
            has_origin: u8::from(self.origin.is_some()),
            zero_: 0,
        }
    }
}

/// The state of a route (RFC 6811 section 2).
#[derive(Clone, Copy, Debug, PartialEq, Eq, Hash)]
pub enum OriginState {
    /// No record covers the route.
    NotFound,
    /// A record that covers the route matches it.
    Valid,
    /// Records cover the route, and none matches it.
    Invalid,
}

impl fmt::Display for OriginState {
    fn fmt(&self, f: &mut fmt::Formatter<'_>) -> fmt::Result {
        f.write_str(&crate::texts::state_name(*self as i32))
    }
}

impl OriginState {
    pub(crate) fn of_number(number: i32) -> OriginState {
        match number {
            1 => OriginState::Valid,
            2 => OriginState::Invalid,
            _ => OriginState::NotFound,
        }
    }
}
