//! What a connection of a router carried.
use crate::ffi::{rpkirtr_carried, rpkirtr_text, rpkirtr_traffic};
use crate::texts::string_of;

/// What an Error Report says (RFC 8210 section 5.11).
#[derive(Clone, Debug, PartialEq, Eq)]
pub struct Report {
    /// The error code (RFC 8210 section 12).
    pub code: u16,
    /// The text up to its first control character, at most 63 octets. What is not UTF-8 is replaced.
    pub text: String,
}

/// What one direction of a connection carried.
#[derive(Clone, Debug, PartialEq, Eq)]
pub struct Carried {
    /// How many bytes.
    pub bytes: u64,
    /// How many whole PDUs, by the number of their type (RFC 8210 section 5). Five is no type.
    pub pdus: [u64; 11],
    /// The last Error Report, if there was one.
    pub report: Option<Report>,
}

/// What a connection of a router carried.
#[derive(Clone, Debug, PartialEq, Eq)]
pub struct Traffic {
    /// The received bytes that the router consumed.
    pub received: Carried,
    /// What was pulled.
    pub sent: Carried,
}

const NOTHING: rpkirtr_carried = rpkirtr_carried { bytes: 0, pdus: [0; 11], text: rpkirtr_text { text: [0; 64] }, code: 0, has_report: 0, zero_: [0; 5] };

/// A structure to be written.
pub(crate) fn no_traffic() -> rpkirtr_traffic {
    rpkirtr_traffic { size_: std::mem::size_of::<rpkirtr_traffic>() as u32, zero_: 0, received: NOTHING, sent: NOTHING }
}

impl Carried {
    fn of_c(carried: &rpkirtr_carried) -> Carried {
        let report = (carried.has_report == 1).then(|| Report { code: carried.code, text: string_of(&carried.text) });
        Carried { bytes: carried.bytes, pdus: carried.pdus, report }
    }
}

impl Traffic {
    pub(crate) fn of_c(traffic: &rpkirtr_traffic) -> Traffic {
        Traffic { received: Carried::of_c(&traffic.received), sent: Carried::of_c(&traffic.sent) }
    }
}
