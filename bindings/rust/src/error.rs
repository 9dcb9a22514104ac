//! Why a call fails.
use crate::ffi;
use std::fmt;

/// Why a call fails.
#[derive(Clone, Copy, Debug, PartialEq, Eq)]
#[non_exhaustive]
pub enum Error {
    /// Memory ran out; nothing changed.
    OutOfMemory,
    /// The record at this place is none: host bits, a length or a maximum out of range.
    BadRecord(usize),
    /// The record at this place of this list is none.
    BadRecordOf {
        /// which of the lists, from 0
        list: usize,
        /// which of its records, from 0
        record: usize,
    },
    /// The route is none: host bits, or a length out of range.
    BadRoute,
    /// No version of the protocol.
    BadVersion,
    /// More than 16,777,215 different records.
    TooMany,
    /// A router that may hold no record.
    NoRoom,
    /// There is no connection, or it has ended.
    NotLinked,
    /// A query is outstanding.
    Busy,
    /// The bytes are no payload: the number of the fault, and the offset of the byte at which it shows.
    BadPayload {
        /// 1 to 20
        number: u32,
        /// in bytes
        offset: u64,
    },
    /// The intervals of a cache or a router are not valid: an interval is out of its range (1), or expire is not larger than both others (2).
    BadTiming(u32),
    /// A cache is to keep no version, or more than 65,536.
    BadKeep,
    /// No connection of the cache has this number.
    NoConnection,
    /// A status that this version of the binding does not know.
    Other(i32),
}

impl fmt::Display for Error {
    fn fmt(&self, f: &mut fmt::Formatter<'_>) -> fmt::Result {
        match self {
            Error::OutOfMemory => f.write_str("out of memory"),
            Error::BadRecord(place) => write!(f, "record {place} is none: its prefix has host bits, or a length is out of range"),
            Error::BadRecordOf { list, record } => {
                write!(f, "record {record} of list {list} is none: its prefix has host bits, or a length is out of range")
            }
            Error::BadRoute => f.write_str("the route's prefix has host bits, or its length is out of range"),
            Error::BadVersion => f.write_str("no version of the protocol"),
            Error::TooMany => f.write_str("more than 16777215 different records"),
            Error::NoRoom => f.write_str("a router that may hold no record"),
            Error::NotLinked => f.write_str("there is no connection, or it has ended"),
            Error::Busy => f.write_str("a query is outstanding"),
            Error::BadPayload { number, offset } => {
                write!(f, "the bytes are no payload: {} (fault {number}) at offset {offset}", crate::fault_name(*number))
            }
            Error::BadTiming(1) => f.write_str("an interval is out of its range"),
            Error::BadTiming(_) => f.write_str("the expire interval is not larger than both others"),
            Error::BadKeep => f.write_str("a cache keeps from 1 to 65536 versions"),
            Error::NoConnection => f.write_str("no connection has this number"),
            Error::Other(status) => f.write_str(&crate::strerror(*status)),
        }
    }
}

impl std::error::Error for Error {}

/// What a status says.
pub(crate) fn check(status: ffi::rpkirtr_status) -> Result<(), Error> {
    Err(match status {
        ffi::OK => return Ok(()),
        ffi::NO_MEMORY => Error::OutOfMemory,
        ffi::BAD_ROUTE => Error::BadRoute,
        ffi::BAD_VERSION => Error::BadVersion,
        ffi::RANGE => Error::TooMany,
        ffi::NOT_LINKED => Error::NotLinked,
        ffi::BUSY => Error::Busy,
        ffi::BAD_KEEP => Error::BadKeep,
        ffi::NO_CONNECTION => Error::NoConnection,
        other => Error::Other(other),
    })
}

/// The same of a call that fails on no live handle.
pub(crate) fn done(status: ffi::rpkirtr_status) {
    if let Err(error) = check(status) {
        unreachable!("librpkirtr: {error}");
    }
}
