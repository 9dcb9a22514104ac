//! Both ends of the RPKI-to-Router protocol (RFC 6810, RFC 8210) and origin validation (RFC 6811), over `librpkirtr`.
//!
//! The library does no input or output: the caller owns sockets and clocks. It passes the bytes that it received to the library, and sends the
//! bytes that it pulls. A time is in seconds of one clock that the caller chooses.
//!
//! ```
//! use rpkirtr::{Index, OriginState, Route, Vrp};
//!
//! let vrp = Vrp { prefix: "192.0.2.0/24".parse()?, max_len: 24, asn: 64496 };
//! let index = Index::new(&[vrp])?;
//! let route = Route { prefix: "192.0.2.0/24".parse()?, origin: Some(64496) };
//! assert_eq!(index.state(&route)?, OriginState::Valid);
//! # Ok::<(), Box<dyn std::error::Error>>(())
//! ```
#![warn(missing_docs)]

mod cache;
mod error;
mod ffi;
mod index;
mod manifest;
mod roa;
mod router;
mod texts;
mod traffic;
mod values;

pub use cache::{Cache, CacheSettings, Current};
pub use error::Error;
pub use index::Index;
pub use manifest::{ListedFile, Manifest};
pub use roa::Roa;
pub use router::{Changes, Committed, Config, End, Link, Records, Router, Version};
pub(crate) use texts::strerror;
pub use texts::{fault_name, version};
pub use traffic::{Carried, Report, Traffic};
pub use values::{OriginState, Prefix, PrefixError, Route, Vrp};
