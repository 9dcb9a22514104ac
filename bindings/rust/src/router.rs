//! A router: what it has committed, and at most one connection to a cache.
use crate::error::{check, done};
use crate::ffi::{self, handle, rpkirtr_config};
use crate::index::{covering, Index};
use crate::traffic::{no_traffic, Traffic};
use crate::values::{OriginState, Route, Vrp};
use crate::Error;
use std::cell::UnsafeCell;
use std::fmt;
use std::ptr::null_mut;

/// A version of the protocol.
#[derive(Clone, Copy, Debug, PartialEq, Eq, Hash)]
pub enum Version {
    /// RFC 6810
    V0,
    /// RFC 8210
    V1,
}

/// The link to the cache.
#[derive(Clone, Copy, Debug, PartialEq, Eq)]
pub enum Link {
    /// There is no connection.
    Closed,
    /// No query is outstanding.
    Idle,
    /// A query is outstanding.
    Asked,
    /// An answer has begun.
    Answering,
    /// It has ended, and the connection has yet to be closed.
    Ended(End),
}

/// How a link ended.
#[derive(Clone, Copy, Debug, PartialEq, Eq)]
pub enum End {
    /// An Error Report of this code was sent (RFC 8210 section 12).
    ReportSent(u16),
    /// An Error Report of this code was received.
    ReportReceived(u16),
    /// A malformed Error Report was received.
    Malformed,
    /// Out of memory.
    OutOfMemory,
    /// The committed version expired.
    Expired,
    /// An answer with more records than the router may hold.
    TooMany,
}

impl End {
    fn number(&self) -> u8 {
        match self {
            End::ReportSent(_) => 1,
            End::ReportReceived(_) => 2,
            End::Malformed => 3,
            End::OutOfMemory => 4,
            End::Expired => 5,
            End::TooMany => 6,
        }
    }
}

impl fmt::Display for End {
    fn fmt(&self, f: &mut fmt::Formatter<'_>) -> fmt::Result {
        f.write_str(&crate::texts::end_name(self.number()))?;
        match self {
            End::ReportSent(code) | End::ReportReceived(code) => write!(f, " of code {code}"),
            _ => Ok(()),
        }
    }
}

impl fmt::Display for Link {
    fn fmt(&self, f: &mut fmt::Formatter<'_>) -> fmt::Result {
        let (number, end) = match self {
            Link::Closed => (0, None),
            Link::Idle => (1, None),
            Link::Asked => (2, None),
            Link::Answering => (3, None),
            Link::Ended(end) => (4, Some(end)),
        };
        f.write_str(&crate::texts::link_name(number))?;
        match end {
            Some(end) => write!(f, ": {end}"),
            None => Ok(()),
        }
    }
}

/// The committed version.
#[derive(Clone, Copy, Debug, PartialEq, Eq)]
pub struct Committed {
    /// The version of the protocol.
    pub version: Version,
    /// The session.
    pub session: u16,
    /// The serial.
    pub serial: u32,
    /// When it was committed, in seconds of the caller's clock.
    pub moment: u64,
    /// When to send a query again, in seconds after the commit.
    pub refresh: u32,
    /// When to try again after a failure, in seconds.
    pub retry: u32,
    /// When the records are dropped, in seconds after the commit.
    pub expire: u32,
}

/// A router: what it has committed, and at most one connection to a cache.
#[derive(Debug)]
pub struct Router {
    handle: UnsafeCell<handle>,
}

// SAFETY: a router may be used by one thread after another. It is not `Sync`, as one call at a time is proved.
unsafe impl Send for Router {}

/// The configuration of a router: intervals of its own, in seconds, which of them it keeps, and the most records that it may hold. An interval
/// that is kept holds whatever the cache says. Any other holds if the cache says none: in version 0 of the protocol, and for retry before the
/// first commit.
#[derive(Clone, Copy, Debug, PartialEq, Eq)]
pub struct Config {
    /// From 1 to 86,400.
    pub refresh: u32,
    /// From 1 to 7,200.
    pub retry: u32,
    /// From 600 to 172,800, and larger than both others.
    pub expire: u32,
    /// Whether refresh is kept.
    pub keeps_refresh: bool,
    /// Whether retry is kept.
    pub keeps_retry: bool,
    /// Whether expire is kept.
    pub keeps_expire: bool,
    /// The most records. More than 16,777,215 counts as that.
    pub most: u32,
}

impl Default for Config {
    fn default() -> Config {
        Config { refresh: 3600, retry: 600, expire: 7200, keeps_refresh: false, keeps_retry: false, keeps_expire: false, most: 16_777_215 }
    }
}

impl Config {
    fn to_c(self) -> rpkirtr_config {
        rpkirtr_config {
            size_: std::mem::size_of::<rpkirtr_config>() as u32,
            refresh: self.refresh,
            retry: self.retry,
            expire: self.expire,
            most: self.most,
            keeps_refresh: u8::from(self.keeps_refresh),
            keeps_retry: u8::from(self.keeps_retry),
            keeps_expire: u8::from(self.keeps_expire),
            zero_: 0,
        }
    }

    fn of_c(config: &rpkirtr_config) -> Config {
        Config {
            refresh: config.refresh,
            retry: config.retry,
            expire: config.expire,
            keeps_refresh: config.keeps_refresh != 0,
            keeps_retry: config.keeps_retry != 0,
            keeps_expire: config.keeps_expire != 0,
            most: config.most,
        }
    }
}

impl Router {
    /// Nothing is committed, and there is no connection.
    pub fn new() -> Result<Router, Error> {
        let router = Router { handle: UnsafeCell::new(handle { opaque_: null_mut() }) };
        // SAFETY: the handle is empty.
        check(unsafe { ffi::rpkirtr_router_new(router.at()) })?;
        Ok(router)
    }

    // Each call below is on the handle of a router, on which no other call is made meanwhile.
    fn at(&self) -> *mut handle {
        self.handle.get()
    }

    /// Sets the version of the protocol for the next connection and those after it. It is version 1 at first.
    pub fn speak(&mut self, version: Version) {
        done(unsafe { ffi::rpkirtr_router_speak(self.at(), version as u8) });
    }

    /// Configures the router, from now on: what is committed keeps its intervals.
    pub fn configure(&mut self, config: &Config) -> Result<(), Error> {
        let mut fault = 0;
        match unsafe { ffi::rpkirtr_router_configure(self.at(), &config.to_c(), &mut fault) } {
            ffi::BAD_TIMING => Err(Error::BadTiming(fault)),
            ffi::RANGE => Err(Error::NoRoom),
            status => check(status),
        }
    }

    /// The configuration that was set last, the default one if none was set.
    pub fn config(&self) -> Config {
        let mut config = Config::default().to_c();
        done(unsafe { ffi::rpkirtr_router_config(self.at(), &mut config) });
        Config::of_c(&config)
    }

    /// A connection is made, and a query is ready to be pulled. An older connection is closed.
    pub fn connect(&mut self, now: u64) {
        done(unsafe { ffi::rpkirtr_router_connect(self.at(), now) });
    }

    /// The transport closed the connection.
    pub fn connection_closed(&mut self, now: u64) {
        done(unsafe { ffi::rpkirtr_router_connection_closed(self.at(), now) });
    }

    /// An attempt to connect failed at second `now`: when to try again, one retry interval later. The router stays as it is.
    pub fn connect_failed(&self, now: u64) -> u64 {
        let mut at = 0;
        done(unsafe { ffi::rpkirtr_router_connect_failed(self.at(), now, &mut at) });
        at
    }

    /// Advances the clock. A query is sent if it is due, and the records are dropped if they have expired.
    pub fn tick(&mut self, now: u64) {
        done(unsafe { ffi::rpkirtr_router_tick(self.at(), now) });
    }

    /// Sends a query on an idle link.
    pub fn ask(&mut self) -> Result<(), Error> {
        check(unsafe { ffi::rpkirtr_router_ask(self.at()) })
    }

    /// Passes received bytes to the router, and returns how many it consumed: none while there are bytes to pull, or if no link is open.
    pub fn receive(&mut self, bytes: &[u8], now: u64) -> usize {
        let mut taken = 0;
        done(unsafe { ffi::rpkirtr_router_receive(self.at(), bytes.as_ptr(), bytes.len(), now, &mut taken) });
        taken
    }

    /// Moves bytes to send into the buffer, as many as fit, and returns how many.
    pub fn pull(&mut self, room: &mut [u8]) -> usize {
        let mut pulled = 0;
        done(unsafe { ffi::rpkirtr_router_pull(self.at(), room.as_mut_ptr(), room.len(), &mut pulled) });
        pulled
    }

    /// The time of the next query on an idle link, or of the next connection attempt on a closed one (RFC 8210 section 6). None at first.
    pub fn next_query_at(&self) -> Option<u64> {
        let mut moment = 0;
        done(unsafe { ffi::rpkirtr_router_next_query_at(self.at(), &mut moment) });
        (moment != ffi::NEVER).then_some(moment)
    }

    /// The earliest time at which a tick has an effect, if any: the next query is due, or the records expire.
    pub fn wake_at(&self) -> Option<u64> {
        let mut moment = 0;
        done(unsafe { ffi::rpkirtr_router_wake_at(self.at(), &mut moment) });
        (moment != ffi::NEVER).then_some(moment)
    }

    /// The link.
    pub fn link(&self) -> Link {
        let mut link = ffi::rpkirtr_link::default();
        done(unsafe { ffi::rpkirtr_router_link(self.at(), &mut link) });
        match link.state {
            0 => Link::Closed,
            1 => Link::Idle,
            2 => Link::Asked,
            3 => Link::Answering,
            _ => Link::Ended(match link.end {
                1 => End::ReportSent(link.code),
                2 => End::ReportReceived(link.code),
                3 => End::Malformed,
                4 => End::OutOfMemory,
                5 => End::Expired,
                _ => End::TooMany,
            }),
        }
    }

    /// The committed version, if there is one.
    pub fn committed(&self) -> Option<Committed> {
        let mut it = ffi::rpkirtr_committed::default();
        done(unsafe { ffi::rpkirtr_router_committed(self.at(), &mut it) });
        (it.is_committed == 1).then_some(Committed {
            version: if it.version == 0 { Version::V0 } else { Version::V1 },
            session: it.session,
            serial: it.serial,
            moment: it.moment,
            refresh: it.refresh,
            retry: it.retry,
            expire: it.expire,
        })
    }

    /// What the latest connection carried. When it is closed, nothing changes.
    pub fn traffic(&self) -> Traffic {
        let mut traffic = no_traffic();
        done(unsafe { ffi::rpkirtr_router_traffic(self.at(), &mut traffic) });
        Traffic::of_c(&traffic)
    }

    /// The number of committed records.
    pub fn len(&self) -> usize {
        let mut count = 0;
        done(unsafe { ffi::rpkirtr_router_count(self.at(), &mut count) });
        count
    }

    /// Whether no record is committed.
    pub fn is_empty(&self) -> bool {
        self.len() == 0
    }

    /// The state of a route over the committed records.
    pub fn state(&self, route: &Route) -> Result<OriginState, Error> {
        let mut state = 0;
        check(unsafe { ffi::rpkirtr_router_state(self.at(), &route.to_route(), &mut state) })?;
        Ok(OriginState::of_number(state))
    }

    /// The committed records that cover a route, in ascending order.
    pub fn covering(&self, route: &Route) -> Result<Vec<Vrp>, Error> {
        covering(|room, count| unsafe {
            ffi::rpkirtr_router_covering(self.at(), &route.to_route(), room.as_mut_ptr(), room.len(), count)
        })
    }

    /// An index over the committed records. It does not change if the router changes.
    pub fn index(&self) -> Result<Index, Error> {
        let index = Index::empty();
        check(unsafe { ffi::rpkirtr_router_index(self.at(), index.at()) })?;
        Ok(index)
    }

    /// The committed records, in ascending order: family, address, length, maximum, AS.
    pub fn records(&self) -> Records<'_> {
        Records::of(self, ffi::rpkirtr_router_records)
    }

    /// The change from the records of the last acknowledged change, none at first, to those committed now.
    pub fn changes(&mut self) -> Result<Changes<'_>, Error> {
        let (mut withdraws, mut announces) = (0, 0);
        check(unsafe { ffi::rpkirtr_router_changes_begin(self.at(), &mut withdraws, &mut announces) })?;
        Ok(Changes { router: self, withdraws, announces })
    }
}

impl Drop for Router {
    fn drop(&mut self) {
        // SAFETY: the handle is not used again.
        unsafe { ffi::rpkirtr_router_free(self.at()) };
    }
}

/// A change between two sets of records.
#[derive(Debug)]
pub struct Changes<'a> {
    router: &'a mut Router,
    withdraws: usize,
    announces: usize,
}

impl Changes<'_> {
    /// How many records were withdrawn.
    pub fn withdraws(&self) -> usize {
        self.withdraws
    }

    /// How many records were announced.
    pub fn announces(&self) -> usize {
        self.announces
    }

    /// The withdrawn records, in ascending order.
    pub fn withdrawn(&self) -> Records<'_> {
        Records::of(self.router, ffi::rpkirtr_router_withdrawn)
    }

    /// The announced records, in ascending order.
    pub fn announced(&self) -> Records<'_> {
        Records::of(self.router, ffi::rpkirtr_router_announced)
    }

    /// Acknowledges the change: the next one begins at the records that it led to. The next one repeats a change that is dropped.
    pub fn take(self) {
        done(unsafe { ffi::rpkirtr_router_changes_taken(self.router.at()) });
    }
}

type Copy = unsafe extern "C" fn(*const handle, usize, *mut ffi::rpkirtr_record, usize, *mut usize) -> ffi::rpkirtr_status;

/// How many records are copied at once.
const ROOM: usize = 1024;

/// Records of a router, in ascending order.
#[derive(Debug)]
pub struct Records<'a> {
    router: &'a Router,
    copy: Copy,
    /// How many were copied so far, and those of the last copy that are still to come.
    copied: usize,
    room: std::vec::IntoIter<ffi::rpkirtr_record>,
}

impl Records<'_> {
    fn of(router: &Router, copy: Copy) -> Records<'_> {
        Records { router, copy, copied: 0, room: Vec::new().into_iter() }
    }
}

impl Iterator for Records<'_> {
    type Item = Vrp;

    fn next(&mut self) -> Option<Vrp> {
        if self.room.as_slice().is_empty() {
            let mut room = vec![ffi::rpkirtr_record::default(); ROOM];
            let mut copied = 0;
            done(unsafe { (self.copy)(self.router.at(), self.copied, room.as_mut_ptr(), room.len(), &mut copied) });
            room.truncate(copied);
            self.copied += copied;
            self.room = room.into_iter();
        }
        self.room.next().as_ref().map(Vrp::of_record)
    }
}
