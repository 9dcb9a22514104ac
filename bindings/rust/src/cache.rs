//! A cache, which serves routers.
use crate::error::{check, done};
use crate::ffi::{self, handle};
use crate::values::Vrp;
use crate::Error;
use std::cell::UnsafeCell;
use std::ptr::null_mut;

/// What a cache is made of. A cache that starts again without its earlier versions needs another session, or later serials (RFC 8210
/// section 5.1).
#[derive(Clone, Copy, Debug, PartialEq, Eq)]
pub struct CacheSettings {
    /// The session of version 1 of the protocol.
    pub session: u16,
    /// The session of version 0.
    pub session0: u16,
    /// The serial of the first version.
    pub start: u32,
    /// How many versions before the current one are kept, from 1 to 65,536.
    pub keep: u32,
    /// When a router sends a query again, in seconds: from 1 to 86,400.
    pub refresh: u32,
    /// When a router tries again after a failure, in seconds: from 1 to 7,200.
    pub retry: u32,
    /// When a router drops what it committed, in seconds: from 600 to 172,800, and larger than both others.
    pub expire: u32,
}

/// The current version of a cache.
#[derive(Clone, Copy, Debug, PartialEq, Eq)]
pub struct Current {
    /// Its serial.
    pub serial: u32,
    /// How many records it has.
    pub count: usize,
}

/// A cache: it answers the queries of its routers. The caller owns the sockets. A connection is a number, which it has until it is closed.
/// A cache stays on the thread that made it:
///
/// ```compile_fail
/// fn send<T: Send>() {}
/// send::<rpkirtr::Cache>();
/// ```
#[derive(Debug)]
pub struct Cache {
    // (the pointer in it makes the type neither `Send` nor `Sync`, as a cache must be)
    handle: UnsafeCell<handle>,
}

impl Cache {
    /// A cache that has published nothing and has no connection.
    pub fn new(settings: &CacheSettings) -> Result<Cache, Error> {
        let CacheSettings { session, session0, start, keep, refresh, retry, expire } = *settings;
        let cache = Cache { handle: UnsafeCell::new(handle { opaque_: null_mut() }) };
        let mut fault = 0;
        // SAFETY: the handle is empty.
        match unsafe { ffi::rpkirtr_cache_new(cache.at(), session, session0, start, keep, refresh, retry, expire, &mut fault) } {
            ffi::BAD_TIMING => Err(Error::BadTiming(fault)),
            status => check(status).map(|()| cache),
        }
    }

    // Each call below is on the handle of a cache, on which no other call is made meanwhile.
    fn at(&self) -> *mut handle {
        self.handle.get()
    }

    /// Publishes the set of records, and returns whether it is a new version. If the current version has the same set, none is added. An
    /// answer that has begun keeps its own version.
    pub fn publish(&mut self, records: &[Vrp]) -> Result<bool, Error> {
        let records: Vec<_> = records.iter().map(|vrp| vrp.to_record()).collect();
        let (mut bad, mut unchanged) = (0, 0);
        match unsafe { ffi::rpkirtr_cache_publish(self.at(), records.as_ptr(), records.len(), &mut bad, &mut unchanged) } {
            ffi::BAD_RECORD => Err(Error::BadRecord(bad)),
            status => check(status).map(|()| unchanged == 0),
        }
    }

    /// The current version, if something is published.
    pub fn current(&self) -> Option<Current> {
        let (mut serial, mut count) = (0, 0);
        match unsafe { ffi::rpkirtr_cache_current(self.at(), &mut serial, &mut count) } {
            ffi::NO_DATA => None,
            status => {
                done(status);
                Some(Current { serial, count })
            }
        }
    }

    /// Opens a connection to a router. Its number is the least that is free.
    pub fn open(&mut self) -> Result<u32, Error> {
        let mut conn = 0;
        check(unsafe { ffi::rpkirtr_cache_open(self.at(), &mut conn) })?;
        Ok(conn)
    }

    /// Closes a connection, and drops the bytes that are not yet pulled.
    pub fn close(&mut self, conn: u32) -> Result<(), Error> {
        check(unsafe { ffi::rpkirtr_cache_close(self.at(), conn) })
    }

    /// Passes received bytes to the cache, and returns how many it consumed: none while there are bytes to pull, or if the connection has
    /// ended.
    pub fn receive(&mut self, conn: u32, bytes: &[u8]) -> Result<usize, Error> {
        let mut taken = 0;
        check(unsafe { ffi::rpkirtr_cache_receive(self.at(), conn, bytes.as_ptr(), bytes.len(), &mut taken) })?;
        Ok(taken)
    }

    /// Moves bytes to send into the buffer, as many as fit, and returns how many.
    pub fn pull(&mut self, conn: u32, room: &mut [u8]) -> Result<usize, Error> {
        let mut pulled = 0;
        check(unsafe { ffi::rpkirtr_cache_pull(self.at(), conn, room.as_mut_ptr(), room.len(), &mut pulled) })?;
        Ok(pulled)
    }

    /// Makes a Serial Notify ready to be pulled, and returns true. It returns false if nothing is published, if there are bytes to pull, or if
    /// the connection has ended.
    pub fn notify(&mut self, conn: u32) -> Result<bool, Error> {
        let mut sent = 0;
        check(unsafe { ffi::rpkirtr_cache_notify(self.at(), conn, &mut sent) })?;
        Ok(sent != 0)
    }

    /// Whether there are bytes to pull.
    pub fn has_bytes(&self, conn: u32) -> Result<bool, Error> {
        let mut has = 0;
        check(unsafe { ffi::rpkirtr_cache_has_bytes(self.at(), conn, &mut has) })?;
        Ok(has != 0)
    }

    /// Whether a connection continues. The remaining bytes can be pulled after its end, too.
    pub fn is_open(&self, conn: u32) -> Result<bool, Error> {
        let mut continues = 0;
        check(unsafe { ffi::rpkirtr_cache_is_open(self.at(), conn, &mut continues) })?;
        Ok(continues != 0)
    }
}

impl Drop for Cache {
    fn drop(&mut self) {
        // SAFETY: the handle is not used again.
        unsafe { ffi::rpkirtr_cache_free(self.at()) };
    }
}
