//! Origin validation over records.
use crate::error::{check, done};
use crate::ffi::{self, handle};
use crate::values::{OriginState, Route, Vrp};
use crate::Error;
use std::cell::UnsafeCell;
use std::ptr::null_mut;

/// Origin validation over records.
#[derive(Debug)]
pub struct Index {
    handle: UnsafeCell<handle>,
}

// SAFETY: an index may be used by one thread after another. It is not `Sync`, as one call at a time is proved: see `share`.
unsafe impl Send for Index {}

impl Index {
    /// An index over records. A record that is listed twice counts once.
    pub fn new(records: &[Vrp]) -> Result<Index, Error> {
        let index = Index::empty();
        let records: Vec<_> = records.iter().map(|vrp| vrp.to_record()).collect();
        let mut bad = 0;
        // SAFETY: the handle is empty, and the slice has that many elements.
        match unsafe { ffi::rpkirtr_index_new(index.at(), records.as_ptr(), records.len(), &mut bad) } {
            ffi::BAD_RECORD => Err(Error::BadRecord(bad)),
            status => check(status).map(|()| index),
        }
    }

    /// An index over the records of several lists. A record that is listed twice counts once.
    pub fn of_lists(lists: &[&[Vrp]]) -> Result<Index, Error> {
        let index = Index::empty();
        let rooms: Vec<Vec<_>> = lists.iter().map(|list| list.iter().map(|vrp| vrp.to_record()).collect()).collect();
        let told: Vec<_> = rooms.iter().map(|room| ffi::rpkirtr_list { records: room.as_ptr(), records_len: room.len() }).collect();
        let (mut list, mut record) = (0, 0);
        // SAFETY: the handle is empty, and each list has that many records.
        match unsafe { ffi::rpkirtr_index_new_of(index.at(), told.as_ptr(), told.len(), &mut list, &mut record) } {
            ffi::BAD_RECORD => Err(Error::BadRecordOf { list, record }),
            status => check(status).map(|()| index),
        }
    }

    /// A further handle of the same index, for another thread. No record is copied.
    pub fn share(&self) -> Result<Index, Error> {
        let index = Index::empty();
        // SAFETY: the first handle is of an index, and the second is empty.
        check(unsafe { ffi::rpkirtr_index_share(self.at(), index.at()) }).map(|()| index)
    }

    /// An empty handle. It must not be used before a call has made an index in it.
    pub(crate) fn empty() -> Index {
        Index { handle: UnsafeCell::new(handle { opaque_: null_mut() }) }
    }

    pub(crate) fn at(&self) -> *mut handle {
        self.handle.get()
    }

    /// The number of different records.
    pub fn len(&self) -> usize {
        let mut count = 0;
        // SAFETY: the handle is of an index, and no other call is made on it meanwhile.
        done(unsafe { ffi::rpkirtr_index_count(self.at(), &mut count) });
        count
    }

    /// Whether there is no record.
    pub fn is_empty(&self) -> bool {
        self.len() == 0
    }

    /// The state of a route.
    pub fn state(&self, route: &Route) -> Result<OriginState, Error> {
        let mut state = 0;
        // SAFETY: as above.
        check(unsafe { ffi::rpkirtr_index_state(self.at(), &route.to_route(), &mut state) })?;
        Ok(OriginState::of_number(state))
    }

    /// The records that cover a route, in ascending order.
    pub fn covering(&self, route: &Route) -> Result<Vec<Vrp>, Error> {
        covering(|room, count| {
            // SAFETY: as above, and the room has so many elements.
            unsafe { ffi::rpkirtr_index_covering(self.at(), &route.to_route(), room.as_mut_ptr(), room.len(), count) }
        })
    }
}

impl Drop for Index {
    fn drop(&mut self) {
        // SAFETY: the handle is not used again.
        unsafe { ffi::rpkirtr_index_free(self.at()) };
    }
}

/// The records that a call copies into a buffer and counts: into a larger one if the first was too small.
pub(crate) fn covering(copy: impl Fn(&mut [ffi::rpkirtr_record], &mut usize) -> ffi::rpkirtr_status) -> Result<Vec<Vrp>, Error> {
    let mut room = vec![ffi::rpkirtr_record::default(); 16];
    let mut count = 0;
    check(copy(&mut room, &mut count))?;
    if count > room.len() {
        room.resize(count, ffi::rpkirtr_record::default());
        check(copy(&mut room, &mut count))?;
    }
    Ok(room[..count].iter().map(Vrp::of_record).collect())
}
