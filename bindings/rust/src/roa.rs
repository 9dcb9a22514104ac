//! The payloads of ROAs.
use crate::error::{check, done};
use crate::ffi::{self, handle};
use crate::values::Vrp;
use crate::Error;
use std::cell::UnsafeCell;
use std::ptr::null_mut;

/// The payload of a ROA (RFC 9582 section 4). Verify its signature first: nothing here does.
#[derive(Debug)]
pub struct Roa {
    handle: UnsafeCell<handle>,
}

// SAFETY: a ROA may be used by one thread after another. It is not `Sync`, as one call at a time is proved.
unsafe impl Send for Roa {}

impl Roa {
    /// The ROA that the bytes spell.
    pub fn decode(payload: &[u8]) -> Result<Roa, Error> {
        let roa = Roa { handle: UnsafeCell::new(handle { opaque_: null_mut() }) };
        let mut fault = ffi::rpkirtr_fault::default();
        // SAFETY: the handle is empty, and the slice has that many bytes.
        match unsafe { ffi::rpkirtr_roa_new(roa.at(), payload.as_ptr(), payload.len(), &mut fault) } {
            ffi::BAD_PAYLOAD => Err(Error::BadPayload { number: fault.kind, offset: fault.offset }),
            status => check(status).map(|()| roa),
        }
    }

    // Each call below is on the handle of a ROA, on which no other call is made meanwhile.
    fn at(&self) -> *mut handle {
        self.handle.get()
    }

    /// The AS that may originate the prefixes.
    pub fn asn(&self) -> u32 {
        let mut asn = 0;
        done(unsafe { ffi::rpkirtr_roa_asn(self.at(), &mut asn) });
        asn
    }

    /// The records that the ROA authorizes, in its order.
    pub fn vrps(&self) -> Vec<Vrp> {
        let (mut count, mut copied) = (0, 0);
        done(unsafe { ffi::rpkirtr_roa_count(self.at(), &mut count) });
        let mut room = vec![ffi::rpkirtr_record::default(); count];
        done(unsafe { ffi::rpkirtr_roa_records(self.at(), 0, room.as_mut_ptr(), count, &mut copied) });
        room[..copied].iter().map(Vrp::of_record).collect()
    }
}

impl Drop for Roa {
    fn drop(&mut self) {
        // SAFETY: the handle is not used again.
        unsafe { ffi::rpkirtr_roa_free(self.at()) };
    }
}
