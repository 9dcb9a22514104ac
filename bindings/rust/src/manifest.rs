//! The payloads of manifests.
use crate::error::{check, done};
use crate::ffi::{self, handle};
use crate::Error;
use std::cell::UnsafeCell;
use std::ptr::null_mut;

/// The greatest length of a file's name, in octets.
const LONGEST_NAME: usize = 255;

/// The greatest length of a manifest number, in octets.
const LONGEST_NUMBER: usize = 20;

/// A file that a manifest lists.
#[derive(Clone, Debug, PartialEq, Eq)]
pub struct ListedFile {
    /// Its name.
    pub name: String,
    /// The SHA-256 digest of the published object.
    pub digest: [u8; 32],
}

/// The payload of a manifest (RFC 9286 section 4). Verify its signature first: nothing here does. Nor does it judge whether it is stale.
#[derive(Debug)]
pub struct Manifest {
    handle: UnsafeCell<handle>,
}

// SAFETY: a manifest may be used by one thread after another. It is not `Sync`, as one call at a time is proved.
unsafe impl Send for Manifest {}

impl Manifest {
    /// The manifest that the bytes spell.
    pub fn decode(payload: &[u8]) -> Result<Manifest, Error> {
        let manifest = Manifest { handle: UnsafeCell::new(handle { opaque_: null_mut() }) };
        let mut fault = ffi::rpkirtr_fault::default();
        // SAFETY: the handle is empty, and the slice has that many bytes.
        match unsafe { ffi::rpkirtr_manifest_new(manifest.at(), payload.as_ptr(), payload.len(), &mut fault) } {
            ffi::BAD_PAYLOAD => Err(Error::BadPayload { number: fault.kind, offset: fault.offset }),
            status => check(status).map(|()| manifest),
        }
    }

    // Each call below is on the handle of a manifest, on which no other call is made meanwhile.
    fn at(&self) -> *mut handle {
        self.handle.get()
    }

    /// The octets of the manifest number, the highest first: from 1 to 20. It may begin with a zero octet.
    pub fn number(&self) -> Vec<u8> {
        let (mut room, mut len) = (vec![0; LONGEST_NUMBER], 0);
        done(unsafe { ffi::rpkirtr_manifest_number(self.at(), room.as_mut_ptr(), room.len(), &mut len) });
        room.truncate(len);
        room
    }

    /// thisUpdate and nextUpdate, in seconds since the beginning of 1970 in UTC.
    pub fn times(&self) -> (u64, u64) {
        let (mut this_update, mut next_update) = (0, 0);
        done(unsafe { ffi::rpkirtr_manifest_times(self.at(), &mut this_update, &mut next_update) });
        (this_update, next_update)
    }

    /// The number of files that the manifest lists.
    pub fn len(&self) -> usize {
        let mut count = 0;
        done(unsafe { ffi::rpkirtr_manifest_count(self.at(), &mut count) });
        count
    }

    /// Whether the manifest lists no file.
    pub fn is_empty(&self) -> bool {
        self.len() == 0
    }

    /// The files that the manifest lists, in its order.
    pub fn files(&self) -> Vec<ListedFile> {
        (0..self.len()).map(|index| self.file(index)).collect()
    }

    fn file(&self, index: usize) -> ListedFile {
        let (mut room, mut len, mut digest) = ([0; LONGEST_NAME], 0, ffi::rpkirtr_digest::default());
        done(unsafe { ffi::rpkirtr_manifest_file(self.at(), index, room.as_mut_ptr(), room.len(), &mut len, &mut digest) });
        ListedFile { name: String::from_utf8_lossy(&room[..len]).into_owned(), digest: digest.octets }
    }
}

impl Drop for Manifest {
    fn drop(&mut self) {
        // SAFETY: the handle is not used again.
        unsafe { ffi::rpkirtr_manifest_free(self.at()) };
    }
}
