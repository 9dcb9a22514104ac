//! Texts of the library.
use crate::ffi;

fn text_of(write: impl Fn(*mut ffi::rpkirtr_text) -> ffi::rpkirtr_status) -> String {
    let mut text = ffi::rpkirtr_text { text: [0; 64] };
    write(&mut text);
    string_of(&text)
}

/// What is before the zeros of a text.
pub(crate) fn string_of(text: &ffi::rpkirtr_text) -> String {
    let end = text.text.iter().position(|byte| *byte == 0).unwrap_or(text.text.len());
    String::from_utf8_lossy(&text.text[..end]).into_owned()
}

/// The version of the library.
pub fn version() -> String {
    // SAFETY: the call writes the text alone.
    text_of(|text| unsafe { ffi::rpkirtr_version(text) })
}

/// What a status means.
pub(crate) fn strerror(status: ffi::rpkirtr_status) -> String {
    // SAFETY: as above.
    text_of(|text| unsafe { ffi::rpkirtr_strerror(status, text) })
}

/// The name of a state of a route, by its number.
pub(crate) fn state_name(state: ffi::rpkirtr_state) -> String {
    // SAFETY: as above.
    text_of(|text| unsafe { ffi::rpkirtr_state_name(state, text) })
}

/// The name of the state of a link, by its number.
pub(crate) fn link_name(link: u8) -> String {
    // SAFETY: as above.
    text_of(|text| unsafe { ffi::rpkirtr_link_name(link, text) })
}

/// How a link ended, by the number of the end.
pub(crate) fn end_name(end: u8) -> String {
    // SAFETY: as above.
    text_of(|text| unsafe { ffi::rpkirtr_end_name(end, text) })
}

/// What is at fault in a payload, by the number of the fault: that of [`Error::BadPayload`](crate::Error::BadPayload).
pub fn fault_name(fault: u32) -> String {
    // SAFETY: as above.
    text_of(|text| unsafe { ffi::rpkirtr_fault_name(fault, text) })
}
