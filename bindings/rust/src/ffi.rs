//! What `rpkirtr.h` declares.
#![allow(non_camel_case_types)]

use std::os::raw::c_void;

pub type rpkirtr_status = i32;
pub type rpkirtr_state = i32;

pub const OK: rpkirtr_status = 0;
pub const NO_MEMORY: rpkirtr_status = 3;
pub const BAD_RECORD: rpkirtr_status = 4;
pub const BAD_ROUTE: rpkirtr_status = 5;
pub const BAD_VERSION: rpkirtr_status = 6;
pub const RANGE: rpkirtr_status = 7;
pub const NOT_LINKED: rpkirtr_status = 8;
pub const BUSY: rpkirtr_status = 9;
pub const BAD_PAYLOAD: rpkirtr_status = 10;
pub const BAD_TIMING: rpkirtr_status = 11;
pub const NO_CONNECTION: rpkirtr_status = 12;
pub const NO_DATA: rpkirtr_status = 13;
pub const BAD_KEEP: rpkirtr_status = 14;

/// The moment of what never happens
pub const NEVER: u64 = u64::MAX;

#[repr(C)]
#[derive(Clone, Copy, Debug, Default)]
pub struct rpkirtr_record {
    pub addr: [u8; 16],
    pub asn: u32,
    pub family: u8,
    pub len: u8,
    pub max_len: u8,
    pub zero_: u8,
}

#[repr(C)]
#[derive(Clone, Copy, Debug, Default)]
pub struct rpkirtr_route {
    pub addr: [u8; 16],
    pub origin: u32,
    pub family: u8,
    pub len: u8,
    pub has_origin: u8,
    pub zero_: u8,
}

#[repr(C)]
#[derive(Clone, Copy, Debug, Default)]
pub struct rpkirtr_link {
    pub state: u8,
    pub end: u8,
    pub code: u16,
}

#[repr(C)]
#[derive(Clone, Copy, Debug, Default)]
pub struct rpkirtr_committed {
    pub moment: u64,
    pub serial: u32,
    pub refresh: u32,
    pub retry: u32,
    pub expire: u32,
    pub zero_: u32,
    pub session: u16,
    pub version: u8,
    pub is_committed: u8,
}

#[repr(C)]
#[derive(Clone, Copy, Debug, Default)]
pub struct rpkirtr_config {
    pub size_: u32,
    pub refresh: u32,
    pub retry: u32,
    pub expire: u32,
    pub most: u32,
    pub keeps_refresh: u8,
    pub keeps_retry: u8,
    pub keeps_expire: u8,
    pub zero_: u8,
}

#[repr(C)]
#[derive(Clone, Copy, Debug)]
pub struct rpkirtr_carried {
    pub bytes: u64,
    pub pdus: [u64; 11],
    pub text: rpkirtr_text,
    pub code: u16,
    pub has_report: u8,
    pub zero_: [u8; 5],
}

#[repr(C)]
#[derive(Clone, Copy, Debug)]
pub struct rpkirtr_traffic {
    pub size_: u32,
    pub zero_: u32,
    pub received: rpkirtr_carried,
    pub sent: rpkirtr_carried,
}

#[repr(C)]
#[derive(Clone, Copy, Debug)]
pub struct rpkirtr_list {
    pub records: *const rpkirtr_record,
    pub records_len: usize,
}

#[repr(C)]
#[derive(Clone, Copy, Debug, Default)]
pub struct rpkirtr_fault {
    pub offset: u64,
    pub kind: u32,
    pub zero_: u32,
}

#[repr(C)]
#[derive(Clone, Copy, Debug)]
pub struct rpkirtr_text {
    pub text: [u8; 64],
}

#[repr(C)]
#[derive(Clone, Copy, Debug, Default)]
pub struct rpkirtr_digest {
    pub octets: [u8; 32],
}

/// A handle of a router, an index, a ROA, a manifest or a cache
#[repr(C)]
#[derive(Debug)]
pub struct handle {
    pub opaque_: *mut c_void,
}

extern "C" {
    pub fn rpkirtr_strerror(status: rpkirtr_status, text: *mut rpkirtr_text) -> rpkirtr_status;
    pub fn rpkirtr_end_name(end: u8, text: *mut rpkirtr_text) -> rpkirtr_status;
    pub fn rpkirtr_fault_name(fault: u32, text: *mut rpkirtr_text) -> rpkirtr_status;
    pub fn rpkirtr_link_name(link: u8, text: *mut rpkirtr_text) -> rpkirtr_status;
    pub fn rpkirtr_state_name(state: rpkirtr_state, text: *mut rpkirtr_text) -> rpkirtr_status;
    pub fn rpkirtr_version(text: *mut rpkirtr_text) -> rpkirtr_status;

    pub fn rpkirtr_router_new(h: *mut handle) -> rpkirtr_status;
    pub fn rpkirtr_router_free(h: *mut handle) -> rpkirtr_status;
    pub fn rpkirtr_router_speak(h: *mut handle, version: u8) -> rpkirtr_status;
    pub fn rpkirtr_router_configure(h: *mut handle, config: *const rpkirtr_config, fault: *mut u32) -> rpkirtr_status;
    pub fn rpkirtr_router_config(h: *const handle, config: *mut rpkirtr_config) -> rpkirtr_status;
    pub fn rpkirtr_router_connect(h: *mut handle, now: u64) -> rpkirtr_status;
    pub fn rpkirtr_router_receive(h: *mut handle, bytes: *const u8, bytes_len: usize, now: u64, taken: *mut usize) -> rpkirtr_status;
    pub fn rpkirtr_router_pull(h: *mut handle, room: *mut u8, room_len: usize, pulled: *mut usize) -> rpkirtr_status;
    pub fn rpkirtr_router_connection_closed(h: *mut handle, now: u64) -> rpkirtr_status;
    pub fn rpkirtr_router_connect_failed(h: *const handle, now: u64, at: *mut u64) -> rpkirtr_status;
    pub fn rpkirtr_router_tick(h: *mut handle, now: u64) -> rpkirtr_status;
    pub fn rpkirtr_router_ask(h: *mut handle) -> rpkirtr_status;
    pub fn rpkirtr_router_next_query_at(h: *const handle, at: *mut u64) -> rpkirtr_status;
    pub fn rpkirtr_router_wake_at(h: *const handle, at: *mut u64) -> rpkirtr_status;
    pub fn rpkirtr_router_link(h: *const handle, link: *mut rpkirtr_link) -> rpkirtr_status;
    pub fn rpkirtr_router_committed(h: *const handle, committed: *mut rpkirtr_committed) -> rpkirtr_status;
    pub fn rpkirtr_router_traffic(h: *const handle, traffic: *mut rpkirtr_traffic) -> rpkirtr_status;
    pub fn rpkirtr_router_count(h: *const handle, count: *mut usize) -> rpkirtr_status;
    pub fn rpkirtr_router_state(h: *const handle, route: *const rpkirtr_route, state: *mut rpkirtr_state) -> rpkirtr_status;
    pub fn rpkirtr_router_records(h: *const handle, first: usize, room: *mut rpkirtr_record, room_len: usize, copied: *mut usize) -> rpkirtr_status;
    pub fn rpkirtr_router_covering(
        h: *const handle,
        route: *const rpkirtr_route,
        room: *mut rpkirtr_record,
        room_len: usize,
        count: *mut usize,
    ) -> rpkirtr_status;
    pub fn rpkirtr_router_index(h: *const handle, index: *mut handle) -> rpkirtr_status;
    pub fn rpkirtr_router_changes_begin(h: *mut handle, withdraws: *mut usize, announces: *mut usize) -> rpkirtr_status;
    pub fn rpkirtr_router_withdrawn(h: *const handle, first: usize, room: *mut rpkirtr_record, room_len: usize, copied: *mut usize) -> rpkirtr_status;
    pub fn rpkirtr_router_announced(h: *const handle, first: usize, room: *mut rpkirtr_record, room_len: usize, copied: *mut usize) -> rpkirtr_status;
    pub fn rpkirtr_router_changes_taken(h: *mut handle) -> rpkirtr_status;

    pub fn rpkirtr_index_new(h: *mut handle, records: *const rpkirtr_record, records_len: usize, bad: *mut usize) -> rpkirtr_status;
    pub fn rpkirtr_index_new_of(h: *mut handle, lists: *const rpkirtr_list, lists_len: usize, list: *mut usize, bad: *mut usize) -> rpkirtr_status;
    pub fn rpkirtr_index_share(from: *const handle, to: *mut handle) -> rpkirtr_status;
    pub fn rpkirtr_index_free(h: *mut handle) -> rpkirtr_status;
    pub fn rpkirtr_index_count(h: *const handle, count: *mut usize) -> rpkirtr_status;
    pub fn rpkirtr_index_state(h: *const handle, route: *const rpkirtr_route, state: *mut rpkirtr_state) -> rpkirtr_status;
    pub fn rpkirtr_index_covering(
        h: *const handle,
        route: *const rpkirtr_route,
        room: *mut rpkirtr_record,
        room_len: usize,
        count: *mut usize,
    ) -> rpkirtr_status;

    pub fn rpkirtr_roa_new(h: *mut handle, bytes: *const u8, bytes_len: usize, fault: *mut rpkirtr_fault) -> rpkirtr_status;
    pub fn rpkirtr_roa_free(h: *mut handle) -> rpkirtr_status;
    pub fn rpkirtr_roa_asn(h: *const handle, asn: *mut u32) -> rpkirtr_status;
    pub fn rpkirtr_roa_count(h: *const handle, count: *mut usize) -> rpkirtr_status;
    pub fn rpkirtr_roa_records(h: *const handle, first: usize, room: *mut rpkirtr_record, room_len: usize, copied: *mut usize) -> rpkirtr_status;

    pub fn rpkirtr_manifest_new(h: *mut handle, bytes: *const u8, bytes_len: usize, fault: *mut rpkirtr_fault) -> rpkirtr_status;
    pub fn rpkirtr_manifest_free(h: *mut handle) -> rpkirtr_status;
    pub fn rpkirtr_manifest_number(h: *const handle, room: *mut u8, room_len: usize, len: *mut usize) -> rpkirtr_status;
    pub fn rpkirtr_manifest_times(h: *const handle, this_update: *mut u64, next_update: *mut u64) -> rpkirtr_status;
    pub fn rpkirtr_manifest_count(h: *const handle, count: *mut usize) -> rpkirtr_status;
    pub fn rpkirtr_manifest_file(
        h: *const handle,
        index: usize,
        room: *mut u8,
        room_len: usize,
        len: *mut usize,
        digest: *mut rpkirtr_digest,
    ) -> rpkirtr_status;

    pub fn rpkirtr_cache_new(
        h: *mut handle,
        session: u16,
        session0: u16,
        start: u32,
        keep: u32,
        refresh: u32,
        retry: u32,
        expire: u32,
        fault: *mut u32,
    ) -> rpkirtr_status;
    pub fn rpkirtr_cache_free(h: *mut handle) -> rpkirtr_status;
    pub fn rpkirtr_cache_publish(h: *mut handle, records: *const rpkirtr_record, records_len: usize, bad: *mut usize, unchanged: *mut u8) -> rpkirtr_status;
    pub fn rpkirtr_cache_current(h: *const handle, serial: *mut u32, count: *mut usize) -> rpkirtr_status;
    pub fn rpkirtr_cache_open(h: *mut handle, conn: *mut u32) -> rpkirtr_status;
    pub fn rpkirtr_cache_close(h: *mut handle, conn: u32) -> rpkirtr_status;
    pub fn rpkirtr_cache_receive(h: *mut handle, conn: u32, bytes: *const u8, bytes_len: usize, taken: *mut usize) -> rpkirtr_status;
    pub fn rpkirtr_cache_pull(h: *mut handle, conn: u32, room: *mut u8, room_len: usize, pulled: *mut usize) -> rpkirtr_status;
    pub fn rpkirtr_cache_notify(h: *mut handle, conn: u32, sent: *mut u8) -> rpkirtr_status;
    pub fn rpkirtr_cache_has_bytes(h: *const handle, conn: u32, has: *mut u8) -> rpkirtr_status;
    pub fn rpkirtr_cache_is_open(h: *const handle, conn: u32, continues: *mut u8) -> rpkirtr_status;
}
