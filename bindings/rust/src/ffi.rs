//! The header include/gitpool.h, which says what each call does and what its caller owes.

use std::ffi::c_void;

/// A handle that is not filled.
pub const EMPTY: *mut c_void = std::ptr::null_mut();

#[repr(C)]
pub struct Service {
    pub at: *mut c_void,
}

#[repr(C)]
pub struct Reply {
    pub at: *mut c_void,
}

#[repr(C)]
pub struct Sizes {
    pub at: *mut c_void,
}

#[repr(C)]
#[derive(Default)]
pub struct Totals {
    pub contents: u64,
    pub bytes: u64,
    pub tenants: u64,
}

#[repr(C)]
#[derive(Default)]
pub struct TenantSizes {
    pub objects: u64,
    pub bytes: u64,
    pub own_bytes: u64,
    pub refs: u64,
    pub tenant_length: usize,
}

extern "C" {
    pub fn gitpool_new(service: *mut Service) -> u32;
    pub fn gitpool_load(service: *mut Service, file: *const u8, length: usize) -> u32;
    pub fn gitpool_load_lent(service: *mut Service, file: *const u8, length: usize) -> u32;
    pub fn gitpool_save(service: *mut Service, reply: *mut Reply) -> u32;
    pub fn gitpool_free(service: *mut Service);

    pub fn gitpool_open(service: *mut Service, tenant: *const u8, tenant_length: usize, reply: *mut Reply) -> u32;
    pub fn gitpool_feed(
        service: *mut Service,
        tenant: *const u8,
        tenant_length: usize,
        bytes: *const u8,
        length: usize,
        reply: *mut Reply,
    ) -> u32;
    pub fn gitpool_end(service: *mut Service, tenant: *const u8, tenant_length: usize, reply: *mut Reply) -> u32;
    pub fn gitpool_ask(
        service: *mut Service,
        tenant: *const u8,
        tenant_length: usize,
        query: *const u8,
        length: usize,
        reply: *mut Reply,
    ) -> u32;
    pub fn gitpool_restart(service: *mut Service, reply: *mut Reply) -> u32;

    pub fn gitpool_copy(service: *mut Service, from: *const u8, from_length: usize, to: *const u8, to_length: usize) -> u32;
    pub fn gitpool_remove(service: *mut Service, tenant: *const u8, tenant_length: usize) -> u32;
    pub fn gitpool_compact(service: *mut Service, tenant: *const u8, tenant_length: usize) -> u32;
    pub fn gitpool_abandon(service: *mut Service, tenant: *const u8, tenant_length: usize) -> u32;
    pub fn gitpool_stored(service: *mut Service, totals: *mut Totals);
    pub fn gitpool_list_sizes(service: *mut Service, sizes: *mut Sizes) -> u32;

    pub fn gitpool_reply_new(reply: *mut Reply) -> u32;
    pub fn gitpool_reply_items(reply: *mut Reply) -> u64;
    pub fn gitpool_reply_length(reply: *mut Reply) -> usize;
    pub fn gitpool_reply_read(reply: *mut Reply, from: usize, room: *mut u8, length: usize) -> usize;
    pub fn gitpool_reply_free(reply: *mut Reply);

    pub fn gitpool_sizes_count(sizes: *mut Sizes) -> usize;
    pub fn gitpool_sizes_at(sizes: *mut Sizes, place: usize, told: *mut TenantSizes, room: *mut u8, length: usize) -> bool;
    pub fn gitpool_sizes_free(sizes: *mut Sizes);
}
