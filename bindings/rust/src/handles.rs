//! The handles of the C library, each with an owner in Rust that frees it.
//!
//! Everything unsafe of this crate stands here. What the header asks of a caller holds for these reasons: a handle is made full and freed by
//! its `Drop` alone; it is no `Send`, so it stays on the thread that filled it; each call borrows its handles mutably, so no second call is at
//! work on one; and slices are set, have the length that they say, and no two of a call overlap, unless both are only read. No pointer is
//! null, not even that of an empty slice. Bytes that are lent are `'static` and shared, so they stay as they are.

use crate::ffi;

/// A service that is filled.
pub struct ServiceHandle(ffi::Service);

/// A reply that is filled.
pub struct ReplyHandle(ffi::Reply);

/// A list of sizes that is filled.
pub struct SizesHandle(ffi::Sizes);

fn told<T>(number: u32, well: T) -> Result<T, u32> {
    match number {
        0 => Ok(well),
        _ => Err(number),
    }
}

impl ServiceHandle {
    pub fn new() -> Result<ServiceHandle, u32> {
        let mut raw = ffi::Service { at: ffi::EMPTY };
        let number = unsafe { ffi::gitpool_new(&mut raw) };
        filled(number, raw)
    }

    pub fn load(file: &[u8]) -> Result<ServiceHandle, u32> {
        let mut raw = ffi::Service { at: ffi::EMPTY };
        let number = unsafe { ffi::gitpool_load(&mut raw, file.as_ptr(), file.len()) };
        filled(number, raw)
    }

    pub fn load_lent(file: &'static [u8]) -> Result<ServiceHandle, u32> {
        let mut raw = ffi::Service { at: ffi::EMPTY };
        let number = unsafe { ffi::gitpool_load_lent(&mut raw, file.as_ptr(), file.len()) };
        filled(number, raw)
    }

    pub fn save(&mut self, reply: &mut ReplyHandle) -> u32 {
        unsafe { ffi::gitpool_save(&mut self.0, &mut reply.0) }
    }

    pub fn open(&mut self, tenant: &[u8], reply: &mut ReplyHandle) -> u32 {
        unsafe { ffi::gitpool_open(&mut self.0, tenant.as_ptr(), tenant.len(), &mut reply.0) }
    }

    pub fn feed(&mut self, tenant: &[u8], bytes: &[u8], reply: &mut ReplyHandle) -> u32 {
        unsafe { ffi::gitpool_feed(&mut self.0, tenant.as_ptr(), tenant.len(), bytes.as_ptr(), bytes.len(), &mut reply.0) }
    }

    pub fn end(&mut self, tenant: &[u8], reply: &mut ReplyHandle) -> u32 {
        unsafe { ffi::gitpool_end(&mut self.0, tenant.as_ptr(), tenant.len(), &mut reply.0) }
    }

    pub fn ask(&mut self, tenant: &[u8], query: &[u8], reply: &mut ReplyHandle) -> u32 {
        unsafe { ffi::gitpool_ask(&mut self.0, tenant.as_ptr(), tenant.len(), query.as_ptr(), query.len(), &mut reply.0) }
    }

    pub fn restart(&mut self, reply: &mut ReplyHandle) -> u32 {
        unsafe { ffi::gitpool_restart(&mut self.0, &mut reply.0) }
    }

    pub fn copy(&mut self, from: &[u8], to: &[u8]) -> u32 {
        unsafe { ffi::gitpool_copy(&mut self.0, from.as_ptr(), from.len(), to.as_ptr(), to.len()) }
    }

    pub fn remove(&mut self, tenant: &[u8]) -> u32 {
        unsafe { ffi::gitpool_remove(&mut self.0, tenant.as_ptr(), tenant.len()) }
    }

    pub fn compact(&mut self, tenant: &[u8]) -> u32 {
        unsafe { ffi::gitpool_compact(&mut self.0, tenant.as_ptr(), tenant.len()) }
    }

    pub fn abandon(&mut self, tenant: &[u8]) -> u32 {
        unsafe { ffi::gitpool_abandon(&mut self.0, tenant.as_ptr(), tenant.len()) }
    }

    pub fn stored(&mut self) -> ffi::Totals {
        let mut totals = ffi::Totals::default();
        unsafe { ffi::gitpool_stored(&mut self.0, &mut totals) };
        totals
    }

    pub fn list_sizes(&mut self) -> Result<SizesHandle, u32> {
        let mut raw = ffi::Sizes { at: ffi::EMPTY };
        let number = unsafe { ffi::gitpool_list_sizes(&mut self.0, &mut raw) };
        told(number, ()).map(|()| SizesHandle(raw))
    }
}

// (a handle that was not filled owns nothing, so it is not given to an owner)
fn filled(number: u32, raw: ffi::Service) -> Result<ServiceHandle, u32> {
    told(number, ()).map(|()| ServiceHandle(raw))
}

impl Drop for ServiceHandle {
    fn drop(&mut self) {
        unsafe { ffi::gitpool_free(&mut self.0) }
    }
}

impl ReplyHandle {
    pub fn new() -> Result<ReplyHandle, u32> {
        let mut raw = ffi::Reply { at: ffi::EMPTY };
        let number = unsafe { ffi::gitpool_reply_new(&mut raw) };
        told(number, ()).map(|()| ReplyHandle(raw))
    }

    pub fn items(&mut self) -> u64 {
        unsafe { ffi::gitpool_reply_items(&mut self.0) }
    }

    /// Appends the bytes of the reply. The room for them is set to zeros first, because the library is proved for memory that has been set.
    pub fn append_to(&mut self, out: &mut Vec<u8>) {
        let (before, length) = (out.len(), unsafe { ffi::gitpool_reply_length(&mut self.0) });
        out.resize(before + length, 0);
        let room = &mut out[before..];
        let written = unsafe { ffi::gitpool_reply_read(&mut self.0, 0, room.as_mut_ptr(), room.len()) };
        out.truncate(before + written);
    }
}

impl Drop for ReplyHandle {
    fn drop(&mut self) {
        unsafe { ffi::gitpool_reply_free(&mut self.0) }
    }
}

impl SizesHandle {
    pub fn count(&mut self) -> usize {
        unsafe { ffi::gitpool_sizes_count(&mut self.0) }
    }

    /// What the tenant at this place has, and its name, if the list has the place.
    pub fn at(&mut self, place: usize) -> Option<(Vec<u8>, ffi::TenantSizes)> {
        let mut sizes = ffi::TenantSizes::default();
        let mut room = [0; TENANT_NAME_LIMIT];
        let is_there = unsafe { ffi::gitpool_sizes_at(&mut self.0, place, &mut sizes, room.as_mut_ptr(), room.len()) };
        is_there.then(|| (room[..sizes.tenant_length.min(TENANT_NAME_LIMIT)].to_vec(), sizes))
    }
}

impl Drop for SizesHandle {
    fn drop(&mut self) {
        unsafe { ffi::gitpool_sizes_free(&mut self.0) }
    }
}

/// The longest name of a tenant, in bytes.
pub const TENANT_NAME_LIMIT: usize = 64;
