//! The functions of `iddqd.h`.

use crate::NewError;
use std::cell::UnsafeCell;
use std::ptr::null_mut;

/// The version of `iddqd.h` that this file is for: its `IDDQD_VERSION`. Of its functions those on a layer aren't here.
pub(crate) const VERSION: u32 = 3;

/// What the functions return.
pub(crate) const OK: u32 = 0;
pub(crate) const MISSING: u32 = 1;
pub(crate) const DUPLICATE: u32 = 2;
pub(crate) const FULL: u32 = 3;
pub(crate) const SMALL: u32 = 6;
pub(crate) const UNSOUND: u32 = 7;

/// The index that no item has.
pub(crate) const SENTINEL: u32 = u32::MAX;

/// An item, beside its first key.
#[repr(C)]
#[derive(Clone, Copy, Debug, Default, PartialEq, Eq)]
pub struct Row {
    /// The second key.
    pub second: u64,
    /// The value.
    pub value: u64,
    /// The index, which stays until the item is removed or the items are compacted.
    pub index: u32,
}

#[repr(C)]
#[derive(Default)]
pub(crate) struct Conflict {
    pub(crate) first: u32,
    pub(crate) second: u32,
}

/// An end of a range.
#[repr(C)]
#[derive(Clone, Copy, Debug)]
pub(crate) struct End {
    pub(crate) second: u64,
    pub(crate) index: u32,
    pub(crate) side: u32,
}

/// The sides of an end.
pub(crate) const OPEN: u32 = 0;
pub(crate) const IN: u32 = 1;
pub(crate) const OUT: u32 = 2;

#[repr(C)]
pub(crate) struct Table {
    at: *mut u8,
    state: u64,
}

/// The version of the library that is linked.
pub(crate) fn version() -> u32 {
    // SAFETY: of all versions this function takes nothing and returns a number.
    unsafe { iddqd_version() }
}

/// A handle. Its pointer makes what holds it neither `Send` nor `Sync`, and no function calls back: so of a shared
/// reference too there is one call at a time.
pub(crate) struct Handle(UnsafeCell<Table>);

impl Handle {
    /// A handle that a function opened: the first call on each table, so no other one is made of a library of another
    /// version.
    pub(crate) fn open(function: impl FnOnce(*mut Table) -> u32) -> Result<Handle, NewError> {
        if version() != VERSION {
            return Err(NewError::Version(version()));
        }
        let handle = Handle(UnsafeCell::new(Table { at: null_mut(), state: 0 }));
        match function(handle.get()) {
            OK => Ok(handle),
            _ => Err(NewError::Memory),
        }
    }

    /// For one call.
    pub(crate) fn get(&self) -> *mut Table {
        self.0.get()
    }
}

impl Drop for Handle {
    fn drop(&mut self) {
        // SAFETY: the handle was zero when `open` made it, and only these functions write it.
        unsafe { iddqd_free(self.get()) }
    }
}

unsafe extern "C" {
    fn iddqd_version() -> u32;
    fn iddqd_free(table: *mut Table);

    pub(crate) fn iddqd_keyed_new(table: *mut Table, seed1: u64, seed2: u64) -> u32;
    pub(crate) fn iddqd_keyed_new_shared(table: *mut Table, seed1: u64, seed2: u64) -> u32;
    pub(crate) fn iddqd_keyed_insert(
        table: *mut Table,
        key: *const u8,
        len: usize,
        second: u64,
        value: u64,
        at: *mut u32,
        found: *mut Conflict,
    ) -> u32;
    pub(crate) fn iddqd_keyed_find1(table: *mut Table, key: *const u8, len: usize, row: *mut Row) -> u32;
    pub(crate) fn iddqd_keyed_find2(table: *mut Table, second: u64, row: *mut Row) -> u32;
    pub(crate) fn iddqd_keyed_find_many1(
        table: *mut Table,
        bytes: *const u8,
        total: usize,
        ends: *const usize,
        len: usize,
        rows: *mut Row,
        size: usize,
    ) -> u32;
    pub(crate) fn iddqd_keyed_get(table: *mut Table, index: u32, row: *mut Row) -> u32;
    pub(crate) fn iddqd_keyed_remove1(table: *mut Table, key: *const u8, len: usize, row: *mut Row) -> u32;
    pub(crate) fn iddqd_keyed_remove2(table: *mut Table, second: u64, row: *mut Row) -> u32;
    pub(crate) fn iddqd_keyed_remove(table: *mut Table, index: u32, row: *mut Row) -> u32;
    pub(crate) fn iddqd_keyed_key(table: *mut Table, index: u32, key: *mut u8, size: usize, len: *mut usize) -> u32;
    pub(crate) fn iddqd_keyed_reserve(table: *mut Table, additional: usize) -> u32;
    pub(crate) fn iddqd_keyed_room(table: *mut Table, count: *mut usize) -> u32;
    pub(crate) fn iddqd_keyed_set_value(table: *mut Table, index: u32, value: u64) -> u32;
    pub(crate) fn iddqd_keyed_replace(
        table: *mut Table,
        index: u32,
        key: *const u8,
        len: usize,
        second: u64,
        value: u64,
        found: *mut Conflict,
    ) -> u32;
    pub(crate) fn iddqd_keyed_range(
        table: *mut Table,
        from: *const End,
        to: *const End,
        rows: *mut Row,
        len: usize,
        count: *mut usize,
    ) -> u32;
    pub(crate) fn iddqd_keyed_range_down(
        table: *mut Table,
        from: *const End,
        to: *const End,
        rows: *mut Row,
        len: usize,
        count: *mut usize,
    ) -> u32;
    pub(crate) fn iddqd_keyed_first(table: *mut Table, row: *mut Row) -> u32;
    pub(crate) fn iddqd_keyed_last(table: *mut Table, row: *mut Row) -> u32;
    pub(crate) fn iddqd_keyed_count(table: *mut Table, second: u64, count: *mut usize) -> u32;
    pub(crate) fn iddqd_keyed_remove_group(table: *mut Table, second: u64, count: *mut usize) -> u32;
    pub(crate) fn iddqd_keyed_validate(table: *mut Table) -> u32;
    pub(crate) fn iddqd_keyed_compact(table: *mut Table, indexes: *mut u32, len: usize, count: *mut usize) -> u32;
    pub(crate) fn iddqd_keyed_len(table: *mut Table, count: *mut usize) -> u32;
    pub(crate) fn iddqd_keyed_clear(table: *mut Table) -> u32;

    pub(crate) fn iddqd_index_new(table: *mut Table) -> u32;
    pub(crate) fn iddqd_index_insert(table: *mut Table, hash: u64, number: u32) -> u32;
    pub(crate) fn iddqd_index_remove(table: *mut Table, hash: u64, number: u32) -> u32;
    pub(crate) fn iddqd_index_under(
        table: *mut Table,
        hash: u64,
        numbers: *mut u32,
        len: usize,
        count: *mut usize,
    ) -> u32;
    pub(crate) fn iddqd_index_len(table: *mut Table, count: *mut usize) -> u32;
    pub(crate) fn iddqd_index_clear(table: *mut Table) -> u32;
}
