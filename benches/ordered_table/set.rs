//! std's set of indexes, which comes by the records by a static pointer: no tree of std's can do so faster.
use super::{Compare, Index, Record, Tree, count_ask};
use std::borrow::Borrow;
use std::cmp::Ordering;
use std::collections::BTreeSet;

// The records that the comparisons read. One thread runs.
static mut RECORDS: *const Record = std::ptr::null();

/// A key that is sought.
#[derive(PartialEq, Eq, PartialOrd)]
#[repr(transparent)]
struct Key(u32);

impl Ord for Key {
    #[inline(always)]
    fn cmp(&self, other: &Key) -> Ordering {
        count_ask();
        self.0.cmp(&other.0)
    }
}

/// Compares by the keys of the records, and then by the indexes.
#[derive(Clone)]
struct ByPointer;

#[inline(always)]
fn key_at(number: u32) -> &'static Key {
    unsafe { &*(&raw const (*RECORDS.add(number as usize)).key as *const Key) }
}

impl Borrow<Key> for Index<ByPointer> {
    #[inline(always)]
    fn borrow(&self) -> &Key {
        key_at(self.number())
    }
}

impl Compare for ByPointer {
    #[inline(always)]
    fn compare(a: u32, b: u32) -> Ordering {
        key_at(a).cmp(key_at(b)).then_with(|| a.cmp(&b))
    }
}

#[derive(Clone, Default)]
pub struct Set(BTreeSet<Index<ByPointer>>);

impl Tree for Set {
    fn begin(records: &[Record]) {
        unsafe { RECORDS = records.as_ptr() };
    }

    fn insert(&mut self, _: &[Record], number: u32) {
        self.0.insert(Index::new(number));
    }

    fn find(&self, _: &[Record], key: u32) -> Option<u32> {
        self.0.get(&Key(key)).map(Index::number)
    }

    fn remove(&mut self, _: &[Record], number: u32) -> bool {
        self.0.remove(&Index::new(number))
    }

    #[inline(never)]
    fn walk(&self) -> u64 {
        self.0.iter().fold(0u64, |sum, index| sum.wrapping_mul(3).wrapping_add(index.number() as u64))
    }

    #[inline(never)]
    fn take(self) -> u64 {
        self.0.into_iter().fold(0u64, |sum, index| sum.wrapping_mul(3).wrapping_add(index.number() as u64))
    }
}
