//! Items under two keys.

use crate::raw::{self, Conflict, End, Handle, Row, DUPLICATE, FULL, IN, MISSING, OK, OPEN, OUT, SENTINEL, SMALL, UNSOUND};
use crate::{NewError, OutOfMemory};
use std::error::Error;
use std::fmt;
use std::ops::{Bound, RangeBounds};

/// How many rows a range reads at first: few, so that a short range costs little.
const FIRST_ROWS: usize = 16;
/// How many rows it reads at a time from then on.
const ROWS: usize = 64;

/// Why an item was not inserted. Nothing changed.
#[derive(Clone, Copy, Debug, PartialEq, Eq)]
pub enum InsertError {
    /// An item stands in its way: the index of the item that has the first key, and of the one that has the second, if
    /// second keys are unique.
    Duplicate {
        /// The item that has the first key.
        first: Option<u32>,
        /// The item that has the second key.
        second: Option<u32>,
    },
    /// There are as many items as there can be.
    Full,
    /// Memory ran out.
    Memory,
}

impl fmt::Display for InsertError {
    fn fmt(&self, f: &mut fmt::Formatter<'_>) -> fmt::Result {
        f.write_str(match self {
            InsertError::Duplicate { .. } => "duplicate",
            InsertError::Full => "full",
            InsertError::Memory => "no memory",
        })
    }
}

impl Error for InsertError {}

/// Why an item was not replaced. Nothing changed.
#[derive(Clone, Copy, Debug, PartialEq, Eq)]
pub enum ReplaceError {
    /// No item is at the index.
    Missing,
    /// Another item stands in the way: the index of another one that has the first key, and of another one that has the
    /// second, if second keys are unique.
    Duplicate {
        /// Another item that has the first key.
        first: Option<u32>,
        /// Another item that has the second key.
        second: Option<u32>,
    },
    /// Memory ran out.
    Memory,
}

impl fmt::Display for ReplaceError {
    fn fmt(&self, f: &mut fmt::Formatter<'_>) -> fmt::Result {
        f.write_str(match self {
            ReplaceError::Missing => "missing",
            ReplaceError::Duplicate { .. } => "duplicate",
            ReplaceError::Memory => "no memory",
        })
    }
}

impl Error for ReplaceError {}

/// Items that have a first key of bytes, which is looked up by its hash, a second key, which is looked up by its order,
/// and a value. No two share a first key. Second keys are unique or shared, as the items are made. An item keeps its
/// index until it is removed or the items are compacted.
///
/// The order of items is that of their second keys, and of their indexes where these are equal.
pub struct Keyed(Handle);

impl Keyed {
    /// Empty, for items of which no two share a second key. Where strangers choose first keys, the seed is 16 bytes that
    /// they can't know; no answer depends on it.
    pub fn new(seed1: u64, seed2: u64) -> Result<Keyed, NewError> {
        // SAFETY: the handle is zero.
        Handle::open(|handle| unsafe { raw::iddqd_keyed_new(handle, seed1, seed2) }).map(Keyed)
    }

    /// Empty, for items of which several may share a second key; otherwise as `new`.
    pub fn new_shared(seed1: u64, seed2: u64) -> Result<Keyed, NewError> {
        // SAFETY: the handle is zero.
        Handle::open(|handle| unsafe { raw::iddqd_keyed_new_shared(handle, seed1, seed2) }).map(Keyed)
    }

    /// Inserts an item with a copy of the key, and returns its index.
    pub fn insert(&mut self, first: &[u8], second: u64, value: u64) -> Result<u32, InsertError> {
        let (mut at, mut found) = (SENTINEL, Conflict::default());
        let (key, len) = (first.as_ptr(), first.len());
        // SAFETY: the pointers are to `len` bytes and to two values that nothing else uses.
        match unsafe { raw::iddqd_keyed_insert(self.0.get(), key, len, second, value, &mut at, &mut found) } {
            OK => Ok(at),
            DUPLICATE => Err(InsertError::Duplicate { first: index_of(found.first), second: index_of(found.second) }),
            FULL => Err(InsertError::Full),
            _ => Err(InsertError::Memory),
        }
    }

    /// The item with this first key.
    pub fn find1(&self, first: &[u8]) -> Option<Row> {
        // SAFETY: the pointers are to `len` bytes and to a row that nothing else uses.
        row_of(|row| unsafe { raw::iddqd_keyed_find1(self.0.get(), first.as_ptr(), first.len(), row) })
    }

    /// The item with this second key; of several, the one with the least index.
    pub fn find2(&self, second: u64) -> Option<Row> {
        // SAFETY: the pointer is to a row that nothing else uses.
        row_of(|row| unsafe { raw::iddqd_keyed_find2(self.0.get(), second, row) })
    }

    /// The item with each of these first keys, looked up in one call. It takes memory for a copy of the keys and for
    /// the rows.
    pub fn find_many1<K: AsRef<[u8]>>(&self, firsts: &[K]) -> Result<Vec<Option<Row>>, OutOfMemory> {
        let (mut bytes, mut ends) = (Vec::new(), with_room(firsts.len())?);
        for first in firsts.iter().map(AsRef::as_ref) {
            bytes.try_reserve(first.len()).map_err(|_| OutOfMemory)?;
            bytes.extend_from_slice(first);
            ends.push(bytes.len());
        }
        let (mut rows, mut found) = (with_room(ends.len())?, with_room(ends.len())?);
        rows.resize(ends.len(), Row { index: SENTINEL, ..Row::default() });
        let (keys, total, to, size) = (bytes.as_ptr(), bytes.len(), rows.as_mut_ptr(), rows.len());
        // SAFETY: the pointers are to `total` bytes, to as many ends as there are keys, and to `size` rows that nothing
        // else uses.
        unsafe { raw::iddqd_keyed_find_many1(self.0.get(), keys, total, ends.as_ptr(), ends.len(), to, size) };
        found.extend(rows.into_iter().map(|row| index_of(row.index).map(|_| row)));
        Ok(found)
    }

    /// The item at an index.
    pub fn get(&self, index: u32) -> Option<Row> {
        // SAFETY: the pointer is to a row that nothing else uses.
        row_of(|row| unsafe { raw::iddqd_keyed_get(self.0.get(), index, row) })
    }

    /// The first key of the item at an index.
    pub fn key(&self, index: u32) -> Result<Option<Vec<u8>>, OutOfMemory> {
        let (mut key, mut len) = (Vec::new(), 0);
        let mut read = |key: &mut Vec<u8>| {
            let (to, size) = (key.as_mut_ptr(), key.len());
            // SAFETY: the pointers are to `size` bytes and to a number that nothing else uses.
            let answer = unsafe { raw::iddqd_keyed_key(self.0.get(), index, to, size, &mut len) };
            (answer, len)
        };
        let (mut answer, len) = read(&mut key);
        if answer == SMALL {
            key.try_reserve_exact(len).map_err(|_| OutOfMemory)?;
            key.resize(len, 0);
            (answer, _) = read(&mut key);
        }
        Ok((answer == OK).then_some(key))
    }

    /// Makes room in the table for so many more items, or for as many as there can be. Memory for their first keys
    /// isn't taken.
    pub fn reserve(&mut self, additional: usize) -> Result<(), OutOfMemory> {
        // SAFETY: the handle is open.
        match unsafe { raw::iddqd_keyed_reserve(self.0.get(), additional) } {
            OK => Ok(()),
            _ => Err(OutOfMemory),
        }
    }

    /// How many items the table has room for, beside those that it has.
    pub fn room(&self) -> usize {
        let mut count = 0;
        // SAFETY: the pointer is to a number that nothing else uses.
        unsafe { raw::iddqd_keyed_room(self.0.get(), &mut count) };
        count
    }

    /// Whether each item is found by both of its keys, and no two items share a key that is unique. It is true unless
    /// something else has written to the memory of the items. It takes memory, and time as sorting does.
    pub fn validate(&self) -> Result<bool, OutOfMemory> {
        // SAFETY: the handle is open.
        match unsafe { raw::iddqd_keyed_validate(self.0.get()) } {
            OK => Ok(true),
            UNSOUND => Ok(false),
            _ => Err(OutOfMemory),
        }
    }

    /// Removes the item with this first key.
    pub fn remove1(&mut self, first: &[u8]) -> Option<Row> {
        // SAFETY: the pointers are to `len` bytes and to a row that nothing else uses.
        row_of(|row| unsafe { raw::iddqd_keyed_remove1(self.0.get(), first.as_ptr(), first.len(), row) })
    }

    /// Removes the item with this second key; of several, the one with the least index.
    pub fn remove2(&mut self, second: u64) -> Option<Row> {
        // SAFETY: the pointer is to a row that nothing else uses.
        row_of(|row| unsafe { raw::iddqd_keyed_remove2(self.0.get(), second, row) })
    }

    /// Removes the item at an index.
    pub fn remove(&mut self, index: u32) -> Option<Row> {
        // SAFETY: the pointer is to a row that nothing else uses.
        row_of(|row| unsafe { raw::iddqd_keyed_remove(self.0.get(), index, row) })
    }

    /// Sets the value of the item at an index, and says whether there is one.
    pub fn set_value(&mut self, index: u32, value: u64) -> bool {
        // SAFETY: the handle is open.
        unsafe { raw::iddqd_keyed_set_value(self.0.get(), index, value) == OK }
    }

    /// Replaces the item at an index by one with a copy of the key. The index stays, and the item may keep one of its
    /// keys or both.
    pub fn replace(&mut self, index: u32, first: &[u8], second: u64, value: u64) -> Result<(), ReplaceError> {
        let mut found = Conflict::default();
        let (key, len) = (first.as_ptr(), first.len());
        // SAFETY: the pointers are to `len` bytes and to a value that nothing else uses.
        match unsafe { raw::iddqd_keyed_replace(self.0.get(), index, key, len, second, value, &mut found) } {
            OK => Ok(()),
            MISSING => Err(ReplaceError::Missing),
            DUPLICATE => Err(ReplaceError::Duplicate { first: index_of(found.first), second: index_of(found.second) }),
            _ => Err(ReplaceError::Memory),
        }
    }

    /// The items whose second keys are within the bounds, in order, from both ends.
    pub fn range(&self, bounds: impl RangeBounds<u64>) -> Range<'_> {
        Range::new(self, lower_end(bounds.start_bound()), upper_end(bounds.end_bound()))
    }

    /// The items with this second key, in order, from both ends.
    pub fn group(&self, second: u64) -> Range<'_> {
        self.range(second..=second)
    }

    /// All items, in order, from both ends.
    pub fn iter(&self) -> Range<'_> {
        self.range(..)
    }

    /// The first item in order.
    pub fn first(&self) -> Option<Row> {
        // SAFETY: the pointer is to a row that nothing else uses.
        row_of(|row| unsafe { raw::iddqd_keyed_first(self.0.get(), row) })
    }

    /// The last item in order.
    pub fn last(&self) -> Option<Row> {
        // SAFETY: the pointer is to a row that nothing else uses.
        row_of(|row| unsafe { raw::iddqd_keyed_last(self.0.get(), row) })
    }

    /// How many items have this second key.
    pub fn count(&self, second: u64) -> usize {
        let mut count = 0;
        // SAFETY: the pointer is to a number that nothing else uses.
        unsafe { raw::iddqd_keyed_count(self.0.get(), second, &mut count) };
        count
    }

    /// Removes the items with this second key, and returns how many there were.
    pub fn remove_group(&mut self, second: u64) -> usize {
        let mut count = 0;
        // SAFETY: the pointer is to a number that nothing else uses.
        unsafe { raw::iddqd_keyed_remove_group(self.0.get(), second, &mut count) };
        count
    }

    /// The number of items.
    pub fn len(&self) -> usize {
        let mut count = 0;
        // SAFETY: the pointer is to a number that nothing else uses.
        unsafe { raw::iddqd_keyed_len(self.0.get(), &mut count) };
        count
    }

    /// Whether there is no item.
    pub fn is_empty(&self) -> bool {
        self.len() == 0
    }

    /// Moves the items down in the order of their indexes, so that these are 0, 1 and so on. Returns the new index of
    /// each old one, `None` for one that no item had. If memory runs out, nothing changes.
    pub fn compact(&mut self) -> Result<Vec<Option<u32>>, OutOfMemory> {
        let (mut indexes, mut new) = (Vec::new(), Vec::new());
        let mut count = 0;
        if self.compact_into(&mut indexes, &mut count) == SMALL {
            (indexes, new) = (with_room(count)?, with_room(count)?);
            indexes.resize(count, SENTINEL);
            if self.compact_into(&mut indexes, &mut count) != OK {
                return Err(OutOfMemory);
            }
        }
        new.extend(indexes.into_iter().map(index_of));
        Ok(new)
    }

    // Compacts the items, if the buffer has a place for each slot.
    fn compact_into(&mut self, indexes: &mut [u32], count: &mut usize) -> u32 {
        // SAFETY: the pointers are to `len` numbers and to a number that nothing else uses.
        unsafe { raw::iddqd_keyed_compact(self.0.get(), indexes.as_mut_ptr(), indexes.len(), count) }
    }

    /// Forgets all items, and keeps the memory.
    pub fn clear(&mut self) {
        // SAFETY: the handle is open.
        unsafe { raw::iddqd_keyed_clear(self.0.get()) };
    }
}

impl fmt::Debug for Keyed {
    fn fmt(&self, f: &mut fmt::Formatter<'_>) -> fmt::Result {
        f.debug_list().entries(self.iter()).finish()
    }
}

impl<'a> IntoIterator for &'a Keyed {
    type Item = Row;
    type IntoIter = Range<'a>;

    fn into_iter(self) -> Range<'a> {
        self.iter()
    }
}

/// Which way a buffer is read.
#[derive(Clone, Copy, Debug)]
enum Direction {
    Up,
    Down,
}

/// Rows that were read and not yet returned.
#[derive(Clone, Debug)]
struct Buffer {
    rows: [Row; ROWS],
    // How many rows it reads next.
    places: usize,
    at: usize,
    count: usize,
}

impl Buffer {
    const EMPTY: Buffer = Buffer { rows: [Row { second: 0, value: 0, index: 0 }; ROWS], places: FIRST_ROWS, at: 0, count: 0 };

    // Reads the first rows between the ends in a direction, and returns the last of them if there may be more.
    fn fill(&mut self, items: &Keyed, direction: Direction, from: &End, to: &End) -> Option<Row> {
        let (rows, places) = (self.rows.as_mut_ptr(), self.places);
        let read = match direction {
            Direction::Up => raw::iddqd_keyed_range,
            Direction::Down => raw::iddqd_keyed_range_down,
        };
        (self.at, self.count, self.places) = (0, 0, ROWS);
        // SAFETY: the pointers are to two ends, to at least `places` rows and to a number that nothing else uses.
        unsafe { read(items.0.get(), from, to, rows, places, &mut self.count) };
        if self.count < places { None } else { Some(self.rows[places - 1]) }
    }

    fn first(&mut self) -> Option<Row> {
        let row = self.rows[..self.count].get(self.at).copied()?;
        self.at += 1;
        Some(row)
    }

    fn last(&mut self) -> Option<Row> {
        let row = self.rows[self.at..self.count].last().copied()?;
        self.count -= 1;
        Some(row)
    }
}

/// Items in order, from both ends. At each end it reads 16 into a buffer of its own, and then 64 at a time.
#[derive(Clone, Debug)]
pub struct Range<'a> {
    items: &'a Keyed,
    // What was read from both ends, and the ends of what was not read yet; `None` once all was read.
    front: Buffer,
    unread: Option<(End, End)>,
    back: Buffer,
}

impl<'a> Range<'a> {
    fn new(items: &'a Keyed, from: End, to: End) -> Range<'a> {
        Range { items, front: Buffer::EMPTY, unread: Some((from, to)), back: Buffer::EMPTY }
    }
}

impl Iterator for Range<'_> {
    type Item = Row;

    fn next(&mut self) -> Option<Row> {
        if self.front.at == self.front.count {
            if let Some((from, to)) = self.unread {
                let last = self.front.fill(self.items, Direction::Up, &from, &to);
                self.unread = last.map(|row| (behind(row), to));
            }
        }
        self.front.first().or_else(|| self.back.last())
    }
}

impl DoubleEndedIterator for Range<'_> {
    fn next_back(&mut self) -> Option<Row> {
        if self.back.at == self.back.count {
            if let Some((from, to)) = self.unread {
                let last = self.back.fill(self.items, Direction::Down, &from, &to);
                self.unread = last.map(|row| (from, behind(row)));
            }
        }
        self.back.first().or_else(|| self.front.last())
    }
}

// The end beyond which a range goes on after a row, in either direction.
fn behind(row: Row) -> End {
    End { second: row.second, index: row.index, side: OUT }
}

fn lower_end(bound: Bound<&u64>) -> End {
    match bound {
        Bound::Included(second) => End { second: *second, index: 0, side: IN },
        Bound::Excluded(second) => End { second: *second, index: SENTINEL, side: OUT },
        Bound::Unbounded => End { second: 0, index: 0, side: OPEN },
    }
}

fn upper_end(bound: Bound<&u64>) -> End {
    match bound {
        Bound::Included(second) => End { second: *second, index: SENTINEL, side: IN },
        Bound::Excluded(second) => End { second: *second, index: 0, side: OUT },
        Bound::Unbounded => End { second: 0, index: 0, side: OPEN },
    }
}

// The row that a function wrote, if it found one.
fn row_of(function: impl FnOnce(*mut Row) -> u32) -> Option<Row> {
    let mut row = Row::default();
    (function(&mut row) == OK).then_some(row)
}

// An empty list with room for so many.
fn with_room<T>(count: usize) -> Result<Vec<T>, OutOfMemory> {
    let mut list = Vec::new();
    list.try_reserve_exact(count).map_err(|_| OutOfMemory)?;
    Ok(list)
}

fn index_of(number: u32) -> Option<u32> {
    (number != SENTINEL).then_some(number)
}
