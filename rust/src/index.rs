//! Numbers of records under the hashes of their keys.

use crate::raw::{self, Handle, OK};
use crate::{NewError, OutOfMemory};
use std::fmt;
use std::hash::{BuildHasher, Hash, RandomState};
use std::marker::PhantomData;

/// How many candidates a look-up reads without an allocation.
const CANDIDATES: usize = 8;

/// An index of records that a slice of the caller's own has: it finds the number of a record by its key.
///
/// Each call is given the records, and how to read a record's key. The index holds numbers and hashes, and no key. A
/// record must not change its key while it is filed.
///
/// ```
/// use iddqd_proved::Index;
///
/// let people = [("ada", 1815), ("alan", 1912)];
/// let mut by_name = Index::new(|person: &(&'static str, u32)| person.0)?;
/// for at in 0..people.len() as u32 {
///     by_name.insert(&people, at)?;
/// }
/// assert_eq!(by_name.find(&people, &"alan"), Ok(Some(1)));
/// assert_eq!(by_name.find(&people, &"bo"), Ok(None));
/// # Ok::<(), Box<dyn std::error::Error>>(())
/// ```
pub struct Index<T, K, F = fn(&T) -> K, S = RandomState> {
    handle: Handle,
    key_of: F,
    hasher: S,
    kinds: PhantomData<fn(&T) -> K>,
}

impl<T, K: Hash + Eq, F: Fn(&T) -> K> Index<T, K, F> {
    /// Empty, with a hasher of its own seed.
    pub fn new(key_of: F) -> Result<Self, NewError> {
        Index::with_hasher(key_of, RandomState::new())
    }
}

impl<T, K: Hash + Eq, F: Fn(&T) -> K, S: BuildHasher> Index<T, K, F, S> {
    /// Empty, with this hasher.
    pub fn with_hasher(key_of: F, hasher: S) -> Result<Self, NewError> {
        // SAFETY: the handle is zero.
        let handle = Handle::open(|handle| unsafe { raw::iddqd_index_new(handle) })?;
        Ok(Index { handle, key_of, hasher, kinds: PhantomData })
    }

    /// Files the record of this number, if no filed record has its key: whether none had.
    ///
    /// # Panics
    ///
    /// If there is no record of this number.
    pub fn insert(&mut self, records: &[T], number: u32) -> Result<bool, OutOfMemory> {
        let key = (self.key_of)(&records[number as usize]);
        if self.find(records, &key)?.is_some() {
            return Ok(false);
        }
        let hash = self.hasher.hash_one(&key);
        // SAFETY: the handle is open.
        match unsafe { raw::iddqd_index_insert(self.handle.get(), hash, number) } {
            OK => Ok(true),
            _ => Err(OutOfMemory),
        }
    }

    /// The number of the filed record that has the key. It takes memory if more than eight records are filed under the
    /// key's hash.
    pub fn find(&self, records: &[T], key: &K) -> Result<Option<u32>, OutOfMemory> {
        let mut some = [0; CANDIDATES];
        let mut all = Vec::new();
        let hash = self.hasher.hash_one(key);
        let count = self.under(hash, &mut some);
        let candidates = if count <= CANDIDATES {
            &some[..count]
        } else {
            all.try_reserve_exact(count).map_err(|_| OutOfMemory)?;
            all.resize(count, 0);
            self.under(hash, &mut all);
            &all[..]
        };
        let key_at = |number: u32| records.get(number as usize).map(&self.key_of);
        Ok(candidates.iter().copied().find(|number| key_at(*number).is_some_and(|filed| filed == *key)))
    }

    /// Takes the record that has the key out of the index, and returns its number. It takes memory where `find` does.
    pub fn remove(&mut self, records: &[T], key: &K) -> Result<Option<u32>, OutOfMemory> {
        let found = self.find(records, key)?;
        if let Some(number) = found {
            // SAFETY: the handle is open.
            unsafe { raw::iddqd_index_remove(self.handle.get(), self.hasher.hash_one(key), number) };
        }
        Ok(found)
    }

    // Writes the numbers under a hash as far as the buffer goes, and returns how many there are.
    fn under(&self, hash: u64, numbers: &mut [u32]) -> usize {
        let mut count = 0;
        let (to, len) = (numbers.as_mut_ptr(), numbers.len());
        // SAFETY: the pointers are to `len` numbers and to a number that nothing else uses.
        unsafe { raw::iddqd_index_under(self.handle.get(), hash, to, len, &mut count) };
        count
    }
}

impl<T, K, F, S> Index<T, K, F, S> {
    /// How many records are filed.
    pub fn len(&self) -> usize {
        let mut count = 0;
        // SAFETY: the pointer is to a number that nothing else uses.
        unsafe { raw::iddqd_index_len(self.handle.get(), &mut count) };
        count
    }

    /// Whether no record is filed.
    pub fn is_empty(&self) -> bool {
        self.len() == 0
    }

    /// Forgets all records.
    pub fn clear(&mut self) {
        // SAFETY: the handle is open.
        unsafe { raw::iddqd_index_clear(self.handle.get()) };
    }
}

impl<T, K, F, S> fmt::Debug for Index<T, K, F, S> {
    fn fmt(&self, f: &mut fmt::Formatter<'_>) -> fmt::Result {
        f.debug_struct("Index").field("len", &self.len()).finish_non_exhaustive()
    }
}
