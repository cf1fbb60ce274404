//! Each allocation of each call fails in turn, those of Rust's code and those of the library's: the call says that
//! memory ran out, what was there stays, and the same call passes when there is memory again.

use iddqd_proved::{Index, InsertError, Keyed, NewError, OutOfMemory, ReplaceError, Row};
use std::alloc::{GlobalAlloc, Layout, System};
use std::cell::Cell;
use std::ffi::c_void;
use std::fmt::Debug;
use std::hash::{BuildHasherDefault, Hasher};
use std::io::{sink, Write};
use std::ptr::null_mut;

thread_local! {
    // How many allocations of this thread pass; the next one fails. `None`: none fails.
    static BEFORE: Cell<Option<usize>> = const { Cell::new(None) };
}

fn is_refused() -> bool {
    let before = BEFORE.get();
    BEFORE.set(before.and_then(|count| count.checked_sub(1)));
    before == Some(0)
}

/// Rust's allocations.
struct Refusing;

#[global_allocator]
static ALLOCATOR: Refusing = Refusing;

// SAFETY: it is `System`, which may refuse at any time.
unsafe impl GlobalAlloc for Refusing {
    unsafe fn alloc(&self, layout: Layout) -> *mut u8 {
        if is_refused() {
            return null_mut();
        }
        // SAFETY: as of the caller.
        unsafe { System.alloc(layout) }
    }

    unsafe fn alloc_zeroed(&self, layout: Layout) -> *mut u8 {
        if is_refused() {
            return null_mut();
        }
        // SAFETY: as of the caller.
        unsafe { System.alloc_zeroed(layout) }
    }

    unsafe fn realloc(&self, old: *mut u8, layout: Layout, size: usize) -> *mut u8 {
        if is_refused() {
            return null_mut();
        }
        // SAFETY: as of the caller.
        unsafe { System.realloc(old, layout, size) }
    }

    unsafe fn dealloc(&self, old: *mut u8, layout: Layout) {
        // SAFETY: as of the caller.
        unsafe { System.dealloc(old, layout) }
    }
}

unsafe extern "C" {
    fn __libc_malloc(size: usize) -> *mut c_void;
    fn __libc_realloc(old: *mut c_void, size: usize) -> *mut c_void;
}

// The library's allocations. Those that `System` makes pass here too, and count twice.
#[unsafe(no_mangle)]
extern "C" fn malloc(size: usize) -> *mut c_void {
    if is_refused() {
        return null_mut();
    }
    // SAFETY: it is glibc's own `malloc`.
    unsafe { __libc_malloc(size) }
}

#[unsafe(no_mangle)]
unsafe extern "C" fn realloc(old: *mut c_void, size: usize) -> *mut c_void {
    if is_refused() {
        return null_mut();
    }
    // SAFETY: as of the caller, of glibc's own `realloc`.
    unsafe { __libc_realloc(old, size) }
}

/// What a call returned; nothing if it reported that memory ran out.
fn unless_memory<R, E: PartialEq>(answer: Result<R, E>, memory: E) -> Option<Result<R, E>> {
    match answer {
        Err(error) if error == memory => None,
        other => Some(other),
    }
}

/// Makes a call with each of its allocations failing in turn, and says how often it was refused.
fn refusals<S, V, R>(make: impl Fn() -> S, view: impl Fn(&S) -> V, call: impl Fn(&mut S) -> Option<R>) -> usize
where
    V: PartialEq + Debug,
    R: PartialEq + Debug,
{
    let mut whole = make();
    let passed = (call(&mut whole), view(&whole));
    assert!(passed.0.is_some());
    for refused in 0.. {
        let mut state = make();
        let before = (None, view(&state));
        BEFORE.set(Some(refused));
        let answer = call(&mut state);
        if BEFORE.take().is_some() {
            assert_eq!((answer, view(&state)), passed);
            return refused;
        }
        assert_eq!((answer, view(&state)), before, "allocation {refused} of a call failed");
        assert_eq!((call(&mut state), view(&state)), passed);
    }
    unreachable!()
}

const ITEMS: u32 = 100;

/// Items of which each fifth was removed.
fn items() -> Keyed {
    let mut items = Keyed::new(1, 2).unwrap();
    for number in 0..ITEMS {
        items.insert(format!("item {number}").as_bytes(), u64::from(number), 7).unwrap();
    }
    for number in (0..ITEMS).step_by(5) {
        items.remove(number).unwrap();
    }
    items
}

/// All items, each with its first key.
fn contents(items: &Keyed) -> Vec<(Row, Option<Vec<u8>>)> {
    items.iter().map(|row| (row, items.key(row.index).unwrap())).collect()
}

fn of_keyed<R: PartialEq + Debug>(call: impl Fn(&mut Keyed) -> Option<R>) -> usize {
    refusals(items, contents, call)
}

#[test]
fn a_call_on_items_that_takes_memory_is_refused() {
    assert!(
        refusals(|| (), |()| (), |()| unless_memory(Keyed::new(1, 2).map(|items| items.len()), NewError::Memory)) > 0
    );
    assert!(of_keyed(|items| unless_memory(items.insert(b"another", 500, 7), InsertError::Memory)) > 0);
    assert!(of_keyed(|items| unless_memory(items.replace(1, b"another", 500, 7), ReplaceError::Memory)) > 0);
    assert!(of_keyed(|items| unless_memory(items.find_many1(&["item 1", "item 5", "none"]), OutOfMemory)) > 0);
    assert!(of_keyed(|items| unless_memory(items.key(1), OutOfMemory)) > 0);
    assert!(of_keyed(|items| unless_memory(items.reserve(10_000), OutOfMemory)) > 0);
    assert!(of_keyed(|items| unless_memory(items.validate(), OutOfMemory)) > 0);
    assert!(of_keyed(|items| unless_memory(items.compact(), OutOfMemory)) > 0);
}

#[test]
fn a_duplicate_is_reported_without_memory() {
    let mut items = items();
    let before = contents(&items);
    BEFORE.set(Some(0));
    let answer = items.insert(b"item 1", 500, 7);
    assert_eq!(BEFORE.take(), None, "the copy of the key was not refused");
    assert_eq!(answer, Err(InsertError::Duplicate { first: Some(1), second: None }));
    assert_eq!(contents(&items), before);
}

#[test]
fn the_other_calls_on_items_take_no_memory() {
    assert_eq!(of_keyed(|items| unless_memory(items.replace(0, b"none", 500, 7), ReplaceError::Memory)), 0);
    assert_eq!(of_keyed(|items| unless_memory(items.key(0), OutOfMemory)), 0);
    assert_eq!(of_keyed(|items| Some([items.find1(b"item 1"), items.find2(2), items.get(3), items.find1(b"none")])), 0);
    assert_eq!(of_keyed(|items| Some([items.remove1(b"item 1"), items.remove2(2), items.remove(3)])), 0);
    assert_eq!(of_keyed(|items| Some(items.remove(0))), 0);
    assert_eq!(of_keyed(|items| Some((items.set_value(1, 8), items.set_value(0, 8)))), 0);
    assert_eq!(of_keyed(|items| Some((items.len(), items.is_empty(), items.room() > 0))), 0);
    assert_eq!(of_keyed(|items| Some((items.iter().count(), items.range(50..).next(), (&*items).into_iter().last()))), 0);
    assert_eq!(of_keyed(|items| Some(write!(sink(), "{items:?}").is_ok())), 0);
    let cleared = |items: &mut Keyed| {
        items.clear();
        Some(items.len())
    };
    assert_eq!(of_keyed(cleared), 0);
}

/// All keys under one hash.
#[derive(Default)]
struct Same;

impl Hasher for Same {
    fn finish(&self) -> u64 {
        7
    }

    fn write(&mut self, _: &[u8]) {}
}

type Numbers = Index<u64, u64, fn(&u64) -> u64, BuildHasherDefault<Same>>;

fn records() -> Vec<u64> {
    (0..100).collect()
}

/// So many records under one hash.
fn index(count: u32) -> Numbers {
    let mut index = Numbers::with_hasher(|record| *record, Default::default()).unwrap();
    for number in 0..count {
        assert_eq!(index.insert(&records(), number), Ok(true));
    }
    index
}

fn of_index<R: PartialEq + Debug>(count: u32, call: impl Fn(&mut Numbers, &[u64]) -> Option<R>) -> usize {
    let records = records();
    let filed =
        |index: &Numbers| -> Vec<_> { records.iter().map(|record| index.find(&records, record).unwrap()).collect() };
    refusals(|| index(count), filed, |index| call(index, &records))
}

#[test]
fn a_call_on_an_index_that_takes_memory_is_refused() {
    let made =
        |(): &mut ()| unless_memory(Index::new(|record: &u64| *record).map(|index| index.len()), NewError::Memory);
    assert!(refusals(|| (), |()| (), made) > 0);
    assert!(of_index(0, |index, records| unless_memory(index.insert(records, 50), OutOfMemory)) > 0);
    for count in [9, 14, 20, 28, 50, 56] {
        assert!(of_index(count, |index, records| unless_memory(index.insert(records, 60), OutOfMemory)) > 0);
        assert!(of_index(count, |index, records| unless_memory(index.insert(records, 1), OutOfMemory)) > 0);
        assert!(of_index(count, |index, records| unless_memory(index.find(records, &3), OutOfMemory)) > 0);
        assert!(of_index(count, |index, records| unless_memory(index.remove(records, &3), OutOfMemory)) > 0);
    }
}

#[test]
fn the_other_calls_on_an_index_take_no_memory() {
    assert_eq!(of_index(8, |index, records| Some((index.find(records, &3), index.find(records, &8)))), 0);
    assert_eq!(of_index(8, |index, records| Some((index.remove(records, &3), index.remove(records, &8)))), 0);
    assert_eq!(of_index(8, |index, records| Some(index.insert(records, 3))), 0);
    assert_eq!(of_index(20, |index, _| Some((index.len(), index.is_empty(), write!(sink(), "{index:?}").is_ok()))), 0);
    let cleared = |index: &mut Numbers, _: &[u64]| {
        index.clear();
        Some(index.len())
    };
    assert_eq!(of_index(20, cleared), 0);
}
