//! std's map of indexes, whose comparison is a closure behind a thread-local variable: so the original crate has it, since
//! std's map hands its keys nothing.
use super::{Compare, Index, Record, Tree, count_ask};
use std::cell::Cell;
use std::cmp::Ordering;
use std::collections::BTreeMap;

type Closure<'a> = dyn Fn(u32, u32) -> Ordering + 'a;

thread_local! {
    static COMPARE: Cell<Option<&'static Closure<'static>>> = const { Cell::new(None) };
}

// Stands for a key that is sought.
const SOUGHT: u32 = u32::MAX;

/// Compares as the closure does that is set.
#[derive(Clone)]
struct ByClosure;

impl Compare for ByClosure {
    #[inline]
    fn compare(a: u32, b: u32) -> Ordering {
        let compare = COMPARE.get().expect("a comparison is set");
        compare(a, b)
    }
}

/// Makes a call under a comparison.
fn under<R>(compare: &Closure<'_>, call: impl FnOnce() -> R) -> R {
    // It is unset before the closure goes.
    COMPARE.set(Some(unsafe { std::mem::transmute::<&Closure<'_>, &'static Closure<'static>>(compare) }));
    let result = call();
    COMPARE.set(None);
    result
}

/// By the key of `number`, which is read once, and those of the records; ties by the indexes.
fn by_records(records: &[Record], number: u32) -> impl Fn(u32, u32) -> Ordering {
    let own = records[number as usize].key;
    let key_of = move |at: u32| if at == number { own } else { records[at as usize].key };
    move |a, b| {
        count_ask();
        if a == b {
            return Ordering::Equal;
        }
        assert!(a != SOUGHT && b != SOUGHT);
        key_of(a).cmp(&key_of(b)).then_with(|| a.cmp(&b))
    }
}

/// By a key that is sought, and those of the records.
fn by_key(records: &[Record], key: u32) -> impl Fn(u32, u32) -> Ordering {
    let key_of = move |at: u32| if at == SOUGHT { key } else { records[at as usize].key };
    move |a, b| {
        count_ask();
        if a == b { Ordering::Equal } else { key_of(a).cmp(&key_of(b)) }
    }
}

#[derive(Clone, Default)]
pub struct Map(BTreeMap<Index<ByClosure>, ()>);

impl Tree for Map {
    fn begin(_: &[Record]) {}

    fn insert(&mut self, records: &[Record], number: u32) {
        let compare = by_records(records, number);
        under(&compare, || self.0.insert(Index::new(number), ()));
    }

    fn find(&self, records: &[Record], key: u32) -> Option<u32> {
        let compare = by_key(records, key);
        under(&compare, || self.0.get_key_value(&Index::new(SOUGHT)).map(|(index, ())| index.number()))
    }

    fn remove(&mut self, records: &[Record], number: u32) -> bool {
        let compare = by_records(records, number);
        under(&compare, || self.0.remove(&Index::new(number)).is_some())
    }

    #[inline(never)]
    fn walk(&self) -> u64 {
        self.0.keys().fold(0u64, |sum, index| sum.wrapping_mul(3).wrapping_add(index.number() as u64))
    }

    #[inline(never)]
    fn take(self) -> u64 {
        self.0.into_keys().fold(0u64, |sum, index| sum.wrapping_mul(3).wrapping_add(index.number() as u64))
    }
}
