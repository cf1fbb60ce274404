//! `Keyed` and `Index` beside std's maps.

use iddqd_proved::{Index, InsertError, Keyed, ReplaceError, Row};
use std::collections::{BTreeMap, HashMap};
use std::hash::{BuildHasherDefault, Hasher};
use std::ops::Bound;
use std::time::{Duration, Instant};

const ITEMS: u64 = 100_000;

// Numbers that look random, the same in each run.
fn mixed(number: u64) -> u64 {
    let mixed = (number ^ (number >> 30)).wrapping_mul(0xBF58_476D_1CE4_E5B9);
    mixed ^ (mixed >> 27)
}

#[test]
fn keyed_agrees_with_two_maps() {
    let mut items = Keyed::new(1, 2).unwrap();
    let mut by_second: BTreeMap<u64, (Vec<u8>, Row)> = BTreeMap::new();
    let mut by_first: HashMap<Vec<u8>, u64> = HashMap::new();
    for turn in 0..ITEMS {
        let number = mixed(turn) % (ITEMS / 4);
        let (key, second) = (number.to_le_bytes()[..3].to_vec(), mixed(number) % ITEMS);
        if turn % 3 == 2 {
            let row = items.remove2(second);
            assert_eq!(row, by_second.get(&second).map(|held| held.1));
            if let Some((key, _)) = by_second.remove(&second) {
                by_first.remove(&key);
            }
        } else {
            let first = by_first.get(&key).map(|second| by_second[second].1.index);
            let other = by_second.get(&second).map(|held| held.1.index);
            match items.insert(&key, second, turn) {
                Ok(index) => {
                    assert_eq!((first, other), (None, None));
                    by_second.insert(second, (key.clone(), Row { second, value: turn, index }));
                    by_first.insert(key.clone(), second);
                }
                Err(error) => assert_eq!(error, InsertError::Duplicate { first, second: other }),
            }
        }
        assert_eq!(items.find1(&key), by_first.get(&key).map(|second| by_second[second].1));
    }
    assert!(items.iter().eq(by_second.values().map(|held| held.1)));
    let from = ITEMS / 2;
    assert!(items.range(from..).eq(by_second.range(from..).map(|(_, held)| held.1)));
    assert_eq!(items.len(), by_second.len());
    items.clear();
    assert!(items.is_empty() && items.iter().next().is_none());
}

#[test]
fn a_range_ends_at_the_greatest_key() {
    let mut items = Keyed::new(1, 2).unwrap();
    for below in 0..64 {
        items.insert(&[below], u64::MAX - u64::from(below), 0).unwrap();
    }
    for count in [1, 15, 16, 17, 63, 64] {
        assert_eq!(items.range(u64::MAX - (count - 1)..).count() as u64, count);
    }
    assert_eq!(items.iter().count(), 64);
}

#[test]
fn a_range_has_both_ends_and_goes_both_ways() {
    let mut items = Keyed::new_shared(1, 2).unwrap();
    let mut rows: Vec<Row> = Vec::new();
    for number in 0..1000u64 {
        let second = mixed(number) % 10;
        let index = items.insert(&number.to_le_bytes(), second, number).unwrap();
        rows.push(Row { second, value: number, index });
    }
    rows.sort_by_key(|row| (row.second, row.index));
    assert!(items.iter().eq(rows.iter().copied()) && items.iter().rev().eq(rows.iter().rev().copied()));
    let within = |from, to| rows.iter().copied().filter(move |row| from <= row.second && row.second <= to);
    assert!(items.range(3..7).eq(within(3, 6)) && items.range(3..=7).rev().eq(within(3, 7).rev()));
    assert!(items.range((Bound::Excluded(3), Bound::Unbounded)).eq(within(4, 9)));
    assert!(items.range(..0).next().is_none() && items.range(..=0).eq(within(0, 0)));
    // From both ends in turn: each row once.
    let (mut range, mut front, mut back) = (items.iter(), Vec::new(), Vec::new());
    while let Some(row) = range.next() {
        front.push(row);
        back.extend(range.next_back());
        back.extend(range.next_back());
    }
    assert_eq!(range.next_back(), None);
    front.extend(back.into_iter().rev());
    assert_eq!(front, rows);
}

#[test]
fn items_share_a_second_key() {
    let mut items = Keyed::new_shared(1, 2).unwrap();
    assert_eq!((items.first(), items.last()), (None, None));
    for number in 0..100u64 {
        items.insert(&number.to_le_bytes(), number % 4, number).unwrap();
    }
    let duplicate = InsertError::Duplicate { first: Some(7), second: None };
    assert_eq!(items.insert(&7u64.to_le_bytes(), 1, 0), Err(duplicate));
    assert_eq!(items.find2(2), Some(Row { second: 2, value: 2, index: 2 }));
    assert_eq!(items.group(2).map(|row| row.index).collect::<Vec<_>>(), (2..100).step_by(4).collect::<Vec<_>>());
    assert_eq!((items.first().unwrap().index, items.last().unwrap().index), (0, 99));
    assert_eq!(items.remove2(2).map(|row| row.index), Some(2));
    assert_eq!((items.count(2), items.remove_group(2), items.count(2)), (24, 24, 0));
    assert_eq!(items.replace(0, b"zero", 3, 0), Ok(()));
    assert_eq!((items.find2(3).unwrap().index, items.count(3), items.len()), (0, 26, 75));
    assert_eq!(items.validate(), Ok(true));
}

#[test]
fn a_key_comes_back_and_room_is_made() {
    let mut items = Keyed::new(1, 2).unwrap();
    items.reserve(100).unwrap();
    assert!(items.room() >= 100);
    for key in [&b""[..], b"a", &[0; 10_000]] {
        let index = items.insert(key, key.len() as u64, 0).unwrap();
        assert_eq!(items.key(index).unwrap().as_deref(), Some(key));
    }
    assert_eq!(items.key(3), Ok(None));
}

#[test]
fn an_item_gets_other_keys() {
    let mut items = Keyed::new(1, 2).unwrap();
    let ada = items.insert(b"ada", 7, 100).unwrap();
    let bo = items.insert(b"bo", 5, 200).unwrap();
    let duplicate = ReplaceError::Duplicate { first: None, second: Some(bo) };
    assert_eq!(items.replace(ada, b"ada", 5, 300), Err(duplicate));
    assert_eq!(items.replace(ada + 2, b"cy", 9, 300), Err(ReplaceError::Missing));
    assert_eq!(items.replace(ada, b"cy", 9, 300), Ok(()));
    assert_eq!((items.find1(b"ada"), items.find2(7)), (None, None));
    assert_eq!(items.find1(b"cy"), Some(Row { second: 9, value: 300, index: ada }));
    assert_eq!(items.find2(9), items.find1(b"cy"));
    assert_eq!(items.iter().map(|row| row.index).collect::<Vec<_>>(), [bo, ada]);
    assert_eq!(items.validate(), Ok(true));
}

#[test]
fn first_keys_are_found_in_one_call() {
    let mut items = Keyed::new(1, 2).unwrap();
    for number in 0..100u64 {
        items.insert(&b"x".repeat(number as usize), number, number).unwrap();
    }
    let firsts: Vec<_> = (0..200).rev().map(|number| b"x".repeat(number)).collect();
    let rows = items.find_many1(&firsts).unwrap();
    assert_eq!(rows, firsts.iter().map(|first| items.find1(first)).collect::<Vec<_>>());
    assert_eq!(rows.iter().flatten().count(), 100);
    assert_eq!(items.find_many1::<&[u8]>(&[]), Ok(vec![]));
}

#[test]
fn a_compaction_returns_the_new_index_of_each_old_one() {
    let mut items = Keyed::new(1, 2).unwrap();
    assert_eq!(items.compact(), Ok(vec![]));
    for number in 0..100u64 {
        items.insert(&number.to_le_bytes(), 1_000 - number, number).unwrap();
    }
    assert_eq!(items.compact(), Ok((0..100).map(Some).collect()));
    for number in (0..100).filter(|number| number % 3 == 0) {
        items.remove(number).unwrap();
    }
    let new = items.compact().unwrap();
    assert_eq!((new.len(), items.len()), (100, 66));
    for (old, new) in new.into_iter().enumerate() {
        let row = items.find1(&(old as u64).to_le_bytes());
        assert_eq!(row.map(|row| row.index), new);
        assert_eq!(new, (old % 3 > 0).then_some((old - old / 3 - 1) as u32));
        assert_eq!(items.find2(1_000 - old as u64), row);
    }
    assert_eq!(items.validate(), Ok(true));
    assert_eq!(items.insert(b"next", 0, 0), Ok(66));
}

#[test]
fn an_index_finds_records_by_keys_of_any_type() {
    let people: Vec<(String, u64)> = (0..10_000).map(|number| (format!("person {number}"), number)).collect();
    let mut by_name = Index::new(|person: &(String, u64)| person.0.clone()).unwrap();
    for at in 0..people.len() as u32 {
        assert_eq!(by_name.insert(&people, at), Ok(true));
        assert_eq!(by_name.insert(&people, at), Ok(false));
    }
    for (at, person) in people.iter().enumerate() {
        assert_eq!(by_name.find(&people, &person.0), Ok(Some(at as u32)));
    }
    assert_eq!(by_name.remove(&people, &people[7].0), Ok(Some(7)));
    assert_eq!(by_name.remove(&people, &people[7].0), Ok(None));
    assert_eq!(by_name.find(&people, &people[7].0), Ok(None));
    assert_eq!(by_name.len(), people.len() - 1);
}

/// The hash of a number is the number itself.
#[derive(Default)]
struct Identity(u64);

impl Hasher for Identity {
    fn finish(&self) -> u64 {
        self.0
    }

    fn write(&mut self, _: &[u8]) {
        unreachable!("only u64 is hashed");
    }

    fn write_u64(&mut self, number: u64) {
        self.0 = number;
    }
}

// If ids beside each other got places beside each other, this would take a minute.
#[test]
fn ids_without_a_gap_are_found_fast_under_their_own_hash() {
    let began = Instant::now();
    let ids: Vec<u64> = (0..ITEMS).collect();
    let mut by_id = Index::with_hasher(|id: &u64| *id, BuildHasherDefault::<Identity>::default()).unwrap();
    for at in 0..ids.len() as u32 {
        assert_eq!(by_id.insert(&ids, at), Ok(true));
    }
    for (at, id) in ids.iter().enumerate() {
        assert_eq!(by_id.find(&ids, id), Ok(Some(at as u32)));
        assert_eq!(by_id.find(&ids, &(id + ITEMS)), Ok(None));
    }
    assert!(began.elapsed() < Duration::from_secs(20));
}
