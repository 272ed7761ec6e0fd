//! Values by numbers that the runtime itself gives out.

use crate::Pid;
use std::collections::{HashMap, VecDeque};
use std::hash::{BuildHasherDefault, Hasher};
use std::mem;

/// Values by their numbers. (nobody else chooses the numbers, so they are spread, and no more)
pub(crate) type Numbered<T> = HashMap<i64, T, BuildHasherDefault<Spread>>;

#[derive(Default)]
pub(crate) struct Spread(u64);

impl Hasher for Spread {
    fn finish(&self) -> u64 {
        // (a map takes the lowest bits first, and the highest ones of a product depend on most)
        self.0.rotate_left(26)
    }

    fn write(&mut self, bytes: &[u8]) {
        bytes.iter().for_each(|&byte| self.write_i64(byte.into()));
    }

    fn write_u8(&mut self, number: u8) {
        self.write_i64(number.into());
    }

    fn write_u32(&mut self, number: u32) {
        self.write_i64(number.into());
    }

    fn write_i64(&mut self, number: i64) {
        self.0 = (self.0 ^ number as u64).wrapping_mul(0x9e37_79b9_7f4a_7c15);
    }
}

/// Values by processes, whose pids the table gives out.
pub(crate) type ByPid<T> = HashMap<Pid, T, BuildHasherDefault<Spread>>;

/// Values of which there are mostly few at a time. These few are looked through, and no more is hashed.
pub(crate) struct Few<T> {
    few: Vec<(i64, T)>,
    /// Those beyond [`MOST_FEW`], if there ever were some. (each process has three of this type, and is moved as it is spawned)
    more: Option<Box<Numbered<T>>>,
}

const MOST_FEW: usize = 8;

impl<T> Default for Few<T> {
    fn default() -> Few<T> {
        Few { few: Vec::new(), more: None }
    }
}

impl<T> Few<T> {
    /// Puts a value under a number that has none.
    pub(crate) fn insert(&mut self, number: i64, value: T) {
        if self.few.len() < MOST_FEW {
            self.few.push((number, value));
        } else {
            self.more.get_or_insert_default().insert(number, value);
        }
    }

    pub(crate) fn get(&self, number: i64) -> Option<&T> {
        let found = self.few.iter().find(|(it, _)| *it == number).map(|(_, value)| value);
        found.or_else(|| self.more.as_ref()?.get(&number))
    }

    pub(crate) fn remove(&mut self, number: i64) -> Option<T> {
        if let Some(place) = self.few.iter().position(|(it, _)| *it == number) {
            return Some(self.few.swap_remove(place).1);
        }
        self.more.as_mut()?.remove(&number)
    }

    pub(crate) fn contains(&self, number: i64) -> bool {
        self.get(number).is_some()
    }

    pub(crate) fn len(&self) -> usize {
        self.few.len() + self.more.as_ref().map_or(0, |more| more.len())
    }

    pub(crate) fn is_empty(&self) -> bool {
        self.len() == 0
    }

    #[inline]
    pub(crate) fn into_values(self) -> impl Iterator<Item = T> {
        let more = self.more.into_iter().flat_map(|more| more.into_values());
        self.few.into_iter().map(|(_, value)| value).chain(more)
    }
}

/// Values that get the numbers 1, 2, and so on, and are mostly taken in this order.
///
/// Those from `first` on are in a row, with a gap for each that was taken. If few of a long row are left at its front, these go
/// into a map: so what is kept grows with the values that are there, and not with the numbers.
pub(crate) struct Row<T> {
    /// The number of the first place of the row.
    first: i64,
    row: VecDeque<Option<T>>,
    /// How many values are in the row.
    count: usize,
    /// Those before the row, if there ever were some.
    before: Option<Box<Numbered<T>>>,
}

/// How long a row is at least of which values go into the map.
const LONG: usize = 32;

impl<T> Row<T> {
    pub(crate) fn new() -> Row<T> {
        Row { first: 1, row: VecDeque::new(), count: 0, before: None }
    }

    pub(crate) fn len(&self) -> usize {
        self.count + self.before.as_ref().map_or(0, |before| before.len())
    }

    /// The number of the last value that was put.
    pub(crate) fn last(&self) -> i64 {
        self.first + self.row.len() as i64 - 1
    }

    /// Puts a value, and returns its number.
    #[inline]
    pub(crate) fn push(&mut self, value: T) -> i64 {
        self.row.push_back(Some(value));
        self.count += 1;
        if self.row.len() >= LONG {
            self.thin_out();
        }
        self.last()
    }

    /// Puts what is left in the first half of the row into the map, if few are left in a long row.
    #[inline(never)]
    fn thin_out(&mut self) {
        if self.count > self.row.len() / 4 {
            return;
        }
        for _ in 0..self.row.len() / 2 {
            if let Some(Some(value)) = self.row.pop_front() {
                self.before.get_or_insert_default().insert(self.first, value);
                self.count -= 1;
            }
            self.first += 1;
        }
    }

    #[inline(always)]
    pub(crate) fn remove(&mut self, number: i64) -> Option<T> {
        if number == self.first { self.pop() } else { self.remove_within(number) }
    }

    /// The same of one that is not the first of the row.
    #[inline(never)]
    fn remove_within(&mut self, number: i64) -> Option<T> {
        match usize::try_from(number.wrapping_sub(self.first)) {
            Ok(place) => {
                let taken = mem::take(self.row.get_mut(place)?);
                self.count -= usize::from(taken.is_some());
                taken
            }
            Err(_) => self.before.as_mut()?.remove(&number),
        }
    }

    /// Takes the first of the row, with the gaps behind it. (no gap is in front)
    #[inline(always)]
    fn pop(&mut self) -> Option<T> {
        let taken = self.row.pop_front()?;
        self.first += 1;
        self.count -= usize::from(taken.is_some());
        if let Some(None) = self.row.front() {
            self.pop_gaps();
        }
        taken
    }

    #[inline(never)]
    fn pop_gaps(&mut self) {
        while let Some(None) = self.row.front() {
            self.row.pop_front();
            self.first += 1;
        }
    }

    /// Puts a value back that was taken, under its number.
    pub(crate) fn put_back(&mut self, number: i64, value: T) {
        let place = usize::try_from(number.wrapping_sub(self.first)).ok().and_then(|place| self.row.get_mut(place));
        match place {
            Some(place) => {
                *place = Some(value);
                self.count += 1;
            }
            None => _ = self.before.get_or_insert_default().insert(number, value),
        }
    }

    pub(crate) fn into_values(self) -> impl Iterator<Item = T> {
        let before = self.before.into_iter().flat_map(|before| before.into_values());
        before.chain(self.row.into_iter().flatten())
    }
}

#[cfg(test)]
mod tests {
    use super::{Few, Row};
    use std::collections::BTreeMap;

    #[test]
    fn a_row_is_a_map() {
        let (mut row, mut map, mut seed) = (Row::new(), BTreeMap::new(), 7_u64);
        for step in 0_i64..20_000 {
            seed = seed.wrapping_mul(6_364_136_223_846_793_005).wrapping_add(1);
            let number = map.keys().nth((seed >> 33) as usize % map.len().max(1)).copied();
            match (seed >> 60, number) {
                (0..=6, _) | (_, None) => assert!(map.insert(row.push(step), step).is_none()),
                (7..=14, Some(number)) => assert_eq!(row.remove(number), map.remove(&number)),
                (_, Some(number)) => {
                    let taken = row.remove(number).expect("a value that is there");
                    row.put_back(number, taken);
                }
            }
            assert_eq!((row.len(), row.remove(0), row.remove(row.last() + 1)), (map.len(), None, None));
        }
        let mut rest: Vec<i64> = row.into_values().collect();
        rest.sort_unstable();
        assert!(rest.into_iter().eq(map.into_values()));
    }

    #[test]
    fn a_row_of_which_one_value_stays_does_not_grow() {
        let mut row = Row::new();
        let first = row.push(0);
        for step in 1..100_000 {
            let number = row.push(step);
            assert_eq!(row.remove(number), Some(step));
            assert!(row.row.len() <= super::LONG);
        }
        assert_eq!((row.len(), row.remove(first), row.len()), (1, Some(0), 0));
    }

    #[test]
    fn few_values_are_a_map() {
        let (mut few, mut map) = (Few::default(), BTreeMap::new());
        for number in 0..40 {
            few.insert(number, number * 2);
            map.insert(number, number * 2);
            if number % 3 == 0 {
                assert_eq!(few.remove(number / 2), map.remove(&(number / 2)));
            }
            assert!((0..50).all(|it| few.get(it) == map.get(&it) && few.contains(it) == map.contains_key(&it)));
            assert_eq!((few.len(), few.is_empty()), (map.len(), map.is_empty()));
        }
        let mut rest: Vec<i64> = few.into_values().collect();
        rest.sort_unstable();
        assert!(rest.into_iter().eq(map.into_values()));
    }
}
