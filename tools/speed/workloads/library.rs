//! The workloads' calls at this library's map and set.
use crate::both::Both;
use crate::bytes::Bytes;
use crate::calls::{bytes_at, numbers_at, wide_at};
use crate::inputs::key_of;
use crate::numbers::Numbers;
use crate::texts::Texts;
use crate::wide::Wide;
use micromap::{Map, Overfull, Set, Text};
use std::alloc::Global;

numbers_at! { Map<u64, u64, N>,
    #[inline]
    fn note(&mut self, key: u64) {
        let entry = self.entry(key);
        if entry.has_room() {
            entry.and_modify(|times| *times = times.wrapping_add(1)).or_insert(1);
        }
    }

    #[inline]
    fn total(&self) -> u64 {
        let mut sum = 0u64;
        for (_, value) in self.iter() {
            sum = sum.wrapping_add(*value);
        }
        sum
    }

    #[inline]
    fn clone_and_find(&self, key: u64) -> u64 {
        match self.clone() {
            Ok(copy) => copy.found(key),
            Err(_) => u64::MAX,
        }
    }

    #[inline]
    fn copy_and_find(&self, key: u64) -> u64 {
        self.copied().found(key)
    }

    #[inline]
    fn collect_and_find(&self, _memory: Global, _room: u64, first: u64, key: u64) -> u64 {
        let made: Result<Map<u64, u64, N>, Overfull> = Map::try_from_iter((0..N as u64).map(|index| (key_of(index, first), index)));
        match made {
            Ok(map) => map.found(key),
            Err(_) => u64::MAX,
        }
    }

    #[inline]
    fn all_and_find(&self, _memory: Global, _room: u64, first: u64, key: u64) -> u64 {
        let made: Option<Map<u64, u64, N>> = Map::from_all((0..N as u64).map(|index| (key_of(index, first), index)));
        match made {
            Some(map) => map.found(key),
            None => u64::MAX,
        }
    }
}

impl<const N: usize> Both for Map<u64, u64, N> {
    #[inline]
    fn is_same(&self, other: &Self) -> bool {
        self.eq_with(other)
    }

    #[inline]
    fn put_all(&mut self, other: &Self) {
        let _full = self.try_extend_from(other);
    }
}

impl<const N: usize> Texts for Map<String, u64, N> {
    #[inline]
    fn empty() -> Self {
        Map::new()
    }

    #[inline]
    fn put(&mut self, memory: Global, key: &str, value: u64) {
        if let Ok(text) = String::from_str(memory, key) {
            self.checked_insert(text, value);
        }
    }

    #[inline]
    fn find(&self, key: &str) -> Option<u64> {
        self.get_by(&Text(key)).copied()
    }

    #[inline]
    fn count(&self) -> u64 {
        self.len() as u64
    }
}

bytes_at! { Set<u8, N>,
    #[inline]
    fn join_and_find(&self, other: &Self, item: u8) -> u64 {
        let made: Result<Set<u8, N>, Overfull> = Set::try_from_iter(self.union(other).copied());
        match made {
            Ok(set) => (set.has(item) as u64).wrapping_add(set.count()),
            Err(_) => u64::MAX,
        }
    }
}

wide_at! { Map<u64, [u64; 3], N> }
