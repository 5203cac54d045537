//! The workloads' calls at the Rust crate's map and set.

use crate::both::Both;
use crate::bytes::Bytes;
use crate::calls::{bytes_at, numbers_at, wide_at};
use crate::inputs::key_of;
use crate::numbers::Numbers;
use crate::platform::Global;
use crate::texts::Texts;
use crate::wide::Wide;
use micromap::{Map, Set};

/// The calls at a map of Rust, but for those that follow it.
macro_rules! map_in_rust {
    ($map:ident, $($own:tt)*) => {
        numbers_at! { $map<u64, u64, N>,
            #[inline]
            fn clone_and_find(&self, key: u64) -> u64 {
                self.clone().found(key)
            }

            #[inline]
            fn collect_and_find(&self, _memory: Global, _room: u64, first: u64, key: u64) -> u64 {
                let map: Self = (0..N as u64).map(|index| (key_of(index, first), index)).collect();
                map.found(key)
            }

            $($own)*
        }

        impl<const N: usize> Texts for $map<String, u64, N> {
            #[inline]
            fn empty() -> Self {
                Self::new()
            }

            #[inline]
            fn put(&mut self, _memory: Global, key: &str, value: u64) {
                self.checked_insert(String::from(key), value);
            }

            #[inline]
            fn find(&self, key: &str) -> Option<u64> {
                self.get(key).copied()
            }

            #[inline]
            fn count(&self) -> u64 {
                self.len() as u64
            }
        }

        wide_at! { $map<u64, [u64; 3], N> }
    };
}

pub(crate) use map_in_rust;

map_in_rust! { Map,
    // At a full map the Rust crate panics, so it needs no test for room.
    #[inline]
    fn note(&mut self, key: u64) {
        self.entry(key).and_modify(|times| *times = times.wrapping_add(1)).or_insert(1);
    }

    #[inline]
    fn total(&self) -> u64 {
        let mut sum = 0u64;
        for (_, value) in self.iter() {
            sum = sum.wrapping_add(*value);
        }
        sum
    }
}

impl<const N: usize> Both for Map<u64, u64, N> {
    #[inline]
    fn is_same(&self, other: &Self) -> bool {
        self == other
    }

    #[inline]
    fn put_all(&mut self, other: &Self) {
        for (key, value) in other {
            self.insert(*key, *value);
        }
    }
}

bytes_at! { Set<u8, N>,
    #[inline]
    fn join_and_find(&self, other: &Self, item: u8) -> u64 {
        let set: Self = self.union(other).copied().collect();
        (set.has(item) as u64).wrapping_add(set.count())
    }
}
