//! The workloads' calls at the standard library's `HashMap`, which keeps no order, and at the kit's `IndexMap`, which keeps
//! that of insertion, also in a removal.
use crate::numbers::Numbers;
use indexmap::IndexMap;
use std::alloc::Global;
use std::collections::HashMap;

macro_rules! numbers_at {
    ($map:ident, $remove:ident) => {
        impl Numbers for $map<u64, u64> {
            #[inline]
            fn with_room(memory: Global, room: u64) -> Self {
                match $map::with_capacity(memory, room as usize) {
                    Ok(map) => map,
                    Err(_) => $map::new(memory),
                }
            }

            #[inline]
            fn put(&mut self, key: u64, value: u64) -> Option<u64> {
                match self.insert(key, value) {
                    Ok(old) => old,
                    Err(_) => None,
                }
            }

            #[inline]
            fn find(&self, key: u64) -> Option<u64> {
                self.get(&key).copied()
            }

            #[inline]
            fn take_out(&mut self, key: u64) -> Option<u64> {
                self.$remove(&key)
            }

            #[inline]
            fn keep_half(&mut self, first: u64, bit: u64) {
                self.retain(|key, _value| key.wrapping_add(first) & bit != 0);
            }

            #[inline]
            fn note(&mut self, key: u64) {
                if let Ok(entry) = self.entry(key) {
                    entry.and_modify(|times| *times = times.wrapping_add(1)).or_insert(1);
                }
            }

            #[inline]
            fn total(&self) -> u64 {
                let mut sum = 0u64;
                for value in self.values() {
                    sum = sum.wrapping_add(*value);
                }
                sum
            }

            #[inline]
            fn count(&self) -> u64 {
                self.len() as u64
            }

            #[inline]
            fn clone_and_find(&self, key: u64) -> u64 {
                match self.clone() {
                    Ok(copy) => copy.found(key),
                    Err(_) => u64::MAX,
                }
            }
        }
    };
}

numbers_at!(HashMap, remove);
numbers_at!(IndexMap, shift_remove);
