//! The workloads' calls at a map and at a set that have the calls of the Rust crate, but for those that each of them has in
//! another form, which follow the type.

macro_rules! numbers_at {
    ($map:ty, $($own:tt)*) => {
        impl<const N: usize> Numbers for $map {
            #[inline]
            fn with_room(_memory: Global, _room: u64) -> Self {
                Self::new()
            }

            #[inline]
            fn put(&mut self, key: u64, value: u64) -> Option<u64> {
                match self.checked_insert(key, value) {
                    Some(old) => old,
                    None => None,
                }
            }

            #[inline]
            fn find(&self, key: u64) -> Option<u64> {
                self.get(&key).copied()
            }

            #[inline]
            fn take_out(&mut self, key: u64) -> Option<u64> {
                self.remove(&key)
            }

            #[inline]
            fn keep_half(&mut self, first: u64, bit: u64) {
                self.retain(|key, _value| key.wrapping_add(first) & bit != 0);
            }

            #[inline]
            fn count(&self) -> u64 {
                self.len() as u64
            }

            #[inline]
            fn from_array_and_find(&self, _memory: Global, _room: u64, first: u64, key: u64) -> u64 {
                let mut pairs = [(0u64, 0u64); N];
                for index in 0..N {
                    pairs[index] = (key_of(index as u64, first), index as u64);
                }
                Self::from(pairs).found(key)
            }

            $($own)*
        }
    };
}

macro_rules! bytes_at {
    ($set:ty, $($own:tt)*) => {
        impl<const N: usize> Bytes for $set {
            #[inline]
            fn empty() -> Self {
                Self::new()
            }

            #[inline]
            fn put(&mut self, item: u8) {
                self.checked_insert(item);
            }

            #[inline]
            fn has(&self, item: u8) -> bool {
                self.contains(&item)
            }

            #[inline]
            fn total(&self, mask: u64) -> u64 {
                let mut sum = 0u64;
                for item in self.iter() {
                    sum = sum.wrapping_add(*item as u64 ^ mask);
                }
                sum
            }

            #[inline]
            fn count(&self) -> u64 {
                self.len() as u64
            }

            #[inline]
            fn keep_half(&mut self, first: u8, bit: u8) {
                self.retain(|item| item.wrapping_add(first) & bit != 0);
            }

            #[inline]
            fn total_apart_and_common(&self, other: &Self, mask: u64) -> u64 {
                let mut sum = 0u64;
                for item in self.difference(other) {
                    sum = sum.wrapping_add(*item as u64 ^ mask);
                }
                for item in self.intersection(other) {
                    sum = sum.wrapping_add(*item as u64 ^ mask);
                }
                sum
            }

            $($own)*
        }
    };
}

macro_rules! wide_at {
    ($map:ty) => {
        impl<const N: usize> Wide for $map {
            #[inline]
            fn empty() -> Self {
                Self::new()
            }

            #[inline]
            fn put(&mut self, key: u64, value: [u64; 3]) -> Option<[u64; 3]> {
                match self.checked_insert(key, value) {
                    Some(old) => old,
                    None => None,
                }
            }
        }
    };
}

pub(crate) use {bytes_at, numbers_at, wide_at};
