//! Workloads on maps of numbers.
use crate::inputs::{SEED, below, beyond, in_rounds, in_states, key_of, next, odd, value_of};
use crate::platform::{Drop, Global};

/// A map of numbers with room for a few keys.
pub trait Numbers: Drop {
    /// A new map with room for `room` keys.
    fn with_room(memory: Global, room: u64) -> Self;

    /// Stores a value at a key, and returns the value that stood there.
    fn put(&mut self, key: u64, value: u64) -> Option<u64>;

    /// The value at a key.
    fn find(&self, key: u64) -> Option<u64>;

    /// Removes a key, and returns its value.
    fn take_out(&mut self, key: u64) -> Option<u64>;

    /// Keeps the keys that have the bit `bit` once `first` is added, in one call where there is one.
    fn keep_half(&mut self, first: u64, bit: u64);

    /// Adds 1 to the value at a key by its entry, or stores 1 where the key is new.
    fn note(&mut self, key: u64);

    /// The sum of all values.
    fn total(&self) -> u64;

    /// The number of keys.
    fn count(&self) -> u64;

    /// The value at a key, or 0, plus the number of keys.
    #[inline]
    fn found(&self, key: u64) -> u64 {
        self.find(key).unwrap_or(0).wrapping_add(self.count())
    }

    /// Clones the map, and looks a key up in the clone by `found`.
    fn clone_and_find(&self, key: u64) -> u64;

    /// The same with a call that copies pairs that are `Copy`, where there is one.
    #[inline]
    fn copy_and_find(&self, key: u64) -> u64 {
        self.clone_and_find(key)
    }

    /// Makes another map of `room` pairs, by a call that takes an iterator where there is one, and looks a key up in it by
    /// `found`. Each pair is the key of an index from the odd number `first`, and that index.
    #[inline]
    fn collect_and_find(&self, memory: Global, room: u64, first: u64, key: u64) -> u64 {
        let mut map = Self::with_room(memory, room);
        for index in 0..room {
            let _old = map.put(key_of(index, first), index);
        }
        map.found(key)
    }

    /// The same with a call that takes all items, or makes no map if they don't fit, where there is one.
    #[inline]
    fn all_and_find(&self, memory: Global, room: u64, first: u64, key: u64) -> u64 {
        self.collect_and_find(memory, room, first, key)
    }

    /// The same with a call that takes an array, where there is one.
    #[inline]
    fn from_array_and_find(&self, memory: Global, room: u64, first: u64, key: u64) -> u64 {
        self.collect_and_find(memory, room, first, key)
    }
}

/// A full map, in which each index with the salt has a value.
#[inline(never)]
pub fn filled<M: Numbers, const N: usize>(memory: Global, salt: u64) -> M {
    let mut map = M::with_room(memory, N as u64);
    for index in 0..N as u64 {
        let _old = map.put(index ^ salt, value_of(index));
    }
    map
}

#[inline(never)]
fn get_hit<M: Numbers, const N: usize>(memory: Global, salt: u64, rounds: u64) -> u64 {
    let map: M = filled::<M, N>(memory, salt);
    in_states!(rounds, |state, sum| map.find(below::<N>(state) ^ salt).unwrap_or(0))
}

#[inline(never)]
fn get_miss<M: Numbers, const N: usize>(memory: Global, salt: u64, rounds: u64) -> u64 {
    let map: M = filled::<M, N>(memory, salt);
    in_states!(rounds, |state, sum| map.find(beyond(state)).is_some() as u64)
}

#[inline(never)]
fn overwrite<M: Numbers, const N: usize>(memory: Global, salt: u64, rounds: u64) -> u64 {
    let mut map: M = filled::<M, N>(memory, salt);
    in_states!(rounds, |state, sum| map.put(below::<N>(state) ^ salt, state).unwrap_or(0))
}

#[inline(never)]
fn fill<M: Numbers, const N: usize>(memory: Global, salt: u64, rounds: u64) -> u64 {
    in_rounds!(rounds, |round, sum| {
        let first = odd(round, salt);
        let mut map: M = M::with_room(memory, N as u64);
        for index in 0..N as u64 {
            let _old = map.put(key_of(index, first), round);
        }
        (map.find(sum).is_some() as u64).wrapping_add(map.count())
    })
}

#[inline(never)]
fn put_back<M: Numbers, const N: usize>(memory: Global, salt: u64, rounds: u64) -> u64 {
    let mut map: M = filled::<M, N>(memory, salt);
    in_states!(rounds, |state, sum| {
        let key = below::<N>(state) ^ salt;
        let value = map.take_out(key).unwrap_or(0);
        let _old = map.put(key, value);
        value
    })
}

// Keeps half of the keys, from another one on in each round, and puts the others back.
#[inline(never)]
fn retain<M: Numbers, const N: usize>(memory: Global, salt: u64, rounds: u64) -> u64 {
    let mut map: M = filled::<M, N>(memory, salt);
    let bit = (N as u64) >> 1;
    in_states!(rounds, |state, sum| {
        let first = below::<N>(state);
        map.keep_half(first, bit);
        let kept = map.count();
        for index in 0..N as u64 {
            let key = index ^ salt;
            if key.wrapping_add(first) & bit == 0 {
                let _old = map.put(key, state);
            }
        }
        kept
    })
}

// Counts four times as many keys as there is room for, from a new map.
#[inline(never)]
fn count_keys<M: Numbers, const N: usize>(memory: Global, salt: u64, rounds: u64) -> u64 {
    let mut state = SEED ^ salt;
    in_rounds!(rounds, |_round, sum| {
        let mut map: M = M::with_room(memory, N as u64);
        for _ in 0..(N as u64) << 2 {
            state = next(state);
            map.note(below::<N>(state));
        }
        map.found(1)
    })
}

#[inline(never)]
fn walk<M: Numbers, const N: usize>(memory: Global, salt: u64, rounds: u64) -> u64 {
    let mut map: M = filled::<M, N>(memory, salt);
    in_rounds!(rounds, |round, sum| {
        let _old = map.put(salt, round);
        map.total()
    })
}

#[inline(never)]
fn cloned<M: Numbers, const N: usize>(memory: Global, salt: u64, rounds: u64) -> u64 {
    let mut map: M = filled::<M, N>(memory, salt);
    in_rounds!(rounds, |round, sum| {
        let _old = map.put(salt, round);
        map.clone_and_find(salt)
    })
}

#[inline(never)]
fn copied<M: Numbers, const N: usize>(memory: Global, salt: u64, rounds: u64) -> u64 {
    let mut map: M = filled::<M, N>(memory, salt);
    in_rounds!(rounds, |round, sum| {
        let _old = map.put(salt, round);
        map.copy_and_find(salt)
    })
}

#[inline(never)]
fn collect<M: Numbers, const N: usize>(memory: Global, salt: u64, rounds: u64) -> u64 {
    let map: M = M::with_room(memory, 0);
    in_rounds!(rounds, |round, sum| map.collect_and_find(memory, N as u64, odd(round, salt), sum))
}

#[inline(never)]
fn collect_all<M: Numbers, const N: usize>(memory: Global, salt: u64, rounds: u64) -> u64 {
    let map: M = M::with_room(memory, 0);
    in_rounds!(rounds, |round, sum| map.all_and_find(memory, N as u64, odd(round, salt), sum))
}

#[inline(never)]
fn from_array<M: Numbers, const N: usize>(memory: Global, salt: u64, rounds: u64) -> u64 {
    let map: M = M::with_room(memory, 0);
    in_rounds!(rounds, |round, sum| map.from_array_and_find(memory, N as u64, odd(round, salt), sum))
}

#[inline(never)]
fn with_one<M: Numbers, const N: usize>(memory: Global, key: u64) -> M {
    let mut map = M::with_room(memory, N as u64);
    let _old = map.put(key, key);
    map
}

#[inline(never)]
fn consumed<M: Numbers>(map: M, key: u64) -> u64 {
    map.find(key).unwrap_or(0)
}

#[inline(never)]
fn hand_on<M: Numbers, const N: usize>(memory: Global, salt: u64, rounds: u64) -> u64 {
    in_rounds!(rounds, |round, sum| {
        let key = round ^ salt;
        let map: M = with_one::<M, N>(memory, key);
        consumed(map, key)
    })
}

/// The names of the workloads, by their numbers.
pub const NAMES: [&'static str; 14] = [
    "get, hit",
    "get, miss",
    "overwrite",
    "new and fill",
    "remove and put back",
    "retain half and put back",
    "count by entries",
    "walk",
    "clone",
    "copied",
    "from an iterator",
    "of all items",
    "from an array",
    "put one, hand on",
];

/// Runs a workload for some rounds at maps with room for `N` keys.
pub fn run<M: Numbers, const N: usize>(
    memory: Global,
    workload: u64,
    salt: u64,
    rounds: u64,
) -> u64 {
    match workload {
        0 => get_hit::<M, N>(memory, salt, rounds),
        1 => get_miss::<M, N>(memory, salt, rounds),
        2 => overwrite::<M, N>(memory, salt, rounds),
        3 => fill::<M, N>(memory, salt, rounds),
        4 => put_back::<M, N>(memory, salt, rounds),
        5 => retain::<M, N>(memory, salt, rounds),
        6 => count_keys::<M, N>(memory, salt, rounds),
        7 => walk::<M, N>(memory, salt, rounds),
        8 => cloned::<M, N>(memory, salt, rounds),
        9 => copied::<M, N>(memory, salt, rounds),
        10 => collect::<M, N>(memory, salt, rounds),
        11 => collect_all::<M, N>(memory, salt, rounds),
        12 => from_array::<M, N>(memory, salt, rounds),
        13 => hand_on::<M, N>(memory, salt, rounds),
        _ => u64::MAX,
    }
}
