//! Workloads on sets of bytes.
use crate::inputs::{below, in_rounds, in_states, odd};
use crate::platform::{Drop, Global};

/// A set of bytes with room for a few items.
pub trait Bytes: Drop {
    /// A new set.
    fn empty() -> Self;

    /// Adds an item.
    fn put(&mut self, item: u8);

    /// Whether an item is there.
    fn has(&self, item: u8) -> bool;

    /// The sum of all items, each with the bits of `mask` flipped.
    fn total(&self, mask: u64) -> u64;

    /// The number of items.
    fn count(&self) -> u64;

    /// Keeps the items that have the bit `bit` once `first` is added.
    fn keep_half(&mut self, first: u8, bit: u8);

    /// Makes the set of the union with another set, and returns whether it has an item, plus the number of its items.
    fn join_and_find(&self, other: &Self, item: u8) -> u64;

    /// The sum of the items that another set lacks, and of those that it has, each with the bits of `mask` flipped.
    fn total_apart_and_common(&self, other: &Self, mask: u64) -> u64;
}

// The byte of an index: below 128, and another for each index below 128.
#[inline]
fn byte(index: u64, salt: u64) -> u8 {
    ((index ^ salt) & 127) as u8
}

#[inline(never)]
fn filled<S: Bytes, const N: usize>(salt: u64) -> S {
    let mut set = S::empty();
    for index in 0..N as u64 {
        set.put(byte(index, salt));
    }
    set
}

#[inline(never)]
fn contains_miss<S: Bytes, const N: usize>(salt: u64, rounds: u64) -> u64 {
    let set: S = filled::<S, N>(salt);
    in_states!(rounds, |state, sum| set.has(byte(below::<N>(state), salt) | 128) as u64)
}

#[inline(never)]
fn fill<S: Bytes, const N: usize>(salt: u64, rounds: u64) -> u64 {
    in_rounds!(rounds, |round, sum| {
        let first = odd(round, salt);
        let mut set: S = S::empty();
        for index in 0..N as u64 {
            set.put(byte(index.wrapping_mul(first), salt));
        }
        (set.has(byte(sum, salt)) as u64).wrapping_add(set.count())
    })
}

// Each round has another sum, so that none can be taken over from the one before.
#[inline(never)]
fn walk<S: Bytes, const N: usize>(salt: u64, rounds: u64) -> u64 {
    let set: S = filled::<S, N>(salt);
    in_rounds!(rounds, |round, sum| set.total(round))
}

// Keeps half of the items, from another one on in each round, and puts the others back.
#[inline(never)]
fn retain<S: Bytes, const N: usize>(salt: u64, rounds: u64) -> u64 {
    let mut set: S = filled::<S, N>(salt);
    let bit = byte((N as u64) >> 1, 0);
    in_states!(rounds, |state, sum| {
        let first = byte(below::<N>(state), 0);
        set.keep_half(first, bit);
        let kept = set.count();
        for index in 0..N as u64 {
            let item = byte(index, salt);
            if item.wrapping_add(first) & bit == 0 {
                set.put(item);
            }
        }
        kept
    })
}

// A set that has half as many items as there is room for, from another index on.
#[inline(never)]
fn half_filled<S: Bytes, const N: usize>(from: u64, salt: u64) -> S {
    let mut set = S::empty();
    for index in 0..(N as u64) >> 1 {
        set.put(byte(index.wrapping_add(from), salt));
    }
    set
}

// The union of two sets that have half as many items as there is room for, some of them in both.
#[inline(never)]
fn union<S: Bytes, const N: usize>(salt: u64, rounds: u64) -> u64 {
    let first: S = half_filled::<S, N>(0, salt);
    let second: S = half_filled::<S, N>((N as u64) >> 2, salt);
    in_rounds!(rounds, |_round, sum| first.join_and_find(&second, byte(sum, salt)))
}

// The difference and the intersection of such sets, item by item.
#[inline(never)]
fn walk_apart_and_common<S: Bytes, const N: usize>(salt: u64, rounds: u64) -> u64 {
    let first: S = half_filled::<S, N>(0, salt);
    let second: S = half_filled::<S, N>((N as u64) >> 2, salt);
    in_rounds!(rounds, |round, sum| first.total_apart_and_common(&second, round))
}

/// The names of the workloads, by their numbers.
pub const NAMES: [&'static str; 6] = [
    "new and fill",
    "contains, miss",
    "walk",
    "retain half and put back",
    "set of a union",
    "walk a difference, an intersection",
];

/// Runs a workload for some rounds at sets with room for `N` items.
pub fn run<S: Bytes, const N: usize>(
    _memory: Global,
    workload: u64,
    salt: u64,
    rounds: u64,
) -> u64 {
    match workload {
        0 => fill::<S, N>(salt, rounds),
        1 => contains_miss::<S, N>(salt, rounds),
        2 => walk::<S, N>(salt, rounds),
        3 => retain::<S, N>(salt, rounds),
        4 => union::<S, N>(salt, rounds),
        5 => walk_apart_and_common::<S, N>(salt, rounds),
        _ => u64::MAX,
    }
}
