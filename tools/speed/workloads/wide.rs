//! A workload on maps of numbers to values of 24 bytes.
use crate::inputs::{below, in_states, value_of};
use crate::platform::{Drop, Global};

/// A map from numbers to wide values with room for a few keys.
pub trait Wide: Drop {
    /// A new map.
    fn empty() -> Self;

    /// Stores a value at a key, and returns the value that stood there.
    fn put(&mut self, key: u64, value: [u64; 3]) -> Option<[u64; 3]>;
}

#[inline(never)]
fn filled<M: Wide, const N: usize>(salt: u64) -> M {
    let mut map = M::empty();
    for index in 0..N as u64 {
        let _new = map.put(index ^ salt, [value_of(index), salt, index]);
    }
    map
}

#[inline(never)]
fn overwrite<M: Wide, const N: usize>(salt: u64, rounds: u64) -> u64 {
    let mut map: M = filled::<M, N>(salt);
    in_states!(rounds, |state, sum| {
        let old = map.put(below::<N>(state) ^ salt, [state, sum, salt]).unwrap_or([0; 3]);
        old[0].wrapping_add(old[2])
    })
}

/// The names of the workloads, by their numbers.
pub const NAMES: [&'static str; 1] = ["overwrite"];

/// Runs a workload for some rounds at maps with room for `N` keys.
pub fn run<M: Wide, const N: usize>(_memory: Global, workload: u64, salt: u64, rounds: u64) -> u64 {
    match workload {
        0 => overwrite::<M, N>(salt, rounds),
        _ => u64::MAX,
    }
}
