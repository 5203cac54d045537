//! Workloads on two maps of numbers.
use crate::inputs::{in_rounds, odd};
use crate::numbers::{Numbers, filled};
use crate::platform::Global;

/// A map of numbers that is compared with another, or has another put into it.
pub trait Both: Numbers {
    /// Whether another map has the same keys with the same values.
    fn is_same(&self, other: &Self) -> bool;

    /// Puts all pairs of another map into this one, by one call where there is one.
    fn put_all(&mut self, other: &Self);
}

#[inline(never)]
fn compare<M: Both, const N: usize>(memory: Global, salt: u64, rounds: u64) -> u64 {
    let mut first: M = filled::<M, N>(memory, salt);
    let mut second: M = filled::<M, N>(memory, salt);
    in_rounds!(rounds, |round, sum| {
        let _old = first.put(salt, round);
        let _old = second.put(salt, round);
        first.is_same(&second) as u64
    })
}

// Puts a full map into a new one.
#[inline(never)]
fn put_whole<M: Both, const N: usize>(memory: Global, salt: u64, rounds: u64) -> u64 {
    let mut from: M = filled::<M, N>(memory, salt);
    in_rounds!(rounds, |round, sum| {
        let _old = from.put(salt, odd(round, salt));
        let mut map = M::with_room(memory, N as u64);
        map.put_all(&from);
        map.found(salt)
    })
}

/// The names of the workloads, by their numbers.
pub const NAMES: [&'static str; 2] = ["eq_with", "try_extend_from"];

/// Runs a workload for some rounds at maps with room for `N` keys.
pub fn run<M: Both, const N: usize>(memory: Global, workload: u64, salt: u64, rounds: u64) -> u64 {
    match workload {
        0 => compare::<M, N>(memory, salt, rounds),
        1 => put_whole::<M, N>(memory, salt, rounds),
        _ => u64::MAX,
    }
}
