//! Workloads on maps with texts as keys, looked up by a borrowed text.
use crate::inputs::{below, in_rounds, in_states, value_of, word};
use crate::platform::{Drop, Global};

/// A map from texts to numbers with room for a few keys.
pub trait Texts: Drop {
    /// A new map.
    fn empty() -> Self;

    /// Stores a value at a copy of a text.
    fn put(&mut self, memory: Global, key: &str, value: u64);

    /// The value at a text.
    fn find(&self, key: &str) -> Option<u64>;

    /// The number of keys.
    fn count(&self) -> u64;
}

#[inline(never)]
fn filled<M: Texts, const N: usize>(memory: Global, salt: u64) -> M {
    let mut map = M::empty();
    for index in 0..N as u64 {
        map.put(memory, word(index ^ salt), value_of(index));
    }
    map
}

#[inline(never)]
fn get_hit<M: Texts, const N: usize>(memory: Global, salt: u64, rounds: u64) -> u64 {
    let map: M = filled::<M, N>(memory, salt);
    in_states!(rounds, |state, sum| map.find(word(below::<N>(state) ^ salt)).unwrap_or(0))
}

#[inline(never)]
fn fill<M: Texts, const N: usize>(memory: Global, salt: u64, rounds: u64) -> u64 {
    in_rounds!(rounds, |round, sum| {
        let mut map: M = M::empty();
        for index in 0..N as u64 {
            map.put(memory, word(index ^ salt), round);
        }
        (map.find(word(sum ^ salt)).is_some() as u64).wrapping_add(map.count())
    })
}

/// The names of the workloads, by their numbers.
pub const NAMES: [&'static str; 2] = ["get, hit", "new and fill"];

/// Runs a workload for some rounds at maps with room for `N` keys.
pub fn run<M: Texts, const N: usize>(memory: Global, workload: u64, salt: u64, rounds: u64) -> u64 {
    match workload {
        0 => get_hit::<M, N>(memory, salt, rounds),
        1 => fill::<M, N>(memory, salt, rounds),
        _ => u64::MAX,
    }
}
