//! Workloads over this library's map and set, for the driver in `tools/speed` that times them beside the Rust crate's.
//! `tools/compare` makes a crate of these files, which end in `.rs` since the gate reads every `.rt` file.
//!
//! `inputs`, `calls` and the files of workloads (`both`, `bytes`, `numbers`, `texts` and `wide`) have no clause and are Rust
//! as well: the driver compiles the same files. `library` has the workloads' calls at this library's types, and `hash_maps`
//! at types that a user might take in their place. A workload is proved to be safe and to end. The driver compares what it
//! returns. `tests` runs each without proof.
//!
//! A new workload has a function in the file of its trait, an arm in `run` and a name in `NAMES`. A method that the trait
//! lacks is added to each type that implements it, unless it has a default: in `calls.rs`, or else in `library.rs`,
//! `tools/speed/rust_crate.rs` and `tools/speed/layout.rs`, and for numbers in `hash_maps.rs`.
//!
//! A new type has a `mod` and an arm here, and its library in `LINE` of `tools/compare`; a line in `tests.rs`; a number in
//! the table of `tools/speed/main.rs`, and a name at the same place in `RIVALS` of `tools/pages/speed.py`. The head and the
//! other rows of the README's table get it by hand. A type in Rust is an argument of `subject!` in `main.rs`, and has a
//! place in `measured`.
//!
//! Then `tools/compare --check` passes, the figures are recorded anew, and SPEED says what a new workload does.
#![tactic(auto)]

ghost use Rattle.std.specs.Prelude.{◌≤◌};

pub mod both;
pub mod bytes;
mod calls;
mod hash_maps;
pub mod inputs;
mod library;
pub mod numbers;
pub mod platform;
#[cfg(test)]
mod tests;
pub mod texts;
pub mod wide;

use indexmap::IndexMap;
use micromap::{Map, Set};
use std::alloc::Global;
use std::collections::HashMap;
use std::mem;

type NumberMap<const N: usize> = Map<u64, u64, N>;

type ByteSet<const N: usize> = Set<u8, N>;

type TextMap<const N: usize> = Map<String, u64, N>;

type WideMap<const N: usize> = Map<u64, [u64; 3], N>;

/// Runs a workload of a subject for some rounds at a capacity, and returns a sum of what it found; the greatest number
/// where there is no such workload. The salt is 0, which no compiler can know, nor so the keys.
#[unsafe(no_mangle)]
pub extern "C" fn micromap_speed(
    memory: Global,
    subject: u64,
    workload: u64,
    capacity: u64,
    salt: u64,
    rounds: u64,
) -> u64 {
    match capacity {
        2 => run::<2>(memory, subject, workload, salt, rounds),
        4 => run::<4>(memory, subject, workload, salt, rounds),
        8 => run::<8>(memory, subject, workload, salt, rounds),
        16 => run::<16>(memory, subject, workload, salt, rounds),
        32 => run::<32>(memory, subject, workload, salt, rounds),
        64 => run::<64>(memory, subject, workload, salt, rounds),
        _ => u64::MAX,
    }
}

fn run<const N: usize>(memory: Global, subject: u64, workload: u64, salt: u64, rounds: u64) -> u64
    requires { N ≤ 1024 }
{
    match subject {
        0 => numbers::run::<NumberMap<N>, N>(memory, workload, salt, rounds),
        1 => numbers::run::<IndexMap<u64, u64>, N>(memory, workload, salt, rounds),
        2 => numbers::run::<HashMap<u64, u64>, N>(memory, workload, salt, rounds),
        3 => bytes::run::<ByteSet<N>, N>(memory, workload, salt, rounds),
        4 => texts::run::<TextMap<N>, N>(memory, workload, salt, rounds),
        5 => wide::run::<WideMap<N>, N>(memory, workload, salt, rounds),
        6 => both::run::<NumberMap<N>, N>(memory, workload, salt, rounds),
        _ => u64::MAX,
    }
}

macro_rules! size_at {
    ($capacity:expr, $subject:ident) => {
        match $capacity {
            2 => mem::size_of::<$subject<2>>(),
            4 => mem::size_of::<$subject<4>>(),
            8 => mem::size_of::<$subject<8>>(),
            16 => mem::size_of::<$subject<16>>(),
            32 => mem::size_of::<$subject<32>>(),
            64 => mem::size_of::<$subject<64>>(),
            _ => 0,
        }
    };
}

/// The size in bytes of one of this library's types at a capacity; 0 where there is none.
#[unsafe(no_mangle)]
pub extern "C" fn micromap_speed_size(subject: u64, capacity: u64) -> u64 {
    let size = match subject {
        0 => size_at!(capacity, NumberMap),
        3 => size_at!(capacity, ByteSet),
        4 => size_at!(capacity, TextMap),
        5 => size_at!(capacity, WideMap),
        _ => 0,
    };
    size as u64
}
