//! Times `workloads` at the Rust crate, at the static library that is made of that folder and at `layout`, in turns, and
//! prints lines of words with tabs between them, for `tools/compare` to make its tables of. Its arguments are the number of
//! turns, and words of the workloads that are timed, as `numbers: get, hit`:
//!
//!     time  SUBJECT  WORKLOAD  CAPACITY  NANOSECONDS  RATIO..
//!     size  TYPE  CAPACITY  BYTES  BYTES
//!
//! The nanoseconds are those of a round at the Rust crate. The ratios are the times over the Rust crate's of this library,
//! of its layout in `unsafe` Rust and, for numbers, of `IndexMap` and `HashMap`. Each figure is a median over the turns. A
//! `~` follows a ratio if the medians over the first half of the turns and over the second differ by more than a tenth. The
//! bytes are this library's and the Rust crate's.

mod layout;
mod rust_crate;
// The files of the static library, so that both sides run the same text.
mod workloads {
    pub mod both;
    pub mod bytes;
    pub mod calls;
    pub mod inputs;
    pub mod numbers;
    pub mod texts;
    pub mod wide;
}

/// What the workloads take from the language, in the place of the module of that name in `workloads`.
mod platform {
    /// Rust's own allocator, which isn't handed on.
    #[derive(Clone, Copy)]
    pub struct Global;

    /// Any value of Rust may be dropped.
    pub trait Drop: Sized {}

    impl<T> Drop for T {}
}

use layout::Columns;
use micromap::{Map, Set};
use platform::Global;
use std::hint::black_box;
use std::mem::size_of;
use std::time::Instant;
use workloads::*;

extern "C" {
    fn micromap_speed(subject: u64, workload: u64, capacity: u64, salt: u64, rounds: u64) -> u64;
    fn micromap_speed_size(subject: u64, capacity: u64) -> u64;
}

/// What an expression is at each capacity `N`.
macro_rules! at_each_capacity {
    ($what:expr) => {
        at_each_capacity!($what, 2, 4, 8, 16, 32, 64)
    };
    ($what:expr, $($capacity:literal),*) => {
        [$({
            const N: usize = $capacity;
            $what
        }),*]
    };
}

const CAPACITIES: [u64; 6] = at_each_capacity!(N as u64);

/// Runs a workload, by its number, with a salt for some rounds.
type Run = fn(Global, u64, u64, u64) -> u64;

struct Subject {
    name: &'static str,
    type_name: &'static str,
    workloads: &'static [&'static str],
    /// The subjects of the static library that are compared, by their numbers there: first this library's own.
    rivals: &'static [u64],
    /// The Rust crate's, at each capacity.
    runs: [Run; 6],
    /// Those of this library's layout.
    layout_runs: [Run; 6],
    sizes: [usize; 6],
}

macro_rules! subject {
    ($name:literal, $workloads:ident, $map:ty, $columns:ty, $rivals:expr) => {
        Subject {
            name: $name,
            type_name: stringify!($map),
            workloads: &$workloads::NAMES,
            rivals: &$rivals,
            runs: at_each_capacity!($workloads::run::<$map, N>),
            layout_runs: at_each_capacity!($workloads::run::<$columns, N>),
            sizes: at_each_capacity!(size_of::<$map>()),
        }
    };
}

fn subjects() -> [Subject; 5] {
    [
        subject!("numbers", numbers, Map<u64, u64, N>, Columns<u64, u64, N>, [0, 1, 2]),
        subject!("two maps", both, Map<u64, u64, N>, Columns<u64, u64, N>, [6]),
        subject!("set of bytes", bytes, Set<u8, N>, Columns<u8, (), N>, [3]),
        subject!("texts", texts, Map<String, u64, N>, Columns<String, u64, N>, [4]),
        subject!("24-byte values", wide, Map<u64, [u64; 3], N>, Columns<u64, [u64; 3], N>, [5]),
    ]
}

/// The seconds that a call takes, and its result.
fn timed(run: impl FnOnce() -> u64) -> (f64, u64) {
    let start = Instant::now();
    let result = black_box(run());
    (start.elapsed().as_secs_f64(), result)
}

fn median(figures: &[f64]) -> f64 {
    let mut figures = figures.to_vec();
    figures.sort_by(f64::total_cmp);
    figures[figures.len() / 2]
}

/// The median of some ratios, with a mark if it differs between both halves of the turns.
fn marked(ratios: &[f64]) -> String {
    let (first, second) = ratios.split_at(ratios.len() / 2);
    let differs = !first.is_empty() && (median(first) / median(second)).ln().abs() > 1.1f64.ln();
    format!("{:.4}{}", median(ratios), if differs { "~" } else { "" })
}

/// A workload at one capacity, over a number of rounds.
type Rounds = Box<dyn Fn(u64) -> u64>;

/// How many rounds take about half a millisecond.
fn enough_rounds(run: &Rounds) -> u64 {
    let mut rounds = 16;
    while timed(|| run(rounds)).0 <= 0.0005 {
        rounds *= 2;
    }
    rounds
}

/// The seconds of some runs in each turn, and the number of their rounds. Each turn starts with another run. Fails where
/// they don't all return the same.
fn in_turns(runs: &[Rounds], turns: usize, name: &str) -> (Vec<Vec<f64>>, f64) {
    let rounds = enough_rounds(&runs[0]);
    let expected = runs[0](rounds);
    let turn = |turn: usize| {
        let mut seconds = vec![0.0; runs.len()];
        for step in 0..runs.len() {
            let which = (turn + step) % runs.len();
            let (time, result) = timed(|| runs[which](black_box(rounds)));
            assert_eq!(result, expected, "{name}: run {which}");
            seconds[which] = time;
        }
        seconds
    };
    ((0..turns).map(turn).collect(), rounds as f64)
}

/// A workload at one capacity: the Rust crate's nanoseconds for a round, and the ratio of each rival's time to its.
fn measured(subject: &Subject, workload: usize, at: usize, turns: usize) -> (f64, Vec<String>) {
    let (number, capacity) = (workload as u64, CAPACITIES[at]);
    let in_rust = |run: Run| Box::new(move |rounds| run(Global, number, black_box(0), rounds)) as Rounds;
    // SAFETY: it is a function over numbers alone, which asks nothing of its caller.
    let linked = |rival| Box::new(move |rounds| unsafe { micromap_speed(rival, number, capacity, black_box(0), rounds) }) as Rounds;
    let mut runs = vec![in_rust(subject.runs[at])];
    runs.extend(subject.rivals.iter().map(|rival| linked(*rival)));
    runs.insert(2, in_rust(subject.layout_runs[at]));
    let name = format!("{}, {}, capacity {capacity}", subject.name, subject.workloads[workload]);
    let (seconds, rounds) = in_turns(&runs, turns, &name);
    let nanoseconds: Vec<f64> = seconds.iter().map(|turn| turn[0] * 1e9 / rounds).collect();
    let ratios = |run: usize| seconds.iter().map(|turn| turn[run] / turn[0]).collect::<Vec<f64>>();
    (median(&nanoseconds), (1..runs.len()).map(|run| marked(&ratios(run))).collect())
}

fn main() {
    let turns = std::env::args().nth(1).and_then(|word| word.parse().ok()).filter(|turns| *turns > 0).expect("a number of turns");
    let only = std::env::args().nth(2).unwrap_or_default();
    for subject in subjects() {
        let is_wanted = |name: &str| format!("{}: {name}", subject.name).contains(&only);
        for (workload, name) in subject.workloads.iter().enumerate().filter(|(_, name)| is_wanted(name)) {
            for (at, capacity) in CAPACITIES.iter().enumerate() {
                let (nanoseconds, ratios) = measured(&subject, workload, at, turns);
                println!("time\t{}\t{name}\t{capacity}\t{nanoseconds:.2}\t{}", subject.name, ratios.join("\t"));
            }
        }
    }
    for subject in subjects().iter().filter(|subject| subject.name != "two maps") {
        for (capacity, size) in CAPACITIES.iter().zip(subject.sizes) {
            // SAFETY: as above.
            let own = unsafe { micromap_speed_size(subject.rivals[0], *capacity) };
            println!("size\t{}\t{capacity}\t{own}\t{size}", subject.type_name);
        }
    }
}
