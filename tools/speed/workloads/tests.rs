//! Each workload runs. `tools/compare --check` performs this test, without proof.

use crate::{both, bytes, numbers, run, texts, wide};
use std::alloc::Global;

// How many workloads a subject has. Each is run for two rounds at a capacity of 8.
fn workloads_of(memory: Global, subject: u64) -> usize {
    let mut count = 0usize;
    while run::<8>(memory, subject, count as u64, 0, 2) != u64::MAX {
        count += 1;
    }
    count
}

#[test]
fn each_workload_runs(rt: HostRuntime) {
    for subject in 0..3 {
        assert!(rt; workloads_of(rt.alloc(), subject) == numbers::NAMES.len());
    }
    assert!(rt; workloads_of(rt.alloc(), 3) == bytes::NAMES.len());
    assert!(rt; workloads_of(rt.alloc(), 4) == texts::NAMES.len());
    assert!(rt; workloads_of(rt.alloc(), 5) == wide::NAMES.len());
    assert!(rt; workloads_of(rt.alloc(), 6) == both::NAMES.len());
}
