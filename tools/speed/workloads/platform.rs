//! What the workloads take from the language. The Rust driver has a module of its own in the place of this one.

pub use std::alloc::Global;
pub use std::ops::Drop;
