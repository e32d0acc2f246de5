//! The proved library's calls in Rust, what their header for C says, the codes of the second implementation's answers, and the times of
//! calls.
//!
//! Nothing checks these declarations against the archive but the comparison itself; `include/puxerdau.h` has the same ones for C.

pub mod careful;
pub mod codes;
pub mod graphs;
pub mod header;
pub mod proved;
pub mod timing;

#[path = "../../reference/tests/common/mod.rs"]
pub mod common;
