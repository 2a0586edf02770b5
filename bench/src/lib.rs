//! The judge of crates/, crate by crate, as plain Rust: the same searches and readers in functions of its own, the yardstick for the
//! benchmarks. It is no independent program; second/ is.
pub mod answers;
pub mod chassis;
pub mod claims;
pub mod culprits;
pub mod fiswalend;
pub mod holders;
pub mod holdings;
pub mod ids;
pub mod judge;
pub mod least;
pub mod lent;
pub mod overlaps;
pub mod paths;
pub mod picture;
pub mod registers;
pub mod routes;
pub mod search;
pub mod spans;
pub mod trees;
pub mod vectors;
pub mod verdicts;
