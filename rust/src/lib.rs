//! The independent second program: documents 01 and 02 written from the paper
//! alone, a seeded generator of plans, the comparison of two implementors of the
//! public calls, and benchmarks.
//!
//! The other implementor, the proved library behind its C interface, is the
//! module `proved`. The crate `manopluea` in the folder beside this one links the
//! library's archive, which `compare.sh` has the kit make.

pub mod bench;
pub mod both;
pub mod brute;
pub mod calls;
pub mod compare;
pub mod examples;
pub mod generate;
pub mod paper;
pub mod plain;
pub mod program;
pub mod proved;
pub mod stack;
