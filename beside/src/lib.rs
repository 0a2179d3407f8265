//! An independent implementation of the access control subsystem, written from document 01 and RFC 3415 alone,
//! with generators of test cases, and a hand-written implementation for the benchmark.

pub mod generate;
pub mod handwritten;
pub mod random;
pub mod reference;
