//! Test cases: small worlds whose names and identifiers lie near each other, so that rows, requests and edits meet.

pub mod calls;
pub mod damage;
pub mod every;
pub mod every_set;
pub mod lines;
pub mod lists;
pub mod matches;
pub mod requests;
pub mod sets;
pub mod walks;
pub mod world;
