//! The subsystem as document 01 says it, plainly: rows as structs, tables as vectors, an answer as its number.

pub mod answers;
pub mod decision;
pub mod edits;
pub mod image;
pub mod instance;
pub mod lines;
pub mod ridge;
pub mod rows;
pub mod sets;
pub mod tables;
pub mod walk;

#[cfg(test)]
mod all_or_none;
#[cfg(test)]
mod examples;
#[cfg(test)]
mod explanations;
#[cfg(test)]
mod round_trips;
#[cfg(test)]
mod walks_to_the_end;
