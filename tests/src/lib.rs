//! A second converter, written from documents 01 and 02 alone and kept slow
//! and plain. The proved library is held against it.

pub mod call;
pub mod compare;
pub mod datatype;
pub mod field;
pub mod list;
pub mod number;
pub mod obey;
pub mod paths;
pub mod reach;
pub mod real;
pub mod report;
pub mod setters;
pub mod sheet;
pub mod size;
pub mod symbols;

#[cfg(test)]
mod comparisons;
#[cfg(test)]
mod exercises;
#[cfg(test)]
mod faults;
#[cfg(test)]
mod lost_symbols;
#[cfg(test)]
mod masks;
#[cfg(test)]
mod reals;
#[cfg(test)]
mod seasons;
#[cfg(test)]
mod stops;
#[cfg(test)]
mod two_steps;
#[cfg(test)]
mod words;
