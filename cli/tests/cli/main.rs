//! The tests of the program: each command, each exit status, and what can go wrong with files.
#[macro_use]
mod common;
mod copy;
mod faults;
mod listing;
mod packing;
mod store;
mod usage;
