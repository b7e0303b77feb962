//! The proved library, as a program in Rust links it.

pub mod proved;
