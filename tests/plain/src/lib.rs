//! A plain railway interlocking with its train model, written from the rules for use as a reference.

pub mod cases;
pub mod clock;
pub mod compare;
pub mod explore;
pub mod fixed;
pub mod gen;
pub mod interlocking;
pub mod judge;
pub mod large;
pub mod plan;
pub mod promises;
pub mod soak;
pub mod text;
pub mod world;
