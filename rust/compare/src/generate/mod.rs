//! Seeded inputs.

pub mod arguments;
pub mod damage;
pub mod network;
pub mod numbers;
pub mod records;
pub mod store;
