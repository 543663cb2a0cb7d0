//! A fast interpreter of document 01 in plain Rust, and the chains that it and the proved machine are measured on.

pub mod chain;
mod decoded;
pub mod machine;
