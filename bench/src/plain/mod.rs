//! A plain Rust implementation of the subject of `docs/RULES.md`: the same calls, formats and rules, and no proofs.

pub mod build;
pub mod check;
pub mod column;
pub mod forest;
pub mod image;
pub mod list;
pub mod pairs;
pub mod patterns;
pub mod prefix;
pub mod sorted;
pub mod turns;
pub mod walk;
pub mod words;

#[cfg(test)]
mod tests;
