//! Tables that take two bytes in a search, by the same rules and with no proofs.

pub mod build;
pub mod check;
pub mod image;
pub mod walk;
pub mod words;

#[cfg(test)]
mod tests;
