//! Tests of the library from outside.
//!
//! - `plain`, `plain_card`: documents 01 and 02 once more, naive on purpose and written from them alone; `examples` holds `plain` to their
//!   own examples.
//! - `face`: the library's calls, as a Rust program sees them through the C boundary.
//! - `held`: each call made in both, and every number and every lent word compared.
//! - `inputs`: seeded columns, ranges and damage.
//! - `mapped`: columns and lists longer than memory.
#[cfg(test)]
mod examples;
pub mod face;
pub mod held;
pub mod inputs;
pub mod mapped;
pub mod plain;
pub mod plain_card;
