//! The rules of the index (docs/RULES.md) in plain Rust: the fourteen calls on areas laid out as its section 4 says, simple
//! rather than fast. It was written from the rules alone, not from the proved code, so that the two can be compared
//! call by call. [`book`] is the reference model (section 16), which knows no buckets and no trees.

pub mod book;
pub mod calls;
pub mod dues;
pub mod image;
pub mod item;
pub mod list;
pub mod lots;
pub mod refusal;
pub mod states;
pub mod table;
pub mod tree;
