//! Calls of the archive compared with the reference, one by one and over long random lists.

pub mod calls;
pub mod fixture;
pub mod foreign;
pub mod history;
pub mod images;
pub mod item_lists;
pub mod lists;
pub mod random;
pub mod snapshots;
pub mod sound;
pub mod stack;
