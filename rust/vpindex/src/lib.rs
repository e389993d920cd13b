//! An index of up to 4,096 items by likeness. An item is a [`Tag`] with a [`Profile`], which is four measures and a
//! code of 128 bits, and with the [`Day`] on which it was weighed. A [`Table`] gives all items within a distance of a
//! query, and the nearest ones, of all items or of those weighed on a given day or later, while items are added and
//! removed, by the rule of its [`Metric`] and with its [`Weights`]. It keeps vantage-point trees in buckets whose sizes
//! are powers of two.
//!
//! The calls below are thin over `libvpindex.a`, whose code is proved: each call ends, its reply is the one that the
//! rules give for every input, a search finds what a scan of all items would, and all rebuilds of a list of calls
//! together keep within a bound.
//!
//! The feature `std`, which is on by default, is for programs with an operating system, and turns on `alloc`: tables
//! that own their areas, results that are returned, snapshots under names, lots, dues and faults in words. Without
//! either the crate is `no_std` and allocates nothing: tables, searches and changes are then in areas that the caller
//! lends ([`Table::lent`], [`Hits::lent`], [`Batch::lent`]), and the archive wants `memset` and `memcpy` alone.
//!
//! ```
//! use vpindex::{Day, Metric, Order, Profile, Table, Tag};
//!
//! let mut table = Table::new(Order::new(4)?, Metric::SumOfDifferences);
//! table.add(Tag::new(36, 1)?, &Profile::new([41_250, 12_900, 18_500, 95], [0, 0])?, Day::new(210)?)?;
//! table.add(Tag::new(36, 2)?, &Profile::new([39_800, 12_700, 18_100, 90], [0, 0])?, Day::new(305)?)?;
//!
//! let query = Profile::new([41_000, 12_900, 18_400, 95], [0, 0])?;
//! let hits = table.nearest(&query, 1, None)?;
//! assert_eq!((hits[0].tag(), hits[0].distance()), (Tag::new(36, 1)?, 350));
//!
//! // of those weighed on day 300 or later
//! let hits = table.nearest(&query, 1, Some(Day::new(300)?))?;
//! assert_eq!((hits[0].tag(), hits[0].distance()), (Tag::new(36, 2)?, 1_705));
//! # Ok::<(), vpindex::Error>(())
//! ```
//!
//! - Searches take `&self`, so threads can search one table together. Calls whose names end in `into` put what they find
//!   into a `Hits`, a `Batch` or `Lots` that the caller lends, and allocate nothing.
//! - `table.iter()` gives the items, `table.get(tag)` one of them, and `table.replace` weighs one again.
//! - Tags, profiles, items, metrics, orders and weights are read from text and written as the same text.
//! - `Table::save` keeps a table under one of eight names, `Table::restore` brings it back.
//! - `Table::load` says of a damaged image which field is wrong, at which bytes, and why. [`Error`] holds whatever is
//!   refused.

#![no_std]
#![warn(clippy::missing_errors_doc, clippy::undocumented_unsafe_blocks)]

#[cfg(feature = "alloc")]
extern crate alloc;
#[cfg(test)]
extern crate std;

// The first use that the README shows is run as it is printed.
#[cfg(doctest)]
#[doc = include_str!("../../../README.md")]
struct Readme;

mod batch;
mod buckets;
mod changes;
mod dues;
mod error;
#[doc(hidden)]
pub mod ffi;
mod hits;
mod image;
#[cfg(feature = "alloc")]
mod image_fault;
#[cfg(feature = "alloc")]
mod image_fields;
mod items;
mod list;
#[cfg(feature = "alloc")]
mod list_fault;
#[cfg(feature = "alloc")]
mod lots;
mod refusal;
mod searches;
#[cfg(feature = "alloc")]
mod states;
mod table;
mod text;
mod values;

pub use batch::{Batch, BatchHits};
pub use buckets::{Bucket, Slot};
pub use changes::{Added, ExtendRefusal, Replaced};
pub use dues::Cents;
#[cfg(feature = "alloc")]
pub use dues::Dues;
pub use error::Error;
pub use ffi::{Entry, ROW_WORDS, Row};
pub use hits::{Hit, Hits};
pub use image::ImageRefusal;
#[cfg(feature = "alloc")]
pub use image_fault::ImageFault;
#[cfg(feature = "alloc")]
pub use image_fields::SlotAt;
pub use items::{Item, Items};
pub use list::{ListRead, ListRefusal};
#[cfg(feature = "alloc")]
pub use list_fault::ListFault;
#[cfg(feature = "alloc")]
pub use lots::{Drafted, Lots};
pub use refusal::Refusal;
#[cfg(feature = "alloc")]
pub use states::States;
pub use table::{LookedUp, Table};
pub use text::ParseError;
pub use values::{Day, Metric, Name, Order, Profile, RangeQuery, Tag, Weights};
