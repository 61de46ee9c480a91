//! Maps and isomorphisms of finite models.
//!
//! Safe functions over a library that is proved: for any bytes and buffers, the number of the answer, the values it carries, the map and the work
//! entries are what the document says. [`ModelBuilder`] makes the bytes of a model from types, elements, rows and merges. The functions here bring
//! their own buffers; those of [`lent`] take the caller's and answer with the bare number.
//!
//! | No. | Meaning | Here |
//! |---|---|---|
//! | 0 | found or accepted | [`Search::Found`], [`Inverse::Map`], a [`Map`], the image's representative |
//! | 1 | none | [`Search::None`], [`Inverse::None`] |
//! | 2 | budget exhausted | [`Search::OutOfBudget`] |
//! | 10 to 20 | refused | [`Refusal`] |
mod answers;
mod builder;
mod calls;
mod ffi;
pub mod lent;
mod map;

pub use answers::{Inverse, Numbers, Refusal, Search};
pub use builder::{BuildError, Element, Model, ModelBuilder, Relation, Type};
pub use calls::{apply, check, compose, find, find_under, find_with_pairs, identity, inverse, Work};
pub use map::Map;

/// At most this many types in a model.
pub const TYPES: usize = 16;
/// At most this many elements: a buffer of this length has room for any map.
pub const ELEMENTS: usize = 64;
/// At most this many relations.
pub const RELATIONS: usize = 16;
/// At most this many columns in a relation.
pub const ARITY: usize = 8;
/// At most this many cells: row count times arity, summed over the relations.
pub const CELLS: usize = 2048;
/// The work entries that a find needs.
pub const WORK: usize = 32768;
/// What a map holds at an alias.
pub const ALIAS: u8 = 255;
