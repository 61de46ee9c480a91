//! The original: `model_hom.rs` of eqlog-runtime and the files beside it, compiled unchanged from where they stand, over stand-ins of ours for the
//! modules that are not among them: the prefix trees and the weight-balanced map (`trees`, `wbtree`), and the items of its `lib.rs` (`values`).
#![allow(dead_code)]

mod assemble;
mod trees;
mod values;
pub mod wbtree;

include!(concat!(env!("OUT_DIR"), "/files.rs"));

pub use assemble::{assemble, signature};
pub use model::Model;
pub use model_hom::{find_isomorphism, find_isomorphism_under, find_with_fixed_pairs, Fuel, ModelHom};
pub use signature::{FunctionKind, Relation, RelationId, RelationKind, Signature, Type, TypeId, TypeKind};
pub use trees::*;
pub use unification::Unification;
pub use values::{Element, EnumCase, Error};
