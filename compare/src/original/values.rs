//! Stand-ins for the items of the original's `lib.rs`.
use crate::{RelationId, TypeId};

/// An element of a model. The order is by type, then by index.
#[derive(Clone, Copy, Debug, PartialEq, Eq, PartialOrd, Ord, Hash)]
pub struct Element {
    pub type_: TypeId,
    pub index: u32,
}

#[derive(Clone, Debug, PartialEq, Eq)]
pub struct EnumCase {
    pub constructor: RelationId,
    pub arguments: Vec<Element>,
}

#[derive(Clone, Debug, PartialEq, Eq)]
pub enum Error {
    UnknownType(TypeId),
    UnknownRelation(RelationId),
    UnknownElement(Element),
    ArityMismatch { expected: usize, actual: usize },
    TypeMismatch { expected: TypeId, actual: TypeId },
    ParentMismatch,
    ElementLimit,
    ConstructorRequired(TypeId),
    ExpectedConstructor(RelationId),
    ExpectedFunction(RelationId),
    ExpectedEnum(TypeId),
    NoEnumCase(Element),
    UndefinedFunction(RelationId),
    InvalidSignature(String),
    InvalidModel(String),
    InvalidModelHom(String),
    SignatureMismatch,
    NonCanonicalModel,
    FuelExhausted,
}
