//! What the calls answer.
use crate::map::Map;
use std::error::Error;
use std::fmt;

/// An answer as the library gives it: the document's number and the values that it carries, with 0 in the places that are not used.
#[derive(Clone, Copy, Debug, PartialEq, Eq)]
pub struct Numbers {
    pub number: u32,
    pub carried: [u64; 3],
}

impl Numbers {
    /// The refusal, where the number is one of 10 to 20.
    pub fn refusal(&self) -> Option<Refusal> {
        let [value, other, _] = self.carried;
        Some(match self.number {
            10 => Refusal::Malformed { model: value as u8, offset: other as usize },
            11 => Refusal::NoRoom,
            12 => Refusal::NotCanonical { model: value as u8 },
            13 => Refusal::SignaturesDiffer,
            14 => Refusal::UnknownElement { place: value as usize, side: other as u8 },
            15 => Refusal::TypesDiffer { place: value as usize },
            16 => Refusal::ImageMissing { element: value as u8 },
            17 => Refusal::ConflictingImages { element: value as u8 },
            18 => Refusal::RelationNotKept { relation: value as u8 },
            19 => Refusal::NotAMap { map: value as u8 },
            20 => Refusal::OddPairs,
            _ => return None,
        })
    }
}

/// Why a call was refused. Models and maps are counted from 1, in the order in which the call takes them; places of pairs from 0.
#[derive(Clone, Copy, Debug, PartialEq, Eq)]
pub enum Refusal {
    /// 10: the field at `offset` of a model is at fault.
    Malformed { model: u8, offset: usize },
    /// 11: a lent buffer is too short. Only the calls of [`lent`](crate::lent) answer it.
    NoRoom,
    /// 12: a row of a model holds an alias, where find needs that none does.
    NotCanonical { model: u8 },
    /// 13: the models differ in their types or in the columns of a relation.
    SignaturesDiffer,
    /// 14: a pair names an element that its model does not have; side 1 is the source, 2 the target. Of apply: place 0, side 1.
    UnknownElement { place: usize, side: u8 },
    /// 15: the two elements of a pair are of different types.
    TypesDiffer { place: usize },
    /// 16: the lowest source representative without an image.
    ImageMissing { element: u8 },
    /// 17: a source representative with two images.
    ConflictingImages { element: u8 },
    /// 18: the lowest relation of which a row's image is no row of the target.
    RelationNotKept { relation: u8 },
    /// 19: bytes that are not a map between the models that they are given for.
    NotAMap { map: u8 },
    /// 20: a pair list of odd length. Only the calls of [`lent`](crate::lent) answer it.
    OddPairs,
}

impl Refusal {
    /// The document's number.
    pub fn number(&self) -> u32 {
        match self {
            Refusal::Malformed { .. } => 10,
            Refusal::NoRoom => 11,
            Refusal::NotCanonical { .. } => 12,
            Refusal::SignaturesDiffer => 13,
            Refusal::UnknownElement { .. } => 14,
            Refusal::TypesDiffer { .. } => 15,
            Refusal::ImageMissing { .. } => 16,
            Refusal::ConflictingImages { .. } => 17,
            Refusal::RelationNotKept { .. } => 18,
            Refusal::NotAMap { .. } => 19,
            Refusal::OddPairs => 20,
        }
    }
}

impl fmt::Display for Refusal {
    fn fmt(&self, f: &mut fmt::Formatter<'_>) -> fmt::Result {
        match self {
            Refusal::Malformed { model, offset } => write!(f, "model {model} is malformed: the field at offset {offset} is at fault"),
            Refusal::NoRoom => write!(f, "no room: the output or the work is too short"),
            Refusal::NotCanonical { model } => write!(f, "model {model} is not canonical: a row holds an alias"),
            Refusal::SignaturesDiffer => write!(f, "the signatures differ"),
            Refusal::UnknownElement { place, side } => write!(f, "unknown element in pair {place}, side {side}"),
            Refusal::TypesDiffer { place } => write!(f, "the types of pair {place} differ"),
            Refusal::ImageMissing { element } => write!(f, "element {element} has no image"),
            Refusal::ConflictingImages { element } => write!(f, "element {element} has conflicting images"),
            Refusal::RelationNotKept { relation } => write!(f, "relation {relation} is not kept"),
            Refusal::NotAMap { map } => write!(f, "map {map} is not a map between its models"),
            Refusal::OddPairs => write!(f, "the pair list has an odd length"),
        }
    }
}

impl Error for Refusal {}

/// What a find comes to.
#[derive(Clone, Copy, Debug, PartialEq, Eq)]
pub enum Search {
    /// 0: an isomorphism, and the units used.
    Found { map: Map, units: u64 },
    /// 1: there is none, and the units used.
    None { units: u64 },
    /// 2: a unit was needed and all were used. Nothing is decided.
    OutOfBudget { units: u64 },
}

impl Search {
    /// The document's number.
    pub fn number(&self) -> u32 {
        match self {
            Search::Found { .. } => 0,
            Search::None { .. } => 1,
            Search::OutOfBudget { .. } => 2,
        }
    }

    /// The units used.
    pub fn units(&self) -> u64 {
        match self {
            Search::Found { units, .. } | Search::None { units } | Search::OutOfBudget { units } => *units,
        }
    }

    /// The isomorphism, where one was found.
    pub fn map(&self) -> Option<&Map> {
        match self {
            Search::Found { map, .. } => Some(map),
            _ => None,
        }
    }
}

/// A number of units, in words.
struct Units(u64);

impl fmt::Display for Units {
    fn fmt(&self, f: &mut fmt::Formatter<'_>) -> fmt::Result {
        let plural = if self.0 == 1 { "" } else { "s" };
        write!(f, "{} unit{plural}", self.0)
    }
}

impl fmt::Display for Search {
    fn fmt(&self, f: &mut fmt::Formatter<'_>) -> fmt::Result {
        match self {
            Search::Found { map, units } if map.is_empty() => write!(f, "found after {}: the empty map", Units(*units)),
            Search::Found { map, units } => write!(f, "found after {}: {map}", Units(*units)),
            Search::None { units } => write!(f, "no isomorphism, after {}", Units(*units)),
            Search::OutOfBudget { units } => write!(f, "out of budget after {}", Units(*units)),
        }
    }
}

/// What inverse comes to.
#[derive(Clone, Copy, Debug, PartialEq, Eq)]
pub enum Inverse {
    /// 0: the inverse.
    Map(Map),
    /// 1: there is none.
    None,
}

impl Inverse {
    /// The document's number.
    pub fn number(&self) -> u32 {
        match self {
            Inverse::Map(_) => 0,
            Inverse::None => 1,
        }
    }
}

impl fmt::Display for Inverse {
    fn fmt(&self, f: &mut fmt::Formatter<'_>) -> fmt::Result {
        match self {
            Inverse::Map(map) => write!(f, "inverse: {map}"),
            Inverse::None => write!(f, "no inverse"),
        }
    }
}
