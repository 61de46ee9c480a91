//! The calls, each with an output of its own.
use crate::answers::{Inverse, Numbers, Refusal, Search};
use crate::lent;
use crate::map::Map;
use crate::{ELEMENTS, WORK};

/// The work entries that find, find with pairs and find under a base need. Made once, it serves call after call.
pub struct Work {
    entries: Box<[u16]>,
}

impl Work {
    /// 32,768 entries, on the heap.
    pub fn new() -> Work {
        Work { entries: vec![0; WORK].into_boxed_slice() }
    }
}

impl Default for Work {
    fn default() -> Work {
        Work::new()
    }
}

/// The number of elements of bytes that were accepted as a model: the sum of its Types field.
fn size(model: &[u8]) -> usize {
    let types = usize::from(model[1]) << 8 | usize::from(model[2]);
    model[3..3 + types].iter().map(|&count| usize::from(count)).sum()
}

/// The output of a call that answered 0, from the model that the map starts from.
fn output(entries: [u8; ELEMENTS], domain: &[u8]) -> Map {
    Map::new(entries, size(domain))
}

/// A pair list as the library takes it.
fn listed(pairs: &[(u8, u8)]) -> Vec<u8> {
    pairs.iter().flat_map(|&(element, image)| [element, image]).collect()
}

/// The refusal of a number that is none of the call's own.
fn refused(numbers: Numbers) -> Refusal {
    match numbers.refusal() {
        Some(refusal) => refusal,
        None => unreachable!("the library answered {}, which this call does not have", numbers.number),
    }
}

/// What a call that can only accept or refuse comes to.
fn accepted(numbers: Numbers, entries: [u8; ELEMENTS], domain: &[u8]) -> Result<Map, Refusal> {
    match numbers.number {
        0 => Ok(output(entries, domain)),
        _ => Err(refused(numbers)),
    }
}

/// What a find comes to.
fn searched(numbers: Numbers, entries: [u8; ELEMENTS], left: &[u8]) -> Result<Search, Refusal> {
    let units = numbers.carried[0];
    match numbers.number {
        0 => Ok(Search::Found { map: output(entries, left), units }),
        1 => Ok(Search::None { units }),
        2 => Ok(Search::OutOfBudget { units }),
        _ => Err(refused(numbers)),
    }
}

/// The identity of a model. Refused: 10.
pub fn identity(model: &[u8]) -> Result<Map, Refusal> {
    let mut entries = [0; ELEMENTS];
    let numbers = lent::identity(model, &mut entries);
    accepted(numbers, entries, model)
}

/// The map that a pair list gives, element then image. Refused: 10, 13 to 18.
pub fn check(source: &[u8], target: &[u8], pairs: &[(u8, u8)]) -> Result<Map, Refusal> {
    let mut entries = [0; ELEMENTS];
    let numbers = lent::check(source, target, &listed(pairs), &mut entries);
    accepted(numbers, entries, source)
}

/// The image's representative of an element, also of an alias. Refused: 10, 13, 14, 19.
pub fn apply(source: &[u8], target: &[u8], map: &[u8], element: u8) -> Result<u8, Refusal> {
    let numbers = lent::apply(source, target, map, element);
    match numbers.number {
        0 => Ok(numbers.carried[0] as u8),
        _ => Err(refused(numbers)),
    }
}

/// A map from source to middle, then one from middle to target. Refused: 10, 13, 19.
pub fn compose(source: &[u8], middle: &[u8], target: &[u8], first: &[u8], second: &[u8]) -> Result<Map, Refusal> {
    let mut entries = [0; ELEMENTS];
    let numbers = lent::compose(source, middle, target, first, second, &mut entries);
    accepted(numbers, entries, source)
}

/// The inverse of a map from source to target, or that there is none. Refused: 10, 13, 19.
pub fn inverse(source: &[u8], target: &[u8], map: &[u8]) -> Result<Inverse, Refusal> {
    let mut entries = [0; ELEMENTS];
    let numbers = lent::inverse(source, target, map, &mut entries);
    match numbers.number {
        0 => Ok(Inverse::Map(output(entries, target))),
        1 => Ok(Inverse::None),
        _ => Err(refused(numbers)),
    }
}

/// An isomorphism from left to right, within a budget of units: one for each round, candidate looked at and closing check. Refused: 10, 12, 13.
pub fn find(left: &[u8], right: &[u8], budget: u64, work: &mut Work) -> Result<Search, Refusal> {
    let mut entries = [0; ELEMENTS];
    let numbers = lent::find(left, right, budget, &mut entries, &mut work.entries);
    searched(numbers, entries, left)
}

/// An isomorphism that takes each pair's first to its second. Refused: as find, and 14, 15.
pub fn find_with_pairs(left: &[u8], right: &[u8], pairs: &[(u8, u8)], budget: u64, work: &mut Work) -> Result<Search, Refusal> {
    let mut entries = [0; ELEMENTS];
    let numbers = lent::find_with_pairs(left, right, &listed(pairs), budget, &mut entries, &mut work.entries);
    searched(numbers, entries, left)
}

/// An isomorphism that takes a base's map to the left to its map to the right. Refused: as find, and 19; the models are base, left, right.
pub fn find_under(
    base: &[u8],
    left: &[u8],
    right: &[u8],
    to_left: &[u8],
    to_right: &[u8],
    budget: u64,
    work: &mut Work,
) -> Result<Search, Refusal> {
    let mut entries = [0; ELEMENTS];
    let numbers = lent::find_under(base, left, right, to_left, to_right, budget, &mut entries, &mut work.entries);
    searched(numbers, entries, left)
}
