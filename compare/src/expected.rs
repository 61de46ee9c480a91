//! What the original answers, in document 01's numbers.
//!
//! 10, 11 and 20, and of find 14 and 15, are additions of the port: 10 is the second reader's, the others follow the document's order. All else is
//! said by the original: errors of `ModelHom::new` by their kind and their words, and every map.
use crate::call::{Answer, Call, Lent, WORK};
use crate::file::{File, Meaning};
use original::{find_isomorphism, find_isomorphism_under, find_with_fixed_pairs, Element, Error, Fuel, ModelHom, RelationId};
use std::cell::Cell;

type Said = Result<Answer, Answer>;

/// The answer to a call. The budget has no part in it: the caller leaves out what the port answers with 2.
pub fn answer(call: &Call, lent: Lent) -> Answer {
    said(call, lent).unwrap_or_else(|refusal| refusal)
}

fn said(call: &Call, lent: Lent) -> Said {
    for (place, file) in call.files().iter().enumerate() {
        if let Err(offset) = file.meaning {
            return refuse(10, &[place as u64 + 1, offset as u64]);
        }
    }
    let needed = call.domain().map_or(0, File::n);
    if call.domain().is_some() && lent.room < needed || call.searches() && lent.work < WORK {
        return refuse(11, &[]);
    }
    match *call {
        Call::Identity { model } => Ok(identity(model.known())),
        Call::Check { source, target, pairs } => check(source.known(), target.known(), pairs),
        Call::Apply { source, target, map, element } => apply(source.known(), target.known(), map, element),
        Call::Compose { source, middle, target, first, second } => compose([source.known(), middle.known(), target.known()], first, second),
        Call::Inverse { source, target, map } => inverse(source.known(), target.known(), map),
        Call::Find { left, right } => find(left.known(), right.known()),
        Call::Pairs { left, right, pairs } => find_with_pairs(left.known(), right.known(), pairs),
        Call::Under { base, left, right, to_left, to_right } => find_under([base.known(), left.known(), right.known()], to_left, to_right),
    }
}

fn refuse<T>(number: u32, carried: &[u64]) -> Result<T, Answer> {
    Err(Answer { number, carried: carried.to_vec(), map: None })
}

/// 0 with a map: of each source element its image's number, 255 at an alias.
fn accepted(source: &Meaning, target: &Meaning, map: &ModelHom) -> Answer {
    let mut bytes = vec![255; source.stored.n()];
    for (element, image) in map.iter() {
        bytes[usize::from(source.number(element))] = target.number(image);
    }
    Answer { number: 0, carried: vec![], map: Some(bytes) }
}

fn none() -> Answer {
    Answer { number: 1, carried: vec![], map: None }
}

fn identity(model: &Meaning) -> Answer {
    accepted(model, model, &ModelHom::identity(&model.model))
}

/// The pairs of a list; what is over at an odd length is left out.
fn elements(source: &Meaning, target: &Meaning, pairs: &[u8]) -> Vec<(Element, Element)> {
    pairs.chunks_exact(2).map(|pair| (source.element(pair[0]), target.element(pair[1]))).collect()
}

fn check(source: &Meaning, target: &Meaning, pairs: &[u8]) -> Said {
    if pairs.len() % 2 == 1 {
        same_signature(&[source, target])?;
        return refuse(20, &[]);
    }
    let pairs = elements(source, target, pairs);
    let looked_at = Cell::new(0);
    let counted = pairs.iter().map(|&pair| {
        looked_at.set(looked_at.get() + 1);
        pair
    });
    match ModelHom::new(&source.model, &target.model, counted) {
        Ok(map) => Ok(accepted(source, target, &map)),
        Err(error) => Err(refusal(source, &pairs, looked_at.get(), &error)),
    }
}

/// The number of an error of `ModelHom::new`, which stopped after it had looked at so many pairs.
fn refusal(source: &Meaning, pairs: &[(Element, Element)], looked_at: usize, error: &Error) -> Answer {
    let place = (looked_at as u64).wrapping_sub(1);
    let (number, carried) = match error {
        Error::SignatureMismatch => (13, vec![]),
        Error::UnknownType(_) | Error::UnknownElement(_) => {
            let side = if source.model.root(pairs[looked_at - 1].0).is_err() { 1 } else { 2 };
            (14, vec![place, side])
        }
        Error::TypeMismatch { .. } => (15, vec![place]),
        Error::InvalidModelHom(words) => by_words(source, words),
        other => panic!("{other:?} is no error of a check"),
    };
    Answer { number, carried, map: None }
}

/// 16, 17 and 18, which the original tells apart by its words.
fn by_words(source: &Meaning, words: &str) -> (u32, Vec<u64>) {
    for number in source.stored.representatives() {
        let element = source.element(number);
        if words == format!("missing image for {element:?}") {
            return (16, vec![u64::from(number)]);
        }
        if words == format!("conflicting images for {element:?}") {
            return (17, vec![u64::from(number)]);
        }
    }
    for relation in 0..source.stored.relations.len() {
        if words.starts_with(&format!("relation {:?} is not preserved at ", RelationId(relation))) {
            return (18, vec![relation as u64]);
        }
    }
    panic!("{words} are no words of a check");
}

fn same_signature(models: &[&Meaning]) -> Result<(), Answer> {
    if models.iter().all(|other| models[0].model.signature() == other.model.signature()) {
        Ok(())
    } else {
        refuse(13, &[])
    }
}

/// A map of so many given as bytes, made by `ModelHom::new`; 19 where there is none. Signatures are equal.
fn map_of<'a>(place: u64, source: &'a Meaning, target: &'a Meaning, bytes: &[u8]) -> Result<ModelHom<'a>, Answer> {
    let (from, to) = (&source.stored, &target.stored);
    let is_image = |image: u8| usize::from(image) < to.n() && to.is_representative(usize::from(image));
    let is_entry = |(element, &image): (usize, &u8)| {
        if from.is_representative(element) {
            is_image(image)
        } else {
            image == 255
        }
    };
    if bytes.len() != from.n() || !bytes.iter().enumerate().all(is_entry) {
        return refuse(19, &[place]);
    }
    let pairs = from.representatives().into_iter().map(|e| (source.element(e), target.element(bytes[usize::from(e)])));
    match ModelHom::new(&source.model, &target.model, pairs) {
        Ok(map) => Ok(map),
        Err(_) => refuse(19, &[place]),
    }
}

fn apply(source: &Meaning, target: &Meaning, map: &[u8], element: u8) -> Said {
    same_signature(&[source, target])?;
    match map_of(1, source, target, map)?.apply(source.element(element)) {
        Ok(image) => Ok(Answer { number: 0, carried: vec![u64::from(target.number(image))], map: None }),
        Err(_) => refuse(14, &[0, 1]),
    }
}

fn compose([source, middle, target]: [&Meaning; 3], first: &[u8], second: &[u8]) -> Said {
    same_signature(&[source, middle, target])?;
    let first = map_of(1, source, middle, first)?;
    let second = map_of(2, middle, target, second)?;
    Ok(accepted(source, target, &first.then(&second).expect("the same middle model")))
}

fn inverse(source: &Meaning, target: &Meaning, map: &[u8]) -> Said {
    same_signature(&[source, target])?;
    let inverse = map_of(1, source, target, map)?.inverse().expect("an answer");
    Ok(inverse.map_or_else(none, |inverse| accepted(target, source, &inverse)))
}

/// A searched answer; of an error the number, and for 12 the first model that is not canonical, numbered from `first`.
fn searched(left: &Meaning, right: &Meaning, first: u64, found: Result<Option<ModelHom>, Error>) -> Said {
    match found {
        Ok(Some(map)) => Ok(accepted(left, right, &map)),
        Ok(None) => Ok(none()),
        Err(Error::NonCanonicalModel) => refuse(12, &[if left.model.is_canonical() { first + 1 } else { first }]),
        Err(Error::SignatureMismatch) => refuse(13, &[]),
        Err(other) => panic!("{other:?} is no error of a search"),
    }
}

fn find(left: &Meaning, right: &Meaning) -> Said {
    searched(left, right, 1, find_isomorphism(&left.model, &right.model, Fuel::Infinite))
}

/// The private function asks for representatives of like type, so that pairs are taken to representatives, and 20, 14 and 15 said, before it is
/// called; where they are due its answer with no pairs says whether 12 or 13 comes first.
fn find_with_pairs(left: &Meaning, right: &Meaning, pairs: &[u8]) -> Said {
    match representatives(left, right, pairs) {
        Ok(pairs) => searched(left, right, 1, find_with_fixed_pairs(&left.model, &right.model, &pairs, Fuel::Infinite)),
        Err(refusal) => {
            if !left.model.is_canonical() || !right.model.is_canonical() || same_signature(&[left, right]).is_err() {
                return searched(left, right, 1, find_with_fixed_pairs(&left.model, &right.model, &[], Fuel::Infinite));
            }
            Err(refusal)
        }
    }
}

fn representatives(left: &Meaning, right: &Meaning, pairs: &[u8]) -> Result<Vec<(Element, Element)>, Answer> {
    if pairs.len() % 2 == 1 {
        return refuse(20, &[]);
    }
    let mut all = vec![];
    for (place, (element, image)) in elements(left, right, pairs).into_iter().enumerate() {
        let place = place as u64;
        let Ok(element) = left.model.root(element) else {
            return refuse(14, &[place, 1]);
        };
        let Ok(image) = right.model.root(image) else {
            return refuse(14, &[place, 2]);
        };
        if element.type_ != image.type_ {
            return refuse(15, &[place]);
        }
        all.push((element, image));
    }
    Ok(all)
}

/// The maps are made before the call, so that 12 and 13 are looked for before them.
fn find_under([base, left, right]: [&Meaning; 3], to_left: &[u8], to_right: &[u8]) -> Said {
    for (model, number) in [(left, 2), (right, 3)] {
        if !model.model.is_canonical() {
            return refuse(12, &[number]);
        }
    }
    same_signature(&[base, left, right])?;
    let to_left = map_of(1, base, left, to_left)?;
    let to_right = map_of(2, base, right, to_right)?;
    searched(left, right, 2, find_isomorphism_under(&to_left, &to_right, Fuel::Infinite))
}
