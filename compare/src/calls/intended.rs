//! The differences that `docs/DIFFERENCES.md` lists, each on its smallest input: the sides must differ as it says.
use super::{ample, BUDGET};
use crate::call::{Answer, Call, Lent};
use crate::file::File;
use crate::models::{graph, model};
use crate::port::Port;
use crate::stored::Stored;
use original::{find_isomorphism, find_with_fixed_pairs, Element, Error, Fuel, Model, Signature, Type, TypeId, TypeKind};
use std::panic::{catch_unwind, set_hook, take_hook, AssertUnwindSafe};
use std::sync::Arc;

/// Of each difference, whether it is as listed.
pub fn differences() -> Vec<(&'static str, bool)> {
    let hook = take_hook();
    set_hook(Box::new(|_| {}));
    let all = vec![
        ("canonical", canonical()),
        ("units of budget", units()),
        ("find with pairs: unknown element", unknown_element()),
        ("find with pairs: unlike types", unlike_types()),
        ("find with pairs: alias", alias()),
        ("signature", names()),
        ("input", empty_file()),
    ];
    set_hook(hook);
    all
}

/// Whether the port answers so, every lent byte and entry looked at, with these units where it is asked to search.
fn port_says(call: &Call, lent: Lent, number: u32, carried: &[u64], map: Option<&[u8]>) -> bool {
    let mut port = Port::new();
    port.reset();
    port.ask(call, lent);
    let answer = Answer { number, carried: carried.to_vec(), map: map.map(<[u8]>::to_vec) };
    port.said(call, lent, &answer) && port.carried[..carried.len()] == *carried
}

fn find_says(left: &File, right: &File, number: u32, carried: &[u64], map: &[u8]) -> bool {
    let call = Call::Find { left, right };
    port_says(&call, ample(&call), number, carried, Some(map))
}

/// Elements of one type with no relations.
fn bare(roots: &[u8]) -> Stored {
    Stored { types: vec![roots.len() as u8], roots: roots.to_vec(), relations: vec![] }
}

fn element(type_: usize, index: u32) -> Element {
    Element { type_: TypeId(type_), index }
}

/// Two elements equated, no relation: not canonical there, canonical here.
fn canonical() -> bool {
    let mut equated = Model::new(original::signature(1, &vec![]));
    let [a, b] = [0, 1].map(|_| equated.new_element(TypeId(0), &[]).expect("an element"));
    equated.equate(&[], a, b).expect("an equation");
    let refused = matches!(find_isomorphism(&equated, &equated, Fuel::Infinite), Err(Error::NonCanonicalModel));
    let file = File::of(&bare(&[0, 0]));
    refused && find_says(&file, &file, 0, &[2], &[0, 255])
}

/// The model with nothing in it: 2 units are not enough there, and enough here.
fn units() -> bool {
    let file = File::of(&model(&[], &[]));
    let nothing = &file.known().model;
    let exhausted = matches!(find_isomorphism(nothing, nothing, Fuel::Finite(2)), Err(Error::FuelExhausted));
    let call = Call::Find { left: &file, right: &file };
    exhausted && port_says(&call, Lent { budget: 2, ..ample(&call) }, 0, &[2], Some(&[]))
}

/// Whether the private function panics on a pair.
fn panics(left: &File, right: &File, pair: (Element, Element)) -> bool {
    let find = || find_with_fixed_pairs(&left.known().model, &right.known().model, &[pair], Fuel::Infinite).map(|map| map.is_some());
    catch_unwind(AssertUnwindSafe(find)).is_err()
}

fn unknown_element() -> bool {
    let file = File::of(&bare(&[0, 1]));
    let call = Call::Pairs { left: &file, right: &file, pairs: &[2, 0] };
    panics(&file, &file, (element(0, 2), element(0, 0))) && port_says(&call, ample(&call), 14, &[0, 1], None)
}

/// Two types of one element each: none there, 15 here.
fn unlike_types() -> bool {
    let file = File::of(&model(&[1, 1], &[]));
    let both = &file.known().model;
    let found = find_with_fixed_pairs(both, both, &[(element(0, 0), element(1, 0))], Fuel::Infinite);
    let call = Call::Pairs { left: &file, right: &file, pairs: &[0, 1] };
    matches!(found, Ok(None)) && port_says(&call, ample(&call), 15, &[0], None)
}

fn alias() -> bool {
    let file = File::of(&bare(&[0, 0]));
    let call = Call::Pairs { left: &file, right: &file, pairs: &[1, 1] };
    panics(&file, &file, (element(0, 1), element(0, 1))) && port_says(&call, ample(&call), 0, &[2], Some(&[0, 255]))
}

/// Two models whose types differ in name alone.
fn names() -> bool {
    let named = |name: &str| {
        let type_ = Type { name: name.into(), kind: TypeKind::Plain, parents: vec![] };
        Model::with_signature(Arc::new(Signature::new(vec![type_], vec![]).expect("a signature")))
    };
    let (a, b) = (named("A"), named("B"));
    let differ = matches!(find_isomorphism(&a, &b, Fuel::Infinite), Err(Error::SignatureMismatch));
    let file = File::of(&bare(&[]));
    differ && find_says(&file, &file, 0, &[2], &[])
}

fn empty_file() -> bool {
    let (empty, good) = (File::of_bytes(vec![]), File::of(&graph(1, [])));
    let call = Call::Find { left: &empty, right: &good };
    port_says(&call, Lent { budget: BUDGET, ..ample(&call) }, 10, &[1, 0], None)
}
