//! Models that several tests use.
#![allow(dead_code)]
use bizakoma::{Model, ModelBuilder, ELEMENTS};

/// More units than any of these searches needs.
pub const AMPLE: u64 = 1_000_000;

/// One type of `count` elements without relations.
pub fn plain(count: usize) -> Model {
    let mut model = ModelBuilder::new();
    let vertex = model.add_type().unwrap();
    model.add_elements(vertex, count).unwrap();
    model.build().unwrap()
}

/// One type of `count` elements with merges, and a relation of two columns with the rows given.
pub fn graph_with_merges(count: usize, edges: &[(usize, usize)], merges: &[(usize, usize)]) -> ModelBuilder {
    let mut model = ModelBuilder::new();
    let vertex = model.add_type().unwrap();
    let elements = model.add_elements(vertex, count).unwrap();
    let e = model.add_relation(&[vertex, vertex]).unwrap();
    for &(from, to) in edges {
        model.add_row(e, &[elements[from], elements[to]]).unwrap();
    }
    for &(one, other) in merges {
        model.merge(elements[one], elements[other]).unwrap();
    }
    model
}

/// One type of `count` elements and a relation of two columns with the rows given.
pub fn graph(count: usize, edges: &[(usize, usize)]) -> Model {
    graph_with_merges(count, edges, &[]).build().unwrap()
}

/// Directed rings of the lengths given.
pub fn rings(lengths: &[usize]) -> Model {
    let mut edges = Vec::new();
    for &length in lengths {
        let start = edges.len();
        edges.extend((0..length).map(|i| (start + i, start + (i + 1) % length)));
    }
    graph(edges.len(), &edges)
}

/// No types, and a nullary relation that holds or not.
pub fn nullary(holds: bool) -> Model {
    let mut model = ModelBuilder::new();
    let relation = model.add_relation(&[]).unwrap();
    if holds {
        model.add_row(relation, &[]).unwrap();
    }
    model.build().unwrap()
}

/// The stored model of one type with `count` elements, past the limit too.
pub fn stored_plain(count: u8) -> Vec<u8> {
    let mut bytes = vec![1, 0, 1, count, 2, 0, count];
    bytes.extend(0..count);
    bytes.extend([0, 0, 0]);
    bytes
}

/// An output full of what no call writes.
pub const FULL: [u8; ELEMENTS + 2] = [77; ELEMENTS + 2];
