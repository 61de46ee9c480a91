//! The numbered examples of the document that are calls, 1 to 13.
mod common;
use bizakoma::{apply, check, find, find_under, find_with_pairs, identity, inverse, Inverse, Refusal, Search, Work};
use common::{graph, graph_with_merges, nullary, plain, rings, stored_plain, AMPLE};

/// Number, units and map of a find.
fn told(answer: Result<Search, Refusal>) -> (u32, u64, Vec<u8>) {
    let answer = answer.unwrap();
    (answer.number(), answer.units(), answer.map().map_or(Vec::new(), |map| map.to_vec()))
}

fn found(left: &[u8], right: &[u8], budget: u64) -> (u32, u64, Vec<u8>) {
    told(find(left, right, budget, &mut Work::new()))
}

fn found_with(left: &[u8], right: &[u8], pairs: &[(u8, u8)]) -> (u32, u64, Vec<u8>) {
    told(find_with_pairs(left, right, pairs, AMPLE, &mut Work::new()))
}

#[test]
fn example_1_no_types() {
    let empty = [1, 0, 0, 2, 0, 0, 0, 0, 0];
    assert_eq!(found(&empty, &empty, AMPLE), (0, 2, vec![]));
    assert_eq!(found(&empty, &empty, 2), (0, 2, vec![]));
    assert_eq!(found(&empty, &empty, 1), (2, 1, vec![]));
    assert_eq!(found(&empty, &empty, 0), (2, 0, vec![]));
}

#[test]
fn example_2_two_elements() {
    assert_eq!(found(&plain(2), &plain(2), AMPLE), (0, 4, vec![0, 1]));
}

#[test]
fn example_3_an_edge_and_the_edge_back() {
    let (left, right) = (graph(2, &[(0, 1)]), graph(2, &[(1, 0)]));
    assert_eq!(left.as_bytes(), [1, 0, 1, 2, 2, 0, 2, 0, 1, 3, 0, 7, 2, 0, 0, 0, 1, 0, 1, 0, 0, 0]);
    assert_eq!(found(&left, &right, AMPLE), (0, 3, vec![1, 0]));
    assert_eq!(found(&left, &right, 3), (0, 3, vec![1, 0]));
    assert_eq!(found(&left, &right, 2), (2, 2, vec![]));
}

#[test]
fn example_4_a_pair_that_does_not_fit() {
    assert_eq!(found_with(&graph(2, &[(0, 1)]), &graph(2, &[(1, 0)]), &[(0, 0)]), (1, 1, vec![]));
}

#[test]
fn example_5_an_edge_and_a_loop() {
    assert_eq!(found(&graph(2, &[(0, 1)]), &graph(2, &[(0, 0)]), AMPLE), (1, 1, vec![]));
}

#[test]
fn example_6_conflicting_pairs() {
    assert_eq!(found_with(&plain(2), &plain(2), &[(0, 0), (0, 1)]), (1, 0, vec![]));
    assert_eq!(found_with(&plain(2), &plain(2), &[(0, 0), (1, 0)]), (1, 0, vec![]));
}

#[test]
fn example_7_a_nullary_relation() {
    assert_eq!(found(&nullary(true), &nullary(true), AMPLE), (0, 2, vec![]));
    assert_eq!(found(&nullary(true), &nullary(false), AMPLE), (1, 0, vec![]));
    assert_eq!(found(&nullary(false), &nullary(true), AMPLE), (1, 0, vec![]));
}

#[test]
fn example_8_rings_of_three() {
    let (left, right) = (graph(3, &[(0, 1), (1, 2), (2, 0)]), graph(3, &[(0, 2), (2, 1), (1, 0)]));
    assert_eq!(found(&left, &right, AMPLE), (0, 5, vec![0, 2, 1]));
}

#[test]
fn example_9_a_ring_of_six_and_two_of_three() {
    assert_eq!(found(&rings(&[6]), &rings(&[3, 3]), AMPLE), (1, 19, vec![]));
    assert_eq!(found(&rings(&[6]), &rings(&[3, 3]), 19), (1, 19, vec![]));
    assert_eq!(found(&rings(&[6]), &rings(&[3, 3]), 18), (2, 18, vec![]));
}

#[test]
fn example_10_a_bijection_that_is_no_isomorphism() {
    let (source, target) = (graph(2, &[]), graph(2, &[(0, 1)]));
    let map = check(&source, &target, &[(0, 0), (1, 1)]).unwrap();
    assert_eq!(map.as_bytes(), [0, 1]);
    assert_eq!(inverse(&source, &target, &map), Ok(Inverse::None));
}

#[test]
fn example_11_under_a_base() {
    let left = {
        let mut model = bizakoma::ModelBuilder::new();
        let vertex = model.add_type().unwrap();
        let elements = model.add_elements(vertex, 2).unwrap();
        model.merge(elements[1], elements[0]).unwrap();
        model.build().unwrap()
    };
    let (base, right) = (plain(2), plain(1));
    let answer = find_under(&base, &left, &right, &[0, 0], &[0, 0], AMPLE, &mut Work::new()).unwrap();
    assert_eq!(told(Ok(answer)), (0, 2, vec![0, 255]));
    let map = *answer.map().unwrap();
    assert_eq!(apply(&left, &right, &map, 1), Ok(0));
    assert_eq!((map.image(0), map.image(1)), (Some(0), None));
}

#[test]
fn example_12_as_many_elements_as_there_may_be() {
    let all: Vec<u8> = (0..64).collect();
    assert_eq!(identity(&stored_plain(64)).unwrap().as_bytes(), all);
    assert_eq!(identity(&stored_plain(65)), Err(Refusal::Malformed { model: 1, offset: 0 }));
}

#[test]
fn example_13_an_empty_file() {
    let malformed = Err(Refusal::Malformed { model: 1, offset: 0 });
    assert_eq!(find(&[], &plain(1), AMPLE, &mut Work::new()), malformed);
    assert_eq!(find(&[], &[], AMPLE, &mut Work::new()), malformed);
}

#[test]
fn merges_make_graphs_alike() {
    let left = graph_with_merges(3, &[(0, 1), (2, 1)], &[(0, 2)]).build_canonical().unwrap();
    assert_eq!(found(&left, &graph(2, &[(1, 0)]), AMPLE), (0, 3, vec![1, 0, 255]));
}
