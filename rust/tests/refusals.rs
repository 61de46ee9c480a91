//! Every refusal, 10 to 20, with what it carries, in the order in which they are looked for.
mod common;
use bizakoma::{
    apply, check, compose, find, find_under, find_with_pairs, identity, inverse, lent, Model, ModelBuilder, Refusal, Work, WORK,
};
use common::{graph, graph_with_merges, plain, AMPLE};

fn work() -> Work {
    Work::new()
}

/// Two types of one element each.
fn two_types() -> Model {
    let mut model = ModelBuilder::new();
    for _ in 0..2 {
        let of = model.add_type().unwrap();
        model.add_element(of).unwrap();
    }
    model.build().unwrap()
}

#[test]
fn number_10_malformed() {
    let (good, bad) = (plain(2), [1, 0, 1, 2, 2, 0, 2, 0, 2, 0, 0, 0]);
    let at = |model| Refusal::Malformed { model, offset: 4 };
    assert_eq!(identity(&bad), Err(at(1)));
    assert_eq!(check(&bad, &good, &[]), Err(at(1)));
    assert_eq!(check(&good, &bad, &[]), Err(at(2)));
    assert_eq!(apply(&good, &bad, &[0, 1], 0), Err(at(2)));
    assert_eq!(compose(&good, &good, &bad, &[0, 1], &[0, 1]), Err(at(3)));
    assert_eq!(compose(&good, &bad, &bad, &[0, 1], &[0, 1]), Err(at(2)));
    assert_eq!(inverse(&bad, &bad, &[0, 1]), Err(at(1)));
    assert_eq!(find(&good, &bad, AMPLE, &mut work()), Err(at(2)));
    assert_eq!(find_with_pairs(&good, &bad, &[], AMPLE, &mut work()), Err(at(2)));
    assert_eq!(find_under(&good, &good, &bad, &[0, 1], &[0, 1], AMPLE, &mut work()), Err(at(3)));
}

#[test]
fn number_10_bytes_after_the_end() {
    let mut long = plain(2).to_vec();
    long.push(0);
    assert_eq!(identity(&long), Err(Refusal::Malformed { model: 1, offset: 12 }));
}

#[test]
fn number_11_no_room() {
    let model = plain(2);
    let refused = Some(Refusal::NoRoom);
    let mut entries = vec![0; WORK];
    assert_eq!(lent::identity(&model, &mut [0; 1]).refusal(), refused);
    assert_eq!(lent::check(&model, &model, &[], &mut [0; 1]).refusal(), refused);
    assert_eq!(lent::compose(&model, &model, &model, &[0, 1], &[0, 1], &mut []).refusal(), refused);
    assert_eq!(lent::inverse(&model, &model, &[0, 1], &mut [0; 1]).refusal(), refused);
    assert_eq!(lent::find(&model, &model, AMPLE, &mut [0; 1], &mut entries).refusal(), refused);
    assert_eq!(lent::find(&model, &model, AMPLE, &mut [0; 2], &mut entries[1..]).refusal(), refused);
    assert_eq!(lent::find_with_pairs(&model, &model, &[], AMPLE, &mut [0; 2], &mut []).refusal(), refused);
    assert_eq!(lent::find_under(&model, &model, &model, &[0, 1], &[0, 1], AMPLE, &mut [0; 1], &mut entries).refusal(), refused);
}

#[test]
fn number_12_not_canonical() {
    let builder = graph_with_merges(2, &[(0, 1)], &[(0, 1)]);
    let (alias, canonical) = (builder.build().unwrap(), builder.build_canonical().unwrap());
    let of = |model| Refusal::NotCanonical { model };
    assert_eq!(find(&alias, &canonical, AMPLE, &mut work()), Err(of(1)));
    assert_eq!(find(&canonical, &alias, AMPLE, &mut work()), Err(of(2)));
    assert_eq!(find_with_pairs(&alias, &alias, &[], AMPLE, &mut work()), Err(of(1)));
    assert_eq!(find_under(&alias, &alias, &canonical, &[0, 255], &[0, 255], AMPLE, &mut work()), Err(of(2)));
    assert_eq!(find_under(&alias, &canonical, &alias, &[0, 255], &[0, 255], AMPLE, &mut work()), Err(of(3)));
    assert!(find_under(&alias, &canonical, &canonical, &[0, 255], &[0, 255], AMPLE, &mut work()).is_ok());
}

#[test]
fn number_13_signatures_differ() {
    let (one, other) = (plain(2), graph(2, &[]));
    let refused = Refusal::SignaturesDiffer;
    assert_eq!(check(&one, &other, &[]), Err(refused));
    assert_eq!(apply(&one, &other, &[], 9), Err(refused));
    assert_eq!(compose(&one, &one, &other, &[], &[]), Err(refused));
    assert_eq!(inverse(&one, &two_types(), &[]), Err(refused));
    assert_eq!(find(&one, &other, AMPLE, &mut work()), Err(refused));
    assert_eq!(find_with_pairs(&one, &other, &[(9, 9)], AMPLE, &mut work()), Err(refused));
    assert_eq!(find_under(&other, &one, &one, &[], &[], AMPLE, &mut work()), Err(refused));
}

#[test]
fn number_14_unknown_element() {
    let model = plain(2);
    let of = |place, side| Refusal::UnknownElement { place, side };
    assert_eq!(check(&model, &model, &[(0, 0), (2, 2)]), Err(of(1, 1)));
    assert_eq!(check(&model, &model, &[(0, 0), (1, 2)]), Err(of(1, 2)));
    assert_eq!(apply(&model, &model, &[0, 1], 2), Err(of(0, 1)));
    assert_eq!(find_with_pairs(&model, &model, &[(0, 0), (0, 1), (1, 255)], AMPLE, &mut work()), Err(of(2, 2)));
}

#[test]
fn number_15_types_differ() {
    let model = two_types();
    let of = |place| Refusal::TypesDiffer { place };
    assert_eq!(check(&model, &model, &[(0, 1)]), Err(of(0)));
    assert_eq!(find_with_pairs(&model, &model, &[(1, 1), (1, 0)], AMPLE, &mut work()), Err(of(1)));
}

#[test]
fn number_16_image_missing() {
    assert_eq!(check(&plain(3), &plain(3), &[(0, 0)]), Err(Refusal::ImageMissing { element: 1 }));
}

#[test]
fn number_17_conflicting_images() {
    let source = graph_with_merges(2, &[], &[(0, 1)]).build().unwrap();
    let refused = Err(Refusal::ConflictingImages { element: 0 });
    assert_eq!(check(&plain(2), &plain(2), &[(0, 0), (0, 1)]), refused);
    assert_eq!(check(&source, &graph(2, &[]), &[(0, 0), (1, 1)]), refused);
}

#[test]
fn number_18_relation_not_kept() {
    let (source, target) = (graph(2, &[(0, 1)]), graph(2, &[(1, 0)]));
    assert_eq!(check(&source, &target, &[(0, 0), (1, 1)]), Err(Refusal::RelationNotKept { relation: 0 }));
}

#[test]
fn number_19_not_a_map() {
    let (source, target) = (graph(2, &[(0, 1)]), graph(2, &[(1, 0)]));
    let of = |map| Refusal::NotAMap { map };
    assert_eq!(apply(&source, &target, &[0, 1], 0), Err(of(1)));
    assert_eq!(apply(&source, &target, &[1], 0), Err(of(1)));
    assert_eq!(apply(&source, &target, &[1, 255], 0), Err(of(1)));
    assert_eq!(compose(&source, &target, &source, &[1, 0], &[0, 1]), Err(of(2)));
    assert_eq!(compose(&source, &target, &source, &[0, 1], &[0, 1]), Err(of(1)));
    assert_eq!(inverse(&source, &target, &[1, 2]), Err(of(1)));
    assert_eq!(find_under(&source, &target, &source, &[1, 0], &[1, 0], AMPLE, &mut work()), Err(of(2)));
}

#[test]
fn number_20_odd_pairs() {
    let model = plain(2);
    let refused = Some(Refusal::OddPairs);
    assert_eq!(lent::check(&model, &model, &[9], &mut [0; 2]).refusal(), refused);
    assert_eq!(lent::find_with_pairs(&model, &model, &[0, 0, 9], AMPLE, &mut [0; 2], &mut vec![0; WORK]).refusal(), refused);
}

#[test]
fn a_refusal_has_the_number_that_the_library_answered() {
    for number in 10..=20 {
        let answer = bizakoma::Numbers { number, carried: [1, 2, 0] };
        assert_eq!(answer.refusal().map(|refusal| refusal.number()), Some(number));
    }
    for number in [0, 1, 2, 9, 21] {
        assert_eq!(bizakoma::Numbers { number, carried: [0; 3] }.refusal(), None);
    }
}
