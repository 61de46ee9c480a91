//! What the answers say.
mod common;
use bizakoma::{find, inverse, Refusal, Search, Work};
use common::{graph, plain, rings, AMPLE};

#[test]
fn a_find_says_what_is_decided() {
    let say = |left: &[u8], right: &[u8], budget| find(left, right, budget, &mut Work::new()).unwrap().to_string();
    assert_eq!(say(&graph(2, &[(0, 1)]), &graph(2, &[(1, 0)]), AMPLE), "found after 3 units: 1 0");
    assert_eq!(say(&plain(0), &plain(0), AMPLE), "found after 2 units: the empty map");
    assert_eq!(say(&rings(&[6]), &rings(&[3, 3]), AMPLE), "no isomorphism, after 19 units");
    assert_eq!(say(&rings(&[6]), &rings(&[3, 3]), 18), "out of budget after 18 units");
    assert_eq!(Search::None { units: 1 }.to_string(), "no isomorphism, after 1 unit");
    assert_eq!(Search::OutOfBudget { units: 0 }.to_string(), "out of budget after 0 units");
}

#[test]
fn an_inverse_says_the_map_or_none() {
    let model = plain(2);
    assert_eq!(inverse(&model, &model, &[1, 0]).unwrap().to_string(), "inverse: 1 0");
    assert_eq!(inverse(&model, &model, &[0, 0]).unwrap().to_string(), "no inverse");
}

#[test]
fn a_refusal_says_what_is_at_fault() {
    let said = [
        (Refusal::Malformed { model: 2, offset: 9 }, "model 2 is malformed: the field at offset 9 is at fault"),
        (Refusal::NoRoom, "no room: the output or the work is too short"),
        (Refusal::NotCanonical { model: 1 }, "model 1 is not canonical: a row holds an alias"),
        (Refusal::SignaturesDiffer, "the signatures differ"),
        (Refusal::UnknownElement { place: 3, side: 2 }, "unknown element in pair 3, side 2"),
        (Refusal::TypesDiffer { place: 4 }, "the types of pair 4 differ"),
        (Refusal::ImageMissing { element: 5 }, "element 5 has no image"),
        (Refusal::ConflictingImages { element: 6 }, "element 6 has conflicting images"),
        (Refusal::RelationNotKept { relation: 7 }, "relation 7 is not kept"),
        (Refusal::NotAMap { map: 2 }, "map 2 is not a map between its models"),
        (Refusal::OddPairs, "the pair list has an odd length"),
    ];
    for (refusal, text) in said {
        assert_eq!(refusal.to_string(), text);
    }
}
