//! The builder: the bytes it makes, and what it refuses.
mod common;
use bizakoma::{identity, BuildError, ModelBuilder, ALIAS};
use common::graph_with_merges;

#[test]
fn elements_are_numbered_type_by_type() {
    let mut model = ModelBuilder::new();
    let (a, b) = (model.add_type().unwrap(), model.add_type().unwrap());
    let last = model.add_element(b).unwrap();
    let first = model.add_element(a).unwrap();
    let second = model.add_element(a).unwrap();
    let r = model.add_relation(&[b, a]).unwrap();
    model.add_row(r, &[last, second]).unwrap();
    model.add_row(r, &[last, first]).unwrap();
    model.add_row(r, &[last, second]).unwrap();
    let model = model.build().unwrap();
    assert_eq!([first, second, last].map(|element| model.number(element)), [0, 1, 2]);
    assert_eq!(r.number(), 0);
    let rows = [3, 0, 9, 2, 1, 0, 0, 2, 2, 0, 2, 1];
    assert_eq!(model.as_bytes(), [&[1, 0, 2, 2, 1, 2, 0, 3, 0, 1, 2][..], &rows, &[0, 0, 0]].concat());
}

#[test]
fn merges_give_representatives() {
    let model = graph_with_merges(5, &[], &[(4, 2), (2, 1), (3, 3)]).build().unwrap();
    assert_eq!(identity(&model).unwrap().as_bytes(), [0, 1, ALIAS, 3, ALIAS]);
}

#[test]
fn rows_may_hold_aliases() {
    let builder = graph_with_merges(3, &[(2, 0), (1, 0), (1, 2)], &[(1, 2)]);
    let rows = |model: &[u8]| model[model.len() - 3 - 6..model.len() - 3].to_vec();
    assert_eq!(rows(&builder.build().unwrap()), [1, 0, 1, 2, 2, 0]);
    let canonical = builder.build_canonical().unwrap();
    assert_eq!(canonical[12..canonical.len() - 3], [7 + 2, 2, 0, 0, 0, 2, 1, 0, 1, 1]);
}

#[test]
fn types_and_relations_have_a_limit() {
    let mut model = ModelBuilder::new();
    for _ in 0..16 {
        model.add_type().unwrap();
        model.add_relation(&[]).unwrap();
    }
    assert!(identity(&model.build().unwrap()).is_ok());
    assert_eq!(model.add_type(), Err(BuildError::TooManyTypes));
    assert_eq!(model.add_relation(&[]), Err(BuildError::TooManyRelations));
}

#[test]
fn elements_and_columns_have_a_limit() {
    let mut model = ModelBuilder::new();
    let of = model.add_type().unwrap();
    model.add_elements(of, 64).unwrap();
    model.add_relation(&[of; 8]).unwrap();
    assert!(identity(&model.build().unwrap()).is_ok());
    assert_eq!(model.add_element(of), Err(BuildError::TooManyElements));
    assert_eq!(model.add_relation(&[of; 9]), Err(BuildError::TooManyColumns { given: 9 }));
}

#[test]
fn cells_have_a_limit() {
    let mut model = ModelBuilder::new();
    let of = model.add_type().unwrap();
    let elements = model.add_elements(of, 64).unwrap();
    let (one, other) = (model.add_relation(&[of, of]).unwrap(), model.add_relation(&[of]).unwrap());
    for i in 0..1024 {
        let row = [elements[i / 64], elements[i % 64]];
        model.add_row(one, &row).unwrap();
        model.add_row(one, &row).unwrap();
    }
    assert!(identity(&model.build().unwrap()).is_ok());
    model.add_row(other, &elements[..1]).unwrap();
    assert_eq!(model.build(), Err(BuildError::TooManyCells { relation: 1 }));
}

#[test]
fn what_does_not_fit_is_refused() {
    let mut model = ModelBuilder::new();
    let (a, b) = (model.add_type().unwrap(), model.add_type().unwrap());
    let (x, y) = (model.add_element(a).unwrap(), model.add_element(b).unwrap());
    let r = model.add_relation(&[a, b]).unwrap();
    assert_eq!(model.add_row(r, &[x]), Err(BuildError::RowLength { relation: 0, columns: 2, given: 1 }));
    assert_eq!(model.add_row(r, &[x, x]), Err(BuildError::RowType { relation: 0, column: 1 }));
    assert_eq!(model.merge(x, y), Err(BuildError::MergedTypesDiffer));
    let mut other = ModelBuilder::new();
    assert_eq!(other.add_element(a), Err(BuildError::Unknown));
    assert_eq!(other.add_relation(&[b]), Err(BuildError::Unknown));
    assert_eq!(other.add_row(r, &[x, y]), Err(BuildError::Unknown));
    assert_eq!(other.merge(x, x), Err(BuildError::Unknown));
}

#[test]
fn errors_say_what_is_too_much() {
    assert_eq!(BuildError::TooManyElements.to_string(), "a model has at most 64 elements");
    assert_eq!(BuildError::TooManyCells { relation: 1 }.to_string(), "a model has at most 2048 cells, and relation 1 passes that");
    assert_eq!(BuildError::RowType { relation: 0, column: 1 }.to_string(), "the entry in column 1 of relation 0 is of another type");
}
