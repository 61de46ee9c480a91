//! Models that the original builds by its own calls: elements, rows and equations in any order, then `canonicalize`.
use crate::file::File;
use crate::random::Random;
use crate::stored::{Relation, Stored};
use original::{Element, Model, RelationId, Signature, TypeId};

/// A model of one type and two relations, of one and of two columns, with its stored form.
pub fn built(random: &mut Random) -> File {
    let columns = vec![vec![0], vec![0, 0]];
    let mut model = Model::new(original::signature(1, &columns));
    let mut elements = vec![];
    for _ in 0..random.below(30) {
        step(&mut model, &mut elements, random);
    }
    model.canonicalize();
    File::of_model(stored(&model, &elements), model)
}

fn step(model: &mut Model, elements: &mut Vec<Element>, random: &mut Random) {
    if elements.is_empty() || random.one_in(3) {
        elements.push(model.new_element(TypeId(0), &[]).expect("an element"));
        return;
    }
    let (a, b) = (*random.of(elements), *random.of(elements));
    match random.below(4) {
        0 => drop(model.equate(&[], a, b).expect("an equation")),
        1 => drop(model.insert(RelationId(0), &[a]).expect("a row")),
        _ => drop(model.insert(RelationId(1), &[a, b]).expect("a row")),
    }
}

/// The stored form of a model of one type.
fn stored(model: &Model, elements: &[Element]) -> Stored {
    let signature: &Signature = model.signature();
    let relations = signature.relations().map(|(id, relation)| {
        let rows = model.tuples(id).expect("a relation").map(|row| row.iter().map(|e| e.index as u8).collect());
        super::relation(&vec![0; relation.arity.len()], rows.collect::<Vec<_>>())
    });
    Stored {
        types: vec![elements.len() as u8],
        roots: elements.iter().map(|&e| model.root(e).expect("an element").index as u8).collect(),
        relations: relations.collect::<Vec<Relation>>(),
    }
}
