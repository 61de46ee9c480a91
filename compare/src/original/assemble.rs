//! Models of the original from what a stored model says, through its own `Model::from_parts`, which keeps element numbers, representatives and rows
//! as they are given and finds out whether the model is canonical.
use crate::data::{RelationData, TypeData};
use crate::{Model, Relation, RelationId, RelationKind, Signature, Type, TypeId, TypeKind};
use std::cell::RefCell;
use std::collections::HashMap;

type Columns = Vec<Vec<u8>>;

thread_local! {
    static SIGNATURES: RefCell<HashMap<(usize, Columns), &'static Signature>> = RefCell::new(HashMap::new());
}

/// The signature with so many types and these columns of each relation; equal ones are the same instance. Names follow from the place, kinds are
/// plain, and there are no parents, so that two signatures are equal exactly if document 01's are.
pub fn signature(types: usize, columns: &Columns) -> &'static Signature {
    SIGNATURES.with(|known| {
        let mut known = known.borrow_mut();
        *known.entry((types, columns.clone())).or_insert_with(|| Box::leak(Box::new(new_signature(types, columns))))
    })
}

fn new_signature(types: usize, columns: &Columns) -> Signature {
    let types = (0..types).map(|i| Type { name: format!("T{i}"), kind: TypeKind::Plain, parents: vec![] });
    let relations = columns.iter().enumerate().map(|(i, columns)| Relation {
        name: format!("R{i}"),
        kind: RelationKind::Predicate,
        arity: columns.iter().map(|&c| TypeId(c as usize)).collect(),
        parents: vec![],
    });
    Signature::new(types.collect(), relations.collect()).expect("a signature")
}

/// The model with these representatives, given for each type by index, and these rows of indices.
pub fn assemble(signature: &'static Signature, roots: &[Vec<u32>], rows: &[Vec<Vec<u32>>]) -> Model {
    let types = roots.iter().map(|roots| type_data(roots)).collect();
    let relations = signature.relations().map(|(RelationId(id), relation)| {
        let mut data = RelationData::new(relation.arity.len());
        for row in &rows[id] {
            data.rows.insert(row);
        }
        data
    });
    Model::from_parts(signature, types, relations.collect()).expect("a model")
}

fn type_data(roots: &[u32]) -> TypeData {
    let mut data = TypeData::new();
    data.equalities.increase_size_to(roots.len());
    data.weights = vec![0; roots.len()];
    for (element, &root) in roots.iter().enumerate() {
        let element = element as u32;
        if element == root {
            data.elements.insert([element]);
        } else {
            data.equalities.union_roots_into(element, root);
        }
    }
    data
}
