//! A file with what it means, on both sides.
use crate::stored::{self, Stored};
use original::{Element, Model, TypeId};

/// A stored model for the port, and the original's model that it means.
pub struct File {
    pub bytes: Vec<u8>,
    /// The meaning, or the offset of the field at fault.
    pub meaning: Result<Meaning, usize>,
}

pub struct Meaning {
    pub stored: Stored,
    pub model: Model,
}

impl File {
    pub fn of_bytes(bytes: Vec<u8>) -> Self {
        let meaning = stored::read(&bytes).map(Meaning::new);
        Self { bytes, meaning }
    }

    pub fn of(stored: &Stored) -> Self {
        let file = Self::of_bytes(stored.bytes());
        assert_eq!(file.meaning.as_ref().map(|meaning| &meaning.stored), Ok(stored), "a model that the second reader refuses or reads otherwise");
        file
    }

    /// A model that was built in another way, with its stored form.
    pub fn of_model(stored: Stored, model: Model) -> Self {
        Self { bytes: stored.bytes(), meaning: Ok(Meaning { stored, model }) }
    }

    /// The number of elements; 0 of a malformed file.
    pub fn n(&self) -> usize {
        self.meaning.as_ref().map_or(0, |meaning| meaning.stored.n())
    }

    /// The meaning of a file that is not malformed.
    pub fn known(&self) -> &Meaning {
        self.meaning.as_ref().expect("a well-formed file")
    }
}

impl Meaning {
    fn new(stored: Stored) -> Self {
        let columns = stored.relations.iter().map(|relation| relation.columns.clone()).collect();
        let signature = original::signature(stored.types.len(), &columns);
        let model = original::assemble(signature, &roots_by_type(&stored), &rows_by_index(&stored));
        Self { stored, model }
    }

    /// The original's element of a number. A number that is no element's goes to an element of a type that is not there.
    pub fn element(&self, number: u8) -> Element {
        let number = usize::from(number);
        let type_ = self.stored.type_of(number);
        Element { type_: TypeId(type_), index: (number - first_of(&self.stored, type_)) as u32 }
    }

    /// The number of an element.
    pub fn number(&self, element: Element) -> u8 {
        (first_of(&self.stored, element.type_.0) + element.index as usize) as u8
    }
}

/// The first element of a type.
fn first_of(stored: &Stored, type_: usize) -> usize {
    stored.types[..type_].iter().map(|&count| usize::from(count)).sum()
}

fn roots_by_type(stored: &Stored) -> Vec<Vec<u32>> {
    let mut from = 0;
    let mut all = vec![];
    for &count in &stored.types {
        let roots = &stored.roots[from..from + usize::from(count)];
        all.push(roots.iter().map(|&root| u32::from(root) - from as u32).collect());
        from += usize::from(count);
    }
    all
}

fn rows_by_index(stored: &Stored) -> Vec<Vec<Vec<u32>>> {
    let index = |&entry: &u8| (usize::from(entry) - first_of(stored, stored.type_of(usize::from(entry)))) as u32;
    let rows = |relation: &stored::Relation| relation.rows.iter().map(|row| row.iter().map(index).collect()).collect();
    stored.relations.iter().map(rows).collect()
}
