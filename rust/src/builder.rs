//! Stored models made from types, elements, rows and merges.
use crate::{ARITY, CELLS, ELEMENTS, RELATIONS, TYPES};
use std::collections::BTreeSet;
use std::error::Error;
use std::fmt;
use std::ops::Deref;

/// A type of the builder that gave it.
#[derive(Clone, Copy, Debug, PartialEq, Eq)]
pub struct Type(usize);

/// An element of the builder that gave it. Its number in the stored model is [`Model::number`].
#[derive(Clone, Copy, Debug, PartialEq, Eq)]
pub struct Element {
    of: usize,
    index: usize,
}

/// A relation of the builder that gave it. They are numbered from 0, in the order in which they were added.
#[derive(Clone, Copy, Debug, PartialEq, Eq)]
pub struct Relation(usize);

impl Relation {
    /// Its number in the stored model.
    pub fn number(self) -> u8 {
        self.0 as u8
    }
}

/// What a builder refuses.
#[derive(Clone, Copy, Debug, PartialEq, Eq)]
pub enum BuildError {
    /// One more type than [`TYPES`].
    TooManyTypes,
    /// One more element than [`ELEMENTS`].
    TooManyElements,
    /// One more relation than [`RELATIONS`].
    TooManyRelations,
    /// More columns than [`ARITY`].
    TooManyColumns { given: usize },
    /// The relation with which the cells pass [`CELLS`], each row counted once.
    TooManyCells { relation: u8 },
    /// A type, an element or a relation of another builder.
    Unknown,
    /// A row with more or fewer entries than its relation has columns.
    RowLength { relation: u8, columns: usize, given: usize },
    /// An entry that is not of its column's type.
    RowType { relation: u8, column: usize },
    /// Two elements of different types were to be one.
    MergedTypesDiffer,
}

impl fmt::Display for BuildError {
    fn fmt(&self, f: &mut fmt::Formatter<'_>) -> fmt::Result {
        match self {
            BuildError::TooManyTypes => write!(f, "a model has at most {TYPES} types"),
            BuildError::TooManyElements => write!(f, "a model has at most {ELEMENTS} elements"),
            BuildError::TooManyRelations => write!(f, "a model has at most {RELATIONS} relations"),
            BuildError::TooManyColumns { given } => write!(f, "a relation has at most {ARITY} columns, not {given}"),
            BuildError::TooManyCells { relation } => write!(f, "a model has at most {CELLS} cells, and relation {relation} passes that"),
            BuildError::Unknown => write!(f, "a type, an element or a relation is of another builder"),
            BuildError::RowLength { relation, columns, given } => {
                write!(f, "a row of relation {relation} has {columns} entries, not {given}")
            }
            BuildError::RowType { relation, column } => write!(f, "the entry in column {column} of relation {relation} is of another type"),
            BuildError::MergedTypesDiffer => write!(f, "elements of different types cannot be merged"),
        }
    }
}

impl Error for BuildError {}

/// A stored model that a builder made: it is used as its bytes.
#[derive(Clone, Debug, PartialEq, Eq)]
pub struct Model {
    bytes: Vec<u8>,
    starts: Vec<usize>,
}

impl Model {
    /// The number of an element. Panics where the element is of another builder, with a type that this model does not have.
    pub fn number(&self, element: Element) -> u8 {
        (self.starts[element.of] + element.index) as u8
    }

    /// The bytes, as the calls take them.
    pub fn as_bytes(&self) -> &[u8] {
        &self.bytes
    }
}

impl Deref for Model {
    type Target = [u8];

    fn deref(&self) -> &[u8] {
        &self.bytes
    }
}

/// The columns of a relation, and its rows as they were added.
#[derive(Clone, Debug)]
struct Table {
    columns: Vec<usize>,
    rows: Vec<Vec<Element>>,
}

/// Makes stored models. Elements may be added to any type at any time; the stored model numbers them from 0, type by type.
#[derive(Clone, Debug, Default)]
pub struct ModelBuilder {
    /// Of each type, for each element the lowest element that it was merged with.
    roots: Vec<Vec<usize>>,
    tables: Vec<Table>,
}

impl ModelBuilder {
    /// No types, no elements, no relations.
    pub fn new() -> ModelBuilder {
        ModelBuilder::default()
    }

    /// One more type, without elements.
    pub fn add_type(&mut self) -> Result<Type, BuildError> {
        if self.roots.len() == TYPES {
            return Err(BuildError::TooManyTypes);
        }
        self.roots.push(Vec::new());
        Ok(Type(self.roots.len() - 1))
    }

    /// One more element of a type.
    pub fn add_element(&mut self, of: Type) -> Result<Element, BuildError> {
        if self.size() == ELEMENTS {
            return Err(BuildError::TooManyElements);
        }
        let roots = self.roots.get_mut(of.0).ok_or(BuildError::Unknown)?;
        let index = roots.len();
        roots.push(index);
        Ok(Element { of: of.0, index })
    }

    /// Several more elements of a type.
    pub fn add_elements(&mut self, of: Type, count: usize) -> Result<Vec<Element>, BuildError> {
        (0..count).map(|_| self.add_element(of)).collect()
    }

    /// One more relation, with a type for each of its columns.
    pub fn add_relation(&mut self, columns: &[Type]) -> Result<Relation, BuildError> {
        if self.tables.len() == RELATIONS {
            return Err(BuildError::TooManyRelations);
        }
        if columns.len() > ARITY {
            return Err(BuildError::TooManyColumns { given: columns.len() });
        }
        if columns.iter().any(|column| column.0 >= self.roots.len()) {
            return Err(BuildError::Unknown);
        }
        let columns = columns.iter().map(|column| column.0).collect();
        self.tables.push(Table { columns, rows: Vec::new() });
        Ok(Relation(self.tables.len() - 1))
    }

    /// A row of a relation. Rows may come in any order, more than once, and with aliases.
    pub fn add_row(&mut self, relation: Relation, row: &[Element]) -> Result<(), BuildError> {
        let table = self.tables.get(relation.0).ok_or(BuildError::Unknown)?;
        if row.len() != table.columns.len() {
            return Err(BuildError::RowLength { relation: relation.number(), columns: table.columns.len(), given: row.len() });
        }
        for (column, element) in row.iter().enumerate() {
            self.root(*element)?;
            if element.of != table.columns[column] {
                return Err(BuildError::RowType { relation: relation.number(), column });
            }
        }
        self.tables[relation.0].rows.push(row.to_vec());
        Ok(())
    }

    /// Makes two elements of a type one. The lowest of a class is its representative, the others are its aliases.
    pub fn merge(&mut self, one: Element, other: Element) -> Result<(), BuildError> {
        let (a, b) = (self.root(one)?, self.root(other)?);
        if one.of != other.of {
            return Err(BuildError::MergedTypesDiffer);
        }
        for root in &mut self.roots[one.of] {
            if *root == a.max(b) {
                *root = a.min(b);
            }
        }
        Ok(())
    }

    /// The stored model, its rows as they were added: a row that holds an alias makes it not canonical.
    pub fn build(&self) -> Result<Model, BuildError> {
        self.stored(|element| element.index)
    }

    /// The stored model with every entry of a row taken to its representative, so that it is canonical, as find needs it.
    pub fn build_canonical(&self) -> Result<Model, BuildError> {
        self.stored(|element| self.roots[element.of][element.index])
    }

    /// The number of elements.
    fn size(&self) -> usize {
        self.roots.iter().map(Vec::len).sum()
    }

    /// The representative of an element, within its type.
    fn root(&self, element: Element) -> Result<usize, BuildError> {
        let roots = self.roots.get(element.of).ok_or(BuildError::Unknown)?;
        roots.get(element.index).copied().ok_or(BuildError::Unknown)
    }

    /// The number of each type's first element.
    fn starts(&self) -> Vec<usize> {
        let mut next = 0;
        let mut starts = Vec::new();
        for roots in &self.roots {
            starts.push(next);
            next += roots.len();
        }
        starts
    }

    /// The stored model, with `entry` to say where in its type an entry of a row stands.
    fn stored(&self, entry: impl Fn(&Element) -> usize) -> Result<Model, BuildError> {
        let starts = self.starts();
        let types: Vec<u8> = self.roots.iter().map(|roots| roots.len() as u8).collect();
        let places = self.roots.iter().zip(&starts);
        let roots: Vec<u8> = places.flat_map(|(roots, start)| roots.iter().map(move |root| (start + root) as u8)).collect();
        let mut bytes = Vec::new();
        put_field(&mut bytes, 1, &types);
        put_field(&mut bytes, 2, &roots);
        let mut cells = 0;
        for (relation, table) in self.tables.iter().enumerate() {
            let number = |element: &Element| (starts[element.of] + entry(element)) as u8;
            let rows: BTreeSet<Vec<u8>> = table.rows.iter().map(|row| row.iter().map(number).collect()).collect();
            cells += rows.len() * table.columns.len();
            if cells > CELLS {
                return Err(BuildError::TooManyCells { relation: relation as u8 });
            }
            put_field(&mut bytes, 3, &relation_value(&table.columns, &rows));
        }
        put_field(&mut bytes, 0, &[]);
        Ok(Model { bytes, starts })
    }
}

/// A tag, a two-byte length and a value.
fn put_field(bytes: &mut Vec<u8>, tag: u8, value: &[u8]) {
    bytes.push(tag);
    bytes.extend((value.len() as u16).to_be_bytes());
    bytes.extend(value);
}

/// The arity, the column types, the row count and the rows, ascending.
fn relation_value(columns: &[usize], rows: &BTreeSet<Vec<u8>>) -> Vec<u8> {
    let mut value = vec![columns.len() as u8];
    value.extend(columns.iter().map(|&column| column as u8));
    value.extend((rows.len() as u16).to_be_bytes());
    value.extend(rows.iter().flatten());
    value
}
