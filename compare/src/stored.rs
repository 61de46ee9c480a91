//! The stored form, read and written from document 01 alone: the second reader.

/// What a stored model means.
#[derive(Clone, Debug, PartialEq, Eq)]
pub struct Stored {
    /// Of each type, its number of elements.
    pub types: Vec<u8>,
    /// Of each element, its representative.
    pub roots: Vec<u8>,
    pub relations: Vec<Relation>,
}

#[derive(Clone, Debug, PartialEq, Eq)]
pub struct Relation {
    /// Of each column, its type.
    pub columns: Vec<u8>,
    /// Strictly ascending.
    pub rows: Vec<Vec<u8>>,
}

const TYPES: u8 = 1;
const ROOTS: u8 = 2;
const RELATION: u8 = 3;
const END: u8 = 0;

pub const MOST_ELEMENTS: usize = 64;
pub const MOST_CELLS: usize = 2048;
const MOST_TYPES: usize = 16;
const MOST_RELATIONS: usize = 16;
const MOST_COLUMNS: usize = 8;

/// The model, or the offset of the first field at fault.
pub fn read(bytes: &[u8]) -> Result<Stored, usize> {
    let mut model = Stored { types: vec![], roots: vec![], relations: vec![] };
    let mut due: &[u8] = &[TYPES];
    let mut at = 0;
    while !due.is_empty() {
        let (tag, value) = field(&bytes[at..], due).ok_or(at)?;
        model.take(tag, value).ok_or(at)?;
        due = match tag {
            TYPES => &[ROOTS],
            END => &[],
            _ => &[RELATION, END],
        };
        at += 3 + value.len();
    }
    if at == bytes.len() {
        Ok(model)
    } else {
        Err(at)
    }
}

/// The first field, if its tag is due.
fn field<'a>(bytes: &'a [u8], due: &[u8]) -> Option<(u8, &'a [u8])> {
    let [tag, high, low, rest @ ..] = bytes else { return None };
    let length = usize::from(*high) * 256 + usize::from(*low);
    if due.contains(tag) {
        Some((*tag, rest.get(..length)?))
    } else {
        None
    }
}

impl Stored {
    /// Takes a field's value over; none if it breaks a rule.
    fn take(&mut self, tag: u8, value: &[u8]) -> Option<()> {
        let keeps = match tag {
            TYPES => {
                self.types = value.to_vec();
                value.len() <= MOST_TYPES && self.n() <= MOST_ELEMENTS
            }
            ROOTS => {
                self.roots = value.to_vec();
                value.len() == self.n() && (0..self.n()).all(|e| self.is_well_rooted(e))
            }
            RELATION => {
                self.relations.push(relation(value)?);
                self.last_relation_is_right()
            }
            _ => value.is_empty(),
        };
        keeps.then_some(())
    }

    /// The number of elements.
    pub fn n(&self) -> usize {
        self.types.iter().map(|&count| usize::from(count)).sum()
    }

    /// The type of an element; the number of types for what is no element.
    pub fn type_of(&self, element: usize) -> usize {
        let mut after = 0;
        for (type_, &count) in self.types.iter().enumerate() {
            after += usize::from(count);
            if element < after {
                return type_;
            }
        }
        self.types.len()
    }

    fn is_well_rooted(&self, element: usize) -> bool {
        let root = usize::from(self.roots[element]);
        root < self.n() && self.type_of(root) == self.type_of(element) && self.is_representative(root)
    }

    pub fn is_representative(&self, element: usize) -> bool {
        usize::from(self.roots[element]) == element
    }

    pub fn representatives(&self) -> Vec<u8> {
        (0..self.n()).filter(|&e| self.is_representative(e)).map(|e| e as u8).collect()
    }

    pub fn cells(&self) -> usize {
        self.relations.iter().map(|relation| relation.rows.len() * relation.columns.len()).sum()
    }

    fn last_relation_is_right(&self) -> bool {
        let relation = self.relations.last().expect("a relation");
        self.relations.len() <= MOST_RELATIONS
            && self.cells() <= MOST_CELLS
            && relation.columns.iter().all(|&column| usize::from(column) < self.types.len())
            && relation.rows.windows(2).all(|two| two[0] < two[1])
            && relation.rows.iter().all(|row| self.is_typed(row, &relation.columns))
    }

    fn is_typed(&self, row: &[u8], columns: &[u8]) -> bool {
        row.iter().zip(columns).all(|(&entry, &column)| self.type_of(usize::from(entry)) == usize::from(column))
    }

    /// The stored form.
    pub fn bytes(&self) -> Vec<u8> {
        let mut bytes = vec![];
        put(&mut bytes, TYPES, &self.types);
        put(&mut bytes, ROOTS, &self.roots);
        for relation in &self.relations {
            let mut value = vec![relation.columns.len() as u8];
            value.extend(&relation.columns);
            value.extend((relation.rows.len() as u16).to_be_bytes());
            value.extend(relation.rows.iter().flatten());
            put(&mut bytes, RELATION, &value);
        }
        put(&mut bytes, END, &[]);
        bytes
    }
}

fn put(bytes: &mut Vec<u8>, tag: u8, value: &[u8]) {
    bytes.push(tag);
    bytes.extend((value.len() as u16).to_be_bytes());
    bytes.extend(value);
}

/// A relation by its value's length alone; a relation with no columns holds or does not.
fn relation(value: &[u8]) -> Option<Relation> {
    let arity = usize::from(*value.first()?);
    let columns = value.get(1..1 + arity)?.to_vec();
    let [high, low, body @ ..] = &value[1 + arity..] else { return None };
    let count = usize::from(*high) * 256 + usize::from(*low);
    let most = if arity == 0 { 1 } else { usize::MAX };
    if arity > MOST_COLUMNS || body.len() != count * arity || count > most {
        return None;
    }
    let rows = (0..count).map(|row| body[row * arity..(row + 1) * arity].to_vec()).collect();
    Some(Relation { columns, rows })
}
