//! Random models, of every size up to the limits.
use super::{canonical, relation};
use crate::random::Random;
use crate::stored::{Relation, Stored, MOST_CELLS, MOST_ELEMENTS};

/// How large a drawn model may be.
pub struct Size {
    pub types: usize,
    pub elements: usize,
    pub relations: usize,
    pub columns: usize,
    pub cells: usize,
}

/// Few elements, so that many things coincide.
pub const SMALL: Size = Size { types: 2, elements: 6, relations: 2, columns: 3, cells: 24 };
/// All that a file may hold.
pub const ANY: Size = Size { types: 16, elements: MOST_ELEMENTS, relations: 16, columns: 8, cells: MOST_CELLS };

/// A model of up to this size. `merges`: whether elements may be aliases, rows holding them.
pub fn drawn(size: &Size, merges: bool, random: &mut Random) -> Stored {
    let mut types = vec![0; random.below(size.types + 1)];
    if !types.is_empty() {
        for _ in 0..random.below(size.elements + 1) {
            let few = 1 + random.below(types.len());
            types[random.below(few)] += 1;
        }
    }
    let mut model = Stored { roots: (0..types.iter().sum()).collect(), types, relations: vec![] };
    if merges {
        model.roots = drawn_roots(&model, random);
    }
    let mut cells = random.below(size.cells + 1);
    for _ in 0..random.below(size.relations + 1) {
        let drawn = drawn_relation(&model, size.columns, cells, random);
        cells -= drawn.rows.len() * drawn.columns.len();
        model.relations.push(drawn);
    }
    model
}

/// As `drawn` with aliases, rows holding none.
pub fn drawn_canonical(size: &Size, random: &mut Random) -> Stored {
    let merges = random.one_in(2);
    canonical(&drawn(size, merges, random))
}

fn elements_of(model: &Stored, type_: u8) -> Vec<u8> {
    (0..model.n() as u8).filter(|&e| model.type_of(usize::from(e)) == usize::from(type_)).collect()
}

/// Some elements are made aliases of another of their type.
fn drawn_roots(model: &Stored, random: &mut Random) -> Vec<u8> {
    let mut roots = model.roots.clone();
    for type_ in 0..model.types.len() as u8 {
        let mut all = elements_of(model, type_);
        random.shuffle(&mut all);
        let kept = all.len() - random.below(all.len() / 2 + 1);
        for &alias in &all[kept..] {
            roots[usize::from(alias)] = *random.of(&all[..kept]);
        }
    }
    roots
}

/// A relation of no more than so many cells.
fn drawn_relation(model: &Stored, columns: usize, cells: usize, random: &mut Random) -> Relation {
    let arity = if model.types.is_empty() { 0 } else { random.below(columns + 1) };
    let columns: Vec<_> = (0..arity).map(|_| random.below(model.types.len()) as u8).collect();
    let most = if arity == 0 { 1 } else { cells / arity };
    let elements: Vec<_> = columns.iter().map(|&column| elements_of(model, column)).collect();
    let count = if elements.iter().any(Vec::is_empty) { 0 } else { random.below(most + 1) };
    let rows = (0..count).map(|_| elements.iter().map(|all| *random.of(all)).collect()).collect();
    relation(&columns, rows)
}

/// The model with one entry of one row drawn anew; the same if it has no row with a cell.
pub fn with_another_row(model: &Stored, random: &mut Random) -> Stored {
    let mut changed = model.clone();
    if let Some((number, place, row)) = near_row(model, random) {
        let old = &mut changed.relations[number];
        old.rows[place] = row;
        *old = relation(&old.columns, old.rows.clone());
    }
    changed
}

/// The model with a row more that is like one of its own but for an entry; the same if there is none, or no cells are left.
pub fn with_a_row_more(model: &Stored, random: &mut Random) -> Stored {
    let mut changed = model.clone();
    if let Some((number, _, row)) = near_row(model, random).filter(|(_, _, row)| model.cells() + row.len() <= MOST_CELLS) {
        let old = &mut changed.relations[number];
        old.rows.push(row);
        *old = relation(&old.columns, old.rows.clone());
    }
    changed
}

/// A relation's number, a row's place in it, and that row with one entry drawn anew among the representatives of its type.
fn near_row(model: &Stored, random: &mut Random) -> Option<(usize, usize, Vec<u8>)> {
    let has_cells = |number: &usize| !model.relations[*number].rows.is_empty() && !model.relations[*number].columns.is_empty();
    let numbers: Vec<_> = (0..model.relations.len()).filter(has_cells).collect();
    if numbers.is_empty() {
        return None;
    }
    let number = *random.of(&numbers);
    let relation = &model.relations[number];
    let place = random.below(relation.rows.len());
    let column = random.below(relation.columns.len());
    let mut row = relation.rows[place].clone();
    let all: Vec<_> = elements_of(model, relation.columns[column]).into_iter().filter(|&e| model.is_representative(usize::from(e))).collect();
    row[column] = *random.of(&all);
    Some((number, place, row))
}

/// A model of one type of 64 elements with one relation, of 2,048 cells.
pub fn full(arity: usize, random: &mut Random) -> Stored {
    with_cells(MOST_CELLS, arity, random)
}

/// A model of one type of 64 elements with one relation, of so many cells.
pub fn with_cells(cells: usize, arity: usize, random: &mut Random) -> Stored {
    let mut rows = std::collections::BTreeSet::new();
    while rows.len() < cells / arity {
        rows.insert((0..arity).map(|_| random.below(MOST_ELEMENTS) as u8).collect::<Vec<_>>());
    }
    super::model(&[MOST_ELEMENTS as u8], &[(&vec![0; arity], rows.into_iter().collect())])
}
