//! Models to compare on.
pub mod built;
pub mod exhaustive;
pub mod families;
pub mod random;

use crate::random::Random;
use crate::stored::{Relation, Stored};

/// A model with no aliases; rows are put in order.
pub fn model(types: &[u8], relations: &[(&[u8], Vec<Vec<u8>>)]) -> Stored {
    let n: u8 = types.iter().sum();
    let relations = relations.iter().map(|(columns, rows)| relation(columns, rows.clone()));
    Stored { types: types.to_vec(), roots: (0..n).collect(), relations: relations.collect() }
}

/// A relation with its rows put in order, each once.
pub fn relation(columns: &[u8], mut rows: Vec<Vec<u8>>) -> Relation {
    rows.sort_unstable();
    rows.dedup();
    Relation { columns: columns.to_vec(), rows }
}

/// One type and one relation of two columns.
pub fn graph(n: usize, rows: impl IntoIterator<Item = (usize, usize)>) -> Stored {
    let rows = rows.into_iter().map(|(from, to)| vec![from as u8, to as u8]).collect();
    model(&[n as u8], &[(&[0, 0], rows)])
}

/// A renumbering of the elements, each within its type: of each number, the new one.
pub fn renumbering(model: &Stored, random: &mut Random) -> Vec<u8> {
    let mut all: Vec<u8> = (0..model.n() as u8).collect();
    let mut from = 0;
    for &count in &model.types {
        random.shuffle(&mut all[from..from + usize::from(count)]);
        from += usize::from(count);
    }
    all
}

/// The same model under other numbers.
pub fn renumbered(model: &Stored, to: &[u8]) -> Stored {
    let new = |entry: &u8| to[usize::from(*entry)];
    let mut roots = vec![0; model.n()];
    for (element, root) in model.roots.iter().enumerate() {
        roots[usize::from(to[element])] = new(root);
    }
    let rows = |rows: &[Vec<u8>]| rows.iter().map(|row| row.iter().map(new).collect()).collect();
    let relations = model.relations.iter().map(|old| relation(&old.columns, rows(&old.rows)));
    Stored { types: model.types.clone(), roots, relations: relations.collect() }
}

/// The same model under other numbers, drawn.
pub fn shuffled(model: &Stored, random: &mut Random) -> Stored {
    renumbered(model, &renumbering(model, random))
}

/// The model with each row taken to representatives, as `canonicalize` does.
pub fn canonical(model: &Stored) -> Stored {
    let root = |entry: &u8| model.roots[usize::from(*entry)];
    let rows = |rows: &[Vec<u8>]| rows.iter().map(|row| row.iter().map(root).collect()).collect();
    let relations = model.relations.iter().map(|old| relation(&old.columns, rows(&old.rows)));
    Stored { relations: relations.collect(), ..model.clone() }
}
