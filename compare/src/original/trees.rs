//! Stand-ins for the prefix trees: sets of rows of one length, by first column, then by the rest.
use crate::wbtree::map::WBTreeMap;
use std::collections::BTreeSet;

/// The rows of no column: there is one, or none.
#[derive(Clone, Debug)]
pub struct PrefixTree0(bool);

impl PrefixTree0 {
    pub fn new() -> Self {
        Self(false)
    }
    pub fn insert(&mut self, _: [u32; 0]) -> bool {
        !std::mem::replace(&mut self.0, true)
    }
    pub fn contains(&self, _: [u32; 0]) -> bool {
        self.0
    }
    pub fn iter(&self) -> impl Iterator<Item = [u32; 0]> + '_ {
        self.0.then_some([]).into_iter()
    }
    pub fn union(&self, other: &Self) -> Self {
        Self(self.0 || other.0)
    }
}

/// The rows of one column.
#[derive(Clone, Debug)]
pub struct PrefixTree1 {
    pub set: BTreeSet<u32>,
}

impl PrefixTree1 {
    pub fn new() -> Self {
        Self { set: BTreeSet::new() }
    }
    pub fn insert(&mut self, [x]: [u32; 1]) -> bool {
        self.set.insert(x)
    }
    pub fn remove(&mut self, [x]: [u32; 1]) -> bool {
        self.set.remove(&x)
    }
    pub fn contains(&self, [x]: [u32; 1]) -> bool {
        self.set.contains(&x)
    }
    pub fn iter(&self) -> impl Iterator<Item = [u32; 1]> + '_ {
        self.set.iter().map(|&x| [x])
    }
    pub fn union(&self, other: &Self) -> Self {
        Self { set: self.set.union(&other.set).copied().collect() }
    }
}

/// The rows of more columns.
macro_rules! tree {
    ($($tree:ident, $below:ident, $columns:literal;)*) => {$(
        #[derive(Clone, Debug)]
        pub struct $tree {
            pub map: WBTreeMap<$below>,
        }

        impl $tree {
            pub fn new() -> Self {
                Self { map: WBTreeMap::new() }
            }
            pub fn insert(&mut self, row: [u32; $columns]) -> bool {
                let mut rest = [0; $columns - 1];
                rest.copy_from_slice(&row[1..]);
                self.map.entry(row[0]).or_insert_with($below::new).insert(rest)
            }
            pub fn contains(&self, row: [u32; $columns]) -> bool {
                let mut rest = [0; $columns - 1];
                rest.copy_from_slice(&row[1..]);
                self.map.get(&row[0]).is_some_and(|below| below.contains(rest))
            }
            pub fn iter(&self) -> impl Iterator<Item = [u32; $columns]> + '_ {
                self.map.iter().flat_map(|(first, below)| below.iter().map(move |rest| {
                    let mut row = [first; $columns];
                    row[1..].copy_from_slice(&rest);
                    row
                }))
            }
            pub fn union(&self, other: &Self) -> Self {
                Self { map: self.map.union(&other.map, |_, left, right| left.union(&right)) }
            }
        }
    )*};
}

tree! {
    PrefixTree2, PrefixTree1, 2;
    PrefixTree3, PrefixTree2, 3;
    PrefixTree4, PrefixTree3, 4;
    PrefixTree5, PrefixTree4, 5;
    PrefixTree6, PrefixTree5, 6;
    PrefixTree7, PrefixTree6, 7;
    PrefixTree8, PrefixTree7, 8;
    PrefixTree9, PrefixTree8, 9;
}
