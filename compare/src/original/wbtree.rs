//! Stand-in for the weight-balanced map: a map from numbers, in their order.
pub mod map {
    use crate::{Error, Fuel};
    use std::collections::btree_map::{BTreeMap, Entry};

    #[derive(Clone, Debug)]
    pub struct WBTreeMap<T>(BTreeMap<u32, T>);

    impl<T> WBTreeMap<T> {
        pub fn new() -> Self {
            Self(BTreeMap::new())
        }
        pub fn entry(&mut self, key: u32) -> Entry<'_, u32, T> {
            self.0.entry(key)
        }
        pub fn get(&self, key: &u32) -> Option<&T> {
            self.0.get(key)
        }
        pub fn iter(&self) -> impl Iterator<Item = (u32, &T)> + '_ {
            self.0.iter().map(|(&key, value)| (key, value))
        }
        /// What it costs, in the original's units, to go through the map.
        pub(crate) fn iteration_work(&self, fuel: &mut Fuel, below: impl Fn(&T, &mut Fuel) -> Result<u64, Error>) -> Result<u64, Error> {
            let mut work = 1u64;
            for value in self.0.values() {
                work = work.saturating_add(below(value, fuel)?);
            }
            Ok(work)
        }
    }

    impl<T: Clone> WBTreeMap<T> {
        pub fn union(&self, other: &Self, both: impl Fn(u32, T, T) -> T) -> Self {
            let mut all = self.0.clone();
            for (&key, value) in &other.0 {
                let value = match all.remove(&key) {
                    None => value.clone(),
                    Some(left) => both(key, left, value.clone()),
                };
                all.insert(key, value);
            }
            Self(all)
        }
    }
}
