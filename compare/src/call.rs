//! A call, as both sides are asked it.
use crate::file::File;

pub const WORK: usize = 32768;

/// Which call, and its arguments.
pub enum Call<'a> {
    Identity { model: &'a File },
    Check { source: &'a File, target: &'a File, pairs: &'a [u8] },
    Apply { source: &'a File, target: &'a File, map: &'a [u8], element: u8 },
    Compose { source: &'a File, middle: &'a File, target: &'a File, first: &'a [u8], second: &'a [u8] },
    Inverse { source: &'a File, target: &'a File, map: &'a [u8] },
    Find { left: &'a File, right: &'a File },
    Pairs { left: &'a File, right: &'a File, pairs: &'a [u8] },
    Under { base: &'a File, left: &'a File, right: &'a File, to_left: &'a [u8], to_right: &'a [u8] },
}

/// What is lent with a call: the output's length, the work's, and the budget.
#[derive(Clone, Copy)]
pub struct Lent {
    pub room: usize,
    pub work: usize,
    pub budget: u64,
}

/// An answer: document 01's number, the values it carries (of find's 0 and 1 none, since units are the port's own), and on 0 the map, but for apply.
#[derive(Clone, Debug, PartialEq, Eq)]
pub struct Answer {
    pub number: u32,
    pub carried: Vec<u64>,
    pub map: Option<Vec<u8>>,
}

impl<'a> Call<'a> {
    /// The files in the order of their numbers.
    pub fn files(&self) -> Vec<&'a File> {
        match *self {
            Call::Identity { model } => vec![model],
            Call::Check { source, target, .. } | Call::Apply { source, target, .. } | Call::Inverse { source, target, .. } => vec![source, target],
            Call::Compose { source, middle, target, .. } => vec![source, middle, target],
            Call::Find { left, right } | Call::Pairs { left, right, .. } => vec![left, right],
            Call::Under { base, left, right, .. } => vec![base, left, right],
        }
    }

    /// The model whose elements the output map has entries for; none of apply.
    pub fn domain(&self) -> Option<&'a File> {
        match *self {
            Call::Apply { .. } => None,
            Call::Identity { model } => Some(model),
            Call::Check { source, .. } | Call::Compose { source, .. } => Some(source),
            Call::Inverse { target, .. } => Some(target),
            Call::Find { left, .. } | Call::Pairs { left, .. } | Call::Under { left, .. } => Some(left),
        }
    }

    /// Whether it is a call of the search, which needs work and a budget.
    pub fn searches(&self) -> bool {
        matches!(self, Call::Find { .. } | Call::Pairs { .. } | Call::Under { .. })
    }
}
