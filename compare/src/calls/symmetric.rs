//! Calls on models with many symmetries.
use super::{ask_amply, Ask};
use crate::call::Call;
use crate::file::File;
use crate::models::families::{bare, cfi, cube, k33, k4, paley, prescription, rings, rook, shrikhande};
use crate::models::shuffled;
use crate::random::Random;
use crate::stored::Stored;

/// Two models, and how many times they are renumbered.
type Two = (Stored, Stored, usize);

/// A model against itself.
fn same(model: Stored, times: usize) -> Two {
    (model.clone(), model, times)
}

/// The families.
fn two() -> Vec<Two> {
    let mut all = vec![];
    for n in [3, 6, 12, 24, 64] {
        all.push(same(rings(&[n]), 20));
        all.push((rings(&[2 * (n / 2)]), rings(&[n / 2, n / 2]), 20));
        all.push(same(rings(&[n / 3, n / 3, n / 3]), 20));
        all.push(same(bare(n), 5));
    }
    all.push((rings(&[3, 4, 5]), rings(&[4, 4, 4]), 20));
    all.push(same(rings(&[1, 2, 3, 4, 5]), 20));
    all.extend([5, 13, 17, 29, 37].map(|q| same(paley(q), 20)));
    all.extend([2, 3, 4, 5, 6, 8].map(|k| same(rook(k), 10)));
    all.push(same(shrikhande(), 20));
    all.push((rook(4), shrikhande(), 20));
    for edges in [k4(), k33(), cube()] {
        all.push(same(cfi(&edges, false), 10));
        all.push(same(cfi(&edges, true), 10));
        all.push((cfi(&edges, false), cfi(&edges, true), 3));
    }
    all.push(same(prescription(), 50));
    all
}

/// Find, and find with one and with two drawn pairs.
pub fn families(ask: Ask) {
    let mut random = Random::new(21);
    for (left, right, times) in two() {
        for _ in 0..times {
            let (left, right) = (File::of(&shuffled(&left, &mut random)), File::of(&shuffled(&right, &mut random)));
            ask_amply(ask, Call::Find { left: &left, right: &right });
            let n = left.n();
            let pairs: Vec<_> = (0..4).map(|_| random.below(n) as u8).collect();
            ask_amply(ask, Call::Pairs { left: &left, right: &right, pairs: &pairs[..2] });
            ask_amply(ask, Call::Pairs { left: &left, right: &right, pairs: &pairs });
        }
    }
}
