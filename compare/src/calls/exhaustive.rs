//! Calls on all small models.
use super::{ask_amply, Ask};
use crate::call::Call;
use crate::file::File;
use crate::models::exhaustive::{graphs, pair_lists, rooted, rooted_graphs, symmetric_graphs, words};
use crate::models::random::with_another_row;
use crate::models::{canonical, shuffled};
use crate::random::Random;
use crate::stored::Stored;

fn files(models: impl IntoIterator<Item = Stored>) -> Vec<File> {
    models.into_iter().map(|model| File::of(&model)).collect()
}

/// Every graph of up to 3 elements against every one with as many.
pub fn graphs_of_3(ask: Ask) {
    for n in 0..=3 {
        let all = files(graphs(n));
        for left in &all {
            for right in &all {
                ask_amply(ask, Call::Find { left, right });
            }
        }
    }
}

/// Every graph of 4 elements against itself under other numbers, and against that with a row drawn anew.
pub fn graphs_of_4(ask: Ask) {
    let mut random = Random::new(4);
    for graph in graphs(4) {
        let other = shuffled(&graph, &mut random);
        let (left, right, changed) = (File::of(&graph), File::of(&other), File::of(&with_another_row(&other, &mut random)));
        ask_amply(ask, Call::Find { left: &left, right: &right });
        ask_amply(ask, Call::Find { left: &left, right: &changed });
    }
}

/// All pair lists of up to 2 pairs: on all graphs of 2 elements against each other, on all of 3 under other numbers, on all symmetric ones of 4
/// against each other.
pub fn fixed_pairs(ask: Ask) {
    let mut random = Random::new(2);
    every_list(ask, 2, &files(graphs(2)), &files(graphs(2)));
    for graph in graphs(3) {
        every_list(ask, 3, &[File::of(&graph)], &[File::of(&shuffled(&graph, &mut random))]);
    }
    every_list(ask, 4, &files(symmetric_graphs(4)), &files(symmetric_graphs(4)));
}

fn every_list(ask: Ask, n: usize, lefts: &[File], rights: &[File]) {
    let lists = pair_lists(2, n);
    for left in lefts {
        for right in rights {
            for pairs in &lists {
                ask_amply(ask, Call::Pairs { left, right, pairs });
            }
        }
    }
}

/// Every graph of up to 3 elements, and every symmetric one of 4, under all representatives: its identity, that at each element, and find against
/// itself under other numbers, with rows as they are and taken to representatives.
pub fn representatives(ask: Ask) {
    let mut random = Random::new(3);
    for model in (0..=3).flat_map(rooted_graphs).chain(rooted(symmetric_graphs(4), 4)) {
        let other = shuffled(&model, &mut random);
        let (left, right) = (File::of(&model), File::of(&other));
        ask_amply(ask, Call::Identity { model: &left });
        let identity: Vec<_> = (0..model.n()).map(|e| if model.is_representative(e) { e as u8 } else { 255 }).collect();
        for element in 0..=model.n() as u8 {
            ask_amply(ask, Call::Apply { source: &left, target: &left, map: &identity, element });
        }
        ask_amply(ask, Call::Find { left: &left, right: &right });
        let (left, right) = (File::of(&canonical(&model)), File::of(&canonical(&other)));
        ask_amply(ask, Call::Find { left: &left, right: &right });
    }
}

/// Every graph of up to 2 elements under all representatives against each other: check of all pair lists of up to 2 pairs, inverse of all maps, and
/// compose of a drawn two over every third one.
pub fn maps(ask: Ask) {
    let mut random = Random::new(5);
    for n in 0..=2 {
        let all = files(rooted_graphs(n));
        let lists = pair_lists(2, n);
        let maps = all_maps(n);
        for source in &all {
            for target in &all {
                for pairs in &lists {
                    ask_amply(ask, Call::Check { source, target, pairs });
                }
                for map in &maps {
                    ask_amply(ask, Call::Inverse { source, target, map });
                }
                for middle in &all {
                    let (first, second) = (random.of(&maps), random.of(&maps));
                    ask_amply(ask, Call::Compose { source, middle, target, first, second });
                }
            }
        }
    }
}

/// All that could be a map of n elements to n.
fn all_maps(n: usize) -> Vec<Vec<u8>> {
    let mut letters: Vec<_> = (0..n as u8).collect();
    letters.push(255);
    words(n, &letters)
}

/// Two elements with no rows under all representatives, and every two canonical graphs of 2 elements, with all that could be maps to them.
pub fn under(ask: Ask) {
    let rooted = rooted_graphs(2);
    let bases = files(rooted.iter().filter(|model| model.cells() == 0).cloned());
    let tops = files(rooted.iter().filter(|model| canonical(model) == **model).cloned());
    let maps = all_maps(2);
    for (base, left) in bases.iter().flat_map(|base| tops.iter().map(move |left| (base, left))) {
        for right in &tops {
            for to_left in &maps {
                for to_right in &maps {
                    ask_amply(ask, Call::Under { base, left, right, to_left, to_right });
                }
            }
        }
    }
}
