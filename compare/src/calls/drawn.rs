//! Calls on drawn models: many small ones, some of every size.
use super::{ask_amply, Ask};
use crate::call::Call;
use crate::file::File;
use crate::models::built::built as built_model;
use crate::models::random::{drawn, drawn_canonical, with_a_row_more, with_another_row, Size, ANY, SMALL};
use crate::models::{canonical, renumbered, renumbering, shuffled};
use crate::random::Random;
use crate::stored::Stored;

/// How many models of a size are drawn for each kind of call.
const SIZES: [(&Size, usize); 2] = [(&SMALL, 20_000), (&ANY, 1_500)];

/// Calls `each` with a source of numbers for every model to be drawn.
fn for_each(seed: u64, mut each: impl FnMut(&Size, &mut Random)) {
    let mut random = Random::new(seed);
    for (size, times) in SIZES {
        for _ in 0..times {
            each(size, &mut random);
        }
    }
}

/// The model under other numbers, and what could be told from it: one row drawn anew, or another model.
fn counterpart(model: &Stored, to: &[u8], size: &Size, random: &mut Random) -> Stored {
    let same = renumbered(model, to);
    match random.below(8) {
        0 | 1 => with_another_row(&same, random),
        2 => drawn_canonical(size, random),
        _ => same,
    }
}

/// A canonical model against its counterpart, and one whose rows may hold aliases against itself under other numbers.
pub fn finds(ask: Ask) {
    for_each(11, |size, random| {
        let model = drawn_canonical(size, random);
        let to = renumbering(&model, random);
        let other = counterpart(&model, &to, size, random);
        ask_amply(ask, Call::Find { left: &File::of(&model), right: &File::of(&other) });
        let rough = drawn(size, true, random);
        ask_amply(ask, Call::Find { left: &File::of(&rough), right: &File::of(&shuffled(&rough, random)) });
    });
}

/// A list with one thing amiss, or with nothing: a pair gone, doubled or with another image, an unknown number, half a pair more.
fn spoilt(mut pairs: Vec<u8>, random: &mut Random) -> Vec<u8> {
    if pairs.is_empty() {
        return pairs;
    }
    let at = random.below(pairs.len());
    let other = pairs[random.below(pairs.len())];
    match random.below(8) {
        0 => drop(pairs.drain(at / 2 * 2..at / 2 * 2 + 2)),
        1 => pairs[at] = other,
        2 => pairs[at] = random.below(256) as u8,
        3 => pairs.extend([pairs[at / 2 * 2], other]),
        4 => pairs.extend([pairs[at / 2 * 2], pairs[at / 2 * 2 + 1]]),
        5 if random.one_in(4) => pairs.push(other),
        _ => {}
    }
    pairs
}

/// Pairs (e, to e), each taken with one chance in so many.
fn pairs_along(to: &[u8], one_in: usize, random: &mut Random) -> Vec<u8> {
    let mut elements: Vec<u8> = (0..to.len() as u8).filter(|_| random.one_in(one_in)).collect();
    random.shuffle(&mut elements);
    elements.iter().flat_map(|&e| [e, to[usize::from(e)]]).collect()
}

/// A model against its counterpart, with many and with few pairs of the renumbering, one thing amiss in some lists.
pub fn pairs(ask: Ask) {
    for_each(12, |size, random| {
        let model = drawn_canonical(size, random);
        let to = renumbering(&model, random);
        let (left, right) = (File::of(&model), File::of(&counterpart(&model, &to, size, random)));
        for one_in in [2, 6] {
            let pairs = pairs_along(&to, one_in, random);
            ask_amply(ask, Call::Pairs { left: &left, right: &right, pairs: &spoilt(pairs, random) });
        }
    });
}

/// A model that this one has a map to, and the map, given at every element: the same under other numbers, with more elements merged, with a row more,
/// or with rows taken to representatives.
fn target_of(model: &Stored, random: &mut Random) -> (Stored, Vec<u8>) {
    let to = renumbering(model, random);
    let mut target = renumbered(model, &to);
    match random.below(5) {
        0 | 1 => merge(&mut target, random),
        2 => target = with_a_row_more(&target, random),
        3 => target = canonical(&target),
        _ => {}
    }
    (target, to)
}

/// Makes one representative an alias of another of its type, where there are two.
fn merge(model: &mut Stored, random: &mut Random) {
    let all = model.representatives();
    if all.is_empty() {
        return;
    }
    let (a, b) = (*random.of(&all), *random.of(&all));
    if model.type_of(usize::from(a)) == model.type_of(usize::from(b)) {
        model.roots.iter_mut().filter(|root| **root == a).for_each(|root| *root = b);
    }
}

/// A model and one that it has a map to, with the map as a pair list, one thing amiss in some; and against another model.
pub fn checks(ask: Ask) {
    for_each(13, |size, random| {
        let model = drawn(size, true, random);
        let (target, to) = target_of(&model, random);
        let (source, target) = (File::of(&model), File::of(&target));
        for _ in 0..3 {
            let pairs = pairs_along(&to, 1, random);
            ask_amply(ask, Call::Check { source: &source, target: &target, pairs: &spoilt(pairs, random) });
        }
        ask_amply(ask, Call::Check { source: &source, target: &File::of(&drawn(size, true, random)), pairs: &[] });
    });
}

/// The bytes of the map that takes e to `to` e; sometimes one of them is another.
fn map_along(source: &Stored, target: &Stored, to: &[u8], random: &mut Random) -> Vec<u8> {
    let image = |e: usize| {
        if source.is_representative(e) {
            target.roots[usize::from(to[e])]
        } else {
            255
        }
    };
    let mut map: Vec<_> = (0..source.n()).map(image).collect();
    if !map.is_empty() && random.one_in(6) {
        let (at, any) = (random.below(map.len()), random.below(256) as u8);
        map[at] = *random.of(&[255, map[0], any]);
    }
    if random.one_in(40) {
        map.push(255);
    }
    map
}

/// Two maps one after the other, one thing amiss in some.
pub fn maps(ask: Ask) {
    for_each(14, |size, random| {
        let model = drawn(size, true, random);
        let (middle, to_middle) = target_of(&model, random);
        let (target, to_target) = target_of(&middle, random);
        let first = map_along(&model, &middle, &to_middle, random);
        let second = map_along(&middle, &target, &to_target, random);
        let (source, middle, target) = (File::of(&model), File::of(&middle), File::of(&target));
        let element = random.below(model.n() + 2) as u8;
        ask_amply(ask, Call::Apply { source: &source, target: &middle, map: &first, element });
        ask_amply(ask, Call::Inverse { source: &source, target: &middle, map: &first });
        ask_amply(ask, Call::Inverse { source: &middle, target: &target, map: &second });
        ask_amply(ask, Call::Compose { source: &source, middle: &middle, target: &target, first: &first, second: &second });
        ask_amply(ask, Call::Identity { model: &target });
    });
}

/// A base, any model; left what it becomes under a map, made canonical; right the same under other numbers, or another such.
pub fn under(ask: Ask) {
    for_each(15, |size, random| {
        let base = drawn(size, true, random);
        let (left, to_left) = target_of(&base, random);
        let left = if random.one_in(20) { left } else { canonical(&left) };
        let along = renumbering(&left, random);
        let (right, to_right) = if random.one_in(4) {
            let (right, to_right) = target_of(&base, random);
            (canonical(&right), to_right)
        } else {
            (renumbered(&left, &along), to_left.iter().map(|&e| along[usize::from(e)]).collect())
        };
        let to_left = map_along(&base, &left, &to_left, random);
        let to_right = map_along(&base, &right, &to_right, random);
        let (base, left, right) = (File::of(&base), File::of(&left), File::of(&right));
        ask_amply(ask, Call::Under { base: &base, left: &left, right: &right, to_left: &to_left, to_right: &to_right });
    });
}

/// Models that the original built by its own calls, against themselves under other numbers and against each other.
pub fn built(ask: Ask) {
    let mut random = Random::new(16);
    let mut before = built_model(&mut random);
    for _ in 0..10_000 {
        let left = built_model(&mut random);
        let right = File::of(&shuffled(&left.known().stored, &mut random));
        ask_amply(ask, Call::Identity { model: &left });
        ask_amply(ask, Call::Find { left: &left, right: &right });
        ask_amply(ask, Call::Find { left: &right, right: &left });
        ask_amply(ask, Call::Find { left: &left, right: &before });
        before = left;
    }
}
