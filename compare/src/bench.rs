//! The same scenes on both sides, timed in one run; and what the port takes of the stack on them.
//!
//! The original's models are built before the clock starts; the port starts from bytes. Maps and pair lists are arguments of a call: bytes for the
//! port, pairs of elements for the original, which makes its maps by `ModelHom::new` within the time. The two sides take turns, and the least time
//! of each counts.
use crate::call::{Call, Lent};
use crate::calls::ample;
use crate::clock;
use crate::expected;
use crate::file::{File, Meaning};
use crate::models::families::{bare, cfi, cube, ears, k33, k4, paley, prescription, rings, rook, shrikhande};
use crate::models::random::{full, with_cells};
use crate::models::{renumbered, renumbering, shuffled};
use crate::port::Port;
use crate::random::Random;
use crate::stack;
use crate::stored::Stored;
use original::{find_isomorphism, find_isomorphism_under, find_with_fixed_pairs, Element, Fuel, ModelHom};
use std::hint::black_box;
use std::time::{Duration, Instant};

/// How long a scene is timed, and how many turns it has at least.
const TIME: Duration = Duration::from_secs(3);
const TURNS: u32 = 5;

pub fn run() {
    println!("{:42} {:>14} {:>14} {:>7}", "scene", "original (ns)", "port (ns)", "ratio");
    let mut table = Table::new(false);
    table.rows();
    let (ratio, name) = table.slowest.expect("a scene");
    println!("slowest ratio {ratio:.1} ({name})");
}

/// What a call may take of the stack, in bytes.
const STACK: usize = 16 * 1024;

/// What the port takes of the stack on each scene; tells whether it is always less than it may take.
pub fn stack() -> bool {
    println!("{:42} {:>14}", "scene", "stack (bytes)");
    let mut table = Table::new(true);
    table.rows();
    println!("most stack {} bytes", table.most);
    table.most < STACK
}

/// How the port's time grows with the cells and with the classes: the time of a search, and of a round in it.
pub fn growth() {
    println!("{:42} {:>14} {:>8} {:>14}", "scene", "port (ns)", "units", "a unit (ns)");
    let mut random = Random::new(43);
    let mut port = Port::new();
    for arity in [2, 8] {
        for cells in [256, 512, 1024, 2048] {
            grown(&format!("random, {cells} cells, arity {arity}"), with_cells(cells, arity, &mut random), &mut port, &mut random);
        }
    }
    for n in [8, 16, 32, 64] {
        grown(&format!("ring of {n}"), rings(&[n]), &mut port, &mut random);
    }
    for n in [8, 16, 32, 64] {
        grown(&format!("{n} elements without rows"), bare(n), &mut port, &mut random);
    }
}

/// Times the search of a model in itself renumbered, and prints its row.
fn grown(name: &str, model: Stored, port: &mut Port, random: &mut Random) {
    let (left, right) = (File::of(&model), File::of(&shuffled(&model, random)));
    let call = Call::Find { left: &left, right: &right };
    let lent = ample(&call);
    let time = (0..2000).map(|_| timed(|| port.ask(black_box(&call), lent))).min().expect("a time") - clock::cost();
    let units = port.carried[0];
    println!("{name:42} {time:14} {units:8} {:14}", time / units.max(1));
}

/// The models of the scenes of find.
fn searches(random: &mut Random) -> Vec<(&'static str, Stored, Stored)> {
    let same = [
        ("prescription of 50 elements", prescription()),
        ("ring of 64", rings(&[64])),
        ("64 elements without rows", bare(64)),
        ("random, 2,048 cells, arity 2", full(2, random)),
        ("random, 2,048 cells, arity 8", full(8, random)),
        ("Paley 29", paley(29)),
        ("Paley 37", paley(37)),
        ("rook 8x8", rook(8)),
        ("CFI over K4, itself", cfi(&k4(), false)),
        ("CFI over K3,3, itself", cfi(&k33(), false)),
        ("CFI over the cube, itself", cfi(&cube(), false)),
    ];
    let other = [
        ("ring of 64 against two of 32", rings(&[64]), rings(&[32, 32])),
        ("rook 4x4 against Shrikhande", rook(4), shrikhande()),
        ("CFI over K4, twisted", cfi(&k4(), false), cfi(&k4(), true)),
        ("CFI over K3,3, twisted", cfi(&k33(), false), cfi(&k33(), true)),
        ("CFI over the cube, twisted", cfi(&cube(), false), cfi(&cube(), true)),
    ];
    let same = same.into_iter().map(|(name, model)| (name, model.clone(), model));
    let mut all: Vec<_> = same.chain(other).collect();
    all.iter_mut().for_each(|(_, _, right)| *right = shuffled(right, random));
    all
}

struct Table {
    port: Port,
    /// Whether the stack is looked at, and not the time.
    of_stack: bool,
    /// The least ratio so far, and its scene.
    slowest: Option<(f64, String)>,
    /// The most stack so far.
    most: usize,
}

impl Table {
    fn new(of_stack: bool) -> Self {
        Self { port: Port::new(), of_stack, slowest: None, most: 0 }
    }

    /// All scenes.
    fn rows(&mut self) {
        let mut random = Random::new(41);
        for (name, left, right) in searches(&mut random) {
            self.find(name, &File::of(&left), &File::of(&right));
        }
        self.ears(&mut random);
        self.maps(&mut random);
    }

    /// Times a scene, after both sides have been seen to agree on it, and prints its row.
    fn row<T>(&mut self, name: &str, call: &Call, original: impl FnMut() -> T) {
        let lent = ample(call);
        self.port.reset();
        self.port.ask(call, lent);
        assert!(self.port.said(call, lent, &expected::answer(call, lent)), "the sides differ on {name}");
        if self.of_stack {
            let used = stack::used(|| self.port.ask(black_box(call), lent));
            println!("{name:42} {used:14}");
            self.most = self.most.max(used);
            return;
        }
        let (theirs, ours) = fastest(original, &mut self.port, call, lent);
        let ratio = theirs as f64 / ours as f64;
        println!("{name:42} {theirs:14} {ours:14} {ratio:7.1}");
        if self.slowest.as_ref().map_or(true, |(least, _)| ratio < *least) {
            self.slowest = Some((ratio, name.into()));
        }
    }

    fn find(&mut self, name: &str, left: &File, right: &File) {
        let (l, r) = (&left.known().model, &right.known().model);
        self.row(name, &Call::Find { left, right }, || find_isomorphism(black_box(l), black_box(r), Fuel::Infinite));
    }

    /// A prescription with its ears fixed, by pairs and under a base.
    fn ears(&mut self, random: &mut Random) {
        let model = prescription();
        let to = renumbering(&model, random);
        let (base, left, right) = (File::of(&ears()), File::of(&model), File::of(&renumbered(&model, &to)));
        let (b, l, r) = (base.known(), left.known(), right.known());
        let pairs = [0, to[0], 1, to[1]];
        let fixed = elements(l, r, &pairs);
        self.row("prescription, ears fixed by pairs", &Call::Pairs { left: &left, right: &right, pairs: &pairs }, || {
            find_with_fixed_pairs(black_box(&l.model), black_box(&r.model), &fixed, Fuel::Infinite).map(|map| map.is_some())
        });
        let (to_left, to_right) = (elements(b, l, &[0, 0, 1, 1]), elements(b, r, &pairs));
        let call = Call::Under { base: &base, left: &left, right: &right, to_left: &[0, 1], to_right: &to[..2] };
        self.row("prescription, under its ears", &call, || {
            let (first, second) = (made(b, l, &to_left), made(b, r, &to_right));
            find_isomorphism_under(&first, &second, Fuel::Infinite).map(|map| map.is_some())
        });
    }

    /// Check, inverse, apply and compose of a renumbering of 2,048 cells.
    fn maps(&mut self, random: &mut Random) {
        let model = full(2, random);
        let to = renumbering(&model, random);
        let mut back = vec![0; to.len()];
        to.iter().enumerate().for_each(|(e, &image)| back[usize::from(image)] = e as u8);
        let (left, right) = (File::of(&model), File::of(&renumbered(&model, &to)));
        let (l, r) = (left.known(), right.known());
        let pairs = pairs_of(&to);
        let (there, again) = (elements(l, r, &pairs), elements(r, l, &pairs_of(&back)));
        self.row("check, 2,048 cells", &Call::Check { source: &left, target: &right, pairs: &pairs }, || made(l, r, &there));
        self.row("inverse, 2,048 cells", &Call::Inverse { source: &left, target: &right, map: &to }, || made(l, r, &there).inverse().is_ok());
        let call = Call::Apply { source: &left, target: &right, map: &to, element: 0 };
        self.row("apply, 2,048 cells", &call, || made(l, r, &there).apply(l.element(0)));
        let call = Call::Compose { source: &left, middle: &right, target: &left, first: &to, second: &back };
        self.row("compose, 2,048 cells", &call, || made(l, r, &there).then(&made(r, l, &again)).map(|map| map.iter().len()));
        if !self.of_stack {
            remark(&made(l, r, &there), &made(r, l, &again));
            self.identity(&left);
        }
    }

    /// Identity on both sides, a thousand calls at a time: the original's reads no row of its model, the port's reads and tests the file.
    fn identity(&mut self, file: &File) {
        let model = &file.known().model;
        let call = Call::Identity { model: file };
        let lent = ample(&call);
        let theirs = fastest_of(|| (0..1000).for_each(|_| drop(black_box(ModelHom::identity(black_box(model))))));
        let ours = fastest_of(|| (0..1000).for_each(|_| self.port.ask(black_box(&call), lent)));
        println!("remark: identity, original {} ns, port {} ns", theirs / 1000, ours / 1000);
    }
}

/// The original's inverse and composite alone, of maps that are made before the clock starts.
fn remark(there: &ModelHom, again: &ModelHom) {
    let inverse = fastest_of(|| black_box(there).inverse());
    let then = fastest_of(|| black_box(there).then(black_box(again)));
    println!("remark: of the original's, inverse alone {inverse} ns, then alone {then} ns");
}

/// A map as a pair list.
fn pairs_of(map: &[u8]) -> Vec<u8> {
    map.iter().enumerate().flat_map(|(e, &image)| [e as u8, image]).collect()
}

fn elements(source: &Meaning, target: &Meaning, pairs: &[u8]) -> Vec<(Element, Element)> {
    pairs.chunks(2).map(|pair| (source.element(pair[0]), target.element(pair[1]))).collect()
}

fn made<'a>(source: &'a Meaning, target: &'a Meaning, pairs: &[(Element, Element)]) -> ModelHom<'a> {
    ModelHom::new(black_box(&source.model), black_box(&target.model), pairs.iter().copied()).expect("a map")
}

/// The least time of each side in nanoseconds.
fn fastest<T>(mut original: impl FnMut() -> T, port: &mut Port, call: &Call, lent: Lent) -> (u64, u64) {
    let (mut theirs, mut ours) = (u64::MAX, u64::MAX);
    let began = Instant::now();
    let mut turns = 0;
    while turns < TURNS || began.elapsed() < TIME {
        theirs = theirs.min(timed(&mut original));
        ours = ours.min(timed(|| port.ask(black_box(call), lent)));
        turns += 1;
    }
    let cost = clock::cost();
    (theirs - cost, ours - cost)
}

fn fastest_of<T>(mut run: impl FnMut() -> T) -> u64 {
    (0..1000).map(|_| timed(&mut run)).min().expect("a time") - clock::cost()
}

/// How long a run takes, with one look at the clock; what it gives back is dropped after that.
fn timed<T>(mut run: impl FnMut() -> T) -> u64 {
    let began = clock::now();
    let given = black_box(run());
    let time = clock::now() - began;
    drop(given);
    time
}
