//! Both sides on the same calls.
mod damaged;
mod drawn;
mod exhaustive;
mod intended;
mod symmetric;

use crate::call::{Call, Lent};
use crate::file::File;
use crate::port::{Port, MOST_WORK};
use crate::{expected, line, vectors};
use std::collections::BTreeMap;

/// Takes a call, with what is lent for it.
pub type Ask<'a> = &'a mut dyn FnMut(&Call, Lent);

/// Kinds of calls by name.
pub const FAMILIES: [(&str, fn(Ask)); 15] = [
    ("all graphs of up to 3 elements against each other", exhaustive::graphs_of_3),
    ("all graphs of 4 elements, renumbered and changed", exhaustive::graphs_of_4),
    ("all pair lists of up to 2 pairs", exhaustive::fixed_pairs),
    ("all representatives: identity, apply, find", exhaustive::representatives),
    ("all representatives: check, inverse, compose", exhaustive::maps),
    ("all representatives: under a base", exhaustive::under),
    ("drawn: find", drawn::finds),
    ("drawn: find with pairs", drawn::pairs),
    ("drawn: check", drawn::checks),
    ("drawn: apply, inverse, compose", drawn::maps),
    ("drawn: under a base", drawn::under),
    ("built and equated by the original's own calls", drawn::built),
    ("symmetric families", symmetric::families),
    ("damaged files", damaged::files),
    ("room", damaged::room),
];

/// More than the compared searches use.
pub const BUDGET: u64 = 1_000_000;

/// Room, work and budget enough, and some of the first two over.
pub fn ample(call: &Call) -> Lent {
    match call.domain().map(File::n) {
        None => Lent { room: 0, work: 0, budget: 0 },
        Some(n) if call.searches() => Lent { room: n + 3, work: MOST_WORK, budget: BUDGET },
        Some(n) => Lent { room: n + 3, work: 0, budget: 0 },
    }
}

/// Asks a call with room, work and budget enough.
fn ask_amply(ask: Ask, call: Call) {
    let lent = ample(&call);
    ask(&call, lent);
}

/// With fewer calls than these the comparison says too little.
const LEAST: u64 = 1_000_000;

/// How many differences of a family are shown.
const SHOWN: u64 = 5;

#[derive(Default)]
struct Count {
    calls: u64,
    differ: u64,
    /// Calls that the port answered with 2; not among the others.
    exhausted: u64,
    /// Of each number, how often the original answered it.
    numbers: BTreeMap<u32, u64>,
}

/// Runs all families and says what came of each; the last line is of all.
pub fn run() -> bool {
    let mut port = Port::new();
    let mut all = Count::default();
    for (name, family) in FAMILIES {
        let mut count = Count::default();
        family(&mut |call, lent| compare(&mut port, &mut count, call, lent));
        say(name, &mut all, count);
    }
    let mut count = Count::default();
    vectors::handed_over(&mut |call, lent| compare(&mut port, &mut count, call, lent));
    say("the list that came with document 01", &mut all, count);
    let (lines, other) = vectors::original_beside_stated();
    println!("the original beside the answers stated in that list: {lines} lines, {other} differ");
    let intended = intended::differences();
    let as_listed = intended.iter().filter(|(_, holds)| *holds).count();
    println!("intended differences: {}, {as_listed} as listed", intended.len());
    println!("{} calls, {} differ", all.calls, all.differ);
    all.calls >= LEAST && all.differ == 0 && other == 0 && as_listed == intended.len()
}

/// Says what came of a family, and adds it to the whole.
fn say(name: &str, all: &mut Count, count: Count) {
    println!("{name}: {} calls, {} differ", count.calls, count.differ);
    let numbers: Vec<_> = count.numbers.iter().map(|(number, calls)| format!("{number}: {calls}")).collect();
    println!("    {}; left out, out of budget: {}", numbers.join(", "), count.exhausted);
    all.calls += count.calls;
    all.differ += count.differ;
}

/// Makes a call on both sides. Where the port answers 2, as it should when all units are used, the call is outside the comparison.
fn compare(port: &mut Port, count: &mut Count, call: &Call, lent: Lent) {
    port.reset();
    port.ask(call, lent);
    if call.searches() && port.is_exhausted(call, lent) {
        count.exhausted += 1;
        return;
    }
    let answer = expected::answer(call, lent);
    count.calls += 1;
    *count.numbers.entry(answer.number).or_default() += 1;
    if !port.said(call, lent, &answer) {
        count.differ += 1;
        if count.differ <= SHOWN {
            println!("differs: {}\n  the original: {answer:?}\n  the port: {}", line::call(call, lent), line::answer(call, lent, port));
        }
    }
}
