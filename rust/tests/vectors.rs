//! The list of calls in `crates/vectors`, each with its exact answer, put to the linked library. The list was made by an independent reading of the
//! document; the top of `crates/vectors/src/main.rt` says how its lines are read.
use bizakoma::{lent, Numbers, WORK};
use std::fs;
use std::path::Path;

/// What every byte of an output and every work entry holds before a call.
const BYTE: u8 = 0xa5;
const ENTRY: u16 = 0x5a5a;

/// What a call answers and leaves: of apply no map, of a find also what became of the work.
#[derive(Debug, PartialEq, Eq)]
struct Left {
    numbers: Numbers,
    map: Option<Vec<u8>>,
    work: Option<String>,
}

/// Bytes in hex, `_` where there are none.
fn bytes(word: &str) -> Vec<u8> {
    let digits = word.trim_matches('_');
    (0..digits.len()).step_by(2).map(|i| u8::from_str_radix(&digits[i..i + 2], 16).unwrap()).collect()
}

/// What became of the work: `zero`, `same` or `other`.
fn state(work: &[u16]) -> String {
    let all = |entries: &[u16], entry| entries.iter().all(|&e| e == entry);
    let zero = work.len() >= WORK && all(&work[..WORK], 0) && all(&work[WORK..], ENTRY);
    let state = if zero {
        "zero"
    } else if all(work, ENTRY) {
        "same"
    } else {
        "other"
    };
    state.to_string()
}

/// A call with an output of the length that a word gives.
fn with_map(length: &str, call: impl FnOnce(&mut [u8]) -> Numbers) -> Left {
    let mut map = vec![BYTE; length.parse().unwrap()];
    let numbers = call(&mut map);
    Left { numbers, map: Some(map), work: None }
}

/// A find, by its budget, its output and its work.
fn with_work(words: [&str; 3], call: impl FnOnce(u64, &mut [u8], &mut [u16]) -> Numbers) -> Left {
    let [budget, length, entries] = words;
    let budget = u64::from_str_radix(budget, 16).unwrap();
    let mut work = vec![ENTRY; entries.parse().unwrap()];
    let left = with_map(length, |map| call(budget, map, &mut work));
    Left { work: Some(state(&work)), ..left }
}

/// Makes the call of a line.
fn called(line: &str) -> Left {
    let words: Vec<&str> = line.split(' ').collect();
    let b = |i: usize| bytes(words[i]);
    match words[0] {
        "identity" => with_map(words[2], |map| lent::identity(&b(1), map)),
        "check" => with_map(words[4], |map| lent::check(&b(1), &b(2), &b(3), map)),
        "apply" => Left { numbers: lent::apply(&b(1), &b(2), &b(3), b(4)[0]), map: None, work: None },
        "compose" => with_map(words[6], |map| lent::compose(&b(1), &b(2), &b(3), &b(4), &b(5), map)),
        "inverse" => with_map(words[4], |map| lent::inverse(&b(1), &b(2), &b(3), map)),
        "find" => with_work([words[3], words[4], words[5]], |budget, map, work| lent::find(&b(1), &b(2), budget, map, work)),
        "pairs" => {
            with_work([words[4], words[5], words[6]], |budget, map, work| lent::find_with_pairs(&b(1), &b(2), &b(3), budget, map, work))
        }
        "under" => with_work([words[6], words[7], words[8]], |budget, map, work| {
            lent::find_under(&b(1), &b(2), &b(3), &b(4), &b(5), budget, map, work)
        }),
        other => panic!("{other} is no call"),
    }
}

/// Reads an answer: the number and what it carries, `map` and the output, `work` and its state.
fn answer(line: &str) -> Left {
    let mut parts = line.split(" work ");
    let (told, work) = (parts.next().unwrap(), parts.next().map(str::to_string));
    let mut parts = told.split(" map ");
    let (told, map) = (parts.next().unwrap(), parts.next().map(bytes));
    let mut values = told.split(' ').map(|word| word.parse::<u64>().unwrap());
    let number = values.next().unwrap() as u32;
    let carried = [(); 3].map(|_| values.next().unwrap_or(0));
    Left { numbers: Numbers { number, carried }, map, work }
}

#[test]
fn every_call_of_the_list() {
    let folder = Path::new(env!("CARGO_MANIFEST_DIR")).join("../crates/vectors");
    let [calls, answers] = ["stdin", "stdout"].map(|name| fs::read_to_string(folder.join(name)).unwrap());
    assert_eq!(calls.lines().count(), answers.lines().count());
    assert!(calls.lines().count() > 1000);
    for (i, (call, expected)) in calls.lines().zip(answers.lines()).enumerate() {
        assert_eq!(called(call), answer(expected), "line {}: {call}", i + 1);
    }
}
