//! The list of calls that the program `vectors` replays.
use crate::call::{Call, Lent};
use crate::calls::{Ask, FAMILIES};
use crate::expected;
use crate::line::{self, Words};
use crate::port::{Port, UNTOUCHED};
use std::collections::BTreeSet;
use std::path::{Path, PathBuf};
use std::{fs, io};

/// The lines at the top of the list, which came with document 01.
const HANDED_OVER: usize = 1077;
/// Most lines of one family, and most characters of one line.
const LINES: usize = 200;
const CHARACTERS: usize = 700;

fn folder() -> PathBuf {
    Path::new(env!("CARGO_MANIFEST_DIR")).join("../crates/vectors")
}

/// The lines of a file of the list that came with document 01.
fn kept(name: &str) -> io::Result<Vec<String>> {
    let text = fs::read_to_string(folder().join(name))?;
    Ok(text.lines().take(HANDED_OVER).map(String::from).collect())
}

/// The calls that came with document 01.
pub fn handed_over(ask: Ask) {
    for line in kept("stdin").expect("the list of calls") {
        let words = Words::new(&line);
        ask(&words.call(), words.lent);
    }
}

/// Whether the original answers a call as a line of the list says; a line with 2 says nothing about the original. Units and work are the port's own.
fn is_answered_so(words: &Words, stated: &str) -> bool {
    let (call, lent) = (words.call(), words.lent);
    let answer = expected::answer(&call, lent);
    let mut said = answer.number.to_string();
    answer.carried.iter().for_each(|value| said += &format!(" {value}"));
    if call.domain().is_some() {
        let mut output = answer.map.unwrap_or_default();
        output.resize(lent.room.max(output.len()), UNTOUCHED);
        said += &format!(" map {}", line::hex(&output));
    }
    let stated: Vec<_> = stated.split(" work ").next().unwrap_or("").split(' ').collect();
    let units = call.searches() && answer.number <= 1;
    let without_units = |place: &usize| !(units && *place == 1);
    let stated: Vec<_> = (0..stated.len()).filter(without_units).map(|place| stated[place]).collect();
    said == stated.join(" ")
}

/// The original beside the answers stated in the list that came with document 01: how many lines, and on how many they differ.
pub fn original_beside_stated() -> (usize, usize) {
    let (mut lines, mut differ) = (0, 0);
    for (asked, stated) in kept("stdin").expect("the list of calls").iter().zip(kept("stdout").expect("the list of answers")) {
        if !stated.starts_with("2 ") {
            lines += 1;
            differ += usize::from(!is_answered_so(&Words::new(asked), &stated));
        }
    }
    (lines, differ)
}

/// The list as it is made.
struct List {
    port: Port,
    calls: Vec<String>,
    answers: Vec<String>,
    /// The calls, to have each once.
    known: BTreeSet<String>,
}

/// Writes the list anew: the lines that came with document 01 as they are, then lines from each family of calls.
pub fn write() -> io::Result<()> {
    let (calls, answers) = (kept("stdin")?, kept("stdout")?);
    let known = calls.iter().cloned().collect();
    let mut list = List { port: Port::new(), calls, answers, known };
    for (name, family) in FAMILIES {
        let before = list.calls.len();
        list.add_some_of(family);
        println!("{name}: {} lines", list.calls.len() - before);
    }
    put("stdin", &list.calls)?;
    put("stdout", &list.answers)?;
    println!("{} lines", list.calls.len());
    Ok(())
}

impl List {
    fn add_some_of(&mut self, family: fn(Ask)) {
        let every = spread(family);
        let mut place = 0;
        family(&mut |call, lent| {
            place += 1;
            if place % every == 0 && is_short(call, lent) {
                self.add(call, lent);
            }
        });
    }

    /// Adds a call with its answer, once. The number, the map, and all that is carried but units of search are the original's; where the port
    /// says otherwise the list is not made.
    fn add(&mut self, call: &Call, lent: Lent) {
        let asked = line::call(call, lent);
        if !self.known.insert(asked.clone()) {
            return;
        }
        self.port.reset();
        self.port.ask(call, lent);
        assert!(self.port.said(call, lent, &expected::answer(call, lent)), "the sides differ on {asked}");
        self.calls.push(asked);
        self.answers.push(line::answer(call, lent, &self.port));
    }
}

/// Which of a family's calls are taken, one in so many: about as many short ones as a family has lines. Calls of several kinds come round in turn,
/// up to 7 of them, so that a step that shares a factor with their number would pass some over.
fn spread(family: fn(Ask)) -> usize {
    let (mut all, mut short) = (0, 0);
    family(&mut |call, lent| {
        all += 1;
        short += usize::from(is_short(call, lent));
    });
    let least = all / LINES.min(short).max(1);
    (least.max(1)..).find(|step| [2, 3, 5, 7].iter().all(|turn| step % turn != 0)).expect("a step")
}

fn is_short(call: &Call, lent: Lent) -> bool {
    let bytes: usize = call.files().iter().map(|file| 2 * file.bytes.len()).sum();
    bytes + 2 * lent.room < CHARACTERS
}

fn put(name: &str, lines: &[String]) -> io::Result<()> {
    fs::write(folder().join(name), lines.join("\n") + "\n")
}
