//! Calls and answers as lines, in the form of the program `vectors`.
use crate::call::{Call, Lent};
use crate::file::File;
use crate::port::Port;

/// Bytes in hex, `_` where there are none.
pub fn hex(bytes: &[u8]) -> String {
    if bytes.is_empty() {
        return "_".into();
    }
    bytes.iter().map(|byte| format!("{byte:02x}")).collect()
}

/// Hex as bytes.
pub fn unhex(word: &str) -> Vec<u8> {
    if word == "_" {
        return vec![];
    }
    (0..word.len()).step_by(2).map(|at| u8::from_str_radix(&word[at..at + 2], 16).expect("hex")).collect()
}

/// A call as a line.
pub fn call(call: &Call, lent: Lent) -> String {
    let Lent { room, work, budget } = lent;
    let file = |file: &File| hex(&file.bytes);
    match *call {
        Call::Identity { model } => format!("identity {} {room}", file(model)),
        Call::Check { source, target, pairs } => format!("check {} {} {} {room}", file(source), file(target), hex(pairs)),
        Call::Apply { source, target, map, element } => format!("apply {} {} {} {element:02x}", file(source), file(target), hex(map)),
        Call::Compose { source, middle, target, first, second } => {
            format!("compose {} {} {} {} {} {room}", file(source), file(middle), file(target), hex(first), hex(second))
        }
        Call::Inverse { source, target, map } => format!("inverse {} {} {} {room}", file(source), file(target), hex(map)),
        Call::Find { left, right } => format!("find {} {} {budget:016x} {room} {work}", file(left), file(right)),
        Call::Pairs { left, right, pairs } => format!("pairs {} {} {} {budget:016x} {room} {work}", file(left), file(right), hex(pairs)),
        Call::Under { base, left, right, to_left, to_right } => {
            let maps = format!("{} {}", hex(to_left), hex(to_right));
            format!("under {} {} {} {maps} {budget:016x} {room} {work}", file(base), file(left), file(right))
        }
    }
}

/// What the port said last, as a line.
pub fn answer(call: &Call, lent: Lent, port: &Port) -> String {
    let carried = match (call, port.number) {
        (Call::Apply { .. }, 0) => 1,
        (_, 0 | 1) => usize::from(call.searches()),
        (_, 2 | 12 | 15 | 16 | 17 | 18 | 19) => 1,
        (_, 10 | 14) => 2,
        _ => 0,
    };
    let mut line = port.number.to_string();
    for value in &port.carried[..carried] {
        line += &format!(" {value}");
    }
    if call.domain().is_some() {
        line += &format!(" map {}", hex(port.output(lent)));
    }
    if call.searches() {
        line += &format!(" work {}", port.state_of_work(lent));
    }
    line
}

/// A line's words, its files read: what a call of it borrows.
pub struct Words {
    name: String,
    files: Vec<File>,
    bytes: Vec<Vec<u8>>,
    element: u8,
    pub lent: Lent,
}

impl Words {
    pub fn new(line: &str) -> Self {
        let words: Vec<_> = line.split(' ').collect();
        let (files, lists, numbers) = match words[0] {
            "identity" => (1, 0, 1),
            "check" | "inverse" => (2, 1, 1),
            "apply" => (2, 1, 0),
            "compose" => (3, 2, 1),
            "find" => (2, 0, 3),
            "pairs" => (2, 1, 3),
            "under" => (3, 2, 3),
            other => panic!("{other} is no call"),
        };
        let (of_files, rest) = words[1..].split_at(files);
        let (of_lists, rest) = rest.split_at(lists);
        let decimal = |word: &str| word.parse().expect("a length");
        let lent = match (numbers, rest) {
            (1, [room]) => Lent { room: decimal(room), work: 0, budget: 0 },
            (3, [budget, room, work]) => {
                Lent { room: decimal(room), work: decimal(work), budget: u64::from_str_radix(budget, 16).expect("a budget") }
            }
            _ => Lent { room: 0, work: 0, budget: 0 },
        };
        Self {
            name: words[0].into(),
            files: of_files.iter().map(|word| File::of_bytes(unhex(word))).collect(),
            bytes: of_lists.iter().map(|word| unhex(word)).collect(),
            element: if numbers == 0 { unhex(rest[0])[0] } else { 0 },
            lent,
        }
    }

    pub fn call(&self) -> Call<'_> {
        let file = |at: usize| &self.files[at];
        let bytes = |at: usize| self.bytes[at].as_slice();
        match self.name.as_str() {
            "identity" => Call::Identity { model: file(0) },
            "check" => Call::Check { source: file(0), target: file(1), pairs: bytes(0) },
            "apply" => Call::Apply { source: file(0), target: file(1), map: bytes(0), element: self.element },
            "compose" => Call::Compose { source: file(0), middle: file(1), target: file(2), first: bytes(0), second: bytes(1) },
            "inverse" => Call::Inverse { source: file(0), target: file(1), map: bytes(0) },
            "find" => Call::Find { left: file(0), right: file(1) },
            "pairs" => Call::Pairs { left: file(0), right: file(1), pairs: bytes(0) },
            _ => Call::Under { base: file(0), left: file(1), right: file(2), to_left: bytes(0), to_right: bytes(1) },
        }
    }
}
