//! Calls on files at fault, and with too little lent.
use super::{ample, ask_amply, Ask};
use crate::call::{Call, Lent, WORK};
use crate::file::File;
use crate::models::random::{drawn, drawn_canonical, SMALL};
use crate::models::shuffled;
use crate::random::Random;

/// Each file cut short at every place, and with every byte changed in several ways, left out, or said twice; as the only model, as the second, as
/// the first.
pub fn files(ask: Ask) {
    let mut random = Random::new(31);
    for _ in 0..60 {
        let good = File::of(&drawn(&SMALL, true, &mut random));
        for bytes in damages(&good.bytes, &mut random) {
            let bad = File::of_bytes(bytes);
            ask_amply(ask, Call::Identity { model: &bad });
            ask_amply(ask, Call::Check { source: &good, target: &bad, pairs: &[] });
            ask_amply(ask, Call::Find { left: &bad, right: &good });
        }
    }
}

/// What a file becomes when it is cut, or one of its bytes is changed, left out or said twice.
fn damages(good: &[u8], random: &mut Random) -> Vec<Vec<u8>> {
    let mut all = vec![[good, &[0]].concat()];
    for at in 0..good.len() {
        all.push(good[..at].to_vec());
        all.push([&good[..at], &good[at + 1..]].concat());
        all.push([&good[..=at], &good[at..]].concat());
        let byte = good[at];
        for other in [0, 1, 2, 3, 255, byte.wrapping_add(1), byte.wrapping_sub(1), random.below(256) as u8] {
            let mut bytes = good.to_vec();
            bytes[at] = other;
            all.push(bytes);
        }
    }
    all
}

/// Outputs and works of too few, of just enough and of more entries than a call needs.
pub fn room(ask: Ask) {
    let mut random = Random::new(32);
    for _ in 0..3_000 {
        let model = drawn_canonical(&SMALL, &mut random);
        let (left, right) = (File::of(&model), File::of(&shuffled(&model, &mut random)));
        let pairs = [random.below(7) as u8, random.below(7) as u8];
        let calls = [
            Call::Identity { model: &left },
            Call::Check { source: &left, target: &right, pairs: &pairs },
            Call::Inverse { source: &left, target: &right, map: &pairs },
            Call::Compose { source: &left, middle: &right, target: &right, first: &pairs, second: &pairs },
            Call::Find { left: &left, right: &right },
            Call::Pairs { left: &left, right: &right, pairs: &pairs },
            Call::Under { base: &left, left: &left, right: &right, to_left: &pairs, to_right: &pairs },
        ];
        for call in calls {
            let work = if call.searches() { *random.of(&[0, 1, WORK - 1, WORK, WORK + 1]) } else { 0 };
            let lent = Lent { room: random.below(model.n() + 2), work, ..ample(&call) };
            ask(&call, lent);
        }
    }
}
