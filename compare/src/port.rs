//! The port, through its library.
use crate::call::{Answer, Call, Lent, WORK};
use crate::file::File;

/// An output byte before a call.
pub const UNTOUCHED: u8 = 0xa5;
/// A work entry before a call.
const UNUSED: u16 = 0x5a5a;
const MOST_ROOM: usize = 256;
pub const MOST_WORK: usize = WORK + 256;

type Carried = [u64; 3];

#[link(name = "bizakoma", kind = "static")]
extern "C" {
    fn bizakoma_identity(model: *const u8, model_len: usize, map: *mut u8, map_len: usize, carried: *mut Carried) -> u32;
    fn bizakoma_check(
        source: *const u8,
        source_len: usize,
        target: *const u8,
        target_len: usize,
        pairs: *const u8,
        pairs_len: usize,
        map: *mut u8,
        map_len: usize,
        carried: *mut Carried,
    ) -> u32;
    fn bizakoma_apply(
        source: *const u8,
        source_len: usize,
        target: *const u8,
        target_len: usize,
        map: *const u8,
        map_len: usize,
        element: u8,
        carried: *mut Carried,
    ) -> u32;
    fn bizakoma_compose(
        source: *const u8,
        source_len: usize,
        middle: *const u8,
        middle_len: usize,
        target: *const u8,
        target_len: usize,
        first: *const u8,
        first_len: usize,
        second: *const u8,
        second_len: usize,
        map: *mut u8,
        map_len: usize,
        carried: *mut Carried,
    ) -> u32;
    fn bizakoma_inverse(
        source: *const u8,
        source_len: usize,
        target: *const u8,
        target_len: usize,
        map: *const u8,
        map_len: usize,
        inverse: *mut u8,
        inverse_len: usize,
        carried: *mut Carried,
    ) -> u32;
    fn bizakoma_find(
        left: *const u8,
        left_len: usize,
        right: *const u8,
        right_len: usize,
        budget: u64,
        map: *mut u8,
        map_len: usize,
        work: *mut u16,
        work_len: usize,
        carried: *mut Carried,
    ) -> u32;
    fn bizakoma_find_with_pairs(
        left: *const u8,
        left_len: usize,
        right: *const u8,
        right_len: usize,
        pairs: *const u8,
        pairs_len: usize,
        budget: u64,
        map: *mut u8,
        map_len: usize,
        work: *mut u16,
        work_len: usize,
        carried: *mut Carried,
    ) -> u32;
    fn bizakoma_find_under(
        base: *const u8,
        base_len: usize,
        left: *const u8,
        left_len: usize,
        right: *const u8,
        right_len: usize,
        to_left: *const u8,
        to_left_len: usize,
        to_right: *const u8,
        to_right_len: usize,
        budget: u64,
        map: *mut u8,
        map_len: usize,
        work: *mut u16,
        work_len: usize,
        carried: *mut Carried,
    ) -> u32;
}

/// What the port is lent, and what it said last.
pub struct Port {
    map: Vec<u8>,
    work: Vec<u16>,
    pub number: u32,
    pub carried: Carried,
}

impl Port {
    pub fn new() -> Self {
        Self { map: vec![UNTOUCHED; MOST_ROOM], work: vec![UNUSED; MOST_WORK], number: 0, carried: [0; 3] }
    }

    /// Makes every lent byte and entry what it is before a call.
    pub fn reset(&mut self) {
        self.map.fill(UNTOUCHED);
        self.work.fill(UNUSED);
        self.carried = [u64::MAX; 3];
    }

    /// Makes a call.
    pub fn ask(&mut self, call: &Call, lent: Lent) {
        let map = (self.map[..lent.room].as_mut_ptr(), lent.room);
        let work = (self.work[..lent.work].as_mut_ptr(), lent.work);
        // SAFETY: every pointer is that of a slice with the length beside it, and no two lent ones overlap.
        self.number = unsafe { by_name(call, lent.budget, map, work, &mut self.carried) };
    }

    /// All of the output after the call.
    pub fn output(&self, lent: Lent) -> &[u8] {
        &self.map[..lent.room]
    }

    /// What the call left in its work: `zero`, `same`, or `other`.
    pub fn state_of_work(&self, lent: Lent) -> &'static str {
        let (used, rest) = self.work.split_at(WORK.min(lent.work));
        let rest_is_unused = rest.iter().all(|&entry| entry == UNUSED);
        if rest_is_unused && used.len() == WORK && used.iter().all(|&entry| entry == 0) {
            "zero"
        } else if rest_is_unused && used.iter().all(|&entry| entry == UNUSED) {
            "same"
        } else {
            "other"
        }
    }

    /// Whether the port said this, carried this, and left every lent byte and entry as document 01 has it for this answer.
    pub fn said(&self, call: &Call, lent: Lent, answer: &Answer) -> bool {
        let decided = call.searches() && answer.number <= 2;
        let units = usize::from(decided);
        let mut carried = [0; 3];
        carried[..answer.carried.len()].copy_from_slice(&answer.carried);
        let written = answer.map.as_deref().unwrap_or(&[]);
        let (map, rest) = self.map.split_at(written.len());
        self.number == answer.number
            && self.carried[units..] == carried[units..]
            && map == written
            && rest.iter().all(|&byte| byte == UNTOUCHED)
            && self.state_of_work(lent) == if decided { "zero" } else { "same" }
    }

    /// Whether the port answered 2 with all of the budget used, its output as before and its work cleared.
    pub fn is_exhausted(&self, call: &Call, lent: Lent) -> bool {
        self.carried[0] == lent.budget && self.said(call, lent, &Answer { number: 2, carried: vec![], map: None })
    }
}

type Out = (*mut u8, usize);
type Work = (*mut u16, usize);

unsafe fn by_name(call: &Call, budget: u64, (map, room): Out, (work, entries): Work, carried: *mut Carried) -> u32 {
    let file = |file: &File| (file.bytes.as_ptr(), file.bytes.len());
    let bytes = |bytes: &[u8]| (bytes.as_ptr(), bytes.len());
    match *call {
        Call::Identity { model } => {
            let (m, ml) = file(model);
            bizakoma_identity(m, ml, map, room, carried)
        }
        Call::Check { source, target, pairs } => {
            let ((s, sl), (t, tl), (p, pl)) = (file(source), file(target), bytes(pairs));
            bizakoma_check(s, sl, t, tl, p, pl, map, room, carried)
        }
        Call::Apply { source, target, map, element } => {
            let ((s, sl), (t, tl), (m, ml)) = (file(source), file(target), bytes(map));
            bizakoma_apply(s, sl, t, tl, m, ml, element, carried)
        }
        Call::Compose { source, middle, target, first, second } => {
            let ((s, sl), (m, ml), (t, tl)) = (file(source), file(middle), file(target));
            let ((f, fl), (n, nl)) = (bytes(first), bytes(second));
            bizakoma_compose(s, sl, m, ml, t, tl, f, fl, n, nl, map, room, carried)
        }
        Call::Inverse { source, target, map: given } => {
            let ((s, sl), (t, tl), (m, ml)) = (file(source), file(target), bytes(given));
            bizakoma_inverse(s, sl, t, tl, m, ml, map, room, carried)
        }
        Call::Find { left, right } => {
            let ((l, ll), (r, rl)) = (file(left), file(right));
            bizakoma_find(l, ll, r, rl, budget, map, room, work, entries, carried)
        }
        Call::Pairs { left, right, pairs } => {
            let ((l, ll), (r, rl), (p, pl)) = (file(left), file(right), bytes(pairs));
            bizakoma_find_with_pairs(l, ll, r, rl, p, pl, budget, map, room, work, entries, carried)
        }
        Call::Under { base, left, right, to_left, to_right } => {
            let ((b, bl), (l, ll), (r, rl)) = (file(base), file(left), file(right));
            let ((f, fl), (g, gl)) = (bytes(to_left), bytes(to_right));
            bizakoma_find_under(b, bl, l, ll, r, rl, f, fl, g, gl, budget, map, room, work, entries, carried)
        }
    }
}
