//! What the calls leave in the buffers that they are lent, and the work used again.
mod common;
use bizakoma::{find, lent, Numbers, Work, WORK};
use common::{graph, plain, rings, AMPLE, FULL};

/// Entries that are all `7`, with two more than a find needs.
fn used() -> Vec<u16> {
    vec![7; WORK + 2]
}

/// Whether a find cleared the work: zero up to `WORK`, then unchanged.
fn is_cleared(work: &[u16]) -> bool {
    work[..WORK].iter().all(|&entry| entry == 0) && work[WORK..] == [7, 7]
}

fn numbers(number: u32, carried: [u64; 3]) -> Numbers {
    Numbers { number, carried }
}

#[test]
fn the_first_bytes_hold_the_map_on_0() {
    let (left, right) = (graph(2, &[(0, 1)]), graph(2, &[(1, 0)]));
    let (mut map, mut work) = (FULL, used());
    assert_eq!(lent::find(&left, &right, AMPLE, &mut map, &mut work), numbers(0, [3, 0, 0]));
    assert_eq!(map[..2], [1, 0]);
    assert_eq!(map[2..], FULL[2..]);
    assert!(is_cleared(&work));
}

#[test]
fn the_output_is_unchanged_on_1_and_2() {
    for (budget, number, units) in [(AMPLE, 1, 19), (18, 2, 18), (0, 2, 0)] {
        let (mut map, mut work) = (FULL, used());
        assert_eq!(lent::find(&rings(&[6]), &rings(&[3, 3]), budget, &mut map, &mut work), numbers(number, [units, 0, 0]));
        assert_eq!(map, FULL);
        assert!(is_cleared(&work));
    }
}

#[test]
fn the_work_is_cleared_on_1_with_0_units() {
    let (mut map, mut work) = (FULL, used());
    assert_eq!(lent::find(&plain(2), &plain(3), AMPLE, &mut map, &mut work), numbers(1, [0, 0, 0]));
    assert_eq!(map, FULL);
    assert!(is_cleared(&work));
}

#[test]
fn a_refusal_changes_nothing() {
    let (left, right) = (plain(2), graph(2, &[]));
    let (mut map, mut work) = (FULL, used());
    assert_eq!(lent::find(&left, &right, AMPLE, &mut map, &mut work).number, 13);
    assert_eq!(lent::find(&left, &left, AMPLE, &mut map[..1], &mut work).number, 11);
    assert_eq!(lent::find(&left, &left, AMPLE, &mut map, &mut work[..WORK - 1]).number, 11);
    assert_eq!(lent::find_with_pairs(&left, &left, &[2, 0], AMPLE, &mut map, &mut work), numbers(14, [0, 1, 0]));
    assert_eq!(lent::check(&left, &left, &[0, 0], &mut map), numbers(16, [1, 0, 0]));
    assert_eq!(lent::inverse(&left, &left, &[0], &mut map).number, 19);
    assert_eq!(map, FULL);
    assert!(work.iter().all(|&entry| entry == 7));
}

#[test]
fn an_output_of_just_the_length_is_enough() {
    let model = plain(3);
    let mut map = [77; 3];
    assert_eq!(lent::identity(&model, &mut map), numbers(0, [0, 0, 0]));
    assert_eq!(map, [0, 1, 2]);
    let mut inverse = [77; 3];
    assert_eq!(lent::inverse(&model, &model, &[2, 0, 1], &mut inverse), numbers(0, [0, 0, 0]));
    assert_eq!(inverse, [1, 2, 0]);
    let mut both = [77; 4];
    assert_eq!(lent::compose(&model, &model, &model, &[2, 0, 1], &inverse, &mut both), numbers(0, [0, 0, 0]));
    assert_eq!(both, [0, 1, 2, 77]);
}

#[test]
fn work_is_used_again() {
    let mut work = Work::new();
    for _ in 0..3 {
        for (left, right) in [(rings(&[6]), rings(&[3, 3])), (rings(&[64]), rings(&[64])), (plain(64), plain(64)), (plain(2), plain(3))] {
            for budget in [0, 5, AMPLE] {
                let again = find(&left, &right, budget, &mut work);
                assert_eq!(again, find(&left, &right, budget, &mut Work::new()));
            }
        }
    }
}
