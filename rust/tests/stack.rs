//! The calls on a thread with a stack of 64 KiB.
mod common;
use bizakoma::{find, find_under, find_with_pairs, identity, inverse, Inverse, Search, Work};
use common::{plain, rings, AMPLE};
use std::thread;

/// Runs a test on such a thread.
fn on_64_kib(run: impl FnOnce() + Send + 'static) {
    thread::Builder::new().stack_size(64 * 1024).spawn(run).unwrap().join().unwrap();
}

#[test]
fn a_ring_of_64() {
    on_64_kib(|| {
        let ring = rings(&[64]);
        let answer = find(&ring, &ring, AMPLE, &mut Work::new()).unwrap();
        let map = *answer.map().unwrap();
        assert_eq!(map, identity(&ring).unwrap());
        assert_eq!(inverse(&ring, &ring, &map), Ok(Inverse::Map(map)));
    });
}

#[test]
fn sixty_four_elements_that_nothing_tells_apart() {
    on_64_kib(|| {
        let model = plain(64);
        let answer = find(&model, &model, AMPLE, &mut Work::new()).unwrap();
        assert_eq!(*answer.map().unwrap(), identity(&model).unwrap());
    });
}

#[test]
fn open_choices_that_all_fail() {
    on_64_kib(|| {
        let (left, right) = (rings(&[3; 20]), rings(&[&[3; 18][..], &[6]].concat()));
        let mut work = Work::new();
        let answer = find(&left, &right, 20_000, &mut work).unwrap();
        assert_eq!(answer, Search::OutOfBudget { units: 20_000 });
        let pairs: Vec<(u8, u8)> = (0..16).map(|i| (3 * i, 3 * i)).collect();
        let answer = find_with_pairs(&left, &right, &pairs, AMPLE, &mut work).unwrap();
        assert_eq!(answer.number(), 1);
    });
}

#[test]
fn under_a_base_of_64() {
    on_64_kib(|| {
        let (base, ring) = (rings(&[64]), rings(&[64]));
        let same = identity(&ring).unwrap();
        let answer = find_under(&base, &ring, &ring, &same, &same, AMPLE, &mut Work::new()).unwrap();
        assert_eq!(*answer.map().unwrap(), same);
    });
}
