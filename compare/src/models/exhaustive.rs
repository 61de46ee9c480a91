//! All small models.
use super::graph;
use crate::stored::Stored;

/// Every graph on n elements, rows (e, e) among them.
pub fn graphs(n: usize) -> impl Iterator<Item = Stored> {
    let places: Vec<_> = (0..n * n).map(|place| (place / n, place % n)).collect();
    (0..1u32 << (n * n)).map(move |set| {
        let rows = places.iter().enumerate().filter(|&(bit, _)| set >> bit & 1 == 1);
        graph(n, rows.map(|(_, &row)| row))
    })
}

/// Every graph on n elements that holds each row both ways, and no row (e, e).
pub fn symmetric_graphs(n: usize) -> impl Iterator<Item = Stored> {
    let places: Vec<_> = (0..n).flat_map(|to| (0..to).map(move |from| (from, to))).collect();
    (0..1u32 << places.len()).map(move |set| {
        let edges = places.iter().enumerate().filter(|&(bit, _)| set >> bit & 1 == 1);
        graph(n, edges.flat_map(|(_, &(from, to))| [(from, to), (to, from)]))
    })
}

/// Every way of n elements of one type to have representatives.
pub fn roots(n: usize) -> Vec<Vec<u8>> {
    let are_roots = |roots: &Vec<u8>| roots.iter().all(|&root| roots[usize::from(root)] == root);
    words(n, &(0..n as u8).collect::<Vec<_>>()).into_iter().filter(are_roots).collect()
}

/// Models of n elements of one type, each under all representatives.
pub fn rooted(models: impl Iterator<Item = Stored>, n: usize) -> Vec<Stored> {
    let roots = roots(n);
    let under_all = |model: Stored| roots.iter().map(move |roots| Stored { roots: roots.clone(), ..model.clone() }).collect::<Vec<_>>();
    models.flat_map(under_all).collect()
}

/// Every graph on n elements under all representatives.
pub fn rooted_graphs(n: usize) -> Vec<Stored> {
    rooted(graphs(n), n)
}

/// All lists of so many bytes out of these.
pub fn words(length: usize, letters: &[u8]) -> Vec<Vec<u8>> {
    let mut all = vec![vec![]];
    for _ in 0..length {
        all = all.iter().flat_map(|word| letters.iter().map(move |&letter| [word.as_slice(), &[letter]].concat())).collect();
    }
    all
}

/// All pair lists of up to so many pairs, on n elements a side.
pub fn pair_lists(most: usize, n: usize) -> Vec<Vec<u8>> {
    let letters: Vec<_> = (0..n as u8).collect();
    (0..=most).flat_map(|length| words(2 * length, &letters)).collect()
}
