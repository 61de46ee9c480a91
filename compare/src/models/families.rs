//! Models with many symmetries, and the fitting desk's.
use super::{graph, model};
use crate::stored::Stored;

/// Directed rings of these lengths, side by side.
pub fn rings(lengths: &[usize]) -> Stored {
    let mut rows = vec![];
    let mut from = 0;
    for &length in lengths {
        rows.extend((0..length).map(|i| (from + i, from + (i + 1) % length)));
        from += length;
    }
    graph(from, rows)
}

/// Elements with no rows.
pub fn bare(n: usize) -> Stored {
    graph(n, [])
}

/// Elements modulo the prime q, linked if they differ by a square.
pub fn paley(q: usize) -> Stored {
    let squares: Vec<_> = (1..q).map(|x| x * x % q).collect();
    let linked = |a: usize, b: usize| squares.contains(&((q + a - b) % q));
    graph(q, (0..q * q).map(|place| (place / q, place % q)).filter(|&(a, b)| linked(a, b)))
}

/// The squares of a board with k rows and k lines, linked if a rook goes from one to the other.
pub fn rook(k: usize) -> Stored {
    let linked = |a: usize, b: usize| a != b && (a / k == b / k || a % k == b % k);
    graph(k * k, (0..k.pow(4)).map(|place| (place / (k * k), place % (k * k))).filter(|&(a, b)| linked(a, b)))
}

/// The graph of Shrikhande, whose counts are those of the rook's graph on 4 by 4.
pub fn shrikhande() -> Stored {
    let steps = [(1, 0), (3, 0), (0, 1), (0, 3), (1, 1), (3, 3)];
    let row = |a: usize, (x, y): (usize, usize)| (a, (a / 4 + x) % 4 * 4 + (a % 4 + y) % 4);
    graph(16, (0..16).flat_map(|a| steps.map(|step| row(a, step))))
}

/// An edge list over so many vertices.
pub type Edges = (usize, Vec<(usize, usize)>);

/// All edges over four vertices.
pub fn k4() -> Edges {
    (4, (0..4).flat_map(|b| (0..b).map(move |a| (a, b))).collect())
}

/// All edges between three vertices and three others.
pub fn k33() -> Edges {
    (6, (0..9).map(|place| (place / 3, 3 + place % 3)).collect())
}

/// The edges of the cube.
pub fn cube() -> Edges {
    (8, (0..8).flat_map(|b: usize| (0..b).filter(move |a| (a ^ b).is_power_of_two()).map(move |a| (a, b))).collect())
}

/// Two elements for each edge, linked to each other, and for each vertex one element for every even set of its edges (at a twisted vertex 0: every
/// odd one), linked to one of each edge's two. Refinement does not tell the twisted model from the other; they are not isomorphic.
pub fn cfi((vertices, edges): &Edges, twisted: bool) -> Stored {
    let mut rows: Vec<_> = (0..edges.len()).map(|edge| (2 * edge, 2 * edge + 1)).collect();
    let mut next = 2 * edges.len();
    for vertex in 0..*vertices {
        let own: Vec<_> = (0..edges.len()).filter(|&edge| edges[edge].0 == vertex || edges[edge].1 == vertex).collect();
        let odd = u32::from(twisted && vertex == 0);
        for set in (0..1usize << own.len()).filter(|set| set.count_ones() % 2 == odd) {
            rows.extend(own.iter().enumerate().map(|(bit, edge)| (next, 2 * edge + (set >> bit & 1))));
            next += 1;
        }
    }
    graph(next, rows.into_iter().flat_map(|(a, b)| [(a, b), (b, a)]))
}

/// A prescription of 50 elements: 2 ears, 8 programs, 40 bands. Of each program its ear, of each band its program, and of each band the next in its
/// program.
pub fn prescription() -> Stored {
    let ears = (0..8).map(|program| vec![2 + program, program % 2]).collect();
    let programs = (0..40).map(|band| vec![10 + band, 2 + band / 5]).collect();
    let next = (0..40).filter(|band| band % 5 != 4).map(|band| vec![10 + band, 11 + band]).collect();
    model(&[2, 8, 40], &[(&[1, 0], ears), (&[2, 1], programs), (&[2, 2], next)])
}

/// The two ears of a prescription, with nothing said about them.
pub fn ears() -> Stored {
    model(&[2, 0, 0], &[(&[1, 0], vec![]), (&[2, 1], vec![]), (&[2, 2], vec![])])
}
