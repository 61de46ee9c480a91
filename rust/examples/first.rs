//! Two directed edges, 0 to 1 and 1 to 0, and the isomorphism between them.
use bizakoma::{find, Model, ModelBuilder, Search, Work};
use std::error::Error;

/// Two vertices and one edge, from the first to the second or back.
fn edge(back: bool) -> Result<Model, Box<dyn Error>> {
    let mut model = ModelBuilder::new();
    let vertex = model.add_type()?;
    let (a, b) = (model.add_element(vertex)?, model.add_element(vertex)?);
    let edges = model.add_relation(&[vertex, vertex])?;
    model.add_row(edges, &if back { [b, a] } else { [a, b] })?;
    Ok(model.build()?)
}

fn main() -> Result<(), Box<dyn Error>> {
    let mut work = Work::new(); // may be used again, call after call
    let answer = find(&edge(false)?, &edge(true)?, 1000, &mut work)?;
    println!("{answer}");
    if let Search::Found { map, .. } = answer {
        println!("0 goes to {}, 1 goes to {}", map[0], map[1]);
    }
    println!("{}", find(&edge(false)?, &edge(true)?, 2, &mut work)?);
    Ok(())
}
