//! Settles the graph P1: one majority of three inverted inputs, its output inverted.
//!
//! Run it in the repository's root: `cargo run --release --manifest-path rust/reducer/Cargo.toml --example settle_p1`

use reducer::{Graph, Refusal};

fn main() -> Result<(), Refusal> {
    let mut graph = Graph::new(3, vec![3, 5, 7], vec![9]);
    let before = graph.evaluate(&[0xF0, 0xCC, 0xAA])?;
    let settled = graph.settle()?;
    println!("before {} after {} rounds {}", settled.before, settled.after, settled.rounds);
    println!("own {} others {}", settled.own, settled.others);
    println!("node {:?} out {:?}", graph.node_literals()?, graph.output_literals()?);
    assert_eq!(graph.evaluate(&[0xF0, 0xCC, 0xAA])?, before);
    Ok(())
}
