//! The plain finder and the plain majority call, held to exhaustion.

use differential::cases::{Case, Step};
use differential::hidden::{check_plain, random_case};
use differential::plain::find::find;
use differential::shrink::hold;
use differential::tables::wired;
use differential::timing::families::{FAMILIES, HARD};
use reference::aiger::text_of;
use reference::buried::Build;
use reference::calls::Call;
use reference::entries::import;
use reference::find::is_plain;
use reference::graph::Graph;
use reference::packed::{pack, unpack, Lengths, Packed};
use reference::random::Random;
use reference::vectors::case::unfilled;

#[test]
fn hidden_majorities_as_by_exhaustion() {
    for seed in 0..4_000 {
        hold(seed, random_case(seed, 14), &check_plain).unwrap();
    }
}

/// Over several words of bits.
#[test]
fn on_longer_graphs() {
    for seed in 0..60 {
        hold(seed, random_case(seed, 60), &check_plain).unwrap();
    }
}

/// The graphs that the finder is timed on, few nodes of each.
#[test]
fn on_each_family() {
    for family in FAMILIES.iter().chain([&HARD]) {
        for nodes in [24, 70] {
            let find = Step { call: Call::Find, spare: 0 };
            let checked = check_plain(&Case::new(family.graph(nodes), vec![find], 0));
            checked.unwrap_or_else(|wrong| panic!("{}: {wrong}", family.name));
        }
    }
}

/// Majorities of any three different indices, complemented at random.
fn random_majorities(nodes: u32) -> Graph {
    let (mut random, mut build) = (Random::new(11), Build::new(64));
    while build.nodes() < nodes {
        let [x, y, z] = [0; 3].map(|_| 2 + random.below(2 * build.last()));
        if x / 2 != y / 2 && x / 2 != z / 2 && y / 2 != z / 2 {
            build.majority(x, y, z);
        }
    }
    let last = build.last();
    build.graph((last - 4_095..=last).map(|node| 2 * node).collect())
}

/// How many nodes the finder leaves, and how many of them are majorities of three different indices other than 0.
fn found(mut p: Packed) -> (u32, usize) {
    let scratch = 8 * p.nodes as usize;
    p.nodes = find(&mut wired(&mut p), scratch).unwrap();
    let g = unpack(&p);
    (p.nodes, g.node_indices().filter(|&node| is_plain(&g, node)).count())
}

/// Exported in four ANDs each and imported again, all come back that are read at all.
#[test]
fn majorities_come_back_from_an_export() {
    let g = random_majorities(25_000);
    let mut p = unfilled(Lengths::of(100_000, 4_096));
    import(text_of(&g).as_bytes(), &mut p).unwrap();
    let (before, after) = (found(pack(&g)), found(p));
    println!("of {} majorities {} are back, in {} nodes", before.1, after.1, after.0);
    assert_eq!((before.0 as usize, before.1), (before.1, after.1));
}
