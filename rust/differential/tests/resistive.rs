//! The plain call for resistive memory, held to exhaustion, and on larger trees to the reference's other way.

use differential::cases::{Case, Step};
use differential::hidden::check_plain;
use differential::resistive::random_case;
use differential::shrink::hold;
use differential::timing::plain;
use differential::timing::woods::WOODS;
use reference::calls::Call;
use reference::packed::unpack;

#[test]
fn trees_as_by_exhaustion() {
    for seed in 0..4_000 {
        hold(seed, random_case(seed, 9), &check_plain).unwrap();
    }
}

#[test]
fn longer_trees() {
    for seed in 0..30 {
        hold(seed, random_case(seed, 60), &check_plain).unwrap();
    }
}

/// The graphs that the calls are timed on, few nodes of each: that each is the trees that it is said to be, and what is left of them.
#[test]
fn on_each_wood() {
    for wood in &WOODS {
        for (trees, nodes) in [(1, 40), (4, 10)] {
            let sample = wood.sample(trees, nodes);
            let call = |root| Step { call: Call::Resistive(root), spare: 0 };
            let steps: Vec<Step> = sample.roots.iter().map(|&root| call(root)).collect();
            let g = unpack(&sample.g);
            for &root in &sample.roots {
                assert_eq!(reference::moves::tree(&g, root).len() as u32, nodes, "{}", wood.name);
            }
            check_plain(&Case::new(g, steps, 0)).unwrap_or_else(|wrong| panic!("{}: {wrong}", wood.name));
            assert_ne!(plain::resistive(&mut sample.clone()), 0);
        }
    }
}
