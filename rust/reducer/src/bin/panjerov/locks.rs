//! Locked nodes: which ones a command line names, and how they are told.

use crate::parts::count;
use reducer::{Graph, Refusal, Size};

/// A part of NODES.
#[derive(Clone, Copy, Debug, PartialEq, Eq)]
pub enum Named {
    All,
    /// From an index to one that is not below it.
    Run(u32, u32),
}

const NODES: &str = "NODES are indices and runs of them, such as 7,9-12, or all";

/// A number below 2 to the 32nd, in decimal digits alone.
pub fn number(text: &str) -> Option<u32> {
    let digits = !text.is_empty() && text.bytes().all(|byte| byte.is_ascii_digit());
    digits.then(|| text.parse().ok()).flatten()
}

fn run(part: &str, word: &str) -> Result<Named, String> {
    let (first, last) = part.split_once('-').unwrap_or((part, part));
    match (number(first), number(last)) {
        (Some(first), Some(last)) if first <= last => Ok(Named::Run(first, last)),
        (Some(first), Some(last)) => {
            Err(format!("{first}-{last} goes down; a run of nodes goes up, as {last}-{first}"))
        }
        _ => Err(format!("{NODES}, and not {word}")),
    }
}

/// What one word of NODES names. A comma at its end is taken, as in `7, 9-12`.
pub fn named(word: &str) -> Result<Vec<Named>, String> {
    let parts = word.strip_suffix(',').unwrap_or(word).split(',');
    parts.map(|part| if part == "all" { Ok(Named::All) } else { run(part, word) }).collect()
}

/// Why no word of NODES is there.
pub fn missing() -> String {
    format!("NODES is missing after FILE: {NODES}")
}

/// Why an index is no node's.
pub fn no_node(size: Size, index: u32) -> String {
    let why = match size.nodes {
        0 => "there are no nodes".into(),
        nodes => format!("nodes are {} to {}", size.inputs + 1, size.inputs + nodes),
    };
    format!("{index} is no node: {why}")
}

/// Locks or frees the nodes that are named, of a graph that the library has admitted; none where one of them is no node.
pub fn set(graph: &mut Graph, named: &[Named], lock: bool) -> Result<(), String> {
    let size = graph.size;
    let ends = |&one: &Named| match one {
        Named::All => (size.inputs + 1, size.inputs + size.nodes),
        Named::Run(first, last) => (first, last),
    };
    let runs = || named.iter().map(ends).filter(|(first, last)| first <= last);
    // Between two nodes there are nodes alone.
    let none = runs().flat_map(|(first, last)| [first, last]).find(|&index| graph.is_locked(index).is_err());
    if let Some(index) = none {
        return Err(format!("{}; {}", Refusal::NoSuchNode, no_node(size, index)));
    }
    for index in runs().flat_map(|(first, last)| first..=last) {
        let done = if lock { graph.lock(index) } else { graph.unlock(index) };
        done.map_err(|refusal| refusal.to_string())?;
    }
    Ok(())
}

/// Whether a node of a graph that the library has admitted is locked.
pub fn is_locked(graph: &Graph, node: u32) -> bool {
    graph.is_locked(node) == Ok(true)
}

/// The locked nodes by rising index.
pub fn of(graph: &Graph) -> Vec<u32> {
    let first = graph.size.inputs + 1;
    (first..first + graph.size.nodes).filter(|&node| is_locked(graph, node)).collect()
}

/// Indices in the form that NODES has.
pub fn listed(indices: &[u32]) -> String {
    let runs = indices.chunk_by(|x, y| *y == x + 1).map(|run| match run {
        [first, .., last] => format!("{first}-{last}"),
        _ => run[0].to_string(),
    });
    runs.collect::<Vec<String>>().join(",")
}

/// How many of these there are, and which.
pub fn told(indices: &[u32]) -> String {
    match indices {
        [] => "0".into(),
        _ => format!("{} at {}", indices.len(), listed(indices)),
    }
}

/// What is said where a graph with locks is given as AIGER text.
pub fn lost(graph: &Graph) -> Option<String> {
    lost_in(graph, "AIGER")
}

/// What is said where a graph with locks is given in a form that has none.
pub fn lost_in(graph: &Graph, form: &str) -> Option<String> {
    let locked = graph.locked() as usize;
    let nodes = count(locked, "node");
    (locked != 0)
        .then(|| format!("{form} cannot hold locks: those of {nodes} are lost, and a tagged file would keep them"))
}

/// Where the locks of two graphs of the same wiring differ, these being their names.
pub fn differ(graphs: [&Graph; 2], names: [&str; 2]) -> Option<String> {
    let [before, after] = graphs.map(of);
    let alone = |mine: &[u32], other: &[u32], name: &str| {
        let only: Vec<u32> = mine.iter().copied().filter(|node| other.binary_search(node).is_err()).collect();
        (!only.is_empty()).then(|| format!("only {name} locks {}", listed(&only)))
    };
    let told: Vec<String> =
        [alone(&before, &after, names[0]), alone(&after, &before, names[1])].into_iter().flatten().collect();
    (!told.is_empty()).then(|| format!("locks differ: {}", told.join("; ")))
}

/// The locked nodes whose moves, a byte a node, are not 0; the graph's name is this.
pub fn turned(graph: &Graph, moves: &[u8], name: &str) -> Option<String> {
    let first = graph.size.inputs + 1;
    let moved = |node: &u32| moves[(*node - first) as usize] != 0;
    let turned: Vec<u32> = of(graph).into_iter().filter(moved).collect();
    (!turned.is_empty()).then(|| format!("locked in {name}, and turned all the same: {}", listed(&turned)))
}

#[cfg(test)]
mod tests {
    use super::*;

    /// Nodes 6 to 11.
    fn six() -> Graph {
        Graph::new(5, [2, 4, 6].repeat(6), vec![12])
    }

    #[test]
    fn words_of_nodes() {
        let run = |first, last| Named::Run(first, last);
        assert_eq!(named("7"), Ok(vec![run(7, 7)]));
        assert_eq!(named("7,9-12"), Ok(vec![run(7, 7), run(9, 12)]));
        assert_eq!(named("7,"), Ok(vec![run(7, 7)]));
        assert_eq!(named("9-9,007"), Ok(vec![run(9, 9), run(7, 7)]));
        assert_eq!(named("all"), Ok(vec![Named::All]));
        assert_eq!(named("0-4294967295,all"), Ok(vec![run(0, u32::MAX), Named::All]));
        for bad in ["", ",", ",7", "7,,9", "7-", "-7", "7-9-11", "7 9", "x", "ALL", "+7", "7.0", "4294967296", "7;9"] {
            assert_eq!(named(bad), Err(format!("{NODES}, and not {bad}")), "{bad:?}");
        }
        assert_eq!(named("7,12-9"), Err("12-9 goes down; a run of nodes goes up, as 9-12".into()));
    }

    #[test]
    fn setting() {
        let mut g = six();
        let set_words = |g: &mut Graph, word: &str, lock| set(g, &named(word).unwrap(), lock);
        assert_eq!(set_words(&mut g, "7,9-11,7", true), Ok(()));
        assert_eq!((of(&g), listed(&of(&g))), (vec![7, 9, 10, 11], "7,9-11".into()));
        assert_eq!(set_words(&mut g, "6,10", false), Ok(()));
        assert_eq!(told(&of(&g)), "3 at 7,9,11");
        // None is set where one is no node.
        let kept = g.clone();
        let why = |index: u32| {
            Err(format!("refused 7: there is no such node, root or word; {index} is no node: nodes are 6 to 11"))
        };
        assert_eq!(set_words(&mut g, "6,12", true), why(12));
        assert_eq!(set_words(&mut g, "5-8", true), why(5));
        assert_eq!(set_words(&mut g, "8-4294967295", true), why(u32::MAX));
        assert_eq!(set_words(&mut g, "0", false), why(0));
        assert_eq!(g, kept);
        assert_eq!(set_words(&mut g, "all", true), Ok(()));
        assert_eq!(listed(&of(&g)), "6-11");
        assert_eq!(set_words(&mut g, "all", false), Ok(()));
        assert_eq!((told(&of(&g)), lost(&g)), ("0".into(), None));
        let mut empty = Graph::new(2, vec![], vec![2]);
        assert_eq!(set_words(&mut empty, "all", true), Ok(()));
        let none = "refused 7: there is no such node, root or word; 3 is no node: there are no nodes";
        assert_eq!(set_words(&mut empty, "3", true), Err(none.into()));
    }

    #[test]
    fn two_graphs() {
        let [mut x, mut y] = [six(), six()];
        assert_eq!(differ([&x, &y], ["a", "b"]), None);
        x.lock(7).unwrap();
        x.lock(8).unwrap();
        y.lock(8).unwrap();
        assert_eq!(differ([&x, &y], ["a", "b"]), Some("locks differ: only a locks 7".into()));
        y.lock(10).unwrap();
        assert_eq!(differ([&x, &y], ["a", "b"]), Some("locks differ: only a locks 7; only b locks 10".into()));
        assert_eq!(turned(&x, &[1, 0, 0, 1, 1, 1], "a"), None);
        let told = "locked in a, and turned all the same: 7-8";
        assert_eq!(turned(&x, &[0, 1, 2, 0, 0, 0], "a"), Some(told.into()));
    }
}
