//! Trees for resistive memory, which wants majorities with just one complemented input, and what is told of them.

use crate::figures::Figures;
use crate::nodes::{is_xor, words_of};
use crate::progress::Progress;
use crate::trees::{Kinds, Trees};
use reducer::{Graph, Refusal, Size};

/// How many majorities of a graph that the library has admitted have just one complemented input; words from the constant are inputs.
pub fn single(graph: &Graph) -> usize {
    let Size { inputs, nodes, .. } = graph.size;
    let odd = |node| words_of(graph, node).filter(|literal| literal % 2 == 1).count();
    (inputs + 1..=inputs + nodes).filter(|&node| !is_xor(graph, node) && odd(node) == 1).count()
}

/// Majorities, those with just one complemented input, and complemented edges.
fn told(graph: &Graph) -> Result<Figures, String> {
    let Size { inputs, nodes, .. } = graph.size;
    let majorities = (inputs + 1..=inputs + nodes).filter(|&node| !is_xor(graph, node)).count();
    let figures = Figures::of("majorities", majorities).with("single", single(graph));
    figures.complemented(graph).map_err(|refusal| refusal.to_string())
}

fn refused(graph: &Graph, root: u32, refusal: Refusal) -> String {
    match refusal {
        Refusal::NoSuchNode => Trees::of(graph).no_root(root),
        _ => refusal.to_string(),
    }
}

/// The roots whose trees have something to choose: a root that is a majority has move 0 alone.
fn roots_to_choose(graph: &Graph) -> Vec<u32> {
    let alone = |kinds: &Kinds| kinds.majorities == 1 && kinds.xors == 0;
    Trees::of(graph).roots().into_iter().filter(|(_, kinds)| !alone(kinds)).map(|(root, _)| root).collect()
}

/// Chooses the moves of a root's tree, or of all trees by rising root; the figures of what was there before, and of what is there after.
pub fn choose(graph: &mut Graph, root: Option<u32>, working: &Progress) -> Result<Figures, String> {
    let before = told(graph)?;
    let roots: Vec<u32> = match root {
        Some(root) => vec![root],
        None => roots_to_choose(graph),
    };
    for (at, &root) in roots.iter().enumerate() {
        working.reached(at + 1, roots.len());
        graph.resistive_call(root).map_err(|refusal| refused(graph, root, refusal))?;
    }
    Ok(Figures::of("before", before).with("after", told(graph)?.locked(graph)))
}

#[cfg(test)]
mod tests {
    use super::*;
    use reducer::MARK;

    #[test]
    fn just_one() {
        let one = |words: [u32; 3]| single(&Graph::new(3, words.to_vec(), vec![]));
        for words in [[3, 4, 6], [2, 5, 6], [2, 4, 7], [1, 2, 4], [0, 3, 4], [0, 0, 1], [2, 2, 3]] {
            assert_eq!(one(words), 1, "{words:?}");
        }
        for words in [[2, 4, 6], [3, 5, 6], [3, 5, 7], [1, 3, 4], [1, 1, 1], [3, 4, MARK], [2, 4, MARK]] {
            assert_eq!(one(words), 0, "{words:?}");
        }
        assert_eq!(single(&Graph::new(3, vec![3, 4, 6, 9, 2, 4, 8, 9, 11], vec![13, 12])), 2);
    }
}
