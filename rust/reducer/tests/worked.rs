//! Document 01's worked graphs and edges of the limits, and texts, previews and locks of document 02, through the safe interface.

use reducer::{lent, Call, Graph, Preview, Refusal, ReplayRefusal, Saving, Settled, Size, Told, MARK};

fn graph(inputs: u32, node_table: &[u32], output_table: &[u32]) -> Graph {
    Graph::new(inputs, node_table.to_vec(), output_table.to_vec())
}

/// The same graph with these nodes locked.
fn locked(mut g: Graph, nodes: &[u32]) -> Graph {
    nodes.iter().for_each(|&node| g.lock(node).unwrap());
    g
}

/// A saving: own and others.
fn saving(own: i64, others: i64) -> Saving {
    Saving { own, others }
}

/// A call on a graph: the graph after it, C before, and what is saved, own and others.
fn worked(
    mut g: Graph,
    call: impl Fn(&mut Graph) -> Result<Saving, Refusal>,
    after: Graph,
    before: u32,
    saved: (i64, i64),
) {
    assert_eq!(g.complemented_edges(), Ok(before));
    let told = call(&mut g);
    assert_eq!(told, Ok(saving(saved.0, saved.1)));
    assert_eq!(g, after);
    let left = g.complemented_edges().unwrap();
    assert_eq!(told.unwrap().total(), i64::from(before) - i64::from(left));
}

#[test]
fn worked_graphs() {
    worked(graph(3, &[3, 5, 7], &[9]), |g| g.node_call(4), graph(3, &[2, 4, 6], &[8]), 4, (3, 1));
    let p2 = graph(5, &[3, 5, 6, 13, 8, 11], &[14]);
    worked(p2, |g| g.tree_call(7), graph(5, &[2, 4, 7, 12, 8, 11], &[14]), 4, (2, 0));
    let p3 = graph(5, &[3, 5, 6, 12, 9, 10], &[15]);
    worked(p3.clone(), |g| g.pair_call(7, 1), graph(5, &[2, 4, 7, 12, 8, 11], &[14]), 4, (1, 1));
    worked(p3.clone(), |g| g.node_call(6), p3.clone(), 4, (0, 0));
    worked(p3.clone(), |g| g.node_call(7), p3, 4, (0, 0));
    worked(graph(2, &[3, 5, MARK], &[6]), |g| g.node_call(3), graph(2, &[2, 4, MARK], &[6]), 2, (2, 0));
    worked(graph(2, &[3, 4, MARK], &[7]), |g| g.node_call(3), graph(2, &[2, 4, MARK], &[6]), 2, (1, 1));
    let p7 = graph(2, &[0, 3, 5], &[6]);
    worked(p7.clone(), |g| g.node_call(3), p7, 2, (0, 0));
    let xor_of_one = graph(1, &[1, 2, MARK], &[4]);
    worked(xor_of_one.clone(), |g| g.node_call(2), xor_of_one, 1, (0, 0));
    let p8 = graph(2, &[2, 2, 5], &[6]);
    worked(p8.clone(), |g| g.tree_call(3), p8, 1, (0, 0));
    worked(graph(3, &[3, 5, 6], &[9, 8]), |g| g.node_call(4), graph(3, &[2, 4, 7], &[8, 9]), 3, (1, 0));
    for output in [3, 1] {
        let mut no_nodes = graph(1, &[], &[output]);
        assert_eq!(no_nodes.settle(), Ok(Settled { rounds: 1, before: 1, after: 1, own: 0, others: 0 }));
        assert_eq!(no_nodes, graph(1, &[], &[output]));
    }
}

/// A locked node stays, and its first word turns all the same where the node that it names turns.
#[test]
fn worked_locks() {
    let p1 = locked(graph(3, &[3, 5, 7], &[9]), &[4]);
    worked(p1.clone(), |g| g.node_call(4), p1.clone(), 4, (0, 0));
    worked(p1.clone(), |g| g.tree_call(4), p1, 4, (0, 0));
    let p2 = graph(5, &[3, 5, 6, 13, 8, 11], &[14]);
    for nodes in [&[6][..], &[6, 7]] {
        let stays = locked(p2.clone(), nodes);
        worked(stays.clone(), |g| g.tree_call(7), stays.clone(), 4, (0, 0));
        worked(stays.clone(), |g| g.pair_call(7, 1), stays, 4, (0, 0));
    }
    let after = locked(graph(5, &[2, 4, 7, 12, 8, 11], &[14]), &[7]);
    worked(locked(p2.clone(), &[7]), |g| g.tree_call(7), after.clone(), 4, (2, 0));
    worked(locked(p2, &[7]), |g| g.node_call(6), after, 4, (1, 1));
    let p3 = graph(5, &[3, 5, 6, 12, 9, 10], &[15]);
    for nodes in [&[6][..], &[7], &[6, 7]] {
        let stays = locked(p3.clone(), nodes);
        worked(stays.clone(), |g| g.pair_call(7, 1), stays.clone(), 4, (0, 0));
        worked(stays.clone(), |g| g.tree_call(7), stays, 4, (0, 0));
    }
    let xor = locked(graph(2, &[3, 4, MARK], &[7]), &[3]);
    worked(xor.clone(), |g| g.node_call(3), xor, 2, (0, 0));
    // A tree call at node 5 saves 1 and 1; node 4 would save more, and is locked.
    let mut g = locked(graph(3, &[3, 4, 6, 3, 5, 8], &[9, 9, 11]), &[4]);
    assert_eq!(g.settle(), Ok(Settled { rounds: 2, before: 6, after: 4, own: 1, others: 1 }));
    assert_eq!(g, locked(graph(3, &[3, 4, 6, 2, 4, 9], &[9, 9, 10]), &[4]));
}

#[test]
fn worked_trials() {
    let trials = |g: &Graph, node: u32, word: u32, kinds: (u32, u32)| -> Vec<i64> {
        let moves = (0..kinds.0).flat_map(|a| (0..kinds.1).map(move |k| (a, k)));
        moves.map(|(a, k)| g.trial(node, word, a, k).unwrap()).collect()
    };
    let p3 = graph(5, &[3, 5, 6, 12, 9, 10], &[15]);
    assert_eq!(trials(&p3, 7, 1, (2, 2)), [0, 0, 0, 2]);
    assert_eq!(trials(&graph(2, &[3, 5, 0, 7, 7, 3], &[9]), 4, 1, (2, 2)), [0, 4, 3, 3]);
    assert_eq!(trials(&graph(2, &[2, 4, 0, 6, 2, MARK], &[8]), 4, 1, (2, 4)), [0, -2, -2, -2, -4, -4, -4, -6]);
    // A word that names no node, where only the node's own move is asked for.
    assert_eq!(trials(&p3, 7, 2, (9, 2)), [0; 18]);
    assert_eq!(p3.trial(7, 2, u32::MAX, 2), Err(Refusal::NoSuchMove));
}

/// Moves that a majority lacks, and moves other than 0 at a locked node.
#[test]
fn refused_trials() {
    let p3 = graph(5, &[3, 5, 6, 12, 9, 10], &[15]);
    assert_eq!(graph(3, &[8, 7, 7], &[]).trial(9, 1, 9, 9), Err(Refusal::BadLiteral));
    assert_eq!(p3.trial(7, 4, 9, 9), Err(Refusal::NoSuchNode));
    assert_eq!(p3.trial(5, 1, 9, 9), Err(Refusal::NoSuchNode));
    assert_eq!(p3.trial(7, 1, 2, 0), Err(Refusal::NoSuchMove));
    assert_eq!(p3.trial(7, 1, 1, u32::MAX), Err(Refusal::NoSuchMove));
    let lower = locked(p3.clone(), &[6]);
    let told = [(0, 1), (1, 0), (1, 2), (2, 0), (0, 2)].map(|(a, k)| lower.trial(7, 1, a, k));
    let (lacked, still) = (Err(Refusal::NoSuchMove), Err(Refusal::MoveOfLocked));
    assert_eq!(told, [Ok(0), still, still, lacked, lacked]);
    let upper = locked(p3, &[7]);
    assert_eq!([(1, 0), (1, 1), (1, 2), (2, 1)].map(|(a, k)| upper.trial(7, 1, a, k)), [Ok(0), still, lacked, lacked]);
    assert_eq!([0, 1, 2].map(|k| upper.trial(7, 2, 9, k)), [Ok(0), still, lacked]);
}

#[test]
fn edges_of_the_limits() {
    assert_eq!(graph(3, &[7, 7, 7], &[]).complemented_edges(), Ok(3));
    assert_eq!(graph(3, &[8, 7, 7], &[]).complemented_edges(), Err(Refusal::BadLiteral));
    let large = graph(0, &vec![0; 300_000], &[]);
    let file = large.write().unwrap();
    assert_eq!(Graph::load(&file), Ok(large.clone()));
    let all_locked = Graph { locks: vec![1; 100_000], ..large };
    let longest = all_locked.write().unwrap();
    assert_eq!(longest.len(), reducer::file_bytes(all_locked.size));
    assert_eq!(Graph::load(&longest), Ok(all_locked));
    assert_eq!(graph(0, &vec![0; 300_003], &[]).write(), Err(Refusal::OverLimit));
    let mut over = file;
    over[7..11].copy_from_slice(&100_001u32.to_be_bytes());
    assert_eq!(Graph::load(&over), Err(Refusal::OverLimit));
    assert_eq!(Graph::load(&[]), Err(Refusal::MissingBytes));
    let p1 = graph(3, &[3, 5, 7], &[9]).write().unwrap();
    assert_eq!(p1.len(), 40);
    assert_eq!(Graph::load(&p1[..39]), Err(Refusal::MissingBytes));
    assert_eq!(Graph::load(&[&p1[..], &[0]].concat()), Err(Refusal::ExtraBytes));
    assert_eq!(graph(3, &[2, 4, 6], &[8]).evaluate(&[0xF0, 0xCC, 0xAA]), Ok(vec![0xE8]));
}

#[test]
fn numbers_of_refusals() {
    for number in 1..=19 {
        assert_eq!(Refusal::from_number(number).unwrap().number(), number);
    }
    assert_eq!(Refusal::from_number(0), None);
    assert_eq!(Refusal::from_number(20), None);
}

#[test]
fn settling_p1() {
    let mut g = graph(3, &[3, 5, 7], &[9]);
    assert_eq!(g.settle(), Ok(Settled { rounds: 2, before: 4, after: 0, own: 3, others: 1 }));
    assert_eq!(g, graph(3, &[2, 4, 6], &[8]));
}

/// Either part may lose what the other more than makes up for, and a pair's word that names its other node is own.
#[test]
fn parts_of_savings() {
    let turned = graph(3, &[3, 5, 6], &[8, 8, 8]);
    worked(graph(3, &[2, 4, 7], &[9, 9, 9]), |g| g.node_call(4), turned, 4, (-1, 3));
    worked(graph(3, &[3, 5, 7], &[8]), |g| g.tree_call(4), graph(3, &[2, 4, 6], &[9]), 3, (3, -1));
    let p2 = graph(5, &[3, 5, 6, 13, 8, 11], &[14]);
    worked(p2.clone(), |g| g.pair_call(7, 1), graph(5, &[2, 4, 7, 12, 8, 11], &[14]), 4, (2, 0));
    worked(p2.clone(), |g| g.pair_call(7, 2), p2, 4, (0, 0));
    let twice = graph(2, &[3, 5, 0, 7, 7, 2], &[8, 7]);
    let after = graph(2, &[2, 4, 1, 6, 6, 2], &[8, 6]);
    worked(twice.clone(), |g| g.pair_call(4, 1), after.clone(), 5, (3, 1));
    worked(twice, |g| g.node_call(3), after, 5, (1, 3));
}

/// The tree call at node 5 saves 1 and 1; then a node call at node 4 loses 1 among its words and saves 3 outside.
#[test]
fn settling_by_two_phases() {
    let mut g = graph(3, &[3, 4, 6, 3, 5, 8], &[9, 9, 11]);
    assert_eq!(g.settle(), Ok(Settled { rounds: 2, before: 6, after: 2, own: 0, others: 4 }));
    assert_eq!(g, graph(3, &[2, 5, 7, 2, 4, 8], &[8, 8, 10]));
}

#[test]
fn settling_by_two_rounds_that_lower() {
    let mut g = graph(2, &[4, 5, MARK, 5, 7, 2, 9, 5, 9], &[11]);
    assert_eq!(g.settle(), Ok(Settled { rounds: 3, before: 7, after: 1, own: 3, others: 3 }));
    assert_eq!(g, graph(2, &[4, 4, MARK, 5, 6, 2, 8, 4, 8], &[10]));
}

fn told(g: &Graph, root: u32) -> (Saving, Vec<u8>) {
    let Preview { saving, moves } = g.preview(root).unwrap();
    (saving, moves)
}

#[test]
fn previews() {
    let p2 = graph(5, &[3, 5, 6, 13, 8, 11], &[14]);
    assert_eq!(told(&p2, 7), (saving(2, 0), vec![1, 0]));
    assert_eq!(told(&graph(5, &[3, 5, 6, 12, 9, 10], &[15]), 7), (saving(1, 1), vec![1, 1]));
    assert_eq!(told(&graph(2, &[2, 2, 5], &[6]), 3), (saving(0, 0), vec![0]));
    // The one choice that leaves no complemented edge: an edge that two moves turn ends as it was.
    let xors = graph(2, &[3, 4, MARK, 7, 5, MARK, 8, 5, MARK, 10, 5, MARK], &[13]);
    assert_eq!(told(&xors, 6), (saving(5, 1), vec![2, 3, 1, 3]));
    assert_eq!(told(&locked(xors.clone(), &[5]), 6), (saving(3, 1), vec![2, 0, 0, 3]));
    assert_eq!(told(&locked(xors, &[6]), 6), (saving(4, 0), vec![2, 3, 1, 0]));
    // Node 4 is a root that node 6 reads; node 5 is of node 6's tree.
    let two_trees = graph(3, &[3, 5, 7, 3, 5, MARK, 10, 8, 4], &[9, 12]);
    assert_eq!(told(&two_trees, 4), (saving(3, 0), vec![1, 0, 0]));
    assert_eq!(told(&two_trees, 6), (saving(2, 0), vec![0, 1, 0]));
    assert_eq!(two_trees.preview(5), Err(Refusal::NoSuchNode));
    assert_eq!(two_trees.preview(3), Err(Refusal::NoSuchNode));
    assert_eq!(graph(3, &[8, 7, 7], &[]).preview(4), Err(Refusal::BadLiteral));
    assert_eq!(graph(0, &vec![0; 300_003], &[]).preview(1), Err(Refusal::OverLimit));
}

/// A preview of a graph of so many outputs that is lent so many bytes and words of scratch: what it tells, the bytes after it, and
/// whether scratch has stayed.
fn lent_preview(
    g: &Graph,
    outputs: u32,
    root: u32,
    bytes: usize,
    words: usize,
) -> (Result<Saving, Refusal>, [u8; 4], bool) {
    let Graph { size, node_table, node_bits, output_table, output_bits, locks } = g;
    let (mut moves, mut scratch) = ([77; 4], [77; 17]);
    let (size, lent_moves, lent_scratch) = (Size { outputs, ..*size }, &mut moves[..bytes], &mut scratch[..words]);
    let told =
        lent::preview(size, node_table, node_bits, output_table, output_bits, locks, root, lent_moves, lent_scratch);
    (told, moves, scratch == [77; 17])
}

/// Each fault is put right in turn, and the next is told; bytes and scratch stay until none is left.
#[test]
fn previews_of_lent_slices() {
    // P2 with an index that is not below its node's, a stray bit, no word of bits for the output, and a lock that is none.
    let mut g = graph(5, &[3, 5, 12, 13, 8, 11], &[14]);
    g.node_table.push(77);
    g.node_bits[0] |= 1 << 6;
    (g.output_bits, g.locks) = (vec![], vec![2]);
    let kept = |refusal| (Err(refusal), [77; 4], true);
    assert_eq!(lent_preview(&g, 4_097, 6, 1, 15), kept(Refusal::OverLimit));
    assert_eq!(lent_preview(&g, 2, 6, 2, 15), kept(Refusal::ShortSlice));
    g.output_table.push(88);
    assert_eq!(lent_preview(&g, 1, 6, 2, 15), kept(Refusal::ShortSlice));
    g.output_bits.extend([0, 99]);
    assert_eq!(lent_preview(&g, 1, 6, 2, 15), kept(Refusal::ShortSlice));
    g.locks.extend([1, 99]);
    assert_eq!(lent_preview(&g, 1, 6, 1, 15), kept(Refusal::ShortSlice));
    assert_eq!(lent_preview(&g, 1, 6, 2, 15), kept(Refusal::BadLiteral));
    g.node_table[2] = 3;
    assert_eq!(lent_preview(&g, 1, 6, 2, 15), kept(Refusal::BadLiteral));
    g.node_bits[0] ^= 1 << 6;
    assert_eq!(lent_preview(&g, 1, 6, 2, 15), kept(Refusal::BadLock));
    g.locks[0] = 0;
    assert_eq!(lent_preview(&g, 1, 5, 2, 15), kept(Refusal::NoSuchNode));
    assert_eq!(lent_preview(&g, 1, 6, 2, 15), kept(Refusal::NoSuchNode));
    assert_eq!(lent_preview(&g, 1, 7, 2, 15), kept(Refusal::ShortScratch));
    assert_eq!(lent_preview(&g, 1, 7, 4, 16).1, [1, 0, 77, 77]);
    assert_eq!(lent_preview(&g, 1, 7, 2, 17).0, Ok(saving(2, 0)));
}

/// What a call of a list saves.
fn saved(own: i64, others: i64) -> Told {
    Told::Saved(saving(own, others))
}

#[test]
fn replaying_p3() {
    let p3 = graph(5, &[3, 5, 6, 12, 9, 10], &[15]).write().unwrap();
    let calls = [Call::Node(6), Call::Node(5), Call::Pair(7, 1), Call::Tree(6), Call::Settle];
    let (nothing, refused) = (Ok(saved(0, 0)), Err(Refusal::NoSuchNode));
    let told = vec![nothing, refused, Ok(saved(1, 1)), refused, nothing];
    assert_eq!(Graph::replay(&p3, &calls, &[], &[]), Ok((graph(5, &[2, 4, 7, 12, 8, 11], &[14]), told)));
    assert_eq!(Graph::replay(&p3[..9], &calls, &[], &[]), Err(ReplayRefusal::Refused(Refusal::MissingBytes)));
}

/// Each call gets the locks of the file, and the graph has them after the last.
#[test]
fn replaying_p2_with_locks() {
    let p2 = graph(5, &[3, 5, 6, 13, 8, 11], &[14]);
    let calls = [Call::Node(7), Call::Pair(7, 1), Call::Settle];
    let (nothing, two) = (Ok(saved(0, 0)), Ok(saved(2, 0)));
    let upper = locked(p2.clone(), &[7]).write().unwrap();
    let after = locked(graph(5, &[2, 4, 7, 12, 8, 11], &[14]), &[7]);
    assert_eq!(Graph::replay(&upper, &calls, &[], &[]), Ok((after, vec![nothing, two, nothing])));
    let lower = locked(p2, &[6]);
    assert_eq!(Graph::replay(&lower.write().unwrap(), &calls, &[], &[]), Ok((lower, vec![nothing; 3])));
}

#[test]
fn replaying_savings_below_0() {
    let lost = graph(3, &[2, 4, 7], &[9, 9, 9]).write().unwrap();
    let told = vec![Ok(saved(-1, 3)), Ok(saved(0, 0))];
    assert_eq!(
        Graph::replay(&lost, &[Call::Node(4), Call::Settle], &[], &[]),
        Ok((graph(3, &[3, 5, 6], &[8, 8, 8]), told))
    );
    let settled = vec![Ok(saved(-1, 3)), Ok(saved(0, 0))];
    assert_eq!(Graph::replay(&lost, &[Call::Settle, Call::Tree(4)], &[], &[]).unwrap().1, settled);
}

#[test]
fn replays_refused() {
    let p1 = graph(3, &[3, 5, 7], &[9]).write().unwrap();
    let refused = |words: &[u32], room: usize, due: ReplayRefusal| {
        let (mut nodes, mut node_bits, mut outputs, mut output_bits) = ([77; 3], [77; 1], [77; 1], [77; 1]);
        let (mut locks, mut scratch, mut answers) = ([77; 1], [77; 8], vec![77; room]);
        let (tables, bits) = ((&mut nodes, &mut outputs), (&mut node_bits, &mut output_bits));
        let (list, moves, scratch_part) = ([4, 4], [1, 1], &mut scratch[..]);
        let got = lent::replay(
            &p1,
            words,
            tables.0,
            bits.0,
            tables.1,
            bits.1,
            &mut locks,
            &list,
            &moves,
            scratch_part,
            &mut answers,
        );
        assert_eq!(got, Err(due));
        assert_eq!((nodes, node_bits, outputs, output_bits), ([77; 3], [77; 1], [77; 1], [77; 1]));
        assert_eq!((locks, scratch, answers), ([77; 1], [77; 8], vec![77; room]));
    };
    refused(&[0, 4], 9, ReplayRefusal::LeftOver);
    refused(&[8, 4, 0, 9], 0, ReplayRefusal::LeftOver);
    refused(&[0, 4, 0, 8, 0, 0], 0, ReplayRefusal::UnknownKind);
    refused(&[4, 0, 2, 4, 0, 3], 0, ReplayRefusal::PartOutside);
    refused(&[4, 3, 0, 8, 0, 0], 0, ReplayRefusal::PartOutside);
    refused(&[5, 4, 0, 8, 0, 0], 0, ReplayRefusal::PartOutside);
    refused(&[8, 0, 0, 4, 3, 0], 0, ReplayRefusal::UnknownKind);
    refused(&[4, 2, 1], 3, ReplayRefusal::PartOutside);
    refused(&[4, 1, u32::MAX], 3, ReplayRefusal::PartOutside);
    refused(&[4, u32::MAX, 1], 3, ReplayRefusal::PartOutside);
    refused(&[0, 4, 0, 3, 0, 0], 5, ReplayRefusal::Refused(Refusal::ShortSlice));
    refused(&[4, 2, 0, 3, 0, 0], 5, ReplayRefusal::Refused(Refusal::ShortSlice));
}

const MAJORITY: &[u8] = b"aag 7 3 0 1 4\n2\n4\n6\n15\n8 5 7\n10 2 9\n12 4 6\n14 11 13\n";
const XOR: &[u8] = b"aag 5 2 0 1 3\n2\n4\n11\n6 2 5\n8 3 4\n10 7 9\n";

#[test]
fn worked_texts() {
    assert_eq!(graph(3, &[2, 4, 6], &[8]).export(), Ok(MAJORITY.to_vec()));
    assert_eq!(graph(2, &[2, 4, MARK], &[6]).export(), Ok(XOR.to_vec()));
    let majority = graph(3, &[0, 5, 7, 0, 2, 9, 0, 4, 6, 0, 11, 13], &[15]);
    assert_eq!(Graph::import(MAJORITY), Ok(majority.clone()));
    assert_eq!(Graph::import(&[MAJORITY, b"anything"].concat()), Ok(majority.clone()));
    assert_eq!(majority.evaluate(&[0xF0, 0xCC, 0xAA]), Ok(vec![0xE8]));
    assert_eq!(Graph::import(XOR), Ok(graph(2, &[0, 2, 5, 0, 3, 4, 0, 7, 9], &[11])));
    assert_eq!(graph(0, &vec![0; 300_003], &[]).export(), Err(Refusal::OverLimit));
    assert_eq!(graph(u32::MAX, &[], &[]).export(), Err(Refusal::OverLimit));
    assert_eq!(graph(3, &[8, 7, 7], &[]).export(), Err(Refusal::BadLiteral));
}

#[test]
fn texts_refused() {
    for (text, due) in [
        ("", Refusal::BadText),
        ("aag 0 0 0 1 0\n4294967296\n", Refusal::BadText),
        ("aag 0 0 0 1 0\n4294967295\n", Refusal::BadLiteral),
        ("aag 0 0 0 1 0\n00\n", Refusal::BadText),
        ("aag 0 0 1 0 0\n", Refusal::HasLatches),
        ("aag 0 1 0 0 4294967295\n", Refusal::WrongNumbering),
        ("aag 1 1 0 0 0\n3\n", Refusal::WrongNumbering),
        ("aag 4097 4097 0 0 0\n", Refusal::OverLimit),
        ("aag 1 0 0 0 1\n2 2 1\n", Refusal::BadLiteral),
        ("aag 100000 0 0 4096 100000\n", Refusal::BadText),
    ] {
        assert_eq!(Graph::import(text.as_bytes()), Err(due), "{text:?}");
    }
}

#[test]
fn lent_texts() {
    let (mut nodes, mut outputs, mut locks) = ([77; 13], [77; 2], [77; 5]);
    let (mut node_bits, mut output_bits) = ([u64::MAX; 2], [u64::MAX; 2]);
    let size = Size { inputs: 3, nodes: 4, outputs: 1 };
    for room in [(11, 1, 1, 1, 4), (12, 0, 1, 1, 4), (12, 1, 0, 1, 4), (12, 1, 1, 0, 4), (12, 1, 1, 1, 3)] {
        let tables = (&mut nodes[..room.0], &mut outputs[..room.1]);
        let bits = (&mut node_bits[..room.2], &mut output_bits[..room.3]);
        let told = lent::import(MAJORITY, tables.0, bits.0, tables.1, bits.1, &mut locks[..room.4]);
        assert_eq!(told, Err(Refusal::ShortSlice), "{room:?}");
        assert_eq!((nodes, outputs, locks), ([77; 13], [77; 2], [77; 5]));
        assert_eq!((node_bits, output_bits), ([u64::MAX; 2], [u64::MAX; 2]));
    }
    let told = lent::import(MAJORITY, &mut nodes, &mut node_bits, &mut outputs, &mut output_bits, &mut locks);
    assert_eq!(told, Ok(size));
    assert_eq!((nodes, node_bits), ([0, 2, 3, 0, 1, 4, 0, 2, 3, 0, 5, 6, 77], [0b110_000_100_110, u64::MAX]));
    assert_eq!((outputs, output_bits, locks), ([7, 77], [1, u64::MAX], [0, 0, 0, 0, 77]));
    let one = Size { nodes: 1, ..size };
    for (words, room, due) in
        [(0, 52, Err(Refusal::ShortScratch)), (1, 51, Err(Refusal::ShortBuffer)), (1, 52, Ok(52)), (2, 54, Ok(52))]
    {
        let (mut scratch, mut buffer) = (vec![77; words], vec![77; room]);
        assert_eq!(lent::export(one, &[1, 2, 3], &[0], &[4], &[0], &[1], &mut scratch, &mut buffer), due);
        let filled = due.unwrap_or(0);
        assert_eq!(buffer[..filled], MAJORITY[..filled]);
        assert!(buffer[filled..].iter().all(|&byte| byte == 77));
        assert!(due.is_ok() || scratch.iter().all(|&word| word == 77));
    }
}

/// The output word as one number a bit place, the first output as its lowest bit.
fn numbers(results: &[u64]) -> Vec<u64> {
    let bit = |place: u32, at: usize| (results[at] >> place & 1) << at;
    (0..64).map(|place| (0..results.len()).map(|at| bit(place, at)).sum()).collect()
}

/// An AIGER text that yosys wrote, held to what it is meant to compute of assignments, input 1 as their lowest bit: as it is,
/// settled, and exported and imported again.
fn held_at(name: &str, assignments: &[u64], meant: impl Fn(u64) -> u64) {
    let path = format!("{}/../../examples/{name}.aag", env!("CARGO_MANIFEST_DIR"));
    let mut given = Graph::import(&std::fs::read(path).unwrap()).unwrap();
    let before = given.clone();
    let settled = given.settle().unwrap();
    assert!(settled.after < settled.before, "{name}");
    let again = Graph::import(&given.export().unwrap()).unwrap();
    for some in assignments.chunks(64) {
        let word = |at: u32| some.iter().enumerate().map(|(place, number)| (number >> at & 1) << place).sum();
        let words: Vec<u64> = (0..before.size.inputs).map(word).collect();
        let due: Vec<u64> = some.iter().map(|&number| meant(number)).collect();
        for graph in [&before, &given, &again] {
            assert_eq!(numbers(&graph.evaluate(&words).unwrap())[..some.len()], due, "{name}");
        }
    }
}

/// The same of two numbers of 4 bits; a carry is 0.
fn held(name: &str, meant: impl Fn(u64, u64) -> u64) {
    held_at(name, &(0..256).collect::<Vec<u64>>(), |both| meant(both % 16, both / 16));
}

/// The slice of an ALU: the result, and the carry above it.
fn alu_slice(assignment: u64) -> u64 {
    let [x, y, carry, negate] = [0, 1, 2, 3].map(|at| assignment >> at & 1);
    let z = y ^ negate;
    let result = [x & z, x | z, x ^ z, x ^ z ^ carry][(assignment >> 4) as usize];
    result + 2 * u64::from(x + z + carry > 1)
}

#[test]
fn texts_of_yosys() {
    held("ripple_adder4", |x, y| x + y);
    held("multiplier4", |x, y| x * y);
    held("comparator4", |x, y| (x < y) as u64 + 2 * (x == y) as u64);
    held("divider4", |x, y| x.checked_div(y).unwrap_or(15) + 16 * x.checked_rem(y).unwrap_or(x));
    let all = |bits: u32| (0..1 << bits).collect::<Vec<u64>>();
    held_at("ripple_adder8", &all(17), |all| all % 256 + all / 256 % 256 + all / 65_536);
    held_at("voter7", &all(7), |votes| u64::from(votes.count_ones() > 3));
    held_at("alu_slice", &all(6), alu_slice);
}
