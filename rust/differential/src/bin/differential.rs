//! Holds the proved reducer to two other implementations, and says how much was tried. `differential SEED` tries one
//! seed of every kind again, `differential WORDS` all seeds of the kinds whose name has these words.

use std::process::ExitCode;
use std::sync::atomic::Ordering;
use std::time::Instant;

use differential::cases::{Case, Step};
use differential::extremes::{self, EXTREMES, LOCKED};
use differential::shrink::{hold, Check};
use differential::{
    assignment, assignment_faults, bit_faults, call_faults, class, class_faults, compare, compare_faults, exports,
    faults, files, hidden, hidden_faults, join, join_faults, lengths, lists, lock_fields, many, many_faults,
    preview_faults, previews, raw, replay_faults, replays, resistive, savings, stored, text_limits, texts,
    trial_faults, trials, words,
};
use reference::calls::Call;
use reference::generate::{graph, locked_one_in, moves_of, with_locks, Shape, SHAPES};
use reference::graph::Graph;
use reference::random::Random;

/// What one kind of test does with a seed: how many cases it tried, or what failed.
type Kind = (&'static str, u64, fn(u64) -> Result<u64, String>);

const KINDS: [Kind; 71] = [
    ("stored cases of single calls and evaluation", 1, stored),
    ("the plain implementation, lists of calls", 30_000, plain_lists),
    ("lists of calls on small graphs", 80_000, small_lists),
    ("long lists of calls", 2_000, long_lists),
    ("lists of calls over several words of bits", 500, wide_lists),
    ("the plain implementation over several words of bits", 300, plain_wide),
    ("counts, values and files around lists", 40_000, readings),
    ("settling hundreds of nodes", 400, settled),
    ("settling's sums, and its calls one by one", 30_000, summed),
    ("settling's sums over dozens of nodes", 200, summed_longer),
    ("all calls on thousands of nodes", 20, large),
    ("settling at the limits", EXTREMES.len() as u64, at_limits),
    ("trials of every two moves, and the pair call by them", 24_000, tried),
    ("trials with every choice of faults of known numbers", 1, faulty_trials),
    ("lent slices of every length", 600, slices),
    ("limits", 1, limits),
    ("indices with bits in every place", 200, indices),
    ("bits past the last literal", 400, strays),
    ("bits and indices of known numbers, at the ends of words", 1, bit_faults),
    ("lock bytes in every place", 1_000, locks),
    ("calls with every choice of faults of known numbers", 1, faulty_calls),
    ("files, whole and damaged", 400_000, damaged),
    ("files with every byte changed, and cut anywhere", 100, every_byte),
    ("files with fields 06 of known numbers", 1, lock_fields),
    ("replays, made at once and call by call", 80_000, replayed),
    ("AIGER texts, whole and damaged", 250_000, damaged_texts),
    ("AIGER texts with every byte changed, left out or added", 100, every_byte_of_texts),
    ("AIGER texts with up to four faults of known numbers", 1, faulty_texts),
    ("AIGER texts at the limits", 1, texts_at_limits),
    ("exports, and imports of them", 10_000, exported),
    ("exports where literals grow by a digit", 60, exported_around_tens),
    ("exports at the limits", 1, exported_at_limits),
    ("previews, and tree calls on copies", 40_000, previewed),
    ("previews with every choice of faults of known numbers", 1, faulty_previews),
    ("previews of trees of hundreds of nodes", 300, previewed_deep),
    ("previews on thousands of nodes", 20, previewed_large),
    ("previews at the limits", EXTREMES.len() as u64, previewed_at_limits),
    ("many moves, together and one by one", 60_000, moved),
    ("previews made by many moves", 20_000, applied),
    ("many moves with every choice of faults of known numbers", 1, faulty_moves),
    ("many moves on thousands of nodes", 20, moved_large),
    ("many moves at the limits", EXTREMES.len() as u64, moved_at_limits),
    ("replays with every choice of faults of known numbers", 1, faulty_replays),
    ("the plain implementation, hidden majorities", 40_000, plain_hidden),
    ("the plain implementation, hidden majorities in longer graphs", 300, plain_hidden_longer),
    ("hidden majorities, made and found", 40_000, hidden_small),
    ("hidden majorities in longer graphs", 300, hidden_longer),
    ("hidden majorities with every choice of faults of known numbers", 1, faulty_hidden),
    ("hidden majorities on thousands of nodes", 60, hidden_large),
    ("the plain implementation, trees for resistive memory", 40_000, plain_resistive),
    ("the plain implementation, longer trees for resistive memory", 400, plain_resistive_longer),
    ("trees for resistive memory", 40_000, resistive_small),
    ("trees of hundreds of nodes for resistive memory", 300, resistive_deep),
    ("trees for resistive memory on thousands of nodes", 12, resistive_large),
    ("trees for resistive memory at the limits", EXTREMES.len() as u64, resistive_at_limits),
    ("classes, with figures worked out afresh after each graph", 1_000, classes),
    ("records of classes from anywhere", 100_000, records),
    ("classes with every choice of faults of known numbers", 1, faulty_classes),
    ("classes of thousands of nodes", 4, large_classes),
    ("graphs compared, and with one changed", 30_000, compared),
    ("graphs compared over several words of bits", 400, compared_longer),
    ("graphs compared with every choice of faults of known numbers", 1, faulty_comparisons),
    ("graphs of thousands of nodes compared", 12, compared_large),
    ("assignments for wanted outputs", 80_000, assigned),
    ("assignments of up to 16 inputs", 600, assigned_longer),
    ("assignments with every choice of faults of known numbers", 1, faulty_assignments),
    ("assignments on thousands of nodes", 16, assigned_large),
    ("graphs joined", 40_000, joined),
    ("graphs joined over several words of bits", 400, joined_longer),
    ("graphs joined with every choice of faults of known numbers", 1, faulty_joins),
    ("graphs joined at the limits", join::LARGE.len() as u64, joined_large),
];

fn stored(_: u64) -> Result<u64, String> {
    stored::check_stored()
}

fn plain_lists(seed: u64) -> Result<u64, String> {
    let case = lists::random_case(seed, 7, 8);
    let calls = case.steps.len() as u64;
    hold(seed, case, &lists::check_plain)?;
    Ok(calls)
}

fn small_lists(seed: u64) -> Result<u64, String> {
    let case = lists::random_case(seed, 7, 8);
    let calls = case.steps.len() as u64;
    hold(seed, case, &lists::check_list)?;
    Ok(calls)
}

fn long_lists(seed: u64) -> Result<u64, String> {
    let case = lists::random_case(seed, 14, 60);
    let calls = case.steps.len() as u64;
    hold(seed, case, &lists::check_list)?;
    Ok(calls)
}

fn wide_lists(seed: u64) -> Result<u64, String> {
    let case = lists::longer_case(seed);
    let calls = case.steps.len() as u64;
    hold(seed, case, &|case| lists::check_list(case).and_then(|()| lists::check_readings(case)))?;
    Ok(calls + 2)
}

fn plain_wide(seed: u64) -> Result<u64, String> {
    let case = lists::longer_case(seed);
    let calls = case.steps.len() as u64;
    hold(seed, case, &lists::check_plain)?;
    Ok(calls)
}

fn readings(seed: u64) -> Result<u64, String> {
    hold(seed, lists::random_case(seed, 12, 4), &lists::check_readings)?;
    Ok(2)
}

const TALL: [Shape; 4] = [Shape::Tree, Shape::Chain, Shape::Xor, Shape::Random];

fn settled(seed: u64) -> Result<u64, String> {
    let mut random = Random::new(seed);
    let shape = TALL[(seed % 4) as usize];
    let nodes = random.between(50, 400);
    let graph = graph(&mut random, shape, 12, nodes, 6);
    let graph = with_locks(&mut random, graph);
    hold(seed, Case::new(graph, vec![], seed), &lists::check_settled)?;
    Ok(1)
}

fn summed(seed: u64) -> Result<u64, String> {
    let case = lists::random_case(seed, 9, 1);
    hold(seed, Case { steps: vec![], ..case }, &savings::check_sums)?;
    Ok(1)
}

fn summed_longer(seed: u64) -> Result<u64, String> {
    let mut random = Random::new(seed);
    let (shape, nodes) = (SHAPES[(seed % 8) as usize], random.between(20, 90));
    let graph = graph(&mut random, shape, 12, nodes, 20);
    let graph = with_locks(&mut random, graph);
    hold(seed, Case::new(graph, vec![], seed), &savings::check_sums)?;
    Ok(1)
}

/// The largest that the limits allow, and smaller ones; no, few or all nodes are locked.
fn large_graph(random: &mut Random, seed: u64) -> Graph {
    let shape = TALL[(seed % 4) as usize];
    let nodes = if seed < 4 { 100_000 } else { random.between(2_000, 20_000) };
    let g = graph(random, shape, 4_096, nodes, 4_096);
    match seed % 5 {
        1 | 3 => locked_one_in(random, g, 10),
        4 => with_locks(random, g),
        _ => g,
    }
}

fn large(seed: u64) -> Result<u64, String> {
    let mut random = Random::new(seed);
    let graph = large_graph(&mut random, seed);
    let nodes = graph.nodes;
    let node = |random: &mut Random| random.between(4_097, 4_096 + nodes);
    let mut calls = vec![Call::Node(node(&mut random)), Call::Pair(node(&mut random), 1)];
    calls.extend((0..6).map(|_| Call::Tree(node(&mut random))));
    calls.extend([Call::Tree(4_096 + nodes), Call::Settle, Call::Pair(node(&mut random), 2)]);
    let (list, moves) = moves_of(&mut random, &graph, 3);
    calls.extend([Call::Many { list, moves }, Call::Settle]);
    let steps = calls.into_iter().map(|call| Step { call, spare: 0 }).collect();
    let case = Case::new(graph, steps, seed);
    let count = case.steps.len() as u64 + 3;
    // Too large to be made smaller step by step: the seed says it all.
    lists::check_large(&case).map_err(|wrong| format!("seed {seed}: {wrong}"))?;
    Ok(count)
}

fn at_limits(seed: u64) -> Result<u64, String> {
    let Some(extreme) = EXTREMES.get(seed as usize) else { return Ok(0) };
    extremes::check(extreme, seed).map_err(|wrong| format!("seed {seed}: {}: {wrong}", extreme.name))
}

fn tried(seed: u64) -> Result<u64, String> {
    let case = trials::random_trials(seed);
    let count = trials::check_trials(&case);
    if count.is_err() {
        hold(seed, case, &|case| trials::check_trials(case).map(|_| ()))?;
    }
    count
}

fn faulty_trials(_: u64) -> Result<u64, String> {
    trial_faults::check_faults()
}

fn slices(seed: u64) -> Result<u64, String> {
    let case = lists::random_case(seed, 4, 3);
    let count = lengths::check_lengths(&case);
    hold(seed, case, &|case| lengths::check_lengths(case).map(|_| ()))?;
    count
}

fn limits(_: u64) -> Result<u64, String> {
    lengths::check_limits()
}

fn indices(seed: u64) -> Result<u64, String> {
    let case = lists::random_case(seed, 4, 3);
    let count = words::check_indices(&case);
    hold(seed, case, &|case| words::check_indices(case).map(|_| ()))?;
    count
}

fn strays(seed: u64) -> Result<u64, String> {
    let case = lists::random_case(seed, 4, 3);
    let count = words::check_strays(&case);
    hold(seed, case, &|case| words::check_strays(case).map(|_| ()))?;
    count
}

fn bit_faults(_: u64) -> Result<u64, String> {
    bit_faults::check_faults()
}

fn locks(seed: u64) -> Result<u64, String> {
    let case = lists::random_case(seed, 4, 3);
    let count = lengths::check_locks(&case);
    hold(seed, case, &|case| lengths::check_locks(case).map(|_| ()))?;
    count
}

fn faulty_calls(_: u64) -> Result<u64, String> {
    call_faults::check_faults()
}

fn lock_fields(_: u64) -> Result<u64, String> {
    lock_fields::check_fields()
}

fn damaged(seed: u64) -> Result<u64, String> {
    hold(seed, files::random_file(seed), &files::check_file)?;
    Ok(1)
}

fn every_byte(seed: u64) -> Result<u64, String> {
    files::check_every_byte(seed)
}

fn replayed(seed: u64) -> Result<u64, String> {
    let case = replays::random_replay(seed);
    let calls = case.words.len() as u64 / 3;
    hold(seed, case, &replays::check_replay)?;
    Ok(calls.max(1))
}

fn damaged_texts(seed: u64) -> Result<u64, String> {
    hold(seed, texts::random_text(seed), &texts::check_text)?;
    Ok(1)
}

fn every_byte_of_texts(seed: u64) -> Result<u64, String> {
    texts::check_every_byte(seed)
}

fn faulty_texts(_: u64) -> Result<u64, String> {
    faults::check_faults()
}

fn texts_at_limits(_: u64) -> Result<u64, String> {
    text_limits::check_limits()
}

fn exported(seed: u64) -> Result<u64, String> {
    hold(seed, exports::random_case(seed), &exports::check_export)?;
    Ok(1)
}

fn exported_around_tens(seed: u64) -> Result<u64, String> {
    exports::check_large(&exports::around_tens(seed)).map_err(|wrong| format!("seed {seed}: {wrong}"))?;
    Ok(1)
}

fn exported_at_limits(_: u64) -> Result<u64, String> {
    let graphs = exports::at_limits();
    graphs.iter().try_for_each(exports::check_large)?;
    Ok(graphs.len() as u64)
}

fn previewed(seed: u64) -> Result<u64, String> {
    let case = previews::random_case(seed);
    let count = previews::previews_of(&case);
    hold(seed, case, &previews::check_preview)?;
    Ok(count)
}

fn faulty_previews(_: u64) -> Result<u64, String> {
    preview_faults::check_faults()
}

fn previewed_deep(seed: u64) -> Result<u64, String> {
    previews::check_large(&previews::deep(seed), seed).map_err(|wrong| format!("seed {seed}: {wrong}"))
}

fn previewed_large(seed: u64) -> Result<u64, String> {
    previews::check_large(&large_graph(&mut Random::new(seed), seed), seed)
        .map_err(|wrong| format!("seed {seed}: {wrong}"))
}

fn previewed_at_limits(seed: u64) -> Result<u64, String> {
    let Some(extreme) = EXTREMES.get(seed as usize) else { return Ok(0) };
    let check = |locked| previews::check_large(&extreme.graph(seed, locked), seed);
    let checked: Result<Vec<u64>, String> = LOCKED.into_iter().map(check).collect();
    checked.map(|counts| counts.iter().sum()).map_err(|wrong| format!("seed {seed}: {}: {wrong}", extreme.name))
}

fn moved(seed: u64) -> Result<u64, String> {
    let case = many::random_case(seed);
    let lists = case.steps.len() as u64;
    hold(seed, case, &many::check_many)?;
    Ok(lists)
}

fn applied(seed: u64) -> Result<u64, String> {
    let case = Case { steps: vec![], ..lists::random_case(seed, 9, 1) };
    let count = many::check_previews(&case);
    hold(seed, case, &many::check_previewed)?;
    count
}

fn faulty_moves(_: u64) -> Result<u64, String> {
    many_faults::check_faults()
}

fn moved_large(seed: u64) -> Result<u64, String> {
    many::check_large(&large_graph(&mut Random::new(seed), seed), seed).map_err(|wrong| format!("seed {seed}: {wrong}"))
}

fn moved_at_limits(seed: u64) -> Result<u64, String> {
    let Some(extreme) = EXTREMES.get(seed as usize) else { return Ok(0) };
    let check = |locked| many::check_large(&extreme.graph(seed, locked), seed);
    let checked: Result<Vec<u64>, String> = LOCKED.into_iter().map(check).collect();
    checked.map(|counts| counts.iter().sum()).map_err(|wrong| format!("seed {seed}: {}: {wrong}", extreme.name))
}

fn faulty_replays(_: u64) -> Result<u64, String> {
    replay_faults::check_faults()
}

fn held_hidden(seed: u64, most_nodes: u32, check: &Check<Case>) -> Result<u64, String> {
    let case = hidden::random_case(seed, most_nodes);
    let count = case.steps.len() as u64;
    hold(seed, case, check)?;
    Ok(count)
}

fn plain_hidden(seed: u64) -> Result<u64, String> {
    held_hidden(seed, 14, &hidden::check_plain)
}

fn plain_hidden_longer(seed: u64) -> Result<u64, String> {
    held_hidden(seed, 80, &hidden::check_plain)
}

fn hidden_small(seed: u64) -> Result<u64, String> {
    held_hidden(seed, 14, &hidden::check_calls)
}

fn hidden_longer(seed: u64) -> Result<u64, String> {
    held_hidden(seed, 80, &hidden::check_calls)
}

fn faulty_hidden(_: u64) -> Result<u64, String> {
    hidden_faults::check_faults()
}

fn hidden_large(seed: u64) -> Result<u64, String> {
    hidden::check_family(seed).map_err(|wrong| format!("seed {seed}: {wrong}"))
}

fn held_resistive(seed: u64, most_nodes: u32, check: &Check<Case>) -> Result<u64, String> {
    let case = resistive::random_case(seed, most_nodes);
    let count = case.steps.len() as u64;
    hold(seed, case, check)?;
    Ok(count)
}

fn plain_resistive(seed: u64) -> Result<u64, String> {
    held_resistive(seed, 9, &hidden::check_plain)
}

fn plain_resistive_longer(seed: u64) -> Result<u64, String> {
    held_resistive(seed, 60, &hidden::check_plain)
}

fn resistive_small(seed: u64) -> Result<u64, String> {
    held_resistive(seed, 9, &resistive::check_calls)
}

fn resistive_deep(seed: u64) -> Result<u64, String> {
    resistive::check_large(&previews::deep(seed), seed).map_err(|wrong| format!("seed {seed}: {wrong}"))
}

fn resistive_large(seed: u64) -> Result<u64, String> {
    resistive::check_large(&large_graph(&mut Random::new(seed), seed), seed)
        .map_err(|wrong| format!("seed {seed}: {wrong}"))
}

fn resistive_at_limits(seed: u64) -> Result<u64, String> {
    let Some(extreme) = EXTREMES.get(seed as usize) else { return Ok(0) };
    let check = |locked| resistive::check_large(&extreme.graph(seed, locked), seed);
    let checked: Result<Vec<u64>, String> = LOCKED.into_iter().map(check).collect();
    checked.map(|counts| counts.iter().sum()).map_err(|wrong| format!("seed {seed}: {}: {wrong}", extreme.name))
}

fn classes(seed: u64) -> Result<u64, String> {
    class::check_class(seed).map_err(|wrong| format!("seed {seed}: {wrong}"))
}

fn records(seed: u64) -> Result<u64, String> {
    class::check_anywhere(seed).map_err(|wrong| format!("seed {seed}: {wrong}"))
}

fn faulty_classes(_: u64) -> Result<u64, String> {
    class_faults::check_faults()
}

fn large_classes(seed: u64) -> Result<u64, String> {
    let mut random = Random::new(seed);
    let graphs: Vec<Graph> = (seed..seed + 3).map(|seed| large_graph(&mut random, seed)).collect();
    class::check_large(&graphs, seed).map_err(|wrong| format!("seed {seed}: {wrong}"))
}

fn compared(seed: u64) -> Result<u64, String> {
    hold(seed, compare::random_pair(seed, 6), &compare::check_pair)?;
    Ok(1)
}

fn compared_longer(seed: u64) -> Result<u64, String> {
    hold(seed, compare::longer_pair(seed), &compare::check_pair)?;
    Ok(1)
}

fn faulty_comparisons(_: u64) -> Result<u64, String> {
    compare_faults::check_faults()
}

fn compared_large(seed: u64) -> Result<u64, String> {
    compare::check_large(&large_graph(&mut Random::new(seed), seed), seed)
        .map_err(|wrong| format!("seed {seed}: {wrong}"))
}

fn assigned(seed: u64) -> Result<u64, String> {
    hold(seed, assignment::random_case(seed), &assignment::check_case)?;
    Ok(1)
}

fn assigned_longer(seed: u64) -> Result<u64, String> {
    hold(seed, assignment::longer_case(seed), &assignment::check_case)?;
    Ok(1)
}

fn faulty_assignments(_: u64) -> Result<u64, String> {
    assignment_faults::check_faults()
}

fn assigned_large(seed: u64) -> Result<u64, String> {
    assignment::check_large(seed).map_err(|wrong| format!("seed {seed}: {wrong}"))
}

fn joined(seed: u64) -> Result<u64, String> {
    hold(seed, join::random_join(seed, 6, 5), &join::check_join)?;
    Ok(1)
}

fn joined_longer(seed: u64) -> Result<u64, String> {
    hold(seed, join::random_join(seed, 90, 130), &join::check_join)?;
    Ok(1)
}

fn faulty_joins(_: u64) -> Result<u64, String> {
    join_faults::check_faults()
}

fn joined_large(seed: u64) -> Result<u64, String> {
    let Some(&(first, second)) = join::LARGE.get(seed as usize) else { return Ok(0) };
    join::check_large(first, second, seed).map_err(|wrong| format!("seed {seed}: {wrong}"))
}

fn run(kind: &Kind, only: Option<u64>) -> Result<u64, String> {
    let (name, seeds, test) = *kind;
    let start = Instant::now();
    let mut count = 0;
    for seed in only.map_or(0..seeds, |seed| seed..seed + 1) {
        count += test(seed).map_err(|wrong| format!("FAILED: {name}: {wrong}"))?;
    }
    println!("{count:>9} {name} ({:.1} s)", start.elapsed().as_secs_f64());
    Ok(count)
}

/// Says how often each number was met. One that never was says that the cases are too tame.
fn all_met() -> Result<(), String> {
    let met = raw::MET.each_ref().map(|count| count.load(Ordering::Relaxed));
    let refused: Vec<String> = (1..met.len()).map(|at| format!("{}: {}", raw::NUMBERS[at], met[at])).collect();
    println!("calls accepted: {}; refused, by number: {}", met[0], refused.join(", "));
    match met.iter().position(|&count| count == 0) {
        Some(at) => Err(format!("FAILED: no call was answered by {}", raw::NUMBERS[at])),
        None => Ok(()),
    }
}

fn main() -> ExitCode {
    let given = std::env::args().nth(1);
    let only = given.as_ref().and_then(|word| word.parse().ok());
    let words = given.as_ref().filter(|_| only.is_none()).map_or("", |words| words);
    let mut total = 0;
    let mut failed = 0;
    for kind in KINDS.iter().filter(|kind| kind.0.contains(words)) {
        match run(kind, only) {
            Ok(count) => total += count,
            Err(wrong) => {
                println!("{wrong}");
                failed += 1;
            }
        }
    }
    if given.is_none() {
        let met = all_met().and_then(|()| trials::all_met()).and_then(|()| savings::all_met());
        let met = met.and_then(|()| previews::all_met()).and_then(|()| many::all_met());
        let met = met.and_then(|()| hidden::all_met()).and_then(|()| resistive::all_met());
        let met = met.and_then(|()| class::all_met()).and_then(|()| compare::all_met());
        if let Err(wrong) = met.and_then(|()| assignment::all_met()).and_then(|()| join::all_met()) {
            println!("{wrong}");
            failed += 1;
        }
    }
    println!("differential: {total} cases passed, {failed} kinds failed");
    if failed == 0 {
        ExitCode::SUCCESS
    } else {
        ExitCode::FAILURE
    }
}
