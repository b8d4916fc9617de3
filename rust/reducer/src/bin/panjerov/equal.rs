//! Whether two graphs of any wiring have the same outputs.

use crate::abc::{self, Verdict};
use crate::assign;
use crate::figures::{Figures, Value};
use crate::files::{self, Input};
use crate::formats::{self, Loaded};
use crate::parts::sizes;
use crate::progress::Progress;
use crate::words::Work;
use crate::Given;
use reducer::{Graph, Names, Refusal, MOST_SEARCHED};

/// Where there are too many inputs to try all assignments, so many words of 64 random ones are tried.
const RANDOM_WORDS: u32 = 1_024;

/// Numbers that look random and are the same in every run (splitmix64).
struct Random(u64);

impl Random {
    fn word(&mut self) -> u64 {
        self.0 = self.0.wrapping_add(0x9e37_79b9_7f4a_7c15);
        let mixed = (self.0 ^ self.0 >> 30).wrapping_mul(0xbf58_476d_1ce4_e5b9);
        let mixed = (mixed ^ mixed >> 27).wrapping_mul(0x94d0_49bb_1331_11eb);
        mixed ^ mixed >> 31
    }
}

/// Both graphs, and what they are called.
struct Pair<'a> {
    graphs: [&'a Graph; 2],
    files: [&'a str; 2],
    names: [&'a Names; 2],
}

/// An assignment, a bit an input, and the outputs of both under it.
struct Difference {
    inputs: Vec<bool>,
    outputs: [Vec<bool>; 2],
}

/// The bits of words at a place.
fn bits_at(words: &[u64], place: u32) -> Vec<bool> {
    words.iter().map(|word| word >> place & 1 == 1).collect()
}

/// The first of 64 assignments under which the outputs differ, of so many that count.
fn difference(graphs: [&Graph; 2], inputs: &[u64], counting: u32) -> Result<Option<Difference>, Refusal> {
    let [first, second] = [graphs[0].evaluate(inputs)?, graphs[1].evaluate(inputs)?];
    let apart = first.iter().zip(&second).fold(0, |apart, (one, other)| apart | (one ^ other));
    let place = apart.trailing_zeros();
    let found =
        || Difference { inputs: bits_at(inputs, place), outputs: [&first, &second].map(|all| bits_at(all, place)) };
    Ok((place < counting).then(found))
}

/// How many assignments are tried, and whether these are all.
fn tried(inputs: u32) -> (u64, bool) {
    match inputs {
        0..=MOST_SEARCHED => (1 << inputs, true),
        _ => (64 * u64::from(RANDOM_WORDS), false),
    }
}

fn searched(graphs: [&Graph; 2], working: &Progress) -> Result<Option<Difference>, Refusal> {
    let inputs = graphs[0].size.inputs;
    let (many, all) = tried(inputs);
    let mut random = Random(0);
    for first in (0..many as u32).step_by(64) {
        working.reached(first as usize + 1, many as usize);
        let words = match all {
            true => assign::words(graphs[0], first),
            false => (0..inputs).map(|_| random.word()).collect(),
        };
        let found = difference(graphs, &words, many.min(64) as u32)?;
        if found.is_some() {
            return Ok(found);
        }
    }
    Ok(None)
}

/// A number from 1 with its name, if it has one.
fn named(at: u32, name: Option<&str>) -> String {
    name.map_or(at.to_string(), |name| format!("{at} {name}"))
}

fn bit(bit: bool) -> u8 {
    u8::from(bit)
}

/// The assignment, and each output that differs under it.
fn told(pair: &Pair, found: &Difference) -> Given {
    let [one, other] = &found.outputs;
    let input = |(at, value): (u32, &bool)| match pair.names[0].input(at) {
        Some(name) => format!(" {name}={}", bit(*value)),
        None => format!(" {at}={}", bit(*value)),
    };
    let inputs: String = (1..).zip(&found.inputs).map(input).collect();
    let apart: Vec<u32> = (1..).zip(one.iter().zip(other)).filter(|(_, (a, b))| a != b).map(|(at, _)| at).collect();
    let line = |&at: &u32| {
        let [a, b] = [one, other].map(|all| bit(all[at as usize - 1]));
        let name = named(at, pair.names[0].output(at));
        format!("output {name}: {a} in {} and {b} in {}\n", pair.files[0], pair.files[1])
    };
    let text = format!("different\ninputs{inputs}\n{}", apart.iter().map(line).collect::<String>());
    let bits = |all: &[bool]| all.iter().map(|&one| bit(one)).collect::<Value>();
    let figures = Figures::of("equal", false).with("inputs", bits(&found.inputs));
    let figures = figures.with("first", bits(one)).with("second", bits(other));
    Given { status: 1, ..Given::of(text.into_bytes(), figures.with("differ", apart.into_iter().collect::<Value>())) }
}

/// That nothing differs, as far as it was tried.
fn alike(inputs: u32) -> Given {
    let (many, all) = tried(inputs);
    let text = match all {
        true => format!("equal: every assignment was tried, {many} in all\n"),
        false => format!("no difference in {many} assignments\n"),
    };
    let equal = if all { Value::Truth(true) } else { Value::Nothing };
    let figures = Figures::of("equal", equal).with("assignments", many as i64).with("all", all);
    Given::of(text.into_bytes(), figures)
}

/// Names that both have and that differ are told: what is compared goes by number.
fn renamed(pair: &Pair) -> Option<String> {
    let [first, second] = pair.names;
    let size = pair.graphs[0].size;
    let inputs = (1..=size.inputs).map(|at| ("input", at, first.input(at), second.input(at)));
    let outputs = (1..=size.outputs).map(|at| ("output", at, first.output(at), second.output(at)));
    let apart = |&(_, _, a, b): &(_, _, Option<&str>, Option<&str>)| a.is_some() && b.is_some() && a != b;
    let (kind, at, a, b) = inputs.chain(outputs).find(apart)?;
    let [a, b] = [a, b].map(Option::unwrap_or_default);
    let [one, other] = pair.files;
    Some(format!("inputs and outputs are taken in order, not by name: {kind} {at} is {a} in {one} and {b} in {other}"))
}

/// What abc says, after what was tried; an assignment that it tells is tried too.
fn by_abc(pair: &Pair, given: Given) -> Result<Given, String> {
    let verdict = abc::equal(pair.graphs)?;
    let figures = given.figures.clone().with("abc", verdict.name());
    let text = |given: &Given| [&given.bytes[..], format!("abc: {}\n", verdict.name()).as_bytes()].concat();
    if let (Verdict::Different(inputs), 0) = (&verdict, given.status) {
        let words: Vec<u64> = inputs.iter().map(|&bit| u64::from(bit)).collect();
        let found = difference(pair.graphs, &words, 1).map_err(|refusal| refusal.to_string())?;
        let found = found.ok_or("abc tells an assignment under which no output differs")?;
        let given = told(pair, &found);
        let figures = given.figures.clone().with("abc", verdict.name());
        return Ok(Given { bytes: text(&given), figures, ..given });
    }
    Ok(Given { bytes: text(&given), figures, ..given })
}

/// Whether the outputs of two graphs are the same, or an assignment under which they are not; status 1 then.
pub fn of(asked: &Work, input: &Input, (graph, names): (&Graph, &Names), working: &Progress) -> Result<Given, String> {
    let after = files::read(asked.after.as_deref())?;
    let Loaded { graph: other, names: others, lines, .. } = formats::graph_of(&after)?;
    let pair = Pair { graphs: [graph, &other], files: [&input.name, &after.name], names: [names, &others] };
    let ends = |graph: &Graph| (graph.size.inputs, graph.size.outputs);
    if ends(graph) != ends(&other) {
        let [[a, _, b], [c, _, d]] = [graph, &other].map(|graph| sizes(graph.size));
        let why = format!("different: {a} and {b} in {}, {c} and {d} in {}", pair.files[0], pair.files[1]);
        return Ok(Given { first: lines, ..Given::different(why, Figures::of("equal", false)) });
    }
    let found = searched(pair.graphs, working).map_err(|refusal| refusal.to_string())?;
    let given = found.map_or_else(|| alike(graph.size.inputs), |found| told(&pair, &found));
    let given = if asked.abc { by_abc(&pair, given)? } else { given };
    Ok(Given { first: lines, ..given }.saying(renamed(&pair)))
}
