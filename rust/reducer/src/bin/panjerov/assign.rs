//! Assignments for a wanted output pattern.

use crate::figures::{Figures, Value};
use crate::locks::number;
use crate::parts::count;
use crate::picture::Named;
use crate::progress::Progress;
use crate::Given;
use reducer::{Graph, Names, Refusal, MOST_SEARCHED};

/// Under 64 assignments that follow each other the six lowest inputs are these words.
const LOWEST: [u64; 6] = [
    0xaaaa_aaaa_aaaa_aaaa,
    0xcccc_cccc_cccc_cccc,
    0xf0f0_f0f0_f0f0_f0f0,
    0xff00_ff00_ff00_ff00,
    0xffff_0000_ffff_0000,
    0xffff_ffff_0000_0000,
];

/// What a word of PATTERN wants of outputs.
fn sign(sign: char) -> Option<u8> {
    match sign {
        '0' => Some(0),
        '1' => Some(1),
        'x' | 'X' => Some(2),
        _ => None,
    }
}

/// Puts what a part such as 3=1 or sum[2]=1 wants; outputs count from 1.
fn put_named(names: &Names, wanted: &mut [u8], part: &str) -> Result<(), String> {
    let (name, value) = part.rsplit_once('=').unwrap_or((part, ""));
    let Some(output) = names.output_named(name).or_else(|| number(name)) else {
        return Err(format!("outputs are wanted by name or number, such as 3=1, and no output has the name {name}"));
    };
    let value = match value {
        "0" => 0,
        "1" => 1,
        "x" | "X" => 2,
        _ => return Err(format!("an output is wanted to be 0, 1 or x, such as 3=1, and not {part}")),
    };
    let outputs = wanted.len();
    let place = (output as usize).checked_sub(1).and_then(|place| wanted.get_mut(place));
    let place = place.ok_or_else(|| match outputs {
        0 => format!("there is no output {output}: there are none"),
        _ => format!("there is no output {output}: outputs are 1 to {outputs}"),
    })?;
    *place = value;
    Ok(())
}

/// What the words of PATTERN want, a byte an output: a sign each, or by number and the others either.
fn wanted((graph, names): Named, words: &[String]) -> Result<Vec<u8>, String> {
    let outputs = graph.size.outputs as usize;
    if words.iter().any(|word| word.contains('=')) {
        let mut wanted = vec![2; outputs];
        let parts = words.iter().flat_map(|word| word.split(',')).filter(|part| !part.is_empty());
        parts.into_iter().try_for_each(|part| put_named(names, &mut wanted, part))?;
        return Ok(wanted);
    }
    let signs: Vec<char> = words.iter().flat_map(|word| word.chars()).collect();
    if let Some(other) = signs.iter().find(|&&one| sign(one).is_none()) {
        return Err(format!("PATTERN has 0, 1 or x for each output, or parts such as 3=1, and not {other}"));
    }
    match signs.len() == outputs {
        true => Ok(signs.into_iter().filter_map(sign).collect()),
        false => Err(format!("PATTERN wants {}, and there are {outputs}", count(signs.len(), "output"))),
    }
}

fn refused(graph: &Graph, refusal: Refusal) -> String {
    match refusal {
        Refusal::ManyInputs => {
            format!("{refusal}: {} are here, and a search is made up to {MOST_SEARCHED}", graph.size.inputs)
        }
        _ => refusal.to_string(),
    }
}

fn bit(assignment: u32, input: u32) -> u32 {
    assignment >> (input - 1) & 1
}

/// A number and what it gives, by numbers from 1.
fn listed(bits: impl Iterator<Item = u64>) -> String {
    (1..).zip(bits).map(|(at, bit): (u32, u64)| format!(" {at}={bit}")).collect()
}

/// The inputs' words of the 64 assignments from this one on.
pub fn words(graph: &Graph, first: u32) -> Vec<u64> {
    let high = |input: u32| if bit(first, input) == 1 { u64::MAX } else { 0 };
    (1..=graph.size.inputs)
        .map(|input| LOWEST.get(input as usize - 1).copied().unwrap_or_else(|| high(input)))
        .collect()
}

/// Which of the 64 assignments from this one on give what is wanted, a bit each.
fn given_by(graph: &Graph, wanted: &[u8], first: u32) -> Result<u64, Refusal> {
    let results = graph.evaluate(&words(graph, first))?;
    let agrees = |(&wanted, word): (&u8, u64)| match wanted {
        0 => !word,
        1 => word,
        _ => u64::MAX,
    };
    Ok(wanted.iter().zip(results).map(agrees).fold(u64::MAX, |all, one| all & one))
}

/// The least assignment, with the inputs and the outputs under it.
fn told(graph: &Graph, assignment: u32) -> Result<Given, Refusal> {
    let inputs = (1..=graph.size.inputs).map(|input| u64::from(bit(assignment, input)));
    let place = assignment % 64;
    let results = graph.evaluate(&words(graph, assignment - place))?;
    let outputs = results.iter().map(|word| word >> place & 1);
    let text =
        format!("assignment {assignment}\ninputs{}\noutputs{}\n", listed(inputs.clone()), listed(outputs.clone()));
    let [inputs, outputs] = [bits(inputs), bits(outputs)];
    let figures = Figures::of("assignment", assignment).with("inputs", inputs).with("outputs", outputs);
    Ok(Given::of(text.into_bytes(), figures))
}

fn bits(bits: impl Iterator<Item = u64>) -> Value {
    bits.map(|bit| bit as u8).collect()
}

/// The assignments from the least on.
fn all(graph: &Graph, wanted: &[u8], least: u32, working: &Progress) -> Result<Vec<u32>, Refusal> {
    let (mut found, end) = (Vec::new(), 1u32 << graph.size.inputs);
    for first in (least - least % 64..end).step_by(64) {
        working.reached(first as usize + 1, end as usize);
        let agree = given_by(graph, wanted, first)?;
        found.extend((first..end.min(first + 64)).filter(|assignment| agree >> (assignment % 64) & 1 == 1));
    }
    Ok(found)
}

/// A line for each assignment: its number, and its inputs from input 1 on.
fn all_told(graph: &Graph, found: Vec<u32>) -> Given {
    let sign = |assignment, input| char::from(b'0' + bit(assignment, input) as u8);
    let line = |&assignment: &u32| {
        let inputs: String = (1..=graph.size.inputs).map(|input| sign(assignment, input)).collect();
        format!("{assignment} {inputs}\n")
    };
    let text: String = found.iter().map(line).collect();
    let figures = Figures::of("found", found.len()).with("of", 1u32 << graph.size.inputs);
    Given::of(text.into_bytes(), figures.with("assignments", found.into_iter().collect::<Value>())).told()
}

/// The least assignment that gives a pattern, or all that do; status 1 where there is none.
pub fn of(named: Named, pattern: &[String], every: bool, working: &Progress) -> Result<Given, String> {
    let graph = named.0;
    let wanted = wanted(named, pattern)?;
    let found = graph.assignment_for(&wanted).map_err(|refusal| refused(graph, refusal))?;
    let Some(least) = found else {
        let none = Given::of(b"none\n".to_vec(), Figures::of("assignment", Value::Nothing));
        return Ok(Given { status: 1, ..none });
    };
    let given = match every {
        true => all(graph, &wanted, least, working).map(|found| all_told(graph, found)),
        false => told(graph, least),
    };
    given.map_err(|refusal| refusal.to_string())
}

#[cfg(test)]
mod tests {
    use super::*;

    /// Three outputs.
    fn three() -> Graph {
        Graph::new(2, vec![2, 4, 0], vec![6, 7, 1])
    }

    fn of_words(words: &[&str]) -> Result<Vec<u8>, String> {
        let names = Names::of_symbols(b"o1 carry\no2 s=t[0]\n", 2, 3).0;
        wanted((&three(), &names), &words.iter().map(|word| word.to_string()).collect::<Vec<_>>())
    }

    #[test]
    fn patterns() {
        assert_eq!(of_words(&["01x"]), Ok(vec![0, 1, 2]));
        assert_eq!(of_words(&["0", "1X"]), Ok(vec![0, 1, 2]));
        assert_eq!(of_words(&["3=1"]), Ok(vec![2, 2, 1]));
        assert_eq!(of_words(&["1=0,3=1", "2=x"]), Ok(vec![0, 2, 1]));
        assert_eq!(of_words(&["01"]), Err("PATTERN wants 2 outputs, and there are 3".into()));
        assert_eq!(of_words(&[]), Err("PATTERN wants 0 outputs, and there are 3".into()));
        let signs = "PATTERN has 0, 1 or x for each output, or parts such as 3=1, and not 2";
        assert_eq!(of_words(&["012"]), Err(signs.into()));
        assert_eq!(of_words(&["4=1"]), Err("there is no output 4: outputs are 1 to 3".into()));
        assert_eq!(of_words(&["0=1"]), Err("there is no output 0: outputs are 1 to 3".into()));
        let names = "outputs are wanted by name or number, such as 3=1, and no output has the name sum";
        assert_eq!(of_words(&["sum=1"]), Err(names.into()));
        assert_eq!(of_words(&["carry=0,s=t[0]=1"]), Ok(vec![2, 0, 1]));
        assert_eq!(of_words(&["3=2"]), Err("an output is wanted to be 0, 1 or x, such as 3=1, and not 3=2".into()));
    }

    /// Each assignment by itself: the words that stand for 64 of them are its bits.
    #[test]
    fn words_of_assignments() {
        let graph = Graph::new(9, vec![], vec![]);
        for first in (0..512).step_by(64) {
            for (input, word) in (1..).zip(words(&graph, first)) {
                (0..64).for_each(|at| assert_eq!((word >> at & 1) as u32, bit(first + at, input)));
            }
        }
    }
}
