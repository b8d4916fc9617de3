//! The line of a case, from this package's own answers.

use crate::entries::{count, join, load, replay, write};
use crate::file::{field, field_number};
use crate::graph::Number;
use crate::packed::{admit, Packed};
use crate::replay::Words;
use crate::vectors::case::*;

/// What a slice holds before a call that is to change it.
const BUFFER: u8 = 165;
const SCRATCH: u32 = 77;

fn mix(sum: u64, word: u32) -> u64 {
    (sum * 16_777_619 + word as u64) % 4_294_967_291
}

struct Line(String);

impl Line {
    fn put(&mut self, number: u64) {
        self.0.push_str(&number.to_string());
        self.0.push(' ');
    }

    /// A slice of so many elements, by its words.
    fn slice(&mut self, length: usize, words: impl Iterator<Item = u32>) {
        self.put(length as u64);
        self.put(words.fold(0, mix));
    }

    fn bytes(&mut self, bytes: &[u8]) {
        self.slice(bytes.len(), bytes.iter().map(|&byte| byte as u32));
    }

    fn words(&mut self, words: &[u32]) {
        self.slice(words.len(), words.iter().copied());
    }

    /// The upper half of each word first.
    fn longs(&mut self, longs: &[u64]) {
        let halves = longs
            .iter()
            .flat_map(|&word| [(word >> 32) as u32, word as u32]);
        self.slice(longs.len(), halves);
    }

    /// The number, 0 where accepted, and three values.
    fn answer(&mut self, result: Result<[u32; 3], Number>) {
        self.put(result.err().unwrap_or(0) as u64);
        for value in result.unwrap_or_default() {
            self.put(value as u64);
        }
    }
}

fn listed(line: &mut Line, case: &Case, g: &mut Packed) {
    let mut answers = vec![i64::from(SCRATCH); case.result as usize];
    let words = Words {
        calls: &case.calls,
        list: &case.list,
        moves: &case.moves,
    };
    let done = replay(&case.bytes, words, g, case.scratch as usize, &mut answers);
    line.answer(done.map(<[u32; 3]>::from).map_err(|_| 1));
    if done.is_err() {
        line.words(&vec![SCRATCH; case.scratch as usize]);
    }
    line.put(answers.len() as u64);
}

pub fn answer(case: &Case) -> String {
    let mut line = Line(String::new());
    let mut g = case.g.clone();
    let mut bytes = case.bytes.clone();
    match case.op {
        ADMIT => line.answer(admit(&g).map(|()| [0; 3])),
        EDGES => line.answer(count(&g).map(|c| [c, 0, 0])),
        FIELD => {
            line.bytes(field(&bytes));
            match field_number(&bytes) {
                0 => line.answer(Ok([0; 3])),
                number => line.answer(Err(number)),
            }
        }
        LOAD => {
            let result = load(&bytes, &mut g);
            line.answer(result.map(|(inputs, nodes, outputs)| [inputs, nodes, outputs]));
        }
        WRITE => {
            bytes = vec![BUFFER; case.result as usize];
            let result = write(&g, &mut bytes);
            line.answer(result.map(|_| [0; 3]));
            line.put(result.unwrap_or(0) as u64);
        }
        CALLS => listed(&mut line, case, &mut g),
        JOIN => {
            let result = join(&case.parts[0], &case.parts[1], &mut g);
            line.answer(result.map(<[u32; 3]>::from));
        }
        other => panic!("the program has no op {other}"),
    };
    line.bytes(&bytes);
    line.words(&g.node_table);
    line.longs(&g.node_bits);
    line.words(&g.output_table);
    line.longs(&g.output_bits);
    line.bytes(&g.locks);
    line.0.push('\n');
    line.0
}
