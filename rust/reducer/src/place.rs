//! Where a file or a text is refused, what stands there and what is due: a reader beside the proved ones, which tell a number alone.
//!
//! It refuses just what they refuse, by the same number, where tables have room.

use std::fmt;

use crate::{aiger, looks_like, Refusal, MOST_INPUTS, MOST_NODES, MOST_OUTPUTS};

/// The first fault of a file or a text.
#[derive(Clone, Debug, PartialEq, Eq, Hash)]
#[non_exhaustive]
pub struct Place {
    pub refusal: Refusal,
    /// The line of a text, counted from 1.
    pub line: Option<usize>,
    /// The byte of a file, counted from 0, where the field at fault begins.
    pub byte: Option<usize>,
    /// Which field or line that is, as "node 17 of 40".
    pub field: String,
    /// What stands there, and what is due.
    pub why: String,
}

impl fmt::Display for Place {
    fn fmt(&self, f: &mut fmt::Formatter<'_>) -> fmt::Result {
        match (self.line, self.byte) {
            (Some(line), _) => write!(f, "line {line}, ")?,
            (_, Some(byte)) => write!(f, "byte {byte}, ")?,
            _ => {}
        }
        write!(f, "{}: {}", self.field, self.why)
    }
}

impl std::error::Error for Place {
    fn source(&self) -> Option<&(dyn std::error::Error + 'static)> {
        Some(&self.refusal)
    }
}

/// A refusal with the place that it is about, where that is known.
#[derive(Clone, Debug, PartialEq, Eq, Hash)]
#[non_exhaustive]
pub struct Refused {
    pub refusal: Refusal,
    pub place: Option<Place>,
}

impl Refused {
    /// What refuses these bytes as a tagged file or, where they begin as one, as AIGER text.
    pub(crate) fn of(refusal: Refusal, bytes: &[u8]) -> Refused {
        Refused { refusal, place: of(bytes).filter(|place| place.refusal == refusal) }
    }
}

impl From<Place> for Refused {
    fn from(place: Place) -> Refused {
        Refused { refusal: place.refusal, place: Some(place) }
    }
}

impl From<Refusal> for Refused {
    fn from(refusal: Refusal) -> Refused {
        Refused { refusal, place: None }
    }
}

impl fmt::Display for Refused {
    fn fmt(&self, f: &mut fmt::Formatter<'_>) -> fmt::Result {
        match &self.place {
            Some(place) => write!(f, "{}; {place}", self.refusal),
            None => write!(f, "{}", self.refusal),
        }
    }
}

impl std::error::Error for Refused {
    fn source(&self) -> Option<&(dyn std::error::Error + 'static)> {
        Some(&self.refusal)
    }
}

/// "1 byte", "2 bytes".
pub(crate) fn count(many: usize, what: &str) -> String {
    format!("{many} {what}{}", if many == 1 { "" } else { "s" })
}

/// What of I, N and O is over its limit, in words.
pub(crate) fn over_limit(inputs: u32, nodes: u32, outputs: u32, node: &str) -> Option<String> {
    let all = [(inputs, "input", MOST_INPUTS), (nodes, node, MOST_NODES), (outputs, "output", MOST_OUTPUTS)];
    let over = all.into_iter().find(|(many, _, most)| many > most);
    over.map(|(many, what, most)| format!("it says {many} {what}s, and {most} are the most"))
}

/// That a literal names an index above the highest that is allowed.
pub(crate) fn too_high(literal: u32, what: &str, highest: u32) -> String {
    format!(
        "{what} is literal {literal}, which names index {}, and {highest} is the highest allowed there",
        literal / 2
    )
}

/// A tagged file as far as it has been read.
struct Reader<'a> {
    file: &'a [u8],
    /// Where the field that is looked at begins.
    at: usize,
    field: String,
}

/// The payload's length that a tag has.
fn length_of(tag: u8) -> usize {
    match tag {
        1 | 2 => 12,
        3 => 8,
        4 | 6 => 4,
        _ => 0,
    }
}

/// Tags that are due, with their lengths.
fn due_words(due: &[u8]) -> String {
    let words: Vec<String> = due.iter().map(|&tag| format!("{tag:02x} of length {}", length_of(tag))).collect();
    words.join(" or ")
}

impl<'a> Reader<'a> {
    fn fault(&self, refusal: Refusal, why: String) -> Place {
        Place { refusal, line: None, byte: Some(self.at), field: self.field.clone(), why }
    }

    /// That fewer bytes are left than are due.
    fn short(&self, due: usize, what: &str) -> Place {
        let left = count(self.file.len() - self.at, "byte");
        self.fault(Refusal::MissingBytes, format!("{left} left, and {what} has {due}"))
    }

    /// The tag and the numbers of the field that is next, one of these tags being due.
    fn next(&mut self, field: String, due: &[u8]) -> Result<(u8, Vec<u32>), Place> {
        self.field = field;
        let [tag, high, low, ..] = self.file[self.at..] else {
            return Err(self.short(3, "the head of a field"));
        };
        let length = 256 * usize::from(high) + usize::from(low);
        if !due.contains(&tag) || length != length_of(tag) {
            let why = format!("tag {tag:02x} of length {length} stands there, and {} is due", due_words(due));
            return Err(self.fault(Refusal::WrongField, why));
        }
        let Some(payload) = self.file.get(self.at + 3..self.at + 3 + length) else {
            return Err(self.short(3 + length, "the field"));
        };
        let four = |four: &[u8]| four.iter().fold(0, |sum, &byte| sum << 8 | u32::from(byte));
        Ok((tag, payload.chunks(4).map(four).collect()))
    }

    /// Goes past a field that was accepted.
    fn pass(&mut self, numbers: &[u32]) {
        self.at += 3 + 4 * numbers.len();
    }

    fn node(&mut self, at: u32, inputs: u32, nodes: u32) -> Result<(), Place> {
        let (_, words) = self.next(format!("node {at} of {nodes}"), &[2, 3])?;
        let highest = inputs + at - 1;
        if let Some(word) = words.iter().position(|literal| literal / 2 > highest) {
            let why = too_high(words[word], &format!("word {} of node {}", word + 1, highest + 1), highest);
            return Err(self.fault(Refusal::BadLiteral, why));
        }
        self.pass(&words);
        Ok(())
    }

    fn output(&mut self, at: u32, outputs: u32, highest: u32) -> Result<(), Place> {
        let (_, words) = self.next(format!("output {at} of {outputs}"), &[4])?;
        if words[0] / 2 > highest {
            return Err(self.fault(Refusal::BadLiteral, too_high(words[0], "it", highest)));
        }
        self.pass(&words);
        Ok(())
    }

    /// The locks and the end field.
    fn locks(&mut self, inputs: u32, nodes: u32) -> Result<(), Place> {
        let mut last = None;
        loop {
            let (tag, words) = self.next("a lock or the end".into(), &[6, 5])?;
            if tag == 5 {
                self.pass(&words);
                return Ok(());
            }
            if let Some(why) = no_lock(words[0], last, inputs, nodes) {
                self.field = "a lock".into();
                return Err(self.fault(Refusal::BadLock, why));
            }
            last = Some(words[0]);
            self.pass(&words);
        }
    }

    /// The numbers of the head. What is a file of another kind says what to run first.
    fn head(&mut self) -> Result<Vec<u32>, Place> {
        self.next("the head".into(), &[1]).map(|(_, numbers)| numbers).map_err(|place| match looks_like(self.file) {
            Some(why) if place.refusal == Refusal::WrongField => Place { why, ..place },
            _ => place,
        })
    }

    fn walk(&mut self) -> Result<(), Place> {
        let head = self.head()?;
        let [inputs, nodes, outputs] = [head[0], head[1], head[2]];
        if let Some(why) = over_limit(inputs, nodes, outputs, "node") {
            return Err(self.fault(Refusal::OverLimit, why));
        }
        self.pass(&head);
        (1..=nodes).try_for_each(|at| self.node(at, inputs, nodes))?;
        (1..=outputs).try_for_each(|at| self.output(at, outputs, inputs + nodes))?;
        self.locks(inputs, nodes)?;
        match self.file.len() - self.at {
            0 => Ok(()),
            more => {
                self.field = "after the end field".into();
                Err(self.fault(Refusal::ExtraBytes, format!("{} more, and none is due", count(more, "byte"))))
            }
        }
    }
}

/// Why a lock may not be at this index after the last one.
fn no_lock(index: u32, last: Option<u32>, inputs: u32, nodes: u32) -> Option<String> {
    if index <= inputs || index - inputs > nodes {
        return Some(match nodes {
            0 => format!("it has index {index}, and there are no nodes"),
            _ => format!("it has index {index}, and nodes are {} to {}", inputs + 1, inputs + nodes),
        });
    }
    last.filter(|&last| index <= last).map(|last| format!("it has index {index} after {last}, and indices must rise"))
}

/// Where [`crate::Graph::load`] refuses a tagged file.
#[must_use]
pub fn of_file(file: &[u8]) -> Option<Place> {
    Reader { file, at: 0, field: String::new() }.walk().err()
}

/// Where [`crate::Graph::import`] refuses an AIGER text.
#[must_use]
pub fn of_text(text: &[u8]) -> Option<Place> {
    aiger::strict_place(text)
}

/// Where a file is refused that is an AIGER text if it begins with "aag", and else a tagged file.
#[must_use]
pub fn of(bytes: &[u8]) -> Option<Place> {
    match bytes.starts_with(b"aag") {
        true => of_text(bytes),
        false => of_file(bytes),
    }
}
