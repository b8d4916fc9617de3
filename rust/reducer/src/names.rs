//! Names of inputs and outputs, as the symbols of AIGER files give them.
//!
//! A tagged file has no place for names: they stand in a file beside it, which says by a sum over the tagged file's bytes which one it
//! belongs to. Names of another file are left out.

use crate::place::count;
use crate::Size;

/// The names of inputs and outputs that have one; both count from 1.
#[derive(Clone, Debug, Default, PartialEq, Eq, Hash)]
pub struct Names {
    inputs: Vec<Option<String>>,
    outputs: Vec<Option<String>>,
}

/// The most misfits that have a line each.
const MOST_TOLD: usize = 3;

/// What the first line of a file beside a tagged one is.
const HEAD: &str = "panjerov names 1";

/// A sum over bytes by which two files are told apart (FNV-1a).
fn sum_of(bytes: &[u8]) -> u64 {
    bytes.iter().fold(0xcbf2_9ce4_8422_2325, |sum, &byte| (sum ^ u64::from(byte)).wrapping_mul(0x0000_0100_0000_01b3))
}

/// Kind, number and name of a symbol's line; none where the line is no symbol's.
fn symbol(line: &[u8]) -> Option<(u8, Option<usize>, &[u8])> {
    let (&kind, rest) = line.split_first()?;
    let digits = rest.iter().take_while(|byte| byte.is_ascii_digit()).count();
    let (number, name) = rest.split_at(digits);
    if !b"ilobcjf".contains(&kind) || digits == 0 || !matches!(name.first(), None | Some(b' ')) {
        return None;
    }
    let number = std::str::from_utf8(number).ok().and_then(|number| number.parse().ok());
    Some((kind, number, name.get(1..).unwrap_or_default()))
}

/// Why a name is none that can be told.
fn no_name(name: &[u8]) -> Option<&'static str> {
    match std::str::from_utf8(name) {
        Err(_) => Some("it is not UTF-8"),
        Ok("") => Some("it is empty"),
        Ok(name) if name.chars().any(char::is_control) => Some("it has control characters"),
        Ok(_) => None,
    }
}

impl Names {
    /// No names, with room for those of so many inputs and outputs.
    #[must_use]
    pub fn none(inputs: u32, outputs: u32) -> Names {
        Names { inputs: vec![None; inputs as usize], outputs: vec![None; outputs as usize] }
    }

    /// The names that lines of symbols give (`i0 x[0]`, `o2 sum[2]`), counted from 0 there, up to the first line that is none; and a line
    /// for each that does not fit, which is left out.
    #[must_use]
    pub fn of_symbols(text: &[u8], inputs: u32, outputs: u32) -> (Names, Vec<String>) {
        let mut names = Names::none(inputs, outputs);
        let mut misfits = Vec::new();
        for line in text.split(|&byte| byte == b'\n') {
            let line = line.strip_suffix(b"\r").unwrap_or(line);
            let Some((kind, number, name)) = symbol(line) else { break };
            if let Err(why) = names.put(kind, number, name) {
                misfits.push((line, why));
            }
        }
        (names, told(&misfits))
    }

    fn put(&mut self, kind: u8, number: Option<usize>, name: &[u8]) -> Result<(), String> {
        let (places, what) = match kind {
            b'i' => (&mut self.inputs, "input"),
            b'o' => (&mut self.outputs, "output"),
            _ => return Err("only inputs and outputs have names here".into()),
        };
        let many = places.len();
        let Some((number, place)) = number.and_then(|number| Some((number, places.get_mut(number)?))) else {
            return Err(format!("there {} {}", if many == 1 { "is" } else { "are" }, count(many, what)));
        };
        if let Some(why) = no_name(name) {
            return Err(why.into());
        }
        if let Some(other) = place {
            return Err(format!("{what} {} is {other} already", number + 1));
        }
        *place = Some(String::from_utf8_lossy(name).into_owned());
        Ok(())
    }

    /// Whether nothing has a name.
    #[must_use]
    pub fn is_empty(&self) -> bool {
        self.len() == 0
    }

    /// How many inputs and outputs have a name.
    #[must_use]
    pub fn len(&self) -> usize {
        self.inputs.iter().chain(&self.outputs).flatten().count()
    }

    /// The name of an input, counted from 1.
    #[must_use]
    pub fn input(&self, at: u32) -> Option<&str> {
        self.inputs.get((at as usize).checked_sub(1)?)?.as_deref()
    }

    /// The name of an output, counted from 1.
    #[must_use]
    pub fn output(&self, at: u32) -> Option<&str> {
        self.outputs.get((at as usize).checked_sub(1)?)?.as_deref()
    }

    /// The first output of this name, counted from 1.
    #[must_use]
    pub fn output_named(&self, name: &str) -> Option<u32> {
        let place = self.outputs.iter().position(|own| own.as_deref() == Some(name));
        place.map(|place| place as u32 + 1)
    }

    /// The names of graphs joined: the inputs' of the first and the outputs' of the last.
    #[must_use]
    pub fn joined(self, last: Names) -> Names {
        Names { inputs: self.inputs, outputs: last.outputs }
    }

    /// A line for each name, as symbols of an AIGER file.
    #[must_use]
    pub fn symbols(&self) -> String {
        let of = |kind: char, names: &[Option<String>]| {
            let named = names.iter().enumerate().filter_map(|(at, name)| Some((at, name.as_ref()?)));
            named.map(|(at, name)| format!("{kind}{at} {name}\n")).collect::<String>()
        };
        of('i', &self.inputs) + &of('o', &self.outputs)
    }

    /// The text of the file beside a tagged file with these bytes.
    #[must_use]
    pub fn beside(&self, file: &[u8]) -> String {
        format!("{HEAD}\nfile {:016x}\n{}", sum_of(file), self.symbols())
    }

    /// The names in the file beside a tagged one that holds a graph of this size; and lines for what does not fit.
    #[must_use]
    pub fn of_beside(text: &[u8], file: &[u8], size: Size) -> (Names, Vec<String>) {
        let none = |why: &str| (Names::none(size.inputs, size.outputs), vec![why.into()]);
        let head = format!("{HEAD}\nfile ");
        let Some(rest) = text.strip_prefix(head.as_bytes()) else {
            return none("it does not begin as a file of names does, and is left out");
        };
        match rest.strip_prefix(format!("{:016x}\n", sum_of(file)).as_bytes()) {
            Some(symbols) => Names::of_symbols(symbols, size.inputs, size.outputs),
            None => none("its names are those of another graph, and are left out"),
        }
    }

    /// Whether a text begins as that of a file beside a tagged one.
    #[must_use]
    pub fn is_beside(text: &[u8]) -> bool {
        text.starts_with(HEAD.as_bytes())
    }
}

/// A line for each of the first misfits, and how many more there are.
fn told(misfits: &[(&[u8], String)]) -> Vec<String> {
    let line = |(symbol, why): &(&[u8], String)| {
        let more = if symbol.len() > 40 { "..." } else { "" };
        format!("the name {}{more} is left out: {why}", symbol[..symbol.len().min(40)].escape_ascii())
    };
    let mut lines: Vec<String> = misfits.iter().take(MOST_TOLD).map(line).collect();
    if misfits.len() > MOST_TOLD {
        lines.push(format!("so are {}", count(misfits.len() - MOST_TOLD, "further name")));
    }
    lines
}
