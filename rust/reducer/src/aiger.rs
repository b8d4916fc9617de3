//! AIGER as tools write it: the binary format, and texts whose layout or numbering [`crate::Graph::import`] does not take, made the
//! plain ASCII text that it takes; and plain text made binary.
//!
//! What only the layout makes hard is put right and told: carriage returns, a missing last newline, headers of AIGER 1.9 whose further
//! counts are 0, numbers with gaps or in another order. Inputs keep the order of the file.

use std::collections::HashMap;
use std::fmt;

use crate::names::Names;
use crate::place::{over_limit, too_high, Place};
use crate::Refusal;

/// An AIGER file as plain text.
#[derive(Clone, Debug, PartialEq, Eq)]
#[non_exhaustive]
pub struct Plain {
    /// The ASCII text up to its last gate, as [`crate::Graph::import`] takes it.
    pub text: Vec<u8>,
    /// The names that its symbols give to inputs and outputs.
    pub names: Names,
    /// What was put right or left out on the way, a line each.
    pub told: Vec<String>,
}

/// What is due, counted from 1 of so many.
#[derive(Clone, Copy)]
enum Due {
    Header,
    Input(u32, u32),
    Output(u32, u32),
    Gate(u32, u32),
}

impl fmt::Display for Due {
    fn fmt(&self, f: &mut fmt::Formatter<'_>) -> fmt::Result {
        match self {
            Due::Header => write!(f, "the header"),
            Due::Input(at, of) => write!(f, "input {at} of {of}"),
            Due::Output(at, of) => write!(f, "output {at} of {of}"),
            Due::Gate(at, of) => write!(f, "gate {at} of {of}"),
        }
    }
}

/// The counts of a header.
#[derive(Clone, Copy, Default)]
struct Header {
    last: u32,
    inputs: u32,
    outputs: u32,
    gates: u32,
}

/// A circuit in the literals of its file.
#[derive(Default)]
struct Circuit {
    header: Header,
    inputs: Vec<u32>,
    outputs: Vec<u32>,
    /// A gate's own literal and the two that it reads.
    gates: Vec<[u32; 3]>,
}

/// What was put right on the way.
#[derive(Clone, Copy, Default)]
struct Mended {
    returns: bool,
    unended: bool,
    counts: bool,
    numbers: bool,
}

struct Reader<'a> {
    bytes: &'a [u8],
    at: usize,
    line: usize,
    due: Due,
    mended: Mended,
    /// Where the proved import, which puts nothing right, refuses the text.
    strict: Option<Place>,
    /// Whether the limits of a graph hold; an exported text may have more gates.
    limited: bool,
}

fn number(word: &[u8]) -> Option<u32> {
    match word {
        [b'0'] => Some(0),
        [b'1'..=b'9', ..] => std::str::from_utf8(word).ok()?.parse().ok(),
        _ => None,
    }
}

/// The front of a line, in quotes.
fn shown(line: &[u8]) -> String {
    let more = if line.len() > 40 { "..." } else { "" };
    format!("\"{}\"{more}", line[..line.len().min(40)].escape_ascii())
}

impl<'a> Reader<'a> {
    fn new(bytes: &'a [u8]) -> Reader<'a> {
        let (due, mended) = (Due::Header, Mended::default());
        Reader { bytes, at: 0, line: 0, due, mended, strict: None, limited: true }
    }

    /// Of a text that [`crate::Graph::export`] gave: four ANDs a node may be more gates than a graph may have nodes.
    fn of_export(text: &'a [u8]) -> Reader<'a> {
        Reader { limited: false, ..Reader::new(text) }
    }

    fn fault(&self, refusal: Refusal, why: String) -> Place {
        Place { refusal, line: Some(self.line), byte: None, field: self.due.to_string(), why }
    }

    /// Notes what the proved import refuses here and this reader does not.
    fn mends(&mut self, refusal: Refusal, why: impl FnOnce() -> String) {
        if self.strict.is_none() {
            self.strict = Some(self.fault(refusal, why()));
        }
    }

    /// The next line, without its end.
    fn next(&mut self, due: Due) -> Result<&'a [u8], Place> {
        self.due = due;
        self.line += 1;
        let rest = &self.bytes[self.at..];
        if rest.is_empty() {
            return Err(self.fault(Refusal::BadText, "the text ends before it".into()));
        }
        let end = rest.iter().position(|&byte| byte == b'\n');
        self.at += end.map_or(rest.len(), |end| end + 1);
        let line = &rest[..end.unwrap_or(rest.len())];
        if end.is_none() {
            self.mended.unended = true;
            self.mends(Refusal::BadText, || format!("{}, and no newline ends it", shown(line)));
        }
        match line.strip_suffix(b"\r") {
            Some(line) => {
                self.mended.returns = true;
                self.mends(Refusal::BadText, || format!("{}, and a carriage return ends it", shown(line)));
                Ok(line)
            }
            None => Ok(line),
        }
    }

    /// That a line is not what is due.
    fn not_due(&self, due: &str, line: &[u8]) -> Place {
        let ends =
            if self.at == self.bytes.len() && !self.bytes.ends_with(b"\n") { ", where the text ends" } else { "" };
        self.fault(Refusal::BadText, format!("{due}, and {} stands there{ends}", shown(line)))
    }

    /// The numbers of the next line, so many.
    fn numbers<const MANY: usize>(&mut self, due: Due) -> Result<[u32; MANY], Place> {
        let line = self.next(due)?;
        let words: Option<Vec<u32>> = line.split(|&byte| byte == b' ').map(number).collect();
        let numbers = words.and_then(|words| words.try_into().ok());
        numbers.ok_or_else(|| self.not_due(if MANY == 1 { "one number is due" } else { "three numbers are due" }, line))
    }

    /// The counts that follow the first word, at least five, those past the fifth being 0.
    fn counts(&mut self, magic: &str) -> Result<[u32; 5], Place> {
        let line = self.next(Due::Header)?;
        let mut words = line.split(|&byte| byte == b' ');
        let first = words.next();
        let numbers: Option<Vec<u32>> = words.map(number).collect();
        let due = || format!("\"{magic}\" and five numbers are due");
        let numbers = numbers.filter(|numbers| first == Some(magic.as_bytes()) && (5..=9).contains(&numbers.len()));
        let numbers = numbers.ok_or_else(|| self.not_due(&due(), line))?;
        if numbers.len() > 5 {
            self.mended.counts = true;
            self.mends(Refusal::BadText, || format!("{}, and {} stands there", due(), shown(line)));
        }
        if numbers[5..].iter().any(|&many| many != 0) {
            let what = "bad states, constraints, justice and fairness, of which none can be read";
            return Err(self.fault(Refusal::BadText, format!("the counts after the fifth are of {what}")));
        }
        Ok([numbers[0], numbers[1], numbers[2], numbers[3], numbers[4]])
    }

    fn header(&mut self, magic: &str) -> Result<Header, Place> {
        let [last, inputs, latches, outputs, gates] = self.counts(magic)?;
        if latches != 0 {
            let ending = if latches == 1 { "" } else { "es" };
            let first = if magic == "aag" { BINARY_FIRST } else { "" };
            let why =
                format!("it says {latches} latch{ending}; make each an input and an output first, by {first}{COMB}");
            return Err(self.fault(Refusal::HasLatches, why));
        }
        let all = u64::from(inputs) + u64::from(gates);
        let both = || format!("M is {last}, and I + A is {all}");
        if u64::from(last) < all || (u64::from(last) > all && magic == "aig") {
            return Err(self.fault(Refusal::WrongNumbering, both()));
        }
        if u64::from(last) > all {
            self.mended.numbers = true;
            self.mends(Refusal::WrongNumbering, both);
        }
        if let Some(why) = over_limit(inputs, gates, outputs, "gate").filter(|_| self.limited) {
            return Err(self.fault(Refusal::OverLimit, why));
        }
        Ok(Header { last, inputs, outputs, gates })
    }

    /// A literal that is an input's or a gate's own: even, of an index from 1 to M, and `due` where nothing has gaps.
    fn own(&mut self, literal: u32, due: u32, header: &Header) -> Result<(), Place> {
        let both = || format!("literal {literal} stands there, and {due} is due");
        if literal % 2 == 1 || literal == 0 || literal / 2 > header.last {
            return Err(self.fault(Refusal::WrongNumbering, both()));
        }
        if literal != due {
            self.mended.numbers = true;
            self.mends(Refusal::WrongNumbering, both);
        }
        Ok(())
    }

    fn outputs(&mut self, header: &Header) -> Result<Vec<u32>, Place> {
        let mut outputs = Vec::new();
        for at in 1..=header.outputs {
            let [literal] = self.numbers(Due::Output(at, header.outputs))?;
            if literal / 2 > header.last {
                return Err(self.fault(Refusal::BadLiteral, too_high(literal, "it", header.last)));
            }
            outputs.push(literal);
        }
        Ok(outputs)
    }

    fn gate(&mut self, at: u32, header: &Header) -> Result<[u32; 3], Place> {
        let [own, x, y] = self.numbers(Due::Gate(at, header.gates))?;
        self.own(own, 2 * (header.inputs + at), header)?;
        for (word, literal) in [(1, x), (2, y)] {
            let why = || too_high(literal, &format!("its word {word}"), own / 2 - 1);
            if literal / 2 > header.last {
                return Err(self.fault(Refusal::BadLiteral, why()));
            }
            if literal / 2 >= own / 2 {
                self.mended.numbers = true;
                self.mends(Refusal::BadLiteral, why);
            }
        }
        Ok([own, x, y])
    }

    /// The circuit of an ASCII text.
    fn ascii(&mut self) -> Result<Circuit, Place> {
        let header = self.header("aag")?;
        let mut circuit = Circuit { header, ..Circuit::default() };
        for at in 1..=header.inputs {
            let [literal] = self.numbers(Due::Input(at, header.inputs))?;
            self.own(literal, 2 * at, &header)?;
            circuit.inputs.push(literal);
        }
        circuit.outputs = self.outputs(&header)?;
        for at in 1..=header.gates {
            let gate = self.gate(at, &header)?;
            circuit.gates.push(gate);
        }
        Ok(circuit)
    }

    /// A number of seven bits a byte, the lowest first; a byte from 128 on says that more follow.
    fn delta(&mut self) -> Result<u32, &'static str> {
        let mut sum = 0u64;
        for place in 0..5 {
            let byte = *self.bytes.get(self.at).ok_or("the file ends within it")?;
            self.at += 1;
            sum |= u64::from(byte & 127) << (7 * place);
            if byte < 128 {
                return u32::try_from(sum).map_err(|_| "it has a number of more than 32 bits");
            }
        }
        Err("it has a number of more than 32 bits")
    }

    /// The gate of this literal in the binary format, by how far its words lie below it.
    fn binary_gate(&mut self, at: u32, header: &Header) -> Result<[u32; 3], Place> {
        let (start, own) = (self.at, 2 * (header.inputs + at));
        let field = Due::Gate(at, header.gates).to_string();
        let fault = |refusal, why| Place { refusal, line: None, byte: Some(start), field, why };
        let deltas = self.delta().and_then(|first| Ok([first, self.delta()?]));
        let [first, second] = match deltas {
            Ok(deltas) => deltas,
            Err(why) => return Err(fault(Refusal::BadText, why.into())),
        };
        let x = own.checked_sub(first).filter(|x| *x < own);
        match x.and_then(|x| Some((x, x.checked_sub(second)?))) {
            Some((x, y)) => Ok([own, x, y]),
            None => {
                let why = format!(
                    "its words lie {first} and then {second} below its literal {own}, which is too far or not below"
                );
                Err(fault(Refusal::BadLiteral, why))
            }
        }
    }

    /// The circuit of a binary file.
    fn binary(&mut self) -> Result<Circuit, Place> {
        let header = self.header("aig")?;
        let outputs = self.outputs(&header)?;
        if self.mended.returns || self.mended.unended {
            let why =
                "its lines do not end in newlines alone, as after a transfer as text; a binary file must come as it is";
            return Err(self.fault(Refusal::BadText, why.into()));
        }
        let mut gates = Vec::new();
        for at in 1..=header.gates {
            gates.push(self.binary_gate(at, &header)?);
        }
        Ok(Circuit { header, inputs: (1..=header.inputs).map(|at| 2 * at).collect(), outputs, gates })
    }
}

/// What makes latches inputs and outputs; it reads the binary format alone.
const COMB: &str = "berkeley-abc -c \"read_aiger OLD.aig; comb; write_aiger NEW.aig\"";
const BINARY_FIRST: &str = "yosys -p \"read_aiger OLD.aag; write_aiger OLD.aig\" and ";

/// Gives each index that a circuit defines its number: inputs in their order, then gates, each after those that it reads.
struct Numbering {
    /// By index of the file: which input or gate defines it, inputs first, from 0.
    defined: HashMap<u32, usize>,
    /// By input or gate: its new index, and 0 as long as it has none.
    given: Vec<u32>,
    /// The gates in their new order.
    order: Vec<usize>,
}

impl Circuit {
    /// The place of an input or gate, as the text has its lines.
    fn place(&self, at: usize, refusal: Refusal, why: String) -> Place {
        let inputs = self.inputs.len();
        let (line, field) = match at.checked_sub(inputs) {
            None => (2 + at, Due::Input(at as u32 + 1, self.header.inputs)),
            Some(gate) => (2 + at + self.outputs.len(), Due::Gate(gate as u32 + 1, self.header.gates)),
        };
        Place { refusal, line: Some(line), byte: None, field: field.to_string(), why }
    }

    fn numbering(&self) -> Result<Numbering, Place> {
        let mut defined = HashMap::new();
        let own = self.inputs.iter().copied().chain(self.gates.iter().map(|gate| gate[0]));
        for (at, literal) in own.enumerate() {
            if defined.insert(literal / 2, at).is_some() {
                let why = format!("literal {literal} stands there, and an input or gate before has it already");
                return Err(self.place(at, Refusal::WrongNumbering, why));
            }
        }
        let inputs = self.inputs.len();
        let mut given: Vec<u32> = (1..=inputs as u32).collect();
        given.resize(inputs + self.gates.len(), 0);
        let mut numbering = Numbering { defined, given, order: Vec::new() };
        for gate in 0..self.gates.len() {
            numbering.number_from(self, gate)?;
        }
        Ok(numbering)
    }

    /// What defines a literal; none for the constant.
    fn read(&self, numbering: &Numbering, gate: usize, literal: u32) -> Result<Option<usize>, Place> {
        match (literal / 2, numbering.defined.get(&(literal / 2))) {
            (0, _) => Ok(None),
            (_, Some(&at)) => Ok(Some(at)),
            (index, None) => {
                let why = format!("literal {literal} names index {index}, which is neither an input's nor a gate's");
                Err(self.place(self.inputs.len() + gate, Refusal::BadLiteral, why))
            }
        }
    }
}

impl Numbering {
    /// Numbers a gate after all that it reads. Its words are gone through one by one, so that a long way down takes no stack.
    fn number_from(&mut self, circuit: &Circuit, gate: usize) -> Result<(), Place> {
        let inputs = circuit.inputs.len();
        let mut way = vec![(gate, 0)];
        // On the way, and not numbered yet, has the highest index that there is.
        while let Some((at, word)) = way.pop() {
            if word == 0 && self.given[inputs + at] != 0 {
                continue;
            }
            self.given[inputs + at] = u32::MAX;
            if word == 2 {
                self.order.push(at);
                self.given[inputs + at] = (inputs + self.order.len()) as u32;
                continue;
            }
            way.push((at, word + 1));
            let literal = circuit.gates[at][word + 1];
            match circuit
                .read(self, at, literal)?
                .filter(|below| self.given[*below] == 0 || self.given[*below] == u32::MAX)
            {
                Some(below) if self.given[below] == u32::MAX => {
                    let why = format!("literal {literal} leads back to the gate itself: there is a circle");
                    return Err(circuit.place(inputs + at, Refusal::BadLiteral, why));
                }
                Some(below) => way.push((below - inputs, 0)),
                None => {}
            }
        }
        Ok(())
    }

    /// A literal with its new index; none where nothing defines it.
    fn literal(&self, literal: u32) -> Option<u32> {
        match literal / 2 {
            0 => Some(literal),
            index => self.defined.get(&index).map(|&at| 2 * self.given[at] + literal % 2),
        }
    }
}

/// The plain text of a circuit, numbered anew.
fn numbered(circuit: &Circuit) -> Result<String, Place> {
    let numbering = circuit.numbering()?;
    let (inputs, gates) = (circuit.inputs.len(), circuit.gates.len());
    let mut text = format!("aag {} {inputs} 0 {} {gates}\n", inputs + gates, circuit.outputs.len());
    (1..=inputs).for_each(|at| text += &format!("{}\n", 2 * at));
    for (at, &literal) in circuit.outputs.iter().enumerate() {
        let Some(new) = numbering.literal(literal) else {
            let why =
                format!("literal {literal} names index {}, which is neither an input's nor a gate's", literal / 2);
            let field = Due::Output(at as u32 + 1, circuit.header.outputs).to_string();
            return Err(Place { refusal: Refusal::BadLiteral, line: Some(2 + inputs + at), byte: None, field, why });
        };
        text += &format!("{new}\n");
    }
    for &at in &numbering.order {
        let [own, x, y] = circuit.gates[at].map(|literal| numbering.literal(literal).unwrap_or(literal));
        text += &format!("{own} {x} {y}\n");
    }
    Ok(text)
}

impl Mended {
    fn told(self) -> Vec<String> {
        let all = [
            (self.returns, "its lines end in carriage returns, which are passed over"),
            (self.unended, "no newline ends its last line, which is taken all the same"),
            (self.counts, "its header is one of AIGER 1.9, whose further counts are all 0"),
            (self.numbers, "its numbers have gaps or another order: inputs are numbered in its order, then gates anew"),
        ];
        all.into_iter().filter(|(met, _)| *met).map(|(_, what)| what.into()).collect()
    }
}

/// Whether bytes begin as an AIGER file does, binary or ASCII.
#[must_use]
pub fn begins(bytes: &[u8]) -> bool {
    bytes.starts_with(b"aag") || is_binary(bytes)
}

/// Whether bytes begin as a binary AIGER file does.
#[must_use]
pub fn is_binary(bytes: &[u8]) -> bool {
    bytes.starts_with(b"aig ")
}

/// The plain text of an AIGER file, binary or ASCII, with its names and what was put right; or its first fault.
pub fn plain(bytes: &[u8]) -> Result<Plain, Place> {
    let mut reader = Reader::new(bytes);
    let binary = is_binary(bytes);
    let circuit = if binary { reader.binary()? } else { reader.ascii()? };
    let text = match binary || reader.strict.is_some() {
        true => numbered(&circuit)?.into_bytes(),
        false => bytes[..reader.at].to_vec(),
    };
    let (names, misfits) = Names::of_symbols(&bytes[reader.at..], circuit.header.inputs, circuit.header.outputs);
    let told = [reader.mended.told(), misfits].concat();
    Ok(Plain { text, names, told })
}

/// Where the proved import refuses a text.
pub(crate) fn strict_place(text: &[u8]) -> Option<Place> {
    let mut reader = Reader::new(text);
    let read = reader.ascii();
    reader.strict.or(read.err())
}

/// The binary form of a text that [`crate::Graph::import`] takes or [`crate::Graph::export`] gave, without what follows its last gate.
pub fn binary(text: &[u8]) -> Result<Vec<u8>, Place> {
    let mut reader = Reader::of_export(text);
    let Circuit { header, outputs, gates, .. } = reader.ascii()?;
    if let Some(place) = reader.strict {
        return Err(place);
    }
    let Header { last, inputs, outputs: many, gates: ands } = header;
    let mut bytes = format!("aig {last} {inputs} 0 {many} {ands}\n").into_bytes();
    outputs.iter().for_each(|literal| bytes.extend(format!("{literal}\n").into_bytes()));
    for [own, x, y] in gates {
        put_delta(&mut bytes, own - x.max(y));
        put_delta(&mut bytes, x.max(y) - x.min(y));
    }
    Ok(bytes)
}

fn put_delta(bytes: &mut Vec<u8>, mut number: u32) {
    while number >= 128 {
        bytes.push(number as u8 | 128);
        number >>= 7;
    }
    bytes.push(number as u8);
}

/// How many ANDs and complemented edges a text has that [`crate::Graph::import`] takes or [`crate::Graph::export`] gave.
pub fn counts(text: &[u8]) -> Result<(usize, usize), Place> {
    let circuit = Reader::of_export(text).ascii()?;
    let words = circuit.gates.iter().flat_map(|[_, x, y]| [*x, *y]).chain(circuit.outputs.iter().copied());
    Ok((circuit.gates.len(), words.filter(|literal| literal % 2 == 1).count()))
}
