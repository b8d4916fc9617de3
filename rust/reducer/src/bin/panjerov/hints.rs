//! What is said of a file that is refused: what it looks like, and what to run first.

use crate::files::Input;
use reducer::Refused;

/// What makes AIGER of Verilog.
const VERILOG: &str = "it looks like Verilog, of which yosys makes AIGER: \
                       yosys -p \"read_verilog FILE.v; synth -auto-top -flatten; aigmap; opt_clean; write_aiger -symbols NEW.aig\"";
/// What makes AIGER of BLIF.
const BLIF: &str = "it looks like BLIF, of which berkeley-abc makes AIGER: \
                    berkeley-abc -c \"read_blif FILE.blif; strash; write_aiger -s NEW.aig\"";

/// The programs that unpack what begins so.
const PACKED: [(&[u8], &str); 5] = [
    (b"\x1f\x8b", "gunzip"),
    (b"BZh", "bunzip2"),
    (b"\xfd7zXZ", "unxz"),
    (b"\x28\xb5\x2f\xfd", "unzstd"),
    (b"PK\x03\x04", "unzip"),
];

/// The first word of a text, past blank lines and comments of these beginnings.
fn first_word<'a>(text: &'a str, comments: &[&str]) -> &'a str {
    let lines = text.lines().map(str::trim_start);
    let mut said = lines.filter(|line| !line.is_empty() && !comments.iter().any(|begin| line.starts_with(begin)));
    let line = said.next().unwrap_or_default();
    line.split(|sign: char| !sign.is_ascii_alphanumeric() && !".`_".contains(sign)).next().unwrap_or_default()
}

/// What bytes look like that are neither a tagged file nor AIGER.
fn looks(bytes: &[u8]) -> String {
    if let Some((_, program)) = PACKED.iter().find(|(begin, _)| bytes.starts_with(begin)) {
        return format!("it is compressed: unpack it by {program} first");
    }
    let text = String::from_utf8_lossy(&bytes[..bytes.len().min(4_096)]);
    if [".model", ".inputs", ".names"].contains(&first_word(&text, &["#"])) {
        return BLIF.into();
    }
    let verilog = first_word(&text, &["//", "/*", "*", "(*"]);
    if ["module", "`timescale", "`default_nettype", "`include", "`define"].contains(&verilog) {
        return VERILOG.into();
    }
    "neither a tagged file nor AIGER begins so".into()
}

/// What refuses a file, where, and what the file looks like.
pub fn refused(input: &Input, refused: &Refused) -> String {
    let (name, refusal) = (&input.name, refused.refusal);
    match input.bytes.first() {
        None => format!("{name}: {refusal}; it is empty"),
        Some(1 | b'a') => format!("{name}: {refused}"),
        Some(_) => format!("{name}: {refusal}; {}", looks(&input.bytes)),
    }
}

#[cfg(test)]
mod tests {
    use super::*;

    #[test]
    fn what_files_look_like() {
        for verilog in
            ["module adder;", "// an adder\n\nmodule adder (a);", "/* two\n * lines */\n`timescale 1ns/1ps\n"]
        {
            assert_eq!(looks(verilog.as_bytes()), VERILOG, "{verilog}");
        }
        for blif in [".model adder\n", "# made by hand\n\n.inputs a b\n"] {
            assert_eq!(looks(blif.as_bytes()), BLIF, "{blif}");
        }
        assert_eq!(looks(b"\x1f\x8b\x08\x00"), "it is compressed: unpack it by gunzip first");
        assert_eq!(looks(b"\xfd7zXZ\x00"), "it is compressed: unpack it by unxz first");
        assert_eq!(looks(b"modules"), "neither a tagged file nor AIGER begins so");
        assert_eq!(looks(b"\x02\x00"), "neither a tagged file nor AIGER begins so");
    }
}
