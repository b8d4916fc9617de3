//! What a file looks like that is neither a tagged file nor AIGER, and what to run first.

/// What makes AIGER of Verilog.
const VERILOG: &str = "it looks like Verilog, of which yosys makes AIGER: \
                       yosys -p \"read_verilog FILE.v; synth -auto-top -flatten; aigmap; opt_clean; write_aiger -symbols NEW.aig\"";
/// What makes AIGER of BLIF.
const BLIF: &str = "it looks like BLIF, of which berkeley-abc makes AIGER: \
                    berkeley-abc -c \"read_blif FILE.blif; strash; write_aiger -s NEW.aig\"";

/// What makes AIGER of abc's compact form.
const COMPACT: &str = "it is AIGER in the compact form of berkeley-abc alone, of which that makes AIGER: \
                       berkeley-abc -c \"read_aiger OLD.aig; write_aiger -s NEW.aig\"";

/// The programs that unpack what begins so.
const PACKED: [(&[u8], &str); 5] = [
    (b"\x1f\x8b", "gunzip"),
    (b"BZh", "bunzip2"),
    (b"\xfd7zXZ", "unxz"),
    (b"\x28\xb5\x2f\xfd", "unzstd"),
    (b"PK\x03\x04", "unzip"),
];

/// The first word of a text, past blank lines and comments of these beginnings.
fn first_word<'a>(text: &'a str, comments: &[&str]) -> &'a str {
    let lines = text.lines().map(str::trim_start);
    let mut said = lines.filter(|line| !line.is_empty() && !comments.iter().any(|begin| line.starts_with(begin)));
    let line = said.next().unwrap_or_default();
    line.split(|sign: char| !sign.is_ascii_alphanumeric() && !".`_".contains(sign)).next().unwrap_or_default()
}

/// What bytes are that are neither a tagged file nor AIGER that is read here, and what to run first: Verilog, BLIF, the compact form of abc, or
/// what is compressed. None where they are nothing known.
#[must_use]
pub fn looks_like(bytes: &[u8]) -> Option<String> {
    if let Some((_, program)) = PACKED.iter().find(|(begin, _)| bytes.starts_with(begin)) {
        return Some(format!("it is compressed: unpack it by {program} first"));
    }
    if bytes.starts_with(b"aig2 ") {
        return Some(COMPACT.into());
    }
    let text = String::from_utf8_lossy(&bytes[..bytes.len().min(4_096)]);
    if [".model", ".inputs", ".names"].contains(&first_word(&text, &["#"])) {
        return Some(BLIF.into());
    }
    let verilog = first_word(&text, &["//", "/*", "*", "(*"]);
    let begins = ["module", "`timescale", "`default_nettype", "`include", "`define"];
    begins.contains(&verilog).then(|| VERILOG.into())
}

#[cfg(test)]
mod tests {
    use super::*;

    #[test]
    fn what_files_look_like() {
        let told = |bytes: &[u8]| looks_like(bytes).unwrap_or_default();
        for verilog in
            ["module adder;", "// an adder\n\nmodule adder (a);", "/* two\n * lines */\n`timescale 1ns/1ps\n"]
        {
            assert_eq!(told(verilog.as_bytes()), VERILOG, "{verilog}");
        }
        for blif in [".model adder\n", "# made by hand\n\n.inputs a b\n"] {
            assert_eq!(told(blif.as_bytes()), BLIF, "{blif}");
        }
        assert_eq!(told(b"\x1f\x8b\x08\x00"), "it is compressed: unpack it by gunzip first");
        assert_eq!(told(b"\xfd7zXZ\x00"), "it is compressed: unpack it by unxz first");
        assert_eq!(told(b"aig2 7 3 0 3 4\n"), COMPACT);
        assert_eq!((looks_like(b"modules"), looks_like(b"\x02\x00"), looks_like(b"")), (None, None, None));
    }
}
