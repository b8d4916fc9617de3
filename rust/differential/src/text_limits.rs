//! Texts at the limits: as many inputs, outputs and gates as there may be, and one more.

use crate::texts::{check_text, TextCase};
use reference::packed::Lengths;

/// A text of so many inputs, outputs and gates, and a gate line that is not due after it.
fn text(inputs: u32, outputs: u32, gates: u32) -> Vec<u8> {
    let last = inputs + gates;
    let mut lines = vec![format!("aag {last} {inputs} 0 {outputs} {gates}")];
    lines.extend((1..=inputs).map(|input| (2 * input).to_string()));
    lines.extend((0..outputs).map(|output| (2 * (output % (last + 1))).to_string()));
    lines.extend((inputs + 1..=last + 1).map(|gate| format!("{} {} {}", 2 * gate, 2 * gate - 1, gate - 1)));
    (lines.join("\n") + "\n").into_bytes()
}

/// How many bytes are due: up to the last newline but one.
fn due(text: &[u8]) -> usize {
    text[..text.len() - 1].iter().rposition(|&byte| byte == b'\n').map_or(0, |at| at + 1)
}

/// Whole, with each slice a word or a byte too short, and cut within the last due line.
fn check_limit(inputs: u32, outputs: u32, gates: u32) -> Result<u64, String> {
    let text = text(inputs, outputs, gates);
    let due = due(&text);
    let (nodes, outs) = (gates as usize, outputs as usize);
    let enough = Lengths::of(nodes, outs);
    let less = |length: usize| length.saturating_sub(1);
    let cases = [
        (&text[..], enough),
        (&text, Lengths::of(nodes + 1, outs + 64)),
        (&text[..due], enough),
        (&text[..due - 1], enough),
        (&text, Lengths { node_words: less(enough.node_words), ..enough }),
        (&text, Lengths { node_bits: less(enough.node_bits), ..enough }),
        (&text, Lengths { output_words: less(enough.output_words), ..enough }),
        (&text, Lengths { output_bits: less(enough.output_bits), ..enough }),
        (&text, Lengths { lock_bytes: less(enough.lock_bytes), ..enough }),
    ];
    for (text, lengths) in cases {
        check_text(&TextCase { text: text.to_vec(), lengths })
            .map_err(|wrong| format!("{inputs} inputs, {outputs} outputs, {gates} gates: {wrong}"))?;
    }
    Ok(cases.len() as u64)
}

pub fn check_limits() -> Result<u64, String> {
    let mut done = 0;
    for inputs in [0, 4_096, 4_097] {
        for outputs in [0, 4_096, 4_097] {
            for gates in [0, 100_000, 100_001] {
                done += check_limit(inputs, outputs, gates)?;
            }
        }
    }
    Ok(done)
}
