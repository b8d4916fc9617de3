//! A graph as Verilog: one assignment a node and one an output.

use std::collections::HashSet;

use crate::place::count;
use crate::{Graph, Names, Node, Refusal};

/// Words that cannot name anything by themselves.
const KEYWORDS: &str = " always and assign attribute automatic begin bit buf bufif0 bufif1 byte case casex casez cell chandle class \
     clocking cmos config const constraint context continue cover covergroup cross deassign default defparam design disable dist do edge \
     else end endcase endclass endclocking endconfig endfunction endgenerate endgroup endinterface endmodule endpackage endprimitive \
     endprogram endproperty endsequence endspecify endtable endtask enum event expect export extends extern final first_match for force \
     foreach forever fork forkjoin function generate genvar highz0 highz1 if iff ifnone ignore_bins illegal_bins import incdir include \
     initial inout input inside instance int integer interface intersect join join_any join_none large liblist library local localparam \
     logic longint macromodule matches medium modport module nand negedge new nmos nor noshowcancelled not notif0 notif1 null or output \
     package packed parameter pmos posedge primitive priority program property protected pull0 pull1 pulldown pullup pure rand randc \
     randcase randsequence rcmos real realtime ref reg release repeat return rnmos rpmos rtran rtranif0 rtranif1 scalared sequence \
     shortint shortreal showcancelled signed small solve specify specparam static string strong0 strong1 struct super supply0 supply1 \
     table tagged task this throughout time timeprecision timeunit tran tranif0 tranif1 tri tri0 tri1 triand trior trireg type typedef \
     union unique unsigned use var vectored virtual void wait wait_order wand weak0 weak1 while wildcard wire with within wor xnor xor ";

/// Whether a text is an identifier as it stands.
#[must_use]
pub fn is_plain(name: &str) -> bool {
    let first = name.starts_with(|sign: char| sign.is_ascii_alphabetic() || sign == '_');
    let rest = name.chars().all(|sign| sign.is_ascii_alphanumeric() || sign == '_' || sign == '$');
    first && rest && !KEYWORDS.contains(&format!(" {name} "))
}

/// A name as Verilog takes it, escaped where it must be; none where it cannot be one.
fn identifier(name: &str) -> Option<String> {
    match is_plain(name) {
        true => Some(name.into()),
        // An escaped name goes to the next space.
        false => (!name.is_empty() && name.chars().all(|sign| sign.is_ascii_graphic())).then(|| format!("\\{name} ")),
    }
}

/// How inputs, nodes and outputs are called.
struct Called {
    inputs: Vec<String>,
    nodes: Vec<String>,
    outputs: Vec<String>,
    /// How many names could not be kept.
    lost: usize,
}

impl Called {
    fn of(graph: &Graph, names: &Names) -> Called {
        let size = graph.size;
        let mut taken = HashSet::new();
        let mut lost = 0;
        let mut keep = |name: Option<&str>| {
            let kept = name
                .and_then(identifier)
                .filter(|own| taken.insert(own.trim_end().trim_start_matches('\\').to_string()));
            lost += usize::from(name.is_some() && kept.is_none());
            kept
        };
        let inputs: Vec<Option<String>> = (1..=size.inputs).map(|at| keep(names.input(at))).collect();
        let outputs: Vec<Option<String>> = (1..=size.outputs).map(|at| keep(names.output(at))).collect();
        // What has no name is called by its number, with a mark where that is a name already.
        let free = |kind: char, at: usize| {
            let mut own = format!("{kind}{at}");
            while taken.contains(&own) {
                own.push('_');
            }
            own
        };
        let called = |kind: char, names: Vec<Option<String>>| {
            names.into_iter().zip(1..).map(|(name, at)| name.unwrap_or_else(|| free(kind, at))).collect()
        };
        let first = size.inputs as usize + 1;
        let nodes = (first..first + size.nodes as usize).map(|at| free('n', at)).collect();
        Called { inputs: called('i', inputs), nodes, outputs: called('o', outputs), lost }
    }

    fn literal(&self, literal: u32) -> String {
        let not = if literal % 2 == 1 { "~" } else { "" };
        match literal as usize / 2 {
            0 => format!("1'b{}", literal % 2),
            index if index <= self.inputs.len() => format!("{not}{}", self.inputs[index - 1]),
            index => format!("{not}{}", self.nodes[index - self.inputs.len() - 1]),
        }
    }
}

/// The module of a graph, and a line where names could not be kept: a majority is `(a & b) | (a & c) | (b & c)`, an XOR `a ^ b`. Names that
/// are no plain identifiers are escaped; inputs, outputs and nodes without a name are `i1`, `o1` and `n7` by their numbers.
pub fn of(graph: &Graph, names: &Names, module: &str) -> Result<(String, Option<String>), Refusal> {
    let called = Called::of(graph, names);
    let module = identifier(module).unwrap_or_else(|| "graph".into());
    let ports: Vec<String> = [("input", &called.inputs), ("output", &called.outputs)]
        .into_iter()
        .flat_map(|(kind, names)| names.iter().map(move |name| format!("    {kind} {name}")))
        .collect();
    let mut text = format!("module {module} (\n{}\n);\n", ports.join(",\n"));
    called.nodes.iter().for_each(|name| text += &format!("    wire {name};\n"));
    for ((_, node), name) in graph.nodes()?.zip(&called.nodes) {
        let value = match node {
            Node::Majority(words) => {
                let [a, b, c] = words.map(|literal| called.literal(literal));
                format!("({a} & {b}) | ({a} & {c}) | ({b} & {c})")
            }
            Node::Xor(words) => words.map(|literal| called.literal(literal)).join(" ^ "),
        };
        text += &format!("    assign {name} = {value};\n");
    }
    for (name, literal) in called.outputs.iter().zip(graph.output_literals()?) {
        text += &format!("    assign {name} = {};\n", called.literal(literal));
    }
    let lost = (called.lost != 0)
        .then(|| format!("{} cannot stand in Verilog, or twice, and are left out", count(called.lost, "name")));
    Ok((text + "endmodule\n", lost))
}
