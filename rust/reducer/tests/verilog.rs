//! Graphs as Verilog.

use std::process::Command;

use reducer::{verilog, Graph, Names, Refusal, MARK};

/// A majority and an XOR that reads it.
fn mixed() -> Graph {
    Graph::new(3, vec![3, 4, 7, 8, 1, MARK, 0, 9, 10], vec![11, 12, 1, 2])
}

#[test]
fn one_assignment_a_node() {
    let names = Names::of_symbols(b"i0 x[0]\ni1 wire\ni2 n4\no0 sum\no1 a b\no2 sum\n", 3, 4).0;
    let due = "module mixed (\n    input \\x[0] ,\n    input \\wire ,\n    input n4,\n    output sum,\n    output o2,\n    output o3,\n    \
               output o4\n);\n    wire n4_;\n    wire n5;\n    wire n6;\n    \
               assign n4_ = (~\\x[0]  & \\wire ) | (~\\x[0]  & ~n4) | (\\wire  & ~n4);\n    \
               assign n5 = n4_ ^ 1'b1;\n    \
               assign n6 = (1'b0 & ~n4_) | (1'b0 & n5) | (~n4_ & n5);\n    \
               assign sum = ~n5;\n    assign o2 = n6;\n    assign o3 = 1'b1;\n    assign o4 = \\x[0] ;\nendmodule\n";
    let lost = "2 names cannot stand in Verilog, or twice, and are left out";
    assert_eq!(verilog::of(&mixed(), &names, "mixed"), Ok((due.into(), Some(lost.into()))));
    let empty = verilog::of(&Graph::new(0, vec![], vec![]), &Names::default(), "a b").unwrap();
    assert_eq!(empty, ("module graph (\n\n);\nendmodule\n".into(), None));
    assert_eq!(verilog::of(&Graph::new(1, vec![], vec![9]), &Names::default(), "x"), Err(Refusal::BadLiteral));
}

/// yosys finds the Verilog equivalent to the AIGER text of the same graph.
#[test]
fn yosys_reads_it() {
    let folder = std::path::Path::new(env!("CARGO_TARGET_TMPDIR")).join("verilog");
    std::fs::create_dir_all(&folder).unwrap();
    let names = Names::of_symbols(b"i0 x[0]\ni1 wire\ni2 n4\no0 sum\no1 a\no2 b[2]\no3 c\n", 3, 4).0;
    let (text, lost) = verilog::of(&mixed(), &names, "mixed").unwrap();
    assert_eq!(lost, None);
    let aiger = [mixed().export().unwrap(), names.symbols().into_bytes()].concat();
    std::fs::write(folder.join("mixed.v"), &text).unwrap();
    std::fs::write(folder.join("wrong.v"), text.replace("assign sum = ~n5", "assign sum = n5")).unwrap();
    std::fs::write(folder.join("mixed.aag"), aiger).unwrap();
    let verdict = |file: &str| {
        let script = format!(
            "read_verilog {file}; prep; rename mixed gold; read_aiger -module_name gate mixed.aag; \
             miter -equiv -flatten -make_assert gold gate miter; sat -verify -prove-asserts miter"
        );
        Command::new("yosys")
            .args(["-q", "-p", &script])
            .current_dir(&folder)
            .output()
            .map(|output| output.status.success())
    };
    match (verdict("mixed.v"), verdict("wrong.v")) {
        (Ok(same), Ok(wrong)) => assert_eq!((same, wrong), (true, false)),
        _ => eprintln!("yosys is not there: passed over"),
    }
}
