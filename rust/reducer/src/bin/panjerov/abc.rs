//! Berkeley's abc, where it is installed: whether two graphs are equal, by proof.

use std::fs;
use std::io;
use std::path::{Path, PathBuf};
use std::process::{Command, Stdio};

use reducer::{aiger, Graph};

/// What abc says.
pub enum Verdict {
    Equal,
    /// With an assignment, a bit an input.
    Different(Vec<bool>),
    Undecided,
}

impl Verdict {
    pub fn name(&self) -> &'static str {
        match self {
            Verdict::Equal => "equal",
            Verdict::Different(_) => "different",
            Verdict::Undecided => "undecided",
        }
    }
}

/// A folder of its own, which goes when this does.
struct Folder(PathBuf);

impl Folder {
    fn new() -> io::Result<Folder> {
        let path = std::env::temp_dir().join(format!("panjerov-{}", std::process::id()));
        fs::create_dir(&path)?;
        Ok(Folder(path))
    }
}

impl Drop for Folder {
    fn drop(&mut self) {
        let _ = fs::remove_dir_all(&self.0);
    }
}

/// Writes a graph as the binary AIGER that abc reads.
fn write(graph: &Graph, path: &Path) -> Result<(), String> {
    let text = graph.export().map_err(|refusal| refusal.to_string())?;
    let bytes = aiger::binary(&text).map_err(|place| place.to_string())?;
    fs::write(path, bytes).map_err(|error| format!("cannot write {}: {error}", path.display()))
}

/// What it prints, run in a folder by one of its names.
fn printed(folder: &Path) -> Result<String, String> {
    for program in ["berkeley-abc", "abc"] {
        let mut command = Command::new(program);
        command.current_dir(folder).args(["-c", "cec -n first.aig second.aig"]).stdin(Stdio::null());
        match command.output() {
            Ok(output) => return Ok(String::from_utf8_lossy(&output.stdout).into_owned()),
            Err(error) if error.kind() == io::ErrorKind::NotFound => {}
            Err(error) => return Err(format!("cannot run {program}: {error}")),
        }
    }
    Err("abc is not there: no program berkeley-abc or abc was found; it comes with the package berkeley-abc".into())
}

/// The input that a part such as pi7=1 or pi007=1 says is 1, counted from 0.
fn input_set(part: &str) -> Option<usize> {
    part.strip_prefix("pi")?.strip_suffix("=1")?.parse().ok()
}

/// The assignment that it prints; inputs that it leaves out are 0.
fn assignment(text: &str, inputs: u32) -> Vec<bool> {
    let pattern = text.lines().find_map(|line| line.strip_prefix("Input pattern:")).unwrap_or_default();
    let mut bits = vec![false; inputs as usize];
    for at in pattern.split_whitespace().filter_map(input_set) {
        bits.get_mut(at).into_iter().for_each(|bit| *bit = true);
    }
    bits
}

fn verdict(text: &str, inputs: u32) -> Verdict {
    if text.contains("Networks are NOT EQUIVALENT") {
        return Verdict::Different(assignment(text, inputs));
    }
    if text.contains("Networks are equivalent") {
        return Verdict::Equal;
    }
    Verdict::Undecided
}

pub fn equal(graphs: [&Graph; 2]) -> Result<Verdict, String> {
    let folder = Folder::new().map_err(|error| format!("cannot make a folder for abc: {error}"))?;
    write(graphs[0], &folder.0.join("first.aig"))?;
    write(graphs[1], &folder.0.join("second.aig"))?;
    Ok(verdict(&printed(&folder.0)?, graphs[0].size.inputs))
}

#[cfg(test)]
mod tests {
    use super::*;

    #[test]
    fn what_abc_prints() {
        let different = "Networks are NOT EQUIVALENT.  Time =     0.01 sec\nInput pattern:  pi00=1 pi01=0 pi10=1\n";
        let Verdict::Different(inputs) = verdict(different, 11) else { panic!("it is different") };
        let ones: Vec<usize> = (0..11).filter(|&at| inputs[at]).collect();
        assert_eq!(ones, [0, 10]);
        assert_eq!(verdict("Networks are equivalent after structural hashing.", 2).name(), "equal");
        assert_eq!(verdict("Networks are UNDECIDED.", 2).name(), "undecided");
    }
}
