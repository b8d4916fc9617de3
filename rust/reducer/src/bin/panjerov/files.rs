//! Reading what is there, and writing so that no half of a file is ever left.

use std::ffi::OsString;
use std::fs::{self, File, Metadata, OpenOptions, Permissions};
use std::io::{self, IsTerminal, Read, Write};
use std::os::unix::fs::{chown, MetadataExt, PermissionsExt};
use std::path::{Path, PathBuf};

use crate::progress::Progress;
use reducer::Names;

/// A file as it was read.
#[derive(Default)]
pub struct Input {
    pub name: String,
    pub bytes: Vec<u8>,
    /// What stands in the file of names beside it, if there is one.
    pub beside: Option<Vec<u8>>,
}

impl Input {
    /// Its name without the folders that it is in.
    pub fn title(&self) -> String {
        let last = Path::new(&self.name).file_name();
        last.map_or(self.name.clone(), |last| last.to_string_lossy().into_owned())
    }
}

/// How much is read. A tagged file or an AIGER text up to its last gate has less than a sixth; the rest is for names and comments.
const MOST_BYTES: u64 = 1 << 24;

fn read_from(from: impl Read, most: u64) -> io::Result<Vec<u8>> {
    let mut bytes = Vec::new();
    from.take(most).read_to_end(&mut bytes)?;
    Ok(bytes)
}

/// The graph's file of this name, or standard input, with the names beside it.
pub fn read(path: Option<&Path>) -> Result<Input, String> {
    let mut input = read_front(path, MOST_BYTES + 1)?;
    if input.bytes.len() as u64 > MOST_BYTES {
        // A line that is cut would be another.
        let end = input.bytes.iter().rposition(|&byte| byte == b'\n');
        input.bytes.truncate(end.map_or(MOST_BYTES as usize, |end| end + 1));
    }
    input.beside = path.and_then(|path| read_beside(&beside_of(path)));
    Ok(input)
}

/// The file of names beside another.
pub fn beside_of(path: &Path) -> PathBuf {
    let mut name = OsString::from(path);
    name.push(".names");
    name.into()
}

/// What stands in a file of names; nothing where it is there and cannot be read.
fn read_beside(path: &Path) -> Option<Vec<u8>> {
    // A pipe of that name would be waited for.
    path.is_file().then(|| File::open(path).and_then(|file| read_from(file, MOST_BYTES)).unwrap_or_default())
}

/// The most bytes of a list of moves. One with a move for as many nodes as there may be has less than a tenth; the rest is for comments.
const MOST_OF_MOVES: u64 = 1 << 24;

/// The list of moves of this name, or of standard input: all of it, since a part would be another list.
pub fn read_moves(path: Option<&Path>) -> Result<Input, String> {
    let input = read_front(path, MOST_OF_MOVES + 1)?;
    match input.bytes.len() as u64 > MOST_OF_MOVES {
        true => Err(format!("{} has more than {MOST_OF_MOVES} bytes, which no list of moves needs", input.name)),
        false => Ok(input),
    }
}

/// At most so many bytes of the file of this name, or of standard input.
fn read_front(path: Option<&Path>, most: u64) -> Result<Input, String> {
    let name = path.map_or("standard input".into(), |path| path.display().to_string());
    let _reading = Progress::of(format!("reading {name}"));
    let bytes = match path {
        Some(path) => File::open(path).and_then(|file| read_from(file, most)),
        None => read_from(io::stdin().lock(), most),
    };
    match bytes {
        Ok(bytes) => Ok(Input { name, bytes, beside: None }),
        Err(error) => Err(format!("cannot read {name}: {error}")),
    }
}

/// A new file in the folder of another. It is removed unless it takes the other's place.
struct Beside {
    path: PathBuf,
    file: File,
    placed: bool,
}

impl Beside {
    fn new(target: &Path) -> io::Result<Beside> {
        let folder = target.parent().filter(|folder| *folder != Path::new("")).unwrap_or(Path::new("."));
        let mut tried = 0;
        loop {
            let path = folder.join(format!(".panjerov-{}-{tried}", std::process::id()));
            match OpenOptions::new().write(true).create_new(true).open(&path) {
                Ok(file) => return Ok(Beside { path, file, placed: false }),
                Err(error) if error.kind() == io::ErrorKind::AlreadyExists && tried < 100 => tried += 1,
                Err(error) => return Err(error),
            }
        }
    }

    /// Whose it is, where that can be given, and who may read and write it.
    fn like(&self, known: &Metadata) -> io::Result<()> {
        let _ = chown(&self.path, Some(known.uid()), Some(known.gid()));
        self.file.set_permissions(Permissions::from_mode(known.mode() & 0o777))
    }

    fn fill(&mut self, bytes: &[u8]) -> io::Result<()> {
        self.file.write_all(bytes)?;
        self.file.sync_all()
    }

    fn place(mut self, target: &Path) -> io::Result<()> {
        fs::rename(&self.path, target)?;
        self.placed = true;
        Ok(())
    }
}

impl Drop for Beside {
    fn drop(&mut self) {
        if !self.placed {
            let _ = fs::remove_file(&self.path);
        }
    }
}

/// Puts a file with these bytes in the place of what is there, if anything is.
fn replace(target: &Path, known: Option<&Metadata>, bytes: &[u8]) -> io::Result<()> {
    let mut beside = Beside::new(target)?;
    if let Some(known) = known {
        beside.like(known)?;
    }
    beside.fill(bytes)?;
    beside.place(target)
}

/// Where a link leads to that leads to nothing yet.
fn end_of_links(path: &Path) -> PathBuf {
    match fs::read_link(path) {
        Ok(next) => end_of_links(&path.parent().unwrap_or(Path::new("")).join(next)),
        Err(_) => path.to_path_buf(),
    }
}

fn write_file(path: &Path, bytes: &[u8]) -> io::Result<()> {
    let known = match fs::metadata(path) {
        Ok(known) => known,
        Err(error) if error.kind() == io::ErrorKind::NotFound => return replace(&end_of_links(path), None, bytes),
        Err(error) => return Err(error),
    };
    // What may not be written is not replaced either.
    let mut there = OpenOptions::new().write(true).open(path)?;
    if known.is_file() {
        // A link stays, and the file that it leads to is replaced.
        return replace(&fs::canonicalize(path)?, Some(&known), bytes);
    }
    // A device or a pipe.
    there.write_all(bytes)
}

fn write_out(bytes: &[u8]) -> io::Result<()> {
    let mut out = io::stdout().lock();
    match out.write_all(bytes).and_then(|()| out.flush()) {
        // Who has read enough has closed the pipe, and is told nothing.
        Err(error) if error.kind() == io::ErrorKind::BrokenPipe => Ok(()),
        written => written,
    }
}

/// Whether a terminal shows these bytes as they are.
fn is_text(bytes: &[u8]) -> bool {
    let shown = |sign: char| !sign.is_control() || sign == '\n' || sign == '\t';
    std::str::from_utf8(bytes).is_ok_and(|text| text.chars().all(shown))
}

/// That what goes to standard output, unasked, is text where that is a terminal.
pub fn for_terminals(unasked: bool, bytes: &[u8]) -> Result<(), String> {
    match unasked && io::stdout().is_terminal() && !is_text(bytes) {
        true => Err("what is given is no text, and standard output is a terminal: -o FILE writes it to a file, and \
                     -o - to the terminal all the same"
            .into()),
        false => Ok(()),
    }
}

/// To the file of this name, or to standard output.
pub fn write(path: Option<&Path>, bytes: &[u8]) -> Result<(), String> {
    let (name, written) = match path {
        Some(path) => (path.display().to_string(), write_file(path, bytes)),
        None => ("standard output".into(), write_out(bytes)),
    };
    written.map_err(|error| format!("cannot write {name}: {error}"))
}

/// Puts names beside a tagged file that was written, or takes away those that stand there of one that it has replaced.
pub fn write_beside(path: Option<&Path>, names: Option<&str>) -> Result<(), String> {
    let (Some(path), Some(names)) = (path.filter(|path| path.is_file()), names) else { return Ok(()) };
    let beside = beside_of(path);
    if !names.is_empty() {
        return write(Some(&beside), names.as_bytes());
    }
    if read_beside(&beside).is_some_and(|text| Names::is_beside(&text)) {
        fs::remove_file(&beside).map_err(|error| format!("cannot remove {}: {error}", beside.display()))?;
    }
    Ok(())
}

#[cfg(test)]
mod tests {
    use super::*;

    #[test]
    fn texts() {
        assert!(is_text(b"") && is_text(b"aag 0 0 0 0 0\n\t") && is_text("\u{e9}".as_bytes()));
        for bytes in [&b"\x01\0\x0c"[..], b"a\0", b"\x1b[2J", b"\xff", b"\x7f"] {
            assert!(!is_text(bytes), "{bytes:?}");
        }
    }
}
