//! What `--help` tells. The texts are files, since the script `panjerov` tells them too, before anything is built.

use crate::words::Command;

/// What commands share, and the line that stands for it. What answers by its exit status tells of that itself.
const PARTS: [(&str, &str); 3] = [
    ("@forms\n", include_str!("help/forms.part")),
    ("@files\n", include_str!("help/files.part")),
    ("@status\n", include_str!("help/status.part")),
];

fn whole(text: &str) -> String {
    PARTS.iter().fold(text.into(), |text, (line, part)| text.replace(line, part))
}

pub fn program() -> String {
    whole(include_str!("help/program.txt"))
}

/// The options of a command: those of its usage, and those that a line of its own tells of.
pub fn options(text: &str) -> impl Iterator<Item = &str> {
    let usage = text.split("\n\n").next().unwrap_or_default();
    let told = text.lines().filter(|line| line.starts_with("    -"));
    let words = [usage].into_iter().chain(told.filter_map(|line| line.trim_start().split("   ").next()));
    words.flat_map(|words| words.split(|sign: char| sign != '-' && !sign.is_ascii_lowercase())).filter(is_option)
}

fn is_option(word: &&str) -> bool {
    word.starts_with('-') && word.len() > 1
}

pub fn of(command: Command) -> String {
    whole(match command {
        Command::Settle => include_str!("help/settle.txt"),
        Command::Find => include_str!("help/find.txt"),
        Command::Resistive => include_str!("help/resistive.txt"),
        Command::Import => include_str!("help/import.txt"),
        Command::Export => include_str!("help/export.txt"),
        Command::Lock => include_str!("help/lock.txt"),
        Command::Unlock => include_str!("help/unlock.txt"),
        Command::Show => include_str!("help/show.txt"),
        Command::Preview => include_str!("help/preview.txt"),
        Command::Apply => include_str!("help/apply.txt"),
        Command::Sheets => include_str!("help/sheets.txt"),
        Command::Compare => include_str!("help/compare.txt"),
        Command::Equal => include_str!("help/equal.txt"),
        Command::Assign => include_str!("help/assign.txt"),
        Command::Join => include_str!("help/join.txt"),
        Command::Picture => include_str!("help/picture.txt"),
        Command::Report => include_str!("help/report.txt"),
        Command::Class => include_str!("help/class.txt"),
    })
}

#[cfg(test)]
mod tests {
    use super::*;

    #[test]
    fn options_of_commands() {
        let told = |command| of(command);
        let settle = ["-o", "--to", "--find", "--to", "--no-symbols", "--quiet", "-q", "--json"];
        assert_eq!(options(&told(Command::Settle)).collect::<Vec<&str>>(), settle);
        let picture = ["--svg", "--png", "--output", "--root", "-o", "--compare"];
        let drawn: Vec<String> = options(&told(Command::Picture)).map(String::from).collect();
        assert!(picture.iter().all(|option| drawn.iter().any(|other| other == option)), "{drawn:?}");
        assert!(options(&told(Command::Apply)).all(|option| option != "--moves"));
    }
}
