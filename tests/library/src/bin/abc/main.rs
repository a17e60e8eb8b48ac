//! Berkeley ABC as a second judge, of two things. For each of some hundred tables
//! it is asked whether the form that the library writes and the table, which it
//! reads as a truth table, are the same function; a table with free points is
//! compared on all others. And for each of some hundred truth tables in Berkeley
//! PLA, which it reads with its own reader, whether the program `pla_to_table`
//! finds the same on points. Each has a second network, altered on purpose, and ABC
//! must tell whether that one still is the same. Follows document 01, section "The
//! written form", and docs/PLA.md.
//!
//! The command is `berkeley-abc`, of the Debian package of that name; it runs once
//! for all. The last line is 'N passed, 0 failed', a count to each table and text.
//! Tables with their forms stand in `forms`, texts in `texts`, and what ABC reads
//! in `networks`.

mod forms;
mod networks;
mod texts;

use std::path::{Path, PathBuf};
use std::process::{self, Command};
use std::{env, fs};

const COMMAND: &str = "berkeley-abc";

/// How many of the cases judged otherwise are shown.
const MOST_SHOWN: usize = 3;

/// What stands before the number of a pair in the output, where ABC echoes it.
const PAIR: &str = "pair ";

/// A truth table, and two networks with whether they are the same function.
struct Case {
    what: String,
    truth: String,
    networks: [(String, bool); 2],
}

/// A folder for the networks, removed at the end.
struct Folder(PathBuf);

impl Folder {
    fn new() -> Folder {
        let path = env::temp_dir().join(format!("glospruma-abc-{}", process::id()));
        fs::create_dir_all(&path).expect("a temporary folder can be made");
        Folder(path)
    }
}

impl Drop for Folder {
    fn drop(&mut self) {
        let _ = fs::remove_dir_all(&self.0);
    }
}

fn write(folder: &Path, name: &str, text: &str) {
    fs::write(folder.join(name), text).expect("a network can be written");
}

/// Writes the truth table and both networks of each case, and the script: pairs
/// 2k and 2k + 1 are those of the k-th case.
fn write_all(folder: &Path, cases: &[Case]) {
    let mut script = String::new();
    for (place, case) in cases.iter().enumerate() {
        let truth = format!("{place}.pla");
        write(folder, &truth, &case.truth);
        for (turn, (network, _)) in case.networks.iter().enumerate() {
            let number = 2 * place + turn;
            let name = format!("{number}.blif");
            write(folder, &name, network);
            script += &format!("echo {PAIR}{number}\ncec {truth} {name}\n");
        }
    }
    write(folder, "script", &script);
}

/// The verdict in one line of the output, if it holds one.
fn verdict(line: &str) -> Option<bool> {
    let said = line.strip_prefix("Networks are ")?;
    match said {
        _ if said.starts_with("equivalent") => Some(true),
        _ if said.starts_with("NOT EQUIVALENT") => Some(false),
        _ => None,
    }
}

/// The verdicts by number of pair; none where ABC said nothing, or not one thing.
fn verdicts(output: &str, pairs: usize) -> Vec<Option<bool>> {
    let mut found = vec![Vec::new(); pairs];
    let mut pair = None;
    for line in output.lines() {
        if let Some(number) = line.strip_prefix(PAIR) {
            pair = number.trim().parse::<usize>().ok();
        } else if let (Some(said), Some(number)) = (verdict(line), pair) {
            found[number].push(said);
        }
    }
    let alone = |said: Vec<bool>| (said.len() == 1).then(|| said[0]);
    found.into_iter().map(alone).collect()
}

/// ABC's verdict on every pair.
fn judge(folder: &Path, pairs: usize) -> Vec<Option<bool>> {
    let mut command = Command::new(COMMAND);
    let run = command.args(["-f", "script"]).current_dir(folder).output();
    let output = run.unwrap_or_else(|error| panic!("{COMMAND} can't be run: {error}"));
    assert!(output.status.success(), "{COMMAND}: {}", output.status);
    let text = String::from_utf8_lossy(&output.stdout);
    let said = verdicts(&text, pairs);
    if said.contains(&None) {
        let last: Vec<&str> = text.lines().rev().take(10).collect();
        println!("{COMMAND} was silent on some pair; its last lines, from the end:");
        println!("{}", last.join("\n"));
    }
    said
}

fn main() {
    let (forms, texts) = (forms::all(), texts::all());
    println!(
        "{} tables with their forms, {} texts",
        forms.len(),
        texts.len()
    );
    let cases: Vec<Case> = forms.into_iter().chain(texts).collect();
    let folder = Folder::new();
    write_all(&folder.0, &cases);
    let said = judge(&folder.0, 2 * cases.len());
    let (mut failed, mut different) = (0, 0);
    for (case, said) in cases.iter().zip(said.chunks(2)) {
        let expected = case.networks.each_ref().map(|network| Some(network.1));
        different += expected.iter().filter(|&&same| same == Some(false)).count();
        failed += usize::from(said != expected);
        if said != expected && failed <= MOST_SHOWN {
            println!("{said:?} and not {expected:?}: {}", case.what);
        }
    }
    println!("{different} altered networks aren't the same function");
    println!("{} passed, {failed} failed", cases.len() - failed);
    drop(folder);
    process::exit(i32::from(failed > 0));
}
