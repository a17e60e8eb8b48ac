//! Every file or folder that a document names is there: README.md, CONTRIBUTING.md,
//! CHANGELOG.md and docs/*.md. What `rt` and
//! the examples build, below `target`, is not a file of the repository.

use crate::names::{read, root};
use crate::proved::paths;
use crate::tables::{quoted, rows_under};
use std::fs;
use std::path::Path;

const ENDS: [&str; 9] = [
    ".md", ".txt", ".h", ".c", ".rs", ".rt", ".antt", ".toml", ".pla",
];

/// The documents, by their path in the repository.
pub fn documents() -> Vec<String> {
    let folder = fs::read_dir(root().join("docs")).expect("the folder of the documents");
    let name = |entry: fs::DirEntry| entry.file_name().into_string().expect("a name in ASCII");
    let mut found: Vec<String> = folder
        .map(|entry| format!("docs/{}", name(entry.expect("an entry of a folder"))))
        .collect();
    // What was ported from the older toolchain, what was then written anew, and what that made worse, is told with its old names.
    let old = ["docs/PORT.md", "docs/DESIGN-PASS.md", "docs/LOOK-BACK.md"];
    found.retain(|name| !old.contains(&name.as_str()));
    // A change that is kept for later is no document.
    found.retain(|name| !name.ends_with(".patch"));
    found.extend(["README.md", "CONTRIBUTING.md", "CHANGELOG.md"].map(str::to_string));
    found
}

/// The files that a document links to, by their path in the repository.
fn linked(document: &str, text: &str) -> Vec<String> {
    let folder = document.rsplit_once('/').map_or("", |(folder, _)| folder);
    let targets = text.split("](").skip(1);
    let path = |target: &str| {
        let target = target.split([')', '#']).next().expect("one part at least");
        format!("{folder}/{target}")
            .trim_start_matches('/')
            .to_string()
    };
    targets.map(path).collect()
}

/// The words of a command that are paths: all with a slash in them but options, and
/// what stands outside of the repository.
fn of_command(command: &str) -> Vec<String> {
    let words = command
        .split_whitespace()
        .map(|word| word.trim_start_matches(['<', '>']));
    words
        .filter(|word| word.contains('/') && !word.starts_with('-') && !word.starts_with("../"))
        .map(str::to_string)
        .collect()
}

/// The paths that a line quotes: alone, or in a command.
fn of_line(line: &str) -> Vec<String> {
    if line.starts_with("    ") {
        return of_command(line.split(" # ").next().expect("one part at least"));
    }
    let alone = |word: &str| !word.contains(' ') && ENDS.iter().any(|end| word.ends_with(end));
    let quoted = quoted(line).into_iter();
    quoted
        .flat_map(|word| match alone(word) {
            true => vec![word.to_string()],
            false => of_command(word),
        })
        .collect()
}

/// Whether a path is there; a star stands for any one folder, and so does FUNCTION.
fn is_there(folder: &Path, path: &str) -> bool {
    let (first, rest) = path.split_once('/').unwrap_or((path, ""));
    if !matches!(first, "*" | "FUNCTION") {
        let next = folder.join(first);
        return if rest.is_empty() {
            next.exists()
        } else {
            is_there(&next, rest)
        };
    }
    let entries = fs::read_dir(folder).into_iter().flatten().flatten();
    entries
        .into_iter()
        .any(|entry| is_there(&entry.path(), rest))
}

/// The files that a document names and that are not there.
fn missing(document: &str, text: &str) -> Vec<String> {
    let outside_tables = text.lines().filter(|line| !line.starts_with('|'));
    let mut named: Vec<String> = outside_tables.flat_map(of_line).collect();
    named.extend(linked(document, text));
    let rows = text.lines().filter(|line| line.starts_with('|'));
    let with_folder = |path: &String| path.contains('/');
    named.extend(rows.flat_map(of_line).filter(with_folder));
    named.retain(|path| !path.starts_with("target/") && !is_there(&root(), path));
    named
}

#[test]
fn files_that_documents_name_are_there() {
    for document in documents() {
        let text = read(&document);
        assert_eq!(
            missing(&document, &text),
            Vec::<String>::new(),
            "{document}"
        );
    }
}

#[test]
fn files_of_what_is_proved_are_there() {
    for row in rows_under(&read("docs/PROVED.md"), &["claim", "theorem", "file"]) {
        for path in paths(&row.cells[2]) {
            assert!(root().join(&path).exists(), "line {}: {path}", row.line);
        }
    }
}

#[test]
fn missing_files_are_found() {
    let text = "[a](ARCHITECTURE.md) and [b](NOTHING.md#there); `crates/*/specs/`, `crates/*/nothing/`,\n\
                `Nothing.antt`, `cc -Iinclude include/nothing.h`, `crates/*/proofs/FUNCTION/Answers.antt`\n\
                \n    cat <examples/nothing.pla | target/bin/nothing  # in/comment\n\
                | `tests/nothing` | `Bare.antt` |\n";
    let expected = [
        "crates/*/nothing/",
        "Nothing.antt",
        "include/nothing.h",
        "examples/nothing.pla",
        "docs/NOTHING.md",
        "tests/nothing",
    ];
    assert_eq!(missing("docs/x.md", text), expected);
}
