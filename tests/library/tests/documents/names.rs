//! The names that the files of the crates define. In antt these are lines with a
//! name and its type, and records with their fields; in Rattle, functions,
//! constants, structs and enums, and those of a type as `Type::name`.

use std::collections::{BTreeMap, BTreeSet};
use std::fs;
use std::path::{Path, PathBuf};

/// The folder of the repository.
pub fn root() -> PathBuf {
    Path::new(env!("CARGO_MANIFEST_DIR")).join("../..")
}

/// A text file of the repository.
pub fn read(path: &str) -> String {
    fs::read_to_string(root().join(path)).unwrap_or_else(|error| panic!("{path}: {error}"))
}

/// All files at or below a path.
fn files_below(path: &Path) -> Vec<PathBuf> {
    match fs::read_dir(path) {
        Err(_) => vec![path.to_path_buf()],
        Ok(entries) => entries
            .map(|entry| entry.expect("an entry of a folder").path())
            // What rt builds is not a file of the repository.
            .filter(|path| !path.ends_with("out"))
            .flat_map(|path| files_below(&path))
            .collect(),
    }
}

/// The modules in Rust at or below a path of the repository, by their files.
pub fn modules_in(path: &str) -> BTreeSet<String> {
    let files = files_below(&root().join(path)).into_iter();
    let stems = files.filter_map(|file| Some(file.file_stem()?.to_str()?.to_string()));
    stems.collect()
}

/// The names that are defined at or below a path of the repository.
pub fn defined_in(path: &str) -> BTreeSet<String> {
    let files = files_below(&root().join(path)).into_iter();
    files
        .flat_map(|file| {
            let text = || fs::read_to_string(&file).expect("a text file");
            match file.extension().and_then(|extension| extension.to_str()) {
                Some("antt") => of_antt(&text()),
                Some("rt") => of_rattle(&text()),
                _ => Vec::new(),
            }
        })
        .collect()
}

/// The lines of comment in the files of antt and Rattle at or below a path of the
/// repository.
pub fn comments_in(path: &str) -> Vec<String> {
    let is_code =
        |file: &PathBuf| matches!(file.extension(), Some(end) if end == "antt" || end == "rt");
    let is_comment = |line: &&str| line.starts_with("--") || line.starts_with("//");
    let files = files_below(&root().join(path)).into_iter().filter(is_code);
    let texts = files.map(|file| fs::read_to_string(file).expect("a text file"));
    texts
        .flat_map(|text| {
            let lines = text.lines().map(str::trim_start).filter(is_comment);
            lines.map(str::to_string).collect::<Vec<String>>()
        })
        .collect()
}

/// The files of Rattle at or below a path of the repository, by their names from
/// there on, with their texts.
pub fn code_in(path: &str) -> BTreeMap<String, String> {
    let folder = root().join(path);
    let is_code = |file: &PathBuf| matches!(file.extension(), Some(end) if end == "rt");
    let files = files_below(&folder).into_iter().filter(is_code);
    files
        .map(|file| {
            let name = file.strip_prefix(&folder).expect("a file below it");
            let text = fs::read_to_string(&file).expect("a text file");
            (name.display().to_string(), text)
        })
        .collect()
}

/// The names that a crate defines.
pub fn defined_by(name: &str) -> BTreeSet<String> {
    defined_in(&format!("crates/{name}"))
}

/// Whether a crate has a must-fail edit of this name.
pub fn has_edit(name: &str, edit: &str) -> bool {
    let file = format!("crates/{name}/must-fail/{edit}.edit");
    root().join(file).is_file()
}

/// The name that a line of antt defines, and whether as a record.
fn defined_at(line: &str) -> Option<(&str, bool)> {
    let mut words = line.split_whitespace().peekable();
    while words
        .next_if(|word| matches!(*word, "pub" | "abbrev" | "unfoldable"))
        .is_some()
    {}
    if words
        .next_if(|word| matches!(*word, "record" | "data"))
        .is_some()
    {
        return Some((words.next()?, true));
    }
    let name = words.next()?;
    (words.next() == Some(":")).then_some((name, false))
}

/// The names of a text in antt. What stands further in belongs to a record, whose
/// fields are `Record.field`, or to a module, of which only public names count.
fn of_antt(text: &str) -> Vec<String> {
    let (mut names, mut record) = (Vec::new(), None);
    for line in text
        .lines()
        .filter(|line| !line.trim_start().starts_with("--"))
    {
        let inside = line.starts_with(' ');
        if inside && !line.split_whitespace().any(|word| word == "pub") {
            continue;
        }
        let found = defined_at(line);
        match (found, record) {
            (Some((name, _)), Some(owner)) if inside => names.push(format!("{owner}.{name}")),
            (Some((name, _)), _) => names.push(name.to_string()),
            (None, _) => (),
        }
        if !inside && !line.is_empty() {
            record = found.and_then(|(name, is_record)| is_record.then_some(name));
        }
    }
    names
}

/// The names of a text in Rattle.
fn of_rattle(text: &str) -> Vec<String> {
    let (mut names, mut owner) = (Vec::new(), String::new());
    for line in text.lines() {
        let words: Vec<&str> = line
            .split(|letter: char| !letter.is_alphanumeric() && letter != '_')
            .filter(|word| !matches!(*word, "" | "pub" | "extern" | "C"))
            .collect();
        match words[..] {
            ["impl", name, ..] => owner = format!("{name}::"),
            ["fn" | "const" | "struct" | "enum", name, ..]
                if !line.trim_start().starts_with("//") =>
            {
                names.push(format!("{owner}{name}"));
            }
            _ => (),
        }
        if line == "}" {
            owner.clear();
        }
    }
    names
}

#[test]
fn names_of_antt() {
    let text = "-- kept : not a name\npub record Pair (a : A) : Type 0 where\n  pub left : A\n  -- no : B\n\n\
                abbrev pub Flag : Type 0\nFlag = Bool\nown : A → A\nown x = within\n  where\n    within : A\n\
                module _ (a : A) where\n  pub shown : A\n  hidden : A\n";
    assert_eq!(of_antt(text), ["Pair", "Pair.left", "Flag", "own", "shown"]);
}

#[test]
fn names_of_rattle() {
    let text = "// const NOT: a name\npub const TOP: usize = 1;\nimpl Pair {\n    pub fn left(self) -> A\n    {\n    }\n}\n\
                #[no_mangle]\npub extern \"C\" fn call(a: A) -> B\n{\n    let fn_like = a;\n}\n";
    assert_eq!(of_rattle(text), ["TOP", "Pair::left", "call"]);
}
