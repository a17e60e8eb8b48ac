//! Running a built program: what it writes to standard output and to standard
//! error. Programs are looked for in target/bin of the repository, where
//! tools/build puts them; the environment variable GLOSPRUMA_BIN_DIR names another
//! folder.

use std::env;
use std::ffi::OsString;
use std::io::{ErrorKind, Write};
use std::path::PathBuf;
use std::process::{Command, Stdio};

const FOLDER: &str = concat!(env!("CARGO_MANIFEST_DIR"), "/../../target/bin");

/// Where a program stands.
fn path(name: &str) -> PathBuf {
    let named = env::var_os("GLOSPRUMA_BIN_DIR");
    let path = PathBuf::from(named.unwrap_or_else(|| OsString::from(FOLDER))).join(name);
    assert!(
        path.is_file(),
        "{} is missing: build it with `bash tools/build {name}`, or name its folder in GLOSPRUMA_BIN_DIR",
        path.display()
    );
    path
}

/// Runs a program on an input: its standard output, and its standard error as
/// text. The input is written whole first: programs read before they write. One
/// that needn't read all of it may close it.
pub fn run(name: &str, arguments: &[&str], input: &[u8]) -> (Vec<u8>, String) {
    let mut command = Command::new(path(name));
    command.args(arguments);
    command
        .stdin(Stdio::piped())
        .stdout(Stdio::piped())
        .stderr(Stdio::piped());
    let mut child = command.spawn().expect("the program starts");
    let mut pipe = child.stdin.take().expect("a pipe to the program");
    match pipe.write_all(input) {
        Err(error) if error.kind() != ErrorKind::BrokenPipe => panic!("{error}"),
        _ => drop(pipe),
    }
    let output = child.wait_with_output().expect("the program ends");
    assert!(output.status.success(), "{name}: {}", output.status);
    let said = String::from_utf8(output.stderr).expect("a message is text");
    (output.stdout, said)
}
