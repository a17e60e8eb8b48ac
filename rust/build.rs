//! Links the static library that holds the calls of document 01, section "What
//! the library holds": libglospruma.a, in the folder that the environment
//! variable GLOSPRUMA_LIB_DIR names, or else in target/staticlib of the
//! repository. A relative name counts from this package's folder, whoever uses it.

use std::env;
use std::path::PathBuf;
use std::process::exit;

const VARIABLE: &str = "GLOSPRUMA_LIB_DIR";

fn main() {
    let package = PathBuf::from(env::var_os("CARGO_MANIFEST_DIR").expect("set by cargo"));
    let named = env::var_os(VARIABLE).filter(|folder| !folder.is_empty());
    let folder = package.join(named.unwrap_or_else(|| "../target/staticlib".into()));
    let archive = folder.join("libglospruma.a");
    println!("cargo:rerun-if-env-changed={VARIABLE}");
    println!("cargo:rerun-if-changed={}", archive.display());
    if !archive.is_file() {
        eprintln!(
            "{} is missing: build it with `bash tools/build glospruma` in the folder of the repository, \
             or name the folder that has it in {VARIABLE}, as an absolute path",
            archive.display()
        );
        exit(1);
    }
    println!("cargo:rustc-link-search=native={}", folder.display());
    println!("cargo:rustc-link-lib=static=glospruma");
}
