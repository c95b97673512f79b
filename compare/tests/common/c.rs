//! Programs in C, compiled against the library or what stands in for it.

use std::path::{Path, PathBuf};
use std::process::{Command, Output};

pub fn archive() -> PathBuf {
    env!("CELLPOOL_ARCHIVE").into()
}

/// A file, by its path from this crate.
pub fn file(path: &str) -> PathBuf {
    Path::new(env!("CARGO_MANIFEST_DIR")).join(path)
}

/// A file that the tests make.
pub fn made(name: &str) -> PathBuf {
    Path::new(env!("CARGO_TARGET_TMPDIR")).join(name)
}

pub fn cc() -> String {
    std::env::var("CC").unwrap_or_else(|_| "cc".into())
}

/// Compile and link; answers the result.
pub fn compile(name: &str, compiler: &str, options: &[&str], sources: &[PathBuf]) -> PathBuf {
    let output = Command::new(compiler)
        .args(["-Wall", "-Wextra", "-Wpedantic", "-Werror"])
        .args(options)
        .arg("-I")
        .arg(file("../include"))
        .arg("-I")
        .arg(file("baseline"))
        .args(sources)
        .arg("-o")
        .arg(made(name))
        .output()
        .unwrap_or_else(|error| panic!("{compiler}: {error}"));
    assert!(output.status.success(), "{}", String::from_utf8_lossy(&output.stderr));
    made(name)
}

pub fn output(program: &Path, arguments: &[&str]) -> Output {
    Command::new(program).args(arguments).output().expect("the program starts")
}

/// Run to a clean end; answers what the program printed.
pub fn run(program: &Path, arguments: &[&str]) -> String {
    let output = output(program, arguments);
    let text = String::from_utf8_lossy(&output.stdout).into_owned();
    assert!(output.status.success(), "{}: {text}{}", output.status, String::from_utf8_lossy(&output.stderr));
    text
}
