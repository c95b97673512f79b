//! The documents name what is there: every file, and every edit that the check must refuse; and each such edit stands in
//! docs/DEMANDS.md. The picture of docs/PERFORMANCE.md is that of its tables.

use std::collections::BTreeSet;
use std::fs;
use std::path::{Path, PathBuf};

fn root() -> PathBuf {
    Path::new(env!("CARGO_MANIFEST_DIR")).join("..")
}

fn documents() -> Vec<(String, String)> {
    let mut paths = vec![root().join("README.md"), root().join("compare/README.md")];
    let docs = fs::read_dir(root().join("docs")).expect("docs/ is there");
    paths.extend(
        docs.map(|entry| entry.expect("docs/ can be read").path())
            .filter(|path| path.extension().is_some_and(|e| e == "md")),
    );
    paths
        .iter()
        .map(|path| (path.display().to_string(), fs::read_to_string(path).expect("a document can be read")))
        .collect()
}

/// The texts between backticks of a line, and what stands before each since the one before.
fn quoted(line: &str) -> Vec<(&str, &str)> {
    let parts: Vec<&str> = line.split('`').collect();
    parts.chunks_exact(2).map(|pair| (pair[0], pair[1])).collect()
}

fn is_name(text: &str) -> bool {
    !text.is_empty() && text.bytes().all(|b| b.is_ascii_lowercase() || b.is_ascii_digit() || b == b'_')
}

/// The edits that a line names: behind "edit" or "edits" come `crate/name`, and further names of the same crate.
fn named_edits(line: &str) -> Vec<String> {
    let mut names = Vec::new();
    let mut krate: Option<&str> = None;
    for (before, text) in quoted(line) {
        let begins = before.ends_with("edit ") || before.ends_with("edits ");
        let goes_on = krate.is_some() && (before == ", " || before == " and ");
        match text.split_once('/') {
            Some((first, second)) if (begins || goes_on) && is_name(first) && is_name(second) => {
                krate = Some(first);
                names.push(text.to_string());
            }
            None if goes_on && is_name(text) => names.push(format!("{}/{text}", krate.expect("a list goes on"))),
            _ => krate = None,
        }
    }
    names
}

fn edits() -> BTreeSet<String> {
    let mut names = BTreeSet::new();
    for krate in fs::read_dir(root().join("crates")).expect("crates/ is there") {
        let krate = krate.expect("crates/ can be read");
        let Ok(edits) = fs::read_dir(krate.path().join("must-fail")) else { continue };
        for edit in edits {
            let path = edit.expect("must-fail/ can be read").path();
            let name = path.file_stem().expect("an edit has a name").to_string_lossy().into_owned();
            names.insert(format!("{}/{name}", krate.file_name().to_string_lossy()));
        }
    }
    names
}

#[test]
fn every_edit_that_is_named_exists_and_every_edit_is_named() {
    let there = edits();
    assert!(!there.is_empty());
    let mut demanded = BTreeSet::new();
    for (path, text) in documents() {
        for name in text.lines().flat_map(named_edits) {
            assert!(there.contains(&name), "{path} names the edit {name}, which is not there");
            if path.ends_with("DEMANDS.md") {
                demanded.insert(name);
            }
        }
    }
    let missing: Vec<_> = there.difference(&demanded).collect();
    assert!(missing.is_empty(), "docs/DEMANDS.md does not name {missing:?}");
}

#[test]
fn every_file_that_is_named_exists() {
    let endings = [".antt", ".rt", ".rs", ".c", ".h", ".md", ".svg", ".txt", ".toml"];
    let mut count = 0;
    for (path, text) in documents() {
        let at = Path::new(&path).parent().expect("a document stands in a folder").to_path_buf();
        for (_, name) in text.lines().flat_map(quoted) {
            let is_path = name.contains('/')
                && !name.contains([' ', '*', '$', '('])
                && !name.starts_with("..")
                && !name.starts_with("target/")
                && !name.contains("CRATE");
            let bare_specs = is_path && name.contains("/specs/") && !name.contains('.');
            if !bare_specs && !(is_path && endings.iter().any(|ending| name.ends_with(ending))) {
                continue;
            }
            let file = if bare_specs { format!("{name}.antt") } else { name.to_string() };
            let places = [root().join(&file), root().join("crates").join(&file), at.join(&file)];
            assert!(places.iter().any(|place| place.exists()), "{path} names {name}, which is not there");
            count += 1;
        }
    }
    assert!(count > 50, "only {count} files are named");
}

#[test]
fn the_picture_is_that_of_the_tables() {
    let read = |name: &str| fs::read_to_string(root().join("docs").join(name)).expect("a document can be read");
    let (tables, picture) = (read("PERFORMANCE.md"), read("performance.svg"));
    assert!(
        cellpool_compare::picture::draw(&tables) == picture,
        "draw it again: cargo run --release --offline --bin picture < ../docs/PERFORMANCE.md > ../docs/performance.svg"
    );
    // Two figures of the tables, by their place in the picture: the first row's, and the last one's.
    let figures: Vec<&str> =
        picture.lines().filter(|line| line.starts_with("<text") && line.contains("anchor=\"end\">")).collect();
    let first = |of: &str| {
        let row = tables.lines().find(|line| line.starts_with(of)).expect("the row is there");
        row.trim_matches('|').split('|').map(str::trim).next_back().expect("a row has cells").to_string()
    };
    assert!(
        figures[0].contains(">collect, balanced tree<")
            && figures[2].contains(&format!(">{}<", first("| balanced tree")))
    );
    assert!(figures[figures.len() - 1].contains(&format!(">{}<", first("| `new`, at most 15"))));
}
