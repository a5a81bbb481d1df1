//! docs/THEOREMS.md and docs/PROMISES.md cite definitions, theorems and files: each must be there.
//!
//! A name is cited as `crate/File.name`, declared in `crates/crate/specs/File.antt` or `proofs/File.antt`; in a table's row a bare
//! `name` behind it stands in the same file. A must-fail edit is cited as `crate/must-fail/name`, a file of the repository by its path.

use std::fs;
use std::path::{Path, PathBuf};

fn repository() -> PathBuf {
    Path::new(env!("CARGO_MANIFEST_DIR")).join("..")
}

/// The texts in backquotes of a line.
fn quoted(line: &str) -> Vec<&str> {
    line.split('`').skip(1).step_by(2).collect()
}

/// The files of specs/ and proofs/ that `crate/File` names: a statement and its proof may share a name.
fn module_files(crate_name: &str, module: &str) -> Vec<PathBuf> {
    let root = repository().join("crates").join(crate_name);
    ["specs", "proofs"]
        .iter()
        .map(|part| root.join(part).join(format!("{module}.antt")))
        .filter(|file| file.is_file())
        .collect()
}

/// Whether a file declares a name: it stands before a colon, behind the words that mark a declaration.
fn declares(file: &Path, name: &str) -> bool {
    let text = fs::read_to_string(file).expect("the file can be read");
    text.lines().any(|line| {
        let head = line.split(" : ").next().unwrap_or("");
        let head = head.strip_suffix(" where").unwrap_or(head);
        !line.trim_start().starts_with("--") && head.split_whitespace().any(|word| word == name)
    })
}

/// The files that a cited text may mean, with the name in them.
fn cited<'a>(text: &'a str, last: &[PathBuf]) -> Option<(Vec<PathBuf>, &'a str)> {
    match text.split_once('/') {
        Some((crate_name, rest)) => {
            let (module, name) = rest.rsplit_once('.')?;
            Some((module_files(crate_name, module), name))
        }
        None => Some((last.to_vec(), text)),
    }
}

/// Whether a text is meant as a citation: `crate/..` of a crate that is there, or a bare name behind one.
fn is_citation(text: &str, last: &[PathBuf]) -> bool {
    match text.split_once('/') {
        Some((crate_name, rest)) => {
            repository().join("crates").join(crate_name).is_dir() && !rest.starts_with("must-fail/")
        }
        None => !last.is_empty() && !text.contains(' ') && !text.contains('='),
    }
}

fn is_edit(text: &str) -> bool {
    text.split_once("/must-fail/").is_some()
}

fn edit_file(text: &str) -> PathBuf {
    let (crate_name, name) = text.split_once("/must-fail/").expect("it is an edit");
    repository().join("crates").join(crate_name).join("must-fail").join(format!("{name}.edit"))
}

fn check_document(name: &str) -> usize {
    let file = repository().join("docs").join(name);
    let Ok(text) = fs::read_to_string(&file) else {
        eprintln!("docs/{name} is not here: nothing to check");
        return 0;
    };
    let mut found = 0;
    for (number, line) in text.lines().enumerate().filter(|(_, line)| line.starts_with('|')) {
        let mut last = Vec::new();
        for text in quoted(line) {
            let place = format!("docs/{name}:{}: `{text}`", number + 1);
            if is_edit(text) {
                assert!(edit_file(text).is_file(), "{place} is no must-fail edit");
                found += 1;
            } else if is_citation(text, &last) {
                let (files, cited_name) =
                    cited(text, &last).unwrap_or_else(|| panic!("{place} names no file"));
                assert!(files.iter().any(|file| declares(file, cited_name)), "{place} is not declared");
                last = files;
                found += 1;
            }
        }
    }
    found
}

#[test]
fn every_cited_theorem_is_there() {
    assert!(check_document("THEOREMS.md") > 50);
}

#[test]
fn every_cited_promise_is_there() {
    check_document("PROMISES.md");
}
