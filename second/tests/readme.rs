//! The vote in the repository's README is what `examples/out-of-turn` prints, here over this program.

use std::fs;
use std::path::Path;
use std::process::Command;

/// The indented lines of a section.
fn indented(text: &str, section: &str) -> String {
    let lines = text.lines().skip_while(|line| *line != section).skip(1);
    let lines = lines.take_while(|line| !line.starts_with("## "));
    lines.filter_map(|line| line.strip_prefix("    ")).map(|line| format!("{line}\n")).collect()
}

#[test]
fn the_readme_has_the_vote_as_it_is_played() {
    let repository = Path::new(env!("CARGO_MANIFEST_DIR")).join("..");
    let readme = fs::read_to_string(repository.join("README.md")).unwrap();
    let played = Command::new(repository.join("examples/out-of-turn"))
        .args([env!("CARGO_BIN_EXE_second"), "bench"])
        .output()
        .unwrap();
    assert!(played.status.success(), "{played:?}");
    assert_eq!(indented(&readme, "## A vote out of turn"), String::from_utf8_lossy(&played.stdout));
}
