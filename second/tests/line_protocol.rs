//! The line protocol: its details, the cases kept here, and those kept beside the repository where present.

use second::cases::{cases, MALFORMED};
use second::lines::{run, Bench};
use std::io::Write;
use std::path::{Path, PathBuf};

fn answers(input: &[u8]) -> String {
    let mut output = Vec::new();
    run(input, &mut output).unwrap();
    String::from_utf8(output).unwrap()
}

fn folder() -> PathBuf {
    Path::new(env!("CARGO_MANIFEST_DIR")).to_path_buf()
}

/// Compares byte for byte; says so and passes where the input is absent.
fn compare(input: &Path, output: &Path) {
    let (Ok(lines), Ok(expected)) = (std::fs::read(input), std::fs::read_to_string(output)) else {
        // Not `eprintln!`, which a passing test keeps to itself.
        let _ = writeln!(std::io::stderr(), "{} is absent: not compared", input.display());
        return;
    };
    let given = answers(&lines);
    for (number, (given, expected)) in given.lines().zip(expected.lines()).enumerate() {
        assert_eq!(given, expected, "line {}", number + 1);
    }
    assert!(given == expected, "lengths differ");
}

#[test]
fn the_cases_kept_here() {
    let data = folder().join("tests/data");
    assert!(data.join("bench.in").exists());
    compare(&data.join("bench.in"), &data.join("bench.out"));
}

#[test]
fn the_cases_beside_the_repository() {
    let shared = folder().join("../../shared/cases");
    compare(&shared.join("k4-2.in"), &shared.join("k4-2.out"));
}

#[test]
fn the_other_programs_kept_run() {
    let bench = folder().join("../crates/bench");
    compare(&bench.join("stdin"), &bench.join("stdout"));
}

#[test]
fn an_empty_input_has_no_answer() {
    assert_eq!(answers(b""), "");
}

#[test]
fn the_last_line_needs_no_newline() {
    assert_eq!(answers(b"f\nf"), "12 0 0 0 0 0 0 0 0\n12 0 0 0 0 0 0 0 0\n");
    assert_eq!(answers(b"f\n"), "12 0 0 0 0 0 0 0 0\n");
    assert_eq!(answers(b"\n\n"), "?\n?\n");
}

#[test]
fn malformed_lines_are_answered_so_and_change_nothing() {
    let mut bench = Bench::default();
    bench.answer(b"o 2 24 1 0 1 1 2 5 2 0 0 0 0 0");
    bench.answer(b"f");
    bench.answer(b"s 0 1 5 7");
    let (tables, session) = (bench.tables.clone(), bench.session.clone());
    let other: [&[u8]; 5] = [b"\xff", b"r 0 1\0", b"s 0 1 5 \xc2\xb2", b"\n", b"h\xa0"];
    for line in MALFORMED.iter().map(|line| line.as_bytes()).chain(other) {
        assert_eq!(bench.answer(line), "?", "{line:?}");
        assert_eq!((&bench.tables, &bench.session), (&tables, &session), "{line:?}");
    }
    assert_eq!(bench.answer(b"r 0 1"), "0 5 7 64 0 0 8");
}

#[test]
fn widths_of_numbers() {
    let mut bench = Bench::default();
    bench.answer(b"o 2 4294967295 1 0 1 1 2 5 2 0 0 0 0 0");
    assert_eq!(bench.answer(b"f"), "0 0 0 0 0 0 0 0 0");
    assert_eq!(bench.answer(b"s 4294967295 1 5 7"), "14 64 1 1 0");
    assert_eq!(bench.answer(b"s 4294967296 1 5 7"), "?");
    assert_eq!(bench.answer(b"s 0 1 4294967295 7"), "16 5 1 1 0");
    assert_eq!(bench.answer(b"s 0 1 5 4294967296"), "?");
    assert_eq!(bench.answer(b"s 000 01 0000000000000005 00000000004294967295"), "0 64 2 1 1");
    assert_eq!(bench.answer(b"r 0 1"), "0 5 4294967295 64 0 0 8");
    assert_eq!(bench.answer(b"o 2 24 65536"), "?");
    assert_eq!(bench.answer(b"o 2 24 65535"), "1 0");
    assert_eq!(bench.answer(b"o 4294967295 24 65535 0 0 0"), "2 0");
    assert_eq!(bench.answer(b"t 4294967295 0 0 0 0"), "12");
}

/// An `h` line of zeros with one number changed.
fn state_line(place: usize, number: &str) -> String {
    let mut numbers = vec!["0"; 584];
    numbers[place] = number;
    format!("h {}", numbers.join(" "))
}

#[test]
fn widths_in_a_hand_made_state() {
    let mut bench = Bench::default();
    bench.answer(b"t 2 0 0 0 0 0 0 0 0");
    let places = [(0, "65535", "65536"), (8, "255", "256"), (72, "255", "256")];
    for (place, widest, too_wide) in places {
        assert_eq!(bench.answer(state_line(place, widest).as_bytes()), "13 0 0 8");
        assert_eq!(bench.answer(state_line(place, too_wide).as_bytes()), "?");
    }
    assert_eq!(bench.answer(state_line(328, "4294967295").as_bytes()), "13 0 0 8");
    assert_eq!(bench.answer(state_line(328, "4294967296").as_bytes()), "?");
    assert_eq!(bench.answer(state_line(0, "0").as_bytes()), "0 0 0 8");
    assert_eq!(bench.answer(format!("{} 0", state_line(0, "0")).as_bytes()), "?");
}

#[test]
fn what_is_kept_between_lines() {
    let mut bench = Bench::default();
    assert_eq!(bench.answer(b"s 0 1 5 7"), "12 64 0 0 8");
    assert_eq!(bench.answer(b"r 0 1"), "12 0 0 64 0 0 8");
    let opening = b"o 2 24 1 0 1 1 2 5 2 0 0 0 0 0";
    bench.answer(opening);
    assert_eq!(bench.answer(b"s 0 1 5 7"), "0 64 2 1 1", "the state of zeros is fresh here, without f");
    assert_eq!(bench.answer(b"o 2 23 1 0 1 1 2 5 2 0 0 0 0 0"), "3 0");
    assert_eq!(bench.answer(b"r 0 1"), "12 0 0 64 0 0 8", "a refused opening leaves no tables");
    bench.answer(opening);
    assert_eq!(bench.answer(b"r 0 1"), "0 5 7 64 0 0 8", "but it leaves the state");
    assert_eq!(bench.answer(b"t 2 1 1 1 1"), "12");
    assert_eq!(bench.answer(b"f"), "12 0 0 0 0 0 0 0 0");
    bench.answer(opening);
    assert_eq!(bench.answer(b"s 0 1 5 8"), "0 64 2 1 1", "a refused f leaves the state of zeros");
}

#[test]
fn no_words_at_all() {
    let mut bench = Bench::default();
    assert_eq!(bench.answer(b"o 2 24"), "1 0");
    assert_eq!(bench.answer(b"t 2"), "12");
}

#[test]
fn generated_cases_meet_every_number_in_every_command() {
    for seed in [1, 2, 3] {
        let lines = cases(seed, 6_000);
        assert_eq!(lines.len(), 6_000);
        let mut bench = Bench::default();
        let mut met = std::collections::BTreeSet::new();
        for line in &lines {
            assert!(!line.contains('\n') && line.len() < 65_536);
            let answer = bench.answer(line.as_bytes());
            let number = answer.split(' ').next().unwrap().to_string();
            met.insert((line.chars().next().unwrap_or('-'), number));
        }
        let expected: [(char, &[u8]); 6] = [
            ('o', &[0, 1, 2, 3, 4, 5, 6, 7, 8, 9, 10, 11]),
            ('t', &[0, 12]),
            ('f', &[0, 12]),
            ('h', &[0, 12, 13]),
            ('s', &[0, 12, 13, 14, 15, 16, 17]),
            ('r', &[0, 12, 13, 14, 15, 18, 19]),
        ];
        for (command, numbers) in expected {
            for number in numbers {
                assert!(met.contains(&(command, number.to_string())), "seed {seed}: {command} {number}");
            }
            assert!(met.contains(&(command, "?".to_string())), "seed {seed}: {command} ?");
        }
    }
}

#[test]
fn generated_cases_offer_labels() {
    let mut bench = Bench::default();
    let mut offered = std::collections::BTreeSet::new();
    for line in cases(4, 6_000) {
        let answer = bench.answer(line.as_bytes());
        let numbers: Vec<&str> = answer.split(' ').collect();
        match (line.as_bytes().first(), numbers[0]) {
            (Some(b's'), "16") => offered.insert(('s', numbers[1].to_string())),
            (Some(b'r'), "19") => offered.insert(('r', numbers[3].to_string())),
            _ => false,
        };
    }
    for command in ['s', 'r'] {
        let labels = offered.iter().filter(|(said, _)| *said == command).count();
        assert!(labels > 2, "{command} {offered:?}");
    }
    assert!(offered.iter().all(|(_, label)| label != "64"));
}

#[test]
fn generated_cases_depend_on_the_seed_alone() {
    assert_eq!(cases(5, 500), cases(5, 500));
    assert_ne!(cases(5, 500), cases(6, 500));
}
