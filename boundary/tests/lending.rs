//! What is lent stands at a page that may not be touched, and comes back as it was left.

use boundary::lending::{Keeping, Lending};
use std::env::current_exe;
use std::os::unix::process::ExitStatusExt;
use std::process::Command;

const LENGTHS: [usize; 7] = [0, 1, 8, 1024, 2048, 4096, 9000];

#[test]
fn what_was_put_is_lent_and_comes_back() {
    let mut lending = Lending::default();
    for length in LENGTHS {
        for keeping in [Keeping::Before, Keeping::Behind] {
            let mut words: Vec<u16> = (0..length as u16).collect();
            lending.put(&words, keeping);
            assert_eq!(lending.lent(), words);
            lending.lent().reverse();
            words.reverse();
            assert_eq!(lending.back("words"), Ok(words));
        }
    }
}

#[test]
fn a_word_at_the_other_end_is_looked_at() {
    let mut lending = Lending::default();
    lending.put(&[7u32; 5], Keeping::Behind);
    unsafe { *lending.lent().as_mut_ptr().add(5) = 1 };
    assert!(lending.back("words").is_err());
    lending.put(&[7u32; 5], Keeping::Before);
    unsafe { *lending.lent().as_mut_ptr().sub(1) = 1 };
    assert!(lending.back("words").is_err());
}

/// Reads the byte beside a lent slice as long as `LENGTH` says.
fn touch(lending: &mut Lending<u8>, keeping: Keeping) {
    let length = std::env::var("LENGTH").map_or(0, |length| length.parse().unwrap());
    lending.put(&vec![1; length], keeping);
    let lent = lending.lent().as_ptr();
    let beside = match keeping {
        Keeping::Before => lent.wrapping_add(length),
        Keeping::Behind => lent.wrapping_sub(1),
    };
    println!("{}", unsafe { beside.read_volatile() });
}

#[test]
#[ignore = "faults: run by the test below"]
fn touch_the_byte_behind() {
    touch(&mut Lending::default(), Keeping::Before);
}

#[test]
#[ignore = "faults: run by the test below"]
fn touch_the_byte_before() {
    touch(&mut Lending::default(), Keeping::Behind);
}

#[test]
fn a_byte_beside_the_slice_faults() {
    for name in ["touch_the_byte_behind", "touch_the_byte_before"] {
        for length in LENGTHS {
            let child = Command::new(current_exe().unwrap())
                .args(["--ignored", "--exact", name])
                .env("LENGTH", length.to_string())
                .output()
                .unwrap();
            assert_eq!(child.status.signal(), Some(11), "{name} {length}: {child:?}");
        }
    }
}
