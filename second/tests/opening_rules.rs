//! Rules 1 to 11, a good and a bad case each, and tables that pin the order of rules and the lowest row.

use second::marked::marked_table;
use second::{cases::PINNED, open, Verdict};

/// The answer with as much room as the table needs.
fn verdict(roles: u32, words: &[u16]) -> (u8, u16) {
    let room = (roles as usize).min(16) * words.len();
    let answer = open(words, roles, &mut vec![0; room]);
    (answer.number, answer.place)
}

fn rows(rows: &[[u16; 4]]) -> Vec<u16> {
    rows.concat()
}

const END: [u16; 4] = [0; 4];

/// An exchange from 0 to 1 with one arm, and what follows from row 2 on.
fn after_exchange(rest: &[[u16; 4]]) -> Vec<u16> {
    rows(&[&[[1, 0, 1, 1], [2, 5, 2, 0]], rest].concat())
}

#[test]
fn rule_1_words() {
    assert_eq!(verdict(2, &[]), (1, 0));
    for length in 1..4 {
        assert_eq!(verdict(2, &vec![0; length]), (1, 0));
    }
    assert_eq!(verdict(2, &[0; 4]), (0, 0));
    assert_eq!(verdict(2, &long_loop(256)), (0, 0));
    assert_eq!(verdict(2, &[0; 1028]), (1, 0));
    assert_eq!(verdict(2, &[0; 1025]), (1, 0));
}

/// A loop of exchanges with this many rows, an even number.
fn long_loop(count: u16) -> Vec<u16> {
    let mut words = vec![3, 1, 0, 0];
    for row in (1..count - 1).step_by(2) {
        words.extend([1, 0, 1, row + 1, 2, 5, row + 2, 0]);
    }
    words.extend([4, 0, 0, 0]);
    words
}

#[test]
fn rule_2_roles() {
    for roles in [0, 1, 9, 256, 65538, u32::MAX] {
        assert_eq!(verdict(roles, &[0; 4]), (2, 0), "{roles}");
    }
    for roles in 2..=8 {
        assert_eq!(verdict(roles, &[0; 4]), (0, 0), "{roles}");
    }
}

#[test]
fn rule_3_room() {
    let words = marked_table("T1").unwrap().words;
    for short in 0..24 {
        let mut room = vec![9; short];
        assert_eq!(open(words, 2, &mut room), Verdict { number: 3, place: 0 });
        assert_eq!(room, vec![9; short], "a refused opening writes nothing");
    }
    let mut room = vec![9; 30];
    assert_eq!(open(words, 2, &mut room), Verdict { number: 0, place: 0 });
    assert_eq!(room[24..], [9; 6], "the rest of the room keeps its contents");
    assert!(room[..24].iter().all(|&word| word != 9));
}

#[test]
fn rule_4_kind() {
    assert_eq!(verdict(2, &rows(&[[5, 0, 0, 0]])), (4, 0));
    assert_eq!(verdict(2, &after_exchange(&[END, [65535, 0, 0, 0]])), (4, 3));
    assert_eq!(verdict(2, &after_exchange(&[END])), (0, 0));
}

#[test]
fn rule_5_field() {
    let bad: [([u16; 4], u16); 14] = [
        ([0, 1, 0, 0], 2),
        ([0, 0, 1, 0], 2),
        ([0, 0, 0, 1], 2),
        ([1, 3, 0, 3], 2),
        ([1, 0, 3, 3], 2),
        ([1, 65535, 0, 3], 2),
        ([1, 2, 2, 3], 2),
        ([1, 9, 9, 3], 2),
        ([2, 64, 3, 0], 2),
        ([2, 65535, 3, 0], 2),
        ([3, 3, 1, 0], 2),
        ([3, 3, 0, 1], 2),
        ([4, 0, 1, 0], 2),
        ([4, 0, 0, 1], 2),
    ];
    for (row, place) in bad {
        assert_eq!(verdict(3, &after_exchange(&[row, END])), (5, place), "{row:?}");
    }
    assert_eq!(verdict(3, &rows(&[[1, 2, 0, 1], [2, 63, 2, 0], END])), (0, 0));
}

#[test]
fn rule_5_a_depth_is_no_field() {
    assert_eq!(verdict(2, &after_exchange(&[[4, 65535, 0, 0]])), (9, 2));
}

#[test]
fn rule_6_link() {
    let bad: [(&[[u16; 4]], u16); 14] = [
        (&[[2, 0, 1, 0], END], 0),                                  // row 0 an Arm
        (&[[1, 0, 1, 0], [2, 0, 2, 0], END], 0),                    // first arm 0
        (&[[1, 0, 1, 3], [2, 0, 2, 0], END], 0),                    // first arm past the end
        (&[[1, 0, 1, 2], [2, 0, 2, 0], END], 0),                    // first arm no Arm
        (&[[1, 0, 1, 1], [2, 0, 0, 0], END], 1),                    // continuation 0
        (&[[1, 0, 1, 1], [2, 0, 1, 0], END], 1),                    // continuation itself
        (&[[1, 0, 1, 1], [2, 0, 3, 0], END], 1),                    // continuation past the end
        (&[[1, 0, 1, 1], [2, 0, 2, 0], [2, 1, 3, 0], END], 1),      // continuation an Arm
        (&[[1, 0, 1, 1], [2, 0, 2, 2], END], 1),                    // next arm no Arm
        (&[[1, 0, 1, 1], [2, 0, 2, 65535], END], 1),                // next arm past the end
        (&[[1, 0, 1, 1], [2, 0, 3, 2], [2, 1, 4, 1], END, END], 2), // next arm lower
        (&[[3, 0, 0, 0]], 0),                                       // body itself
        (&[[3, 1, 0, 0]], 0),                                       // body past the end
        (&[[3, 1, 0, 0], [2, 0, 2, 0], END], 0),                    // body an Arm
    ];
    for (table, place) in bad {
        assert_eq!(verdict(2, &rows(table)), (6, place), "{table:?}");
    }
    assert_eq!(verdict(2, &rows(&[[1, 0, 1, 2], END, [2, 0, 1, 0]])), (6, 2), "a link leads up");
    assert_eq!(verdict(2, &rows(&[[3, 1, 0, 0], END])), (0, 0));
}

#[test]
fn rule_7_named() {
    assert_eq!(verdict(2, &rows(&[END, END])), (7, 1), "named by none");
    let twice = [[1, 0, 1, 1], [2, 0, 3, 2], [2, 1, 3, 0], END];
    assert_eq!(verdict(2, &rows(&twice)), (7, 3), "the row that is named twice, not a namer");
    let once = [[1, 0, 1, 1], [2, 0, 3, 2], [2, 1, 4, 0], END, END];
    assert_eq!(verdict(2, &rows(&once)), (0, 0));
    let lowest = [[1, 0, 1, 1], [2, 0, 4, 2], [2, 1, 4, 0], END, END];
    assert_eq!(verdict(2, &rows(&lowest)), (7, 3), "row 3 by none, row 4 twice: the lowest");
}

#[test]
fn rule_8_twice() {
    let same = [[1, 0, 1, 1], [2, 7, 4, 2], [2, 8, 5, 3], [2, 7, 6, 0], END, END, END];
    assert_eq!(verdict(2, &rows(&same)), (8, 3), "an arm that is not next to the one it repeats");
    let mut other = same;
    other[3][1] = 9;
    assert_eq!(verdict(2, &rows(&other)), (0, 0));
    assert_eq!(verdict(2, &after_exchange(&[[1, 0, 1, 3], [2, 5, 4, 0], END])), (0, 0), "another chain");
}

#[test]
fn rule_8_names_the_lowest_over_all_chains() {
    let (roles, words) = PINNED[0];
    assert_eq!(verdict(roles, words), (8, 5));
}

#[test]
fn rule_9_unbound() {
    assert_eq!(verdict(2, &rows(&[[4, 0, 0, 0]])), (9, 0));
    let back = |depth| rows(&[[3, 1, 0, 0], [1, 0, 1, 2], [2, 0, 3, 0], [4, depth, 0, 0]]);
    assert_eq!(verdict(2, &back(0)), (0, 0));
    assert_eq!(verdict(2, &back(1)), (9, 3));
    // A Loop beside a Back is not around it.
    let beside = [[1, 0, 1, 1], [2, 0, 3, 2], [2, 1, 5, 0], [3, 4, 0, 0], END, [4, 0, 0, 0]];
    assert_eq!(verdict(2, &rows(&beside)), (9, 5));
}

#[test]
fn rule_10_unguarded() {
    assert_eq!(verdict(2, &rows(&[[3, 1, 0, 0], [4, 0, 0, 0]])), (10, 1));
    let nested = |depth| rows(&[[3, 1, 0, 0], [1, 0, 1, 2], [2, 0, 3, 0], [3, 4, 0, 0], [4, depth, 0, 0]]);
    assert_eq!(verdict(2, &nested(0)), (10, 4), "its own Loop stands right above it");
    assert_eq!(verdict(2, &nested(1)), (0, 0), "an exchange stands between");
    let loops = rows(&[[3, 1, 0, 0], [3, 2, 0, 0], [4, 1, 0, 0]]);
    assert_eq!(verdict(2, &loops), (10, 2), "only Loops between");
}

#[test]
fn rule_11_no_part_names_the_lowest_role() {
    // Role 2 is told by different senders; role 3 sends in one arm only. Both have no part.
    let table = [
        [1, 0, 1, 1],
        [2, 0, 2, 6],
        [1, 1, 2, 3],
        [2, 0, 4, 0],
        [1, 3, 0, 5],
        [2, 0, 11, 0],
        [2, 1, 7, 0],
        [1, 0, 2, 8],
        [2, 0, 9, 0],
        [1, 1, 0, 10],
        [2, 0, 12, 0],
        END,
        END,
    ];
    assert_eq!(verdict(4, &rows(&table)), (11, 2));
}

#[test]
fn rule_11_back_and_outer_back_have_no_merge() {
    let (roles, words) = PINNED[1];
    assert_eq!(verdict(roles, words), (11, 2));
}

#[test]
fn rule_11_sends_merge_to_one_role_with_the_same_label() {
    let choice = |peer: u16, label: u16| {
        rows(&[
            [1, 0, 1, 1],
            [2, 0, 2, 5],
            [1, 2, 1, 3],
            [2, 4, 4, 0],
            END,
            [2, 1, 6, 0],
            [1, 2, peer, 7],
            [2, label, 8, 0],
            END,
        ])
    };
    assert_eq!(verdict(3, &choice(1, 4)), (0, 0));
    assert_eq!(verdict(3, &choice(1, 5)), (11, 2), "another label");
    assert_eq!(verdict(3, &choice(0, 4)), (11, 2), "another peer");
}

#[test]
fn rule_11_sends_with_fewer_labels_have_no_merge() {
    let (roles, words) = PINNED[5];
    assert_eq!(verdict(roles, words), (11, 2));
}

#[test]
fn rule_11_sends_that_differ_later_merge_label_by_label() {
    let (roles, words) = PINNED[4];
    let mut room = vec![0; roles as usize * words.len()];
    assert_eq!(open(words, roles, &mut room), Verdict { number: 0, place: 0 });
    // Role 2 sends 4 and then receives 6 or 7, or sends 5 and then receives 8 or 9.
    let part = rows(&[
        [5, 1, 1, 0],
        [2, 4, 2, 7],
        [6, 1, 3, 0],
        [2, 6, 4, 5],
        END,
        [2, 7, 6, 0],
        END,
        [2, 5, 8, 0],
        [6, 1, 9, 0],
        [2, 8, 10, 11],
        END,
        [2, 9, 12, 0],
        END,
    ]);
    assert_eq!(room[2 * words.len()..][..part.len()], part);
}

#[test]
fn rule_11_what_follows_a_shared_send_must_merge() {
    // Role 2 sends 5 to role 1 in both arms; then role 1 tells it 6, or `sender` tells it 7.
    let table = |sender: u16| {
        rows(&[
            [1, 0, 1, 1],
            [2, 1, 2, 7],
            [1, 2, 1, 3],
            [2, 5, 4, 0],
            [1, 1, 2, 5],
            [2, 6, 6, 0],
            END,
            [2, 2, 8, 0],
            [1, 2, 1, 9],
            [2, 5, 10, 0],
            [1, sender, 2, 11],
            [2, 7, 12, 0],
            END,
        ])
    };
    assert_eq!(verdict(3, &table(1)), (0, 0), "T8");
    assert_eq!(verdict(3, &table(0)), (11, 2));
}

#[test]
fn rule_11_late_sends_leave_the_place_to_a_higher_role() {
    // Role 2's sends differ later, and document 01 alone refused them; role 3 is told by different senders.
    let (roles, words) = PINNED[6];
    assert_eq!(verdict(roles, words), (11, 3));
}

#[test]
fn rule_11_a_label_set_has_no_order() {
    // Role 2's send has labels 4 and 5 in both arms, in another order: the same label set.
    let table = [
        [1, 0, 1, 1],
        [2, 0, 2, 7],
        [1, 2, 1, 3],
        [2, 4, 5, 4],
        [2, 5, 6, 0],
        END,
        END,
        [2, 1, 8, 0],
        [1, 2, 1, 9],
        [2, 5, 11, 10],
        [2, 4, 12, 0],
        END,
        END,
    ];
    assert_eq!(verdict(3, &rows(&table)), (0, 0));
}

#[test]
fn rule_11_shared_labels_are_merged_below() {
    // Role 2 receives 3 from role 1 in both arms, and then 6 or 7.
    let table = |sender: u16| {
        rows(&[
            [1, 0, 1, 1],
            [2, 0, 2, 7],
            [1, 1, 2, 3],
            [2, 3, 4, 0],
            [1, 1, 2, 5],
            [2, 6, 6, 0],
            END,
            [2, 1, 8, 0],
            [1, 1, 2, 9],
            [2, 3, 10, 0],
            [1, sender, 2, 11],
            [2, 7, 12, 0],
            END,
        ])
    };
    assert_eq!(verdict(3, &table(1)), (0, 0));
    assert_eq!(verdict(3, &table(0)), (11, 2));
}

#[test]
fn a_loop_that_gives_end_is_not_looked_into() {
    // Role 2 is in no exchange of the loop, whose arms would give it back and end.
    let table = [[3, 1, 0, 0], [1, 0, 1, 2], [2, 0, 4, 3], [2, 1, 5, 0], [4, 0, 0, 0], END];
    assert_eq!(verdict(3, &rows(&table)), (0, 0), "back with end has no merge, and is not asked for");
}

#[test]
fn two_faults_the_lower_rule_comes_first() {
    // Each table breaks a rule in row 0 or early and a lower rule further on.
    type Faults = (&'static [[u16; 4]], u32, (u8, u16));
    let named: [Faults; 9] = [
        (&[[0, 9, 0, 0], [5, 0, 0, 0]], 2, (4, 1)),      // 5 at 0, 4 at 1
        (&[[3, 0, 0, 0], [0, 9, 0, 0]], 2, (5, 1)),      // 6 at 0, 5 at 1
        (&[[0, 0, 0, 0], [3, 1, 0, 0]], 2, (6, 1)),      // 7 at 1, 6 at 1
        (&[[3, 2, 0, 0], END, [3, 3, 0, 0]], 2, (6, 2)), // 7 at 1, 6 at 2
        (&[[1, 0, 1, 1], [2, 0, 3, 2], [2, 0, 3, 0], END], 2, (7, 3)), // 8 at 2, 7 at 3
        (&[[1, 0, 1, 1], [2, 0, 3, 2], [2, 0, 4, 0], [4, 0, 0, 0], END], 2, (8, 2)), // 9 at 3
        (&[[1, 0, 1, 1], [2, 0, 2, 4], [3, 3, 0, 0], [4, 0, 0, 0], [2, 1, 5, 0], [4, 0, 0, 0]], 2, (9, 5)), // 10 at 3
        (
            &[
                [1, 0, 1, 1],
                [2, 0, 3, 2],
                [2, 1, 6, 0],
                [1, 2, 0, 4],
                [2, 0, 5, 0],
                END,
                [3, 7, 0, 0],
                [4, 0, 0, 0],
            ],
            3,
            (10, 7),
        ), // 11 too
        (&[[4, 0, 0, 0], [4, 0, 0, 0]], 2, (7, 1)), // 9 at 0, 7 at 1
    ];
    for (table, roles, answer) in named {
        assert_eq!(verdict(roles, &rows(table)), answer, "{table:?}");
    }
}

#[test]
fn two_faults_among_rules_1_to_4() {
    assert_eq!(open(&[0; 5], 9, &mut []), Verdict { number: 1, place: 0 });
    assert_eq!(open(&[0; 4], 9, &mut []), Verdict { number: 2, place: 0 });
    assert_eq!(open(&[9; 4], 2, &mut [0; 7]), Verdict { number: 3, place: 0 });
    assert_eq!(open(&[9; 4], 2, &mut [0; 8]), Verdict { number: 4, place: 0 });
}

#[test]
fn one_rule_broken_twice_names_the_lowest_row() {
    assert_eq!(verdict(2, &rows(&[END, [7, 0, 0, 0], [6, 0, 0, 0]])), (4, 1));
    assert_eq!(verdict(2, &rows(&[END, [0, 1, 0, 0], [0, 1, 0, 0]])), (5, 1));
    assert_eq!(verdict(2, &rows(&[[3, 1, 0, 0], [3, 1, 0, 0], [3, 2, 0, 0]])), (6, 1));
    assert_eq!(verdict(2, &rows(&[END, END, END])), (7, 1));
    let backs = [[1, 0, 1, 1], [2, 0, 4, 2], [2, 1, 3, 0], [4, 0, 0, 0], [4, 0, 0, 0]];
    assert_eq!(verdict(2, &rows(&backs)), (9, 3));
    let unguarded =
        [[1, 0, 1, 1], [2, 0, 5, 2], [2, 1, 3, 0], [3, 4, 0, 0], [4, 0, 0, 0], [3, 6, 0, 0], [4, 0, 0, 0]];
    assert_eq!(verdict(2, &rows(&unguarded)), (10, 4));
}

#[test]
fn the_pinned_trap_opens() {
    let (roles, words) = PINNED[2];
    assert_eq!(verdict(roles, words), (0, 0));
}

#[test]
fn arms_are_written_in_rising_label_order() {
    let table = rows(&[[1, 0, 1, 1], [2, 9, 3, 2], [2, 4, 4, 0], END, END]);
    let mut room = vec![7; 40];
    assert_eq!(open(&table, 2, &mut room).number, 0);
    assert_eq!(room[..20], rows(&[[5, 1, 1, 0], [2, 4, 2, 3], END, [2, 9, 4, 0], END]));
    assert_eq!(room[20..], rows(&[[6, 0, 1, 0], [2, 4, 2, 3], END, [2, 9, 4, 0], END]));
}

#[test]
fn a_refused_opening_of_any_rule_writes_nothing() {
    for table in second::marked::MARKED.iter().filter(|table| table.number != 0) {
        let mut room = vec![4242; 400];
        open(table.words, table.roles, &mut room);
        assert_eq!(room, vec![4242; 400], "{}", table.name);
    }
}
