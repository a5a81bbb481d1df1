//! Rules 12 to 19, a good and a bad case each, the order in which calls test them, and what a refusal offers (K2).

use second::{fresh, Sent, Session};

const END: [u16; 4] = [0; 4];

fn rows(rows: &[[u16; 4]]) -> Vec<u16> {
    rows.concat()
}

/// Two roles: role 0 sends 3 or 4 to role 1 and does so again; role 1 receives, and ends after 4.
fn tables() -> Vec<u16> {
    rows(&[
        [3, 1, 0, 0],
        [5, 1, 2, 0],
        [2, 3, 4, 3],
        [2, 4, 4, 0],
        [4, 0, 0, 0],
        END,
        [3, 1, 0, 0],
        [6, 0, 2, 0],
        [2, 3, 4, 3],
        [2, 4, 5, 0],
        [4, 0, 0, 0],
        END,
    ])
}

fn number(tables: &[u16], roles: u32) -> u8 {
    fresh(tables, roles).0
}

/// The tables of `tables` with one row of role 0 changed.
fn with_row(row: usize, new: [u16; 4]) -> Vec<u16> {
    let mut words = tables();
    words[row * 4..row * 4 + 4].copy_from_slice(&new);
    words
}

/// The number of an awaited answer, which tests 12 and 13 alone.
fn judged(session: &Session) -> u8 {
    session.awaited(&tables(), 2).number
}

fn start() -> Session {
    fresh(&tables(), 2).1
}

#[test]
fn rule_12_sizes() {
    assert_eq!(number(&tables(), 2), 0);
    for roles in [0, 1, 3, 5, 9, 65538, u32::MAX] {
        assert_eq!(number(&tables(), roles), 12, "{roles}");
    }
    assert_eq!(number(&[], 2), 12);
    assert_eq!(number(&[0; 4], 2), 12);
    assert_eq!(number(&[0; 8], 2), 0);
    assert_eq!(number(&[0; 12], 2), 12);
    assert_eq!(number(&[0; 2048], 2), 0);
    assert_eq!(number(&[0; 2056], 2), 12, "257 rows");
    assert_eq!(number(&[0; 8192], 8), 0);
    assert_eq!(number(&tables()[..47], 2), 12);
}

#[test]
fn rule_12_rows() {
    let bad: [(usize, [u16; 4]); 24] = [
        (0, [2, 3, 1, 0]), // row 0 an Arm
        (1, [1, 1, 0, 2]), // kind 1
        (1, [7, 1, 2, 0]), // kind 7
        (5, [0, 1, 0, 0]), // End with a word
        (5, [0, 0, 0, 1]),
        (0, [3, 1, 1, 0]),  // Loop with a word
        (0, [3, 0, 0, 0]),  // body itself
        (0, [3, 6, 0, 0]),  // body past the block
        (0, [3, 2, 0, 0]),  // body an Arm
        (1, [5, 0, 2, 0]),  // peer itself
        (1, [5, 2, 2, 0]),  // peer not in range
        (1, [5, 1, 2, 1]),  // unused word
        (1, [5, 1, 0, 0]),  // first arm 0
        (1, [5, 1, 4, 0]),  // first arm no Arm
        (1, [5, 1, 6, 0]),  // first arm past the block
        (2, [2, 64, 4, 0]), // label
        (2, [2, 3, 2, 3]),  // continuation itself
        (2, [2, 3, 3, 0]),  // continuation an Arm
        (2, [2, 3, 4, 5]),  // next arm no Arm
        (3, [2, 4, 4, 2]),  // next arm lower
        (2, [2, 4, 4, 3]),  // labels equal
        (2, [2, 5, 4, 3]),  // labels fall
        (4, [4, 1, 0, 0]),  // Back to no Loop
        (4, [4, 0, 1, 0]),  // Back with a word
    ];
    for (row, new) in bad {
        assert_eq!(number(&with_row(row, new), 2), 12, "{row} {new:?}");
    }
}

#[test]
fn rule_12_every_row_has_a_head() {
    let pair = |block: &[[u16; 4]]| {
        let mut words = rows(block);
        words.extend(vec![0; words.len()]);
        words
    };
    assert_eq!(number(&pair(&[[3, 1, 0, 0], [4, 0, 0, 0]]), 2), 12);
    assert_eq!(number(&pair(&[END, [3, 2, 0, 0], [4, 1, 0, 0]]), 2), 12, "reachable or not");
    assert_eq!(number(&pair(&[[3, 1, 0, 0], [3, 2, 0, 0], [4, 0, 0, 0]]), 2), 12);
    assert_eq!(number(&pair(&[[3, 1, 0, 0], END]), 2), 0);
    assert_eq!(number(&pair(&[[3, 1, 0, 0], END, [4, 0, 0, 0]]), 2), 0, "a Back not inside its Loop");
    assert_eq!(number(&pair(&[END, [4, 2, 0, 0], [3, 3, 0, 0], END]), 2), 12, "a Back names a lower row");
    assert_eq!(number(&pair(&[[3, 3, 0, 0], [3, 2, 0, 0], [4, 0, 0, 0], END]), 2), 0);
}

#[test]
fn rule_12_named_once_is_dropped() {
    let shared = rows(&[[5, 1, 1, 0], [2, 3, 3, 2], [2, 4, 3, 0], END, [5, 1, 2, 0], [2, 9, 2, 0]]);
    let mut words = shared.clone();
    words.extend(vec![0; 24]);
    assert_eq!(number(&words, 2), 12, "row 5 leads down");
    words[5 * 4 + 2] = 0;
    words[5 * 4..6 * 4].copy_from_slice(&END);
    assert_eq!(number(&words, 2), 12, "row 4's first arm leads down");
    words[4 * 4..5 * 4].copy_from_slice(&END);
    assert_eq!(number(&words, 2), 0, "row 3 is named twice, rows 4 and 5 never");
}

#[test]
fn rule_12_labels_rise_in_unreachable_chains_too() {
    let mut words = rows(&[END, [2, 3, 3, 2], [2, 3, 3, 0], END]);
    words.extend(vec![0; 16]);
    assert_eq!(number(&words, 2), 12);
    words[2 * 4 + 1] = 4;
    assert_eq!(number(&words, 2), 0);
}

#[test]
fn refused_with_12_fresh_is_all_zeros_and_awaited_is_empty() {
    assert_eq!(fresh(&[1; 8], 2), (12, Session::ZERO));
    let awaited = start().awaited(&[1; 8], 2);
    assert_eq!((awaited.number, awaited.set, awaited.count, awaited.lowest), (12, 0, 0, 8));
}

#[test]
fn rule_13_heads() {
    for (head, answer) in [(0, 13), (1, 0), (2, 13), (3, 13), (4, 13), (5, 0), (6, 13), (65535, 13)] {
        let mut session = start();
        session.heads[0] = head;
        assert_eq!(judged(&session), answer, "{head}");
    }
    let mut session = start();
    session.heads[2] = 1;
    assert_eq!(judged(&session), 13, "an absent role");
}

#[test]
fn rule_13_queues() {
    let with = |change: fn(&mut Session)| {
        let mut session = start();
        change(&mut session);
        judged(&session)
    };
    assert_eq!(with(|s| s.counts[1] = 4), 0);
    assert_eq!(with(|s| s.counts[1] = 5), 13);
    assert_eq!(with(|s| s.counts[1] = 255), 13);
    assert_eq!(with(|s| s.labels[4] = 1), 13, "an unused slot");
    assert_eq!(with(|s| s.payloads[4] = 1), 13, "an unused slot");
    assert_eq!(with(|s| (s.counts[1], s.labels[4]) = (1, 63)), 0);
    assert_eq!(with(|s| (s.counts[1], s.labels[4]) = (1, 64)), 13);
    assert_eq!(with(|s| (s.counts[1], s.payloads[4]) = (1, u32::MAX)), 0);
    assert_eq!(with(|s| (s.counts[1], s.labels[5]) = (1, 1)), 13, "the slot after the last");
    assert_eq!(with(|s| s.counts[0] = 1), 13, "a role's queue to itself");
    assert_eq!(with(|s| s.labels[0] = 1), 13);
    assert_eq!(with(|s| s.counts[2] = 1), 13, "to an absent role");
    assert_eq!(with(|s| s.counts[2 * 8] = 1), 13, "from an absent role");
    assert_eq!(with(|s| s.payloads[255] = 1), 13, "between absent roles");
    assert_eq!(with(|s| s.counts[8] = 4), 0, "a queue that no part uses may hold messages");
}

#[test]
fn rule_14_party() {
    let tables = tables();
    for (sender, receiver) in [(0, 0), (2, 0), (0, 2), (9, 9), (256, 1), (0, 257), (u32::MAX, 1)] {
        assert_eq!(start().send(&tables, 2, sender, receiver, 3, 0).0.number, 14);
        assert_eq!(start().receive(&tables, 2, sender, receiver).0.number, 14);
    }
    assert_eq!(start().send(&tables, 2, 0, 1, 3, 0).0.number, 0);
}

#[test]
fn rule_15_turn() {
    let tables = tables();
    assert_eq!(start().send(&tables, 2, 1, 0, 3, 0).0.number, 15, "a Receive is no Send");
    assert_eq!(start().receive(&tables, 2, 1, 0).0.number, 15, "a Send is no Receive");
    let mut ended = start();
    ended.heads[0] = 5;
    assert_eq!(ended.send(&tables, 2, 0, 1, 3, 0).0.number, 15, "an End is neither");
    let three = [tables.clone(), vec![0; 24]].concat();
    let (_, session) = fresh(&three, 3);
    assert_eq!(session.send(&three, 3, 0, 2, 3, 0).0.number, 15, "another peer");
}

#[test]
fn rule_16_label() {
    let tables = tables();
    for label in [0, 5, 63, 64, 255, 259, 65539, u32::MAX] {
        assert_eq!(start().send(&tables, 2, 0, 1, label, 0).0.number, 16, "{label}");
    }
    for label in [3, 4] {
        assert_eq!(start().send(&tables, 2, 0, 1, label, 0).0.number, 0);
    }
}

#[test]
fn rule_17_full() {
    let tables = tables();
    let mut session = start();
    session.counts[1] = 4;
    assert_eq!(session.clone().send(&tables, 2, 0, 1, 3, 0).0.number, 17);
    assert_eq!(session.clone().send(&tables, 2, 0, 1, 9, 0).0.number, 16, "LABEL before FULL");
    session.counts[1] = 3;
    assert_eq!(session.send(&tables, 2, 0, 1, 3, 0).0.number, 0);
}

#[test]
fn rule_18_empty() {
    let (received, left) = start().receive(&tables(), 2, 0, 1);
    assert_eq!((received.number, received.label, received.payload), (18, 0, 0));
    assert_eq!(left, start());
    let (_, session) = start().send(&tables(), 2, 0, 1, 4, 8);
    let (received, session) = session.receive(&tables(), 2, 0, 1);
    assert_eq!((received.number, received.label, received.payload), (0, 4, 8));
    assert_eq!(session.heads[1], 5);
}

#[test]
fn rule_19_stray() {
    let mut session = start();
    session.counts[1] = 2;
    session.labels[4] = 9;
    session.labels[5] = 3;
    session.payloads[4] = 70;
    let given = session.clone();
    assert_eq!(session.awaited(&tables(), 2).set, 0b01, "a stray message makes nobody awaited");
    let (received, left) = session.receive(&tables(), 2, 0, 1);
    assert_eq!((received.number, received.label, received.payload, received.offered), (19, 0, 0, 3));
    assert_eq!(left, given);
}

#[test]
fn calls_test_in_order() {
    let mut bad_state = start();
    bad_state.heads[0] = 0;
    assert_eq!(bad_state.clone().send(&[], 2, 9, 9, 99, 0).0.number, 12);
    let refused = Sent { number: 13, offered: 64 };
    assert_eq!(bad_state.clone().send(&tables(), 2, 9, 9, 99, 0), (refused, bad_state.clone()));
    assert_eq!(bad_state.clone().receive(&[], 2, 9, 9).0.number, 12);
    let (received, left) = bad_state.clone().receive(&tables(), 2, 9, 9);
    assert_eq!((received.number, left), (13, bad_state));
    assert_eq!(start().send(&tables(), 2, 1, 0, 99, 0).0.number, 15, "TURN before LABEL");
}

/// Number and offered label of a send and of a receive from role 0 to role 1.
fn offers(session: &Session, tables: &[u16], label: u32) -> [(u8, u8); 2] {
    let (sent, _) = session.clone().send(tables, 2, 0, 1, label, 0);
    let (received, _) = session.clone().receive(tables, 2, 0, 1);
    [(sent.number, sent.offered), (received.number, received.offered)]
}

#[test]
fn a_failed_lookup_offers_the_lowest_label() {
    let mut session = start();
    (session.counts[1], session.labels[4]) = (1, 9);
    assert_eq!(offers(&session, &tables(), 5), [(16, 3), (19, 3)]);
    assert_eq!(offers(&session, &tables(), u32::MAX), [(16, 3), (19, 3)]);
    session.counts[1] = 4;
    assert_eq!(offers(&session, &tables(), 5), [(16, 3), (19, 3)], "LABEL before FULL");
    let other = with_row(2, [2, 0, 4, 3]);
    assert_eq!(
        offers(&session, &other, 5),
        [(16, 0), (19, 3)],
        "each role's own head; a label of 0 is offered too"
    );
    let other = with_row(1, [5, 1, 3, 0]);
    assert_eq!(offers(&session, &other, 3), [(16, 4), (19, 3)], "only the head's own chain counts");
}

#[test]
fn every_other_answer_offers_64() {
    let tables = tables();
    assert_eq!(offers(&start(), &tables, 3), [(0, 64), (18, 64)]);
    let (_, mut session) = start().send(&tables, 2, 0, 1, 4, 8);
    assert_eq!(offers(&session, &tables, 4), [(0, 64), (0, 64)], "accepted");
    session.counts[1] = 4;
    assert_eq!(offers(&session, &tables, 4)[0], (17, 64));
    assert_eq!(offers(&session, &tables[4..], 4), [(12, 64), (12, 64)]);
    session.heads[0] = 5;
    assert_eq!(offers(&session, &tables, 99)[0], (15, 64), "an End offers nothing");
    session.heads[0] = 4;
    assert_eq!(offers(&session, &tables, 99), [(13, 64), (13, 64)]);
    assert_eq!(start().send(&tables, 2, 1, 1, 99, 0).0, Sent { number: 14, offered: 64 });
    assert_eq!(start().receive(&tables, 2, 2, 1).0.offered, 64);
}

#[test]
fn queues_are_first_in_first_out_and_slots_are_used_again() {
    let tables = tables();
    let mut session = start();
    let mut next = 0;
    for round in 0..10 {
        while session.counts[1] < 4 {
            let (sent, after) = session.send(&tables, 2, 0, 1, 3, next);
            assert_eq!(sent.number, 0);
            (session, next) = (after, next + 1);
        }
        let (received, after) = session.receive(&tables, 2, 0, 1);
        assert_eq!((received.number, received.label, received.payload), (0, 3, round));
        session = after;
        assert_eq!(session.payloads[4..8], [round + 1, round + 2, round + 3, 0]);
        assert_eq!(session.labels[4..8], [3, 3, 3, 0]);
    }
}

#[test]
fn awaited_counts_roles_and_names_the_lowest() {
    let (_, session) = start().send(&tables(), 2, 0, 1, 3, 0);
    let awaited = session.awaited(&tables(), 2);
    assert_eq!((awaited.number, awaited.set, awaited.count, awaited.lowest), (0, 0b11, 2, 0));
    let mut session = session;
    session.heads[0] = 5;
    let awaited = session.awaited(&tables(), 2);
    assert_eq!((awaited.set, awaited.count, awaited.lowest), (0b10, 1, 1));
}
