//! The marked tables T1 to T13 and what document 01 says of them.

use second::marked::{marked_table, MARKED};
use second::{fresh, open, Session};

/// The blocks of a marked table that opens.
fn tables(name: &str) -> (u32, Vec<u16>) {
    let table = marked_table(name).unwrap();
    let mut room = vec![0; table.roles as usize * table.words.len()];
    assert_eq!(open(table.words, table.roles, &mut room).number, 0);
    (table.roles, room)
}

fn block(name: &str, role: usize) -> Vec<u16> {
    let (roles, room) = tables(name);
    let length = room.len() / roles as usize;
    room[role * length..(role + 1) * length].to_vec()
}

/// Words, then zeros up to a length.
fn padded(words: &[u16], length: usize) -> Vec<u16> {
    let mut words = words.to_vec();
    words.resize(length, 0);
    words
}

#[test]
fn every_marked_table_has_its_answer() {
    for table in &MARKED {
        let mut room = vec![0; table.roles as usize * table.words.len()];
        let verdict = open(table.words, table.roles, &mut room);
        assert_eq!((verdict.number, verdict.place), (table.number, table.place), "{}", table.name);
    }
}

#[test]
fn tables_that_are_another_with_one_row_changed() {
    let words = |name| marked_table(name).unwrap().words.to_vec();
    let with_row = |name, row: usize, new: [u16; 4]| {
        let mut words: Vec<u16> = words(name);
        words[row * 4..row * 4 + 4].copy_from_slice(&new);
        words
    };
    assert_eq!(words("T3"), with_row("T2", 6, [1, 0, 2, 7]));
    assert_eq!(words("T4"), [&words("T2")[..24], &[0, 0, 0, 0]].concat());
    assert_eq!(words("T10"), words("T1"));
    assert_eq!(words("T11"), with_row("T1", 0, [1, 0, 0, 1]));
    assert_eq!(words("T12"), with_row("T2", 5, [2, 1, 6, 0]));
    assert_eq!(words("T13"), with_row("T1", 2, [4, 0, 0, 0]));
}

#[test]
fn t2_role_2_keeps_both_labels() {
    let part = [6, 1, 1, 0, 2, 3, 2, 3, 0, 0, 0, 0, 2, 4, 4, 0, 0, 0, 0, 0];
    assert_eq!(block("T2", 2), padded(&part, 36));
}

#[test]
fn t2_role_2_takes_label_4() {
    let (roles, tables) = tables("T2");
    let (_, session) = fresh(&tables, roles);
    let (sent, session) = session.send(&tables, roles, 0, 1, 2, 0);
    assert_eq!(sent.number, 0);
    let (received, session) = session.receive(&tables, roles, 0, 1);
    assert_eq!((received.number, received.label), (0, 2));
    let (sent, session) = session.send(&tables, roles, 1, 2, 4, 77);
    assert_eq!(sent.number, 0);
    let (received, session) = session.receive(&tables, roles, 1, 2);
    assert_eq!((received.number, received.label, received.payload), (0, 4, 77));
    assert_eq!(session.awaited(&tables, roles).lowest, 8);
}

#[test]
fn t5_role_2_ends_at_once() {
    assert_eq!(block("T5", 2), vec![0; 24]);
}

#[test]
fn t5_fifth_send_is_full_until_one_is_received() {
    let (roles, tables) = tables("T5");
    let (_, mut session) = fresh(&tables, roles);
    for payload in 1..=4 {
        let (sent, after) = session.send(&tables, roles, 0, 1, 1, payload);
        assert_eq!(sent.number, 0);
        session = after;
    }
    let given = session.clone();
    let (sent, session) = session.send(&tables, roles, 0, 1, 1, 5);
    assert_eq!((sent.number, &session), (17, &given));
    assert_eq!(session.awaited(&tables, roles).set, 0b10, "role 0 has no room, role 1 a message");
    let (received, session) = session.receive(&tables, roles, 0, 1);
    assert_eq!((received.number, received.label, received.payload), (0, 1, 1));
    let (sent, session) = session.send(&tables, roles, 0, 1, 1, 5);
    assert_eq!(sent.number, 0);
    assert_eq!(session.payloads[4..8], [2, 3, 4, 5]);
}

#[test]
fn t7_role_2_goes_back_through_the_inner_loop() {
    let part = [3, 1, 0, 0, 5, 0, 2, 0, 2, 7, 3, 0, 3, 4, 0, 0, 4, 0, 0, 0];
    assert_eq!(block("T7", 2), padded(&part, 28));
}

#[test]
fn t7_role_2_sends_again() {
    let (roles, tables) = tables("T7");
    let (_, mut session) = fresh(&tables, roles);
    for payload in 0..4 {
        let (sent, after) = session.send(&tables, roles, 2, 0, 7, payload);
        assert_eq!(sent.number, 0);
        session = after;
    }
}

#[test]
fn t8_role_2_sends_and_then_receives_either_reply() {
    let part = [5, 1, 1, 0, 2, 5, 2, 0, 6, 1, 3, 0, 2, 6, 4, 5, 0, 0, 0, 0, 2, 7, 6, 0, 0, 0, 0, 0];
    assert_eq!(block("T8", 2), padded(&part, 52));
}

#[test]
fn t8_role_2_votes_before_the_choice_and_hears_its_reply() {
    let (roles, tables) = tables("T8");
    let (_, session) = fresh(&tables, roles);
    assert_eq!(session.awaited(&tables, roles).set, 0b101, "role 2 need not know the choice to vote");
    let (sent, session) = session.send(&tables, roles, 2, 1, 5, 9);
    assert_eq!(sent.number, 0);
    let (sent, session) = session.send(&tables, roles, 0, 1, 2, 0);
    assert_eq!(sent.number, 0);
    let (_, session) = session.receive(&tables, roles, 0, 1);
    let (received, session) = session.receive(&tables, roles, 2, 1);
    assert_eq!((received.number, received.label, received.payload), (0, 5, 9));
    let (sent, session) = session.send(&tables, roles, 1, 2, 6, 0);
    assert_eq!(sent.number, 16, "6 is the reply to the other choice");
    let (sent, session) = session.send(&tables, roles, 1, 2, 7, 0);
    assert_eq!(sent.number, 0);
    let (received, session) = session.receive(&tables, roles, 1, 2);
    assert_eq!((received.number, received.label), (0, 7));
    assert_eq!(session.awaited(&tables, roles).lowest, 8);
}

#[test]
fn t9_is_finished_when_fresh() {
    let (roles, tables) = tables("T9");
    let (number, session) = fresh(&tables, roles);
    assert_eq!((number, &session), (0, &Session::ZERO));
    let awaited = session.awaited(&tables, roles);
    assert_eq!((awaited.number, awaited.set, awaited.count, awaited.lowest), (0, 0, 0, 8));
}

#[test]
fn a_receiver_with_an_empty_queue_is_not_awaited() {
    let (roles, tables) = tables("T1");
    let (_, session) = fresh(&tables, roles);
    assert_eq!(session.awaited(&tables, roles).set, 0b01);
    let (_, session) = session.send(&tables, roles, 0, 1, 5, 0);
    assert_eq!(session.awaited(&tables, roles).set, 0b10);
}
