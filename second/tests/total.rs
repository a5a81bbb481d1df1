//! Every call answers for any input, and a refused call hands back what it was given.

use second::plans::{damage, odd_word, protocol};
use second::random::Random;
use second::{fresh, open, Session};

/// Words that are near a table, or anything.
fn some_words(random: &mut Random) -> (u32, Vec<u16>) {
    if random.chance(30) {
        let length = random.below(80);
        let words = (0..length).map(|_| odd_word(random, length / 4 + 1)).collect();
        return (random.below(10) as u32, words);
    }
    let mut protocol = protocol(random);
    for _ in 0..random.below(4) {
        damage(random, &mut protocol);
    }
    (protocol.roles, protocol.words)
}

fn some_state(random: &mut Random, mut session: Session) -> Session {
    for _ in 0..random.below(3) {
        match random.below(4) {
            0 => session.heads[random.below(8)] = random.draw() as u16,
            1 => session.counts[random.below(64)] = random.draw() as u8,
            2 => session.labels[random.below(256)] = random.draw() as u8,
            _ => session.payloads[random.below(256)] = random.draw() as u32,
        }
    }
    session
}

#[test]
fn every_call_answers_for_any_input() {
    let mut random = Random::new(16);
    for _ in 0..20_000 {
        let (roles, words) = some_words(&mut random);
        let size = random.below(1 + 9 * words.len());
        let mut room = vec![7; size];
        let verdict = open(&words, roles, &mut room);
        if verdict.number != 0 {
            assert!(verdict.number <= 11 && room == vec![7; size]);
        }
        let changed = random.below(2);
        for _ in 0..changed.min(room.len()) {
            let at = random.below(room.len());
            room[at] = odd_word(&mut random, words.len() / 4 + 1);
        }
        let written = if verdict.number == 0 { roles as usize * words.len() } else { room.len() };
        call_anything(&mut random, &room[..written], roles);
    }
}

fn call_anything(random: &mut Random, tables: &[u16], roles: u32) {
    let (number, state) = fresh(tables, roles);
    assert!(number == 0 || (number == 12 && state == Session::ZERO));
    let mut state = some_state(random, state);
    for _ in 0..4 {
        let given = state.clone();
        let (sender, receiver) = (random.below(10) as u32, random.below(10) as u32);
        let awaited = state.awaited(tables, roles);
        assert_eq!(u32::from(awaited.count), awaited.set.count_ones());
        let number = if random.chance(50) {
            let label = random.below(70) as u32;
            let (sent, left) = state.send(tables, roles, sender, receiver, label, 5);
            state = left;
            sent.number
        } else {
            let (received, left) = state.receive(tables, roles, sender, receiver);
            state = left;
            received.number
        };
        assert!(number == 0 || (number >= 12 && state == given));
        assert!(awaited.number == 0 || awaited.number == number);
    }
}
