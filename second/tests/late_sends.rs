//! K4 beside the merge of document 01: a table that opened before has the same parts, and a table that did not
//! is refused as before or, where it was refused with 11, opens or names a higher role.

use second::numbers::NOPART;
use second::opening::parts;
use second::parts::{Arm, Part};
use second::plans::{damage, protocol, Protocol};
use second::random::Random;
use second::table::{chain, row, ARM, BACK, EXCHANGE, LOOP};
use second::Verdict;

/// The rows that a row's links lead to.
fn links(words: &[u16], number: usize) -> Vec<usize> {
    match row(words, number) {
        [EXCHANGE, _, _, first] => vec![first as usize],
        [ARM, _, then, 0] => vec![then as usize],
        [ARM, _, then, next] => vec![then as usize, next as usize],
        [LOOP, body, ..] => vec![body as usize],
        _ => Vec::new(),
    }
}

/// Whether a role is in an Exchange at or below a row.
fn acts(words: &[u16], role: u16, number: usize) -> bool {
    let [kind, sender, receiver, _] = row(words, number);
    kind == EXCHANGE && (role == sender || role == receiver)
        || links(words, number).into_iter().any(|below| acts(words, role, below))
}

/// Whether a Back at or below a row belongs to none of so many Loops around it.
fn leads_out(words: &[u16], number: usize, loops: u16) -> bool {
    let [kind, depth, ..] = row(words, number);
    let inside = loops + u16::from(kind == LOOP);
    kind == BACK && depth >= loops
        || links(words, number).into_iter().any(|below| leads_out(words, below, inside))
}

/// The part of a role in a row, as document 01 has it.
fn part_before(words: &[u16], role: u16, number: usize) -> Option<Part> {
    match row(words, number) {
        [EXCHANGE, sender, receiver, first] if role == sender => {
            Some(Part::Send(receiver, arms_before(words, role, first)?))
        }
        [EXCHANGE, sender, receiver, first] if role == receiver => {
            Some(Part::Receive(sender, arms_before(words, role, first)?))
        }
        [EXCHANGE, _, _, first] => arms_in_order(words, role, first)?
            .into_iter()
            .map(|arm| arm.then)
            .map(Some)
            .reduce(|one, other| merge_before(&one?, &other?))?,
        [LOOP, ..] if !acts(words, role, number) && !leads_out(words, number, 0) => Some(Part::End),
        [LOOP, body, ..] => Some(Part::Loop(Box::new(part_before(words, role, body as usize)?))),
        [BACK, depth, ..] => Some(Part::Back(depth)),
        _ => Some(Part::End),
    }
}

fn arms_in_order(words: &[u16], role: u16, first: u16) -> Option<Vec<Arm>> {
    chain(words, first)
        .map(|arm| {
            let [_, label, then, _] = row(words, arm);
            Some(Arm { label, then: part_before(words, role, then as usize)? })
        })
        .collect()
}

fn arms_before(words: &[u16], role: u16, first: u16) -> Option<Vec<Arm>> {
    let mut arms = arms_in_order(words, role, first)?;
    arms.sort_by_key(|arm| arm.label);
    Some(arms)
}

/// Document 01's merge: two sends only if they are the same type throughout.
fn merge_before(one: &Part, other: &Part) -> Option<Part> {
    match (one, other) {
        (Part::Loop(body), Part::Loop(second)) => Some(Part::Loop(Box::new(merge_before(body, second)?))),
        (Part::Receive(peer, arms), Part::Receive(same, others)) if peer == same => {
            let mut labels: Vec<u16> = arms.iter().chain(others).map(|arm| arm.label).collect();
            labels.sort();
            labels.dedup();
            let arms: Option<_> =
                labels.into_iter().map(|label| shared_before(label, arms, others)).collect();
            Some(Part::Receive(*peer, arms?))
        }
        _ => (one == other).then(|| one.clone()),
    }
}

/// The arm of a label that either chain has.
fn shared_before(label: u16, arms: &[Arm], others: &[Arm]) -> Option<Arm> {
    let of = |arms: &[Arm]| arms.iter().find(|arm| arm.label == label).map(|arm| arm.then.clone());
    let then = match (of(arms), of(others)) {
        (Some(one), Some(other)) => merge_before(&one, &other)?,
        (one, other) => one.or(other)?,
    };
    Some(Arm { label, then })
}

/// The parts of a table or the verdict, as document 01 has them; the verdict of rules 1 to 10, which K4 leaves
/// alone, is taken over.
fn parts_before(
    Protocol { roles, words }: &Protocol,
    now: &Result<Vec<Part>, Verdict>,
) -> Result<Vec<Part>, Verdict> {
    match now {
        Err(refused) if refused.number != NOPART => Err(*refused),
        _ => (0..*roles as u16)
            .map(|role| part_before(words, role, 0).ok_or(Verdict::refused(NOPART, role as usize)))
            .collect(),
    }
}

#[test]
fn no_table_that_opened_before_gets_another_part() {
    let mut random = Random::new(41);
    let (mut opened, mut opens_now, mut place_moved) = (0, 0, 0);
    for _ in 0..20_000 {
        let mut protocol = protocol(&mut random);
        if random.chance(20) {
            damage(&mut random, &mut protocol);
        }
        let now = parts(&protocol.words, protocol.roles, usize::MAX);
        match (parts_before(&protocol, &now), now) {
            (Ok(before), now) => {
                assert_eq!(now, Ok(before), "{protocol:?}");
                opened += 1;
            }
            (Err(before), Ok(_)) => {
                assert_eq!(before.number, NOPART, "{protocol:?}");
                opens_now += 1;
            }
            (Err(before), Err(now)) => {
                assert_eq!(now.number, before.number, "{protocol:?}");
                assert!(now.place >= before.place, "{protocol:?}");
                place_moved += u32::from(now.place > before.place);
            }
        }
    }
    assert!(opened > 8_000 && opens_now > 1_000 && place_moved > 100, "{opened} {opens_now} {place_moved}");
}
