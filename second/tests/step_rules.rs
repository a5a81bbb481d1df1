//! The step rules over running trees, rule by rule, and the table of the trap.

use second::cases::PINNED;
use second::demand3::{run_protocol, Tally};
use second::marked::marked_table;
use second::plans::{protocol, Protocol};
use second::random::Random;
use second::steps::{allowed, apply, opened, size, start, Message, Step, Tree};
use std::rc::Rc;

fn message(sender: u8, receiver: u8, label: u8, payload: u32) -> Message {
    Message { sender, receiver, label, payload }
}

fn send(sender: u8, receiver: u8, label: u8, payload: u32) -> Step {
    Step::Send(message(sender, receiver, label, payload))
}

fn receive(sender: u8, receiver: u8, label: u8, payload: u32) -> Step {
    Step::Receive(message(sender, receiver, label, payload))
}

fn tree_of(name: &str) -> Rc<Tree> {
    start(marked_table(name).unwrap().words)
}

/// The tree after steps that must all be allowed.
fn after(tree: Rc<Tree>, steps: &[Step]) -> Rc<Tree> {
    steps.iter().fold(tree, |tree, step| apply(&tree, step).unwrap())
}

#[test]
fn rules_1_and_2_send_and_receive() {
    let tree = tree_of("T1");
    assert!(apply(&tree, &send(0, 1, 4, 0)).is_none(), "no such label");
    assert!(apply(&tree, &send(1, 0, 5, 0)).is_none(), "not the sender");
    assert!(apply(&tree, &receive(0, 1, 5, 0)).is_none(), "nothing is in flight");
    let tree = after(tree, &[send(0, 1, 5, 9)]);
    assert!(apply(&tree, &receive(0, 1, 5, 8)).is_none(), "another payload");
    assert!(apply(&tree, &send(0, 1, 5, 9)).is_none(), "sent already");
    assert_eq!(*after(tree, &[receive(0, 1, 5, 9)]), Tree::End);
}

#[test]
fn rule_3_a_loop_steps_as_its_body() {
    let tree = tree_of("T5");
    let tree = after(tree, &[send(0, 1, 1, 1), send(0, 1, 1, 2), send(0, 1, 2, 3)]);
    assert!(apply(&tree, &receive(0, 1, 1, 2)).is_none(), "the oldest comes first");
    let steps = [receive(0, 1, 1, 1), receive(0, 1, 1, 2), receive(0, 1, 2, 3)];
    assert_eq!(*after(tree, &steps), Tree::End);
}

#[test]
fn a_loop_opened_without_end_allows_nothing() {
    let tree = tree_of("T5");
    assert!(apply(&tree, &send(2, 0, 1, 0)).is_none(), "role 2 is nowhere in the loop");
    assert_eq!(allowed(&tree).len(), 2);
    let nested = tree_of("T7");
    assert!(apply(&nested, &send(1, 0, 1, 0)).is_none());
    assert_eq!(allowed(&nested), [send(2, 0, 7, 0)]);
}

#[test]
fn rule_4_every_arm_allows_the_step() {
    // 0 to 1 with two arms; role 2 sends 5 to role 3 in both, and 6 in one.
    let words = [
        1, 0, 1, 1, 2, 0, 2, 8, 1, 2, 3, 3, 2, 5, 4, 5, 0, 0, 0, 0, 2, 6, 6, 0, 0, 0, 0, 0, 0, 0, 0, 0, 2, 1,
        9, 0, 1, 2, 3, 10, 2, 5, 11, 0, 0, 0, 0, 0,
    ];
    let tree = start(&words);
    assert!(apply(&tree, &send(2, 3, 6, 0)).is_none(), "one arm does not allow it");
    let tree = after(tree, &[send(2, 3, 5, 7)]);
    let tree = after(tree, &[receive(2, 3, 5, 7)]);
    let tree = after(tree, &[send(0, 1, 1, 0), receive(0, 1, 1, 0)]);
    assert_eq!(*tree, Tree::End, "every arm took the step");
}

#[test]
fn rule_4_shuts_out_both_parties() {
    // 0 to 1, then 0 to 2 and 1 to 2: neither may go past while the first is unsent.
    let words = [1, 0, 1, 1, 2, 0, 2, 0, 1, 0, 2, 3, 2, 0, 4, 0, 1, 1, 2, 5, 2, 0, 6, 0, 0, 0, 0, 0];
    let tree = start(&words);
    assert_eq!(allowed(&tree), [send(0, 1, 0, 0)]);
    let tree = after(tree, &[send(0, 1, 0, 0)]);
    assert!(apply(&tree, &send(0, 2, 0, 0)).is_some(), "rule 5: the sender may go past");
    assert!(apply(&tree, &send(1, 2, 0, 0)).is_none(), "rule 5: the receiver may not");
}

#[test]
fn rule_5_only_the_chosen_arm_counts() {
    // 0 to 1: after label 1 role 2 sends 5 to 0, after label 2 it sends 6.
    let words = [
        1, 0, 1, 1, 2, 1, 2, 5, 1, 2, 0, 3, 2, 5, 4, 0, 0, 0, 0, 0, 2, 2, 6, 0, 1, 2, 0, 7, 2, 6, 8, 0, 0, 0,
        0, 0,
    ];
    let tree = start(&words);
    assert!(apply(&tree, &send(2, 0, 5, 0)).is_none());
    let tree = after(tree, &[send(0, 1, 2, 0)]);
    assert!(apply(&tree, &send(2, 0, 5, 0)).is_none());
    assert!(apply(&tree, &send(2, 0, 6, 0)).is_some());
}

fn trap() -> Protocol {
    let (roles, words) = PINNED[2];
    Protocol { roles, words: words.to_vec() }
}

#[test]
fn the_trap_runs_as_its_step_rules_say() {
    let tree = start(&trap().words);
    // Role 3 sends first: every arm lets it, past 0 to 1 and past 2 to 0.
    let tree = after(tree, &[send(3, 1, 1, 0), send(2, 0, 5, 0), send(0, 1, 1, 0)]);
    assert!(apply(&tree, &receive(3, 1, 1, 0)).is_none(), "role 1 receives from role 0 first");
    let tree = after(tree, &[receive(0, 1, 1, 0), receive(3, 1, 1, 0), send(1, 2, 3, 4)]);
    let tree = after(tree, &[receive(1, 2, 3, 4), receive(2, 0, 5, 0)]);
    assert_eq!(*tree, Tree::End);
}

#[test]
fn the_trap_keeps_demand_3() {
    let mut tally = Tally::default();
    let mut random = Random::new(13);
    while tally.calls < 5_000 {
        run_protocol(&trap(), &mut random, &mut tally).unwrap();
    }
}

#[test]
fn the_marked_tables_keep_demand_3() {
    let mut random = Random::new(14);
    for table in second::marked::MARKED.iter().filter(|table| table.number == 0) {
        let protocol = Protocol { roles: table.roles, words: table.words.to_vec() };
        let mut tally = Tally::default();
        while tally.calls < 1_000 {
            run_protocol(&protocol, &mut random, &mut tally).unwrap();
        }
    }
}

/// The step rules with loops opened a fixed number of times on each way down, with no look at names.
fn apply_with_fuel(tree: &Rc<Tree>, step: &Step, fuel: usize) -> Option<Rc<Tree>> {
    let subject = step.subject();
    match (&**tree, step) {
        (Tree::End | Tree::Back(_), _) => None,
        (Tree::Loop(..), _) if fuel == 0 => None,
        (Tree::Loop(_, body), _) => apply_with_fuel(&opened(tree, body), step, fuel - 1),
        (Tree::Unsent(s, r, arms), Step::Send(m)) if (*s, *r) == (m.sender, m.receiver) => {
            let (_, then) = arms.iter().find(|(label, _)| *label == m.label)?;
            Some(Rc::new(Tree::Flight(*m, then.clone())))
        }
        (Tree::Unsent(s, r, _), _) if subject == *s || subject == *r => None,
        (Tree::Unsent(s, r, arms), _) => {
            let arms: Option<Vec<_>> =
                arms.iter().map(|(label, then)| Some((*label, apply_with_fuel(then, step, fuel)?))).collect();
            Some(Rc::new(Tree::Unsent(*s, *r, arms?)))
        }
        (Tree::Flight(m, then), _) if subject == m.receiver => {
            (*step == Step::Receive(*m)).then(|| then.clone())
        }
        (Tree::Flight(m, then), _) => Some(Rc::new(Tree::Flight(*m, apply_with_fuel(then, step, fuel)?))),
    }
}

#[test]
fn a_loop_met_again_never_helps() {
    let mut random = Random::new(15);
    let (mut compared, mut taken) = (0, 0);
    while compared < 100_000 {
        let protocol = protocol(&mut random);
        let loops = protocol.words.chunks(4).filter(|row| row[0] == 3).count();
        let small = protocol.words.len() <= 80 && loops > 0 && loops <= 3;
        if !small || second::hand_made::blocks_of(&protocol).is_none() {
            continue;
        }
        let mut tree = start(&protocol.words);
        for _ in 0..12 {
            let steps = allowed(&tree);
            for step in any_steps(&steps, protocol.roles as u8) {
                let after = apply(&tree, &step);
                assert_eq!(after, apply_with_fuel(&tree, &step, loops + 2), "{protocol:?} {step:?}");
                assert_eq!(after.is_some(), steps.contains(&step), "{protocol:?} {step:?}");
                compared += 1;
            }
            let Some(step) = random.pick(&steps) else { break };
            tree = after(tree, &[step]);
            taken += 1;
            if size(&tree, 200) >= 200 {
                break;
            }
        }
    }
    assert!(taken > 1_000);
}

/// The steps given, and one send and one receive for each pair of roles.
fn any_steps(steps: &[Step], roles: u8) -> Vec<Step> {
    let pairs = (0..roles).flat_map(|s| (0..roles).filter(move |r| *r != s).map(move |r| (s, r)));
    let others = pairs.flat_map(|(s, r)| [send(s, r, 1, 0), receive(s, r, 1, 0)]);
    steps.iter().copied().chain(others).collect()
}
