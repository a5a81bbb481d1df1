//! The step rules of the global protocol over running trees, after document 01.
//!
//! Nothing here knows parts, blocks, heads or queues: the engine is judged by this module, so they share
//! only the reading of a table's rows.

use crate::table::{chain, row, ARM, BACK, EXCHANGE, LOOP};
use std::rc::Rc;

/// A running protocol. A Loop is named by its table row, so that it is known when it is met again.
#[derive(Debug, PartialEq, Eq)]
pub enum Tree {
    End,
    /// An exchange that is unsent: sender, receiver, arms by label.
    Unsent(u8, u8, Vec<(u8, Rc<Tree>)>),
    /// An exchange in flight: the message and the chosen continuation, the only one looked at again.
    Flight(Message, Rc<Tree>),
    Loop(u8, Rc<Tree>),
    Back(u16),
}

#[derive(Clone, Copy, Debug, PartialEq, Eq)]
pub struct Message {
    pub sender: u8,
    pub receiver: u8,
    pub label: u8,
    pub payload: u32,
}

/// A step: the sender sends the message, or the receiver receives it.
#[derive(Clone, Copy, Debug, PartialEq, Eq)]
pub enum Step {
    Send(Message),
    Receive(Message),
}

impl Step {
    /// The role that takes the step.
    pub fn subject(&self) -> u8 {
        match self {
            Step::Send(message) => message.sender,
            Step::Receive(message) => message.receiver,
        }
    }
}

/// The Loops opened on the way down to a subtree, a bit for each row.
///
/// In a closed tree every Loop of one row is the same tree: a Loop that takes a step is no Loop any more,
/// and what stands for its outer backs is fixed by the table. So a Loop met again below its own opening
/// would need a derivation of itself, which is one without end, and it allows nothing.
#[derive(Clone, Copy, Default)]
struct Opened([u64; 4]);

impl Opened {
    /// With one more Loop, unless that Loop is open already.
    fn with(mut self, name: u8) -> Option<Opened> {
        let (word, bit) = (name as usize / 64, 1u64 << (name % 64));
        if self.0[word] & bit != 0 {
            return None;
        }
        self.0[word] |= bit;
        Some(self)
    }
}

/// The tree of a table that keeps rules 1 to 10.
pub fn start(table: &[u16]) -> Rc<Tree> {
    tree(table, 0)
}

fn tree(table: &[u16], number: usize) -> Rc<Tree> {
    let [kind, a, b, c] = row(table, number);
    Rc::new(match kind {
        EXCHANGE => Tree::Unsent(a as u8, b as u8, arms(table, c)),
        LOOP => Tree::Loop(number as u8, tree(table, a as usize)),
        BACK => Tree::Back(a),
        _ => Tree::End,
    })
}

fn arms(table: &[u16], first: u16) -> Vec<(u8, Rc<Tree>)> {
    chain(table, first)
        .map(|arm| {
            let [kind, label, then, _] = row(table, arm);
            debug_assert_eq!(kind, ARM);
            (label as u8, tree(table, then as usize))
        })
        .collect()
}

/// A loop's body with each of its backs replaced by the loop. The loop is closed: nothing is renumbered.
pub fn opened(whole: &Rc<Tree>, body: &Rc<Tree>) -> Rc<Tree> {
    replaced(body, 0, whole).unwrap_or_else(|| body.clone())
}

/// The tree with each back of a depth replaced; none where there is no such back, to share the tree.
fn replaced(tree: &Rc<Tree>, depth: u16, whole: &Rc<Tree>) -> Option<Rc<Tree>> {
    match &**tree {
        Tree::End => None,
        Tree::Back(own) => (*own == depth).then(|| whole.clone()),
        Tree::Loop(name, body) => Some(Rc::new(Tree::Loop(*name, replaced(body, depth + 1, whole)?))),
        Tree::Flight(message, then) => Some(Rc::new(Tree::Flight(*message, replaced(then, depth, whole)?))),
        Tree::Unsent(sender, receiver, arms) => {
            let new: Vec<_> = arms.iter().map(|(_, then)| replaced(then, depth, whole)).collect();
            if new.iter().all(Option::is_none) {
                return None;
            }
            let arms = arms
                .iter()
                .zip(new)
                .map(|((label, old), new)| (*label, new.unwrap_or_else(|| old.clone())))
                .collect();
            Some(Rc::new(Tree::Unsent(*sender, *receiver, arms)))
        }
    }
}

/// The tree after a step, if the step rules allow the step.
pub fn apply(tree: &Rc<Tree>, step: &Step) -> Option<Rc<Tree>> {
    apply_below(tree, step, Opened::default())
}

fn apply_below(tree: &Rc<Tree>, step: &Step, open: Opened) -> Option<Rc<Tree>> {
    match &**tree {
        Tree::End | Tree::Back(_) => None,
        Tree::Loop(name, body) => apply_below(&opened(tree, body), step, open.with(*name)?),
        Tree::Unsent(sender, receiver, arms) => {
            let subject = step.subject();
            if subject == *sender {
                send(*sender, *receiver, arms, step)
            } else if subject == *receiver {
                None
            } else {
                past_unsent(*sender, *receiver, arms, step, open)
            }
        }
        Tree::Flight(message, then) => {
            if step.subject() == message.receiver {
                (*step == Step::Receive(*message)).then(|| then.clone())
            } else {
                Some(Rc::new(Tree::Flight(*message, apply_below(then, step, open)?)))
            }
        }
    }
}

/// Rule 1.
fn send(sender: u8, receiver: u8, arms: &[(u8, Rc<Tree>)], step: &Step) -> Option<Rc<Tree>> {
    let Step::Send(message) = step else { return None };
    if message.sender != sender || message.receiver != receiver {
        return None;
    }
    let (_, then) = arms.iter().find(|(label, _)| *label == message.label)?;
    Some(Rc::new(Tree::Flight(*message, then.clone())))
}

/// Rule 4: every arm allows the step and takes it.
fn past_unsent(
    sender: u8,
    receiver: u8,
    arms: &[(u8, Rc<Tree>)],
    step: &Step,
    open: Opened,
) -> Option<Rc<Tree>> {
    let stepped = arms
        .iter()
        .map(|(label, then)| Some((*label, apply_below(then, step, open)?)))
        .collect::<Option<Vec<_>>>()?;
    Some(Rc::new(Tree::Unsent(sender, receiver, stepped)))
}

/// All steps that the rules allow; a send stands for its payload being any number, and is given with 0.
pub fn allowed(tree: &Rc<Tree>) -> Vec<Step> {
    allowed_below(tree, Opened::default())
}

fn allowed_below(tree: &Rc<Tree>, open: Opened) -> Vec<Step> {
    match &**tree {
        Tree::End | Tree::Back(_) => Vec::new(),
        Tree::Loop(name, body) => match open.with(*name) {
            Some(open) => allowed_below(&opened(tree, body), open),
            None => Vec::new(),
        },
        Tree::Unsent(sender, receiver, arms) => {
            let mut steps = allowed_by_every(arms, open);
            steps.retain(|step| step.subject() != *sender && step.subject() != *receiver);
            steps.extend(arms.iter().map(|(label, _)| {
                Step::Send(Message { sender: *sender, receiver: *receiver, label: *label, payload: 0 })
            }));
            steps
        }
        Tree::Flight(message, then) => {
            let mut steps = allowed_below(then, open);
            steps.retain(|step| step.subject() != message.receiver);
            steps.push(Step::Receive(*message));
            steps
        }
    }
}

/// The steps that every arm allows.
fn allowed_by_every(arms: &[(u8, Rc<Tree>)], open: Opened) -> Vec<Step> {
    let mut common: Option<Vec<Step>> = None;
    for (_, then) in arms {
        if common.as_ref().is_some_and(Vec::is_empty) {
            break;
        }
        let steps = allowed_below(then, open);
        common = Some(match common {
            None => steps,
            Some(so_far) => so_far.into_iter().filter(|step| steps.contains(step)).collect(),
        });
    }
    common.unwrap_or_default()
}

/// How many nodes stand outside Loops, counted up to a limit.
pub fn size(tree: &Rc<Tree>, limit: usize) -> usize {
    match &**tree {
        Tree::End | Tree::Back(_) | Tree::Loop(..) => 1,
        Tree::Flight(_, then) => 1 + size(then, limit),
        Tree::Unsent(_, _, arms) => {
            arms.iter().fold(
                1,
                |so_far, (_, then)| {
                    if so_far >= limit {
                        so_far
                    } else {
                        so_far + size(then, limit - so_far)
                    }
                },
            )
        }
    }
}
