//! Demand 3 as a random test: the engine against the step rules, call by call.
//!
//! For random tables that open, and random calls from a fresh session, refused ones among them: a call is
//! accepted exactly when the step rules allow it and, for a send, the pair has room; received values are
//! those of the step; the awaited answer is exactly the roles with such a call; STRAY, TABLES and STATE are
//! never met; a send refused for its label offers the lowest label that the step rules allow (K2), every other call 64; and
//! until every role has ended and every queue is empty, somebody is awaited.

use crate::blocks::Blocks;
use crate::limits::{DEPTH, MOST_ROLES, NO_LABEL, PAIRS};
use crate::numbers::{ACCEPTED, FULL, LABEL, STATE, STRAY, TABLES};
use crate::opening::open;
use crate::plans::{protocol, Protocol};
use crate::random::Random;
use crate::session::{fresh, pair, Session};
use crate::steps::{allowed, apply, size, start, Message, Step, Tree};
use crate::table::END;
use std::fmt;
use std::rc::Rc;

/// Past this many nodes a running tree is left and the next session begins: a tree may grow with each
/// send past an unsent choice.
const MOST_NODES: usize = 4_000;

/// What a run has done.
#[derive(Clone, Debug, Default, PartialEq, Eq)]
pub struct Tally {
    pub seed: u64,
    pub tables_made: u64,
    pub tables_opened: u64,
    pub calls: u64,
    pub sent: u64,
    pub received: u64,
    pub full: u64,
    pub probes: u64,
    pub finished: u64,
    pub left: u64,
}

impl fmt::Display for Tally {
    fn fmt(&self, to: &mut fmt::Formatter) -> fmt::Result {
        write!(
            to,
            "seed {} tables {} opened {} calls {} sent {} received {} full {} probes {} finished {} left {}",
            self.seed,
            self.tables_made,
            self.tables_opened,
            self.calls,
            self.sent,
            self.received,
            self.full,
            self.probes,
            self.finished,
            self.left
        )
    }
}

/// Runs sessions over random tables until at least `calls` calls are judged; an error says what differs.
pub fn run(seed: u64, calls: u64) -> Result<Tally, String> {
    let mut random = Random::new(seed);
    let mut tally = Tally { seed, ..Tally::default() };
    while tally.calls < calls {
        let protocol = protocol(&mut random);
        tally.tables_made += 1;
        run_protocol(&protocol, &mut random, &mut tally)
            .map_err(|what| format!("seed {seed}: {what}\n{protocol:?}"))?;
    }
    Ok(tally)
}

/// Opens one table and, if it opens, judges one or two sessions over it.
pub fn run_protocol(protocol: &Protocol, random: &mut Random, tally: &mut Tally) -> Result<(), String> {
    let mut room = vec![0; protocol.roles as usize * protocol.words.len()];
    if open(&protocol.words, protocol.roles, &mut room).number != ACCEPTED {
        return Ok(());
    }
    tally.tables_opened += 1;
    for _ in 0..random.between(1, 2) {
        let length = random.between(1, 120);
        run_session(protocol, &room, length, random, tally)?;
    }
    Ok(())
}

/// The engine's session beside the protocol's running tree, with a queue count of its own.
struct Judge<'a> {
    tables: &'a [u16],
    roles: u32,
    session: Session,
    tree: Rc<Tree>,
    held: [usize; PAIRS],
}

/// One call of a session.
#[derive(Clone, Copy, Debug)]
enum Call {
    Send(u32, u32, u32, u32),
    Receive(u32, u32),
}

fn run_session(
    protocol: &Protocol,
    tables: &[u16],
    length: usize,
    random: &mut Random,
    tally: &mut Tally,
) -> Result<(), String> {
    let (number, session) = fresh(tables, protocol.roles);
    if number != ACCEPTED {
        return Err(format!("fresh over opened tables is refused with {number}"));
    }
    let mut judge =
        Judge { tables, roles: protocol.roles, session, tree: start(&protocol.words), held: [0; PAIRS] };
    // Eager sessions send whenever they can, which fills queues.
    let eager = random.chance(40);
    for _ in 0..length {
        let steps = allowed(&judge.tree);
        let finished = judge.check_awaited(&steps)?;
        if random.chance(2) {
            tally.probes += judge.probe(&steps)?;
        }
        let call = choose(&steps, protocol.roles, eager, random);
        judge.check_call(call, &steps, tally).map_err(|what| format!("{call:?}: {what}"))?;
        if finished && random.chance(50) {
            tally.finished += 1;
            return Ok(());
        }
        if size(&judge.tree, MOST_NODES) >= MOST_NODES {
            tally.left += 1;
            return Ok(());
        }
    }
    Ok(())
}

/// A call: most times one that a step allows, else one near it, else any.
fn choose(steps: &[Step], roles: u32, eager: bool, random: &mut Random) -> Call {
    let sends: Vec<Step> = steps.iter().copied().filter(|s| matches!(s, Step::Send(_))).collect();
    let from = if eager && !sends.is_empty() && random.chance(85) { &sends } else { steps };
    let payload = random.draw() as u32;
    match random.pick(from) {
        Some(step) if random.chance(70) => near(step, payload, roles, random.chance(15), random),
        _ => anything(roles, payload, random),
    }
}

/// The call of a step, at times with one argument changed.
fn near(step: Step, payload: u32, roles: u32, changed: bool, random: &mut Random) -> Call {
    let change = |value: u8, random: &mut Random| {
        if changed && random.chance(50) {
            random.below(roles as usize + 1) as u32
        } else {
            u32::from(value)
        }
    };
    match step {
        Step::Send(m) => {
            Call::Send(u32::from(m.sender), change(m.receiver, random), change(m.label, random), payload)
        }
        Step::Receive(m) => Call::Receive(change(m.sender, random), change(m.receiver, random)),
    }
}

fn anything(roles: u32, payload: u32, random: &mut Random) -> Call {
    let role = |random: &mut Random| random.below(roles as usize + 1) as u32;
    let (sender, receiver) = (role(random), role(random));
    if random.chance(50) {
        Call::Send(sender, receiver, random.below(6) as u32, payload)
    } else {
        Call::Receive(sender, receiver)
    }
}

impl Judge<'_> {
    fn has_room(&self, message: &Message) -> bool {
        self.held[pair(message.sender as usize, message.receiver as usize)] < DEPTH
    }

    /// Whether a step is one that a call would be accepted for.
    fn acceptable(&self, step: &Step) -> bool {
        match step {
            Step::Send(message) => self.has_room(message),
            Step::Receive(_) => true,
        }
    }

    /// The awaited answer against the steps, and progress. Gives whether the session is finished.
    fn check_awaited(&self, steps: &[Step]) -> Result<bool, String> {
        let set = steps
            .iter()
            .filter(|step| self.acceptable(step))
            .fold(0u8, |set, step| set | 1 << step.subject());
        let answer = self.session.awaited(self.tables, self.roles);
        let roles: Vec<u8> = (0..MOST_ROLES as u8).filter(|role| set >> role & 1 == 1).collect();
        let lowest = roles.first().copied().unwrap_or(8);
        if answer.number != ACCEPTED
            || answer.set != set
            || answer.count as usize != roles.len()
            || answer.lowest != lowest
        {
            return Err(format!("awaited {answer:?}, the step rules say {roles:?}"));
        }
        let finished = self.finished();
        if finished != (set == 0) {
            return Err(format!("finished {finished}, awaited {set}"));
        }
        Ok(finished)
    }

    /// Every role has ended and every queue is empty.
    fn finished(&self) -> bool {
        let Some(blocks) = Blocks::read(self.tables, self.roles) else { return false };
        let ended = |role: usize| blocks.row(role, self.session.heads[role] as usize)[0] == END;
        (0..blocks.roles).all(ended) && self.session.counts.iter().all(|&count| count == 0)
    }

    /// Makes a call on the engine and on the tree, and compares.
    fn check_call(&mut self, call: Call, steps: &[Step], tally: &mut Tally) -> Result<(), String> {
        tally.calls += 1;
        match call {
            Call::Send(sender, receiver, label, payload) => {
                self.check_send((sender, receiver), label, payload, steps, tally)
            }
            Call::Receive(sender, receiver) => self.check_receive(sender, receiver, steps, tally),
        }
    }

    fn check_send(
        &mut self,
        (sender, receiver): (u32, u32),
        label: u32,
        payload: u32,
        steps: &[Step],
        tally: &mut Tally,
    ) -> Result<(), String> {
        // Arguments of a call here are at most 63, so they fit a message.
        let message = Message { sender: sender as u8, receiver: receiver as u8, label: label as u8, payload };
        let after = apply(&self.tree, &Step::Send(message));
        let given = self.session.clone();
        let (sent, left) = given.clone().send(self.tables, self.roles, sender, receiver, label, payload);
        let number = sent.number;
        not_impossible(number)?;
        expect(sent.offered == offered(number, steps, sender, receiver), || format!("offers {sent:?}"))?;
        match after {
            Some(tree) if self.has_room(&message) => {
                expect(number == ACCEPTED, || format!("allowed, but {number}"))?;
                self.tree = tree;
                self.held[pair(sender as usize, receiver as usize)] += 1;
                tally.sent += 1;
            }
            Some(_) => {
                expect(number == FULL, || format!("allowed without room, but {number}"))?;
                expect(left == given, || "a refused send changed the state".to_string())?;
                tally.full += 1;
            }
            None => {
                expect(number != ACCEPTED && number != FULL, || "not allowed, but accepted".to_string())?;
                expect(left == given, || "a refused send changed the state".to_string())?;
            }
        }
        self.session = left;
        self.check_queues()
    }

    fn check_receive(
        &mut self,
        sender: u32,
        receiver: u32,
        steps: &[Step],
        tally: &mut Tally,
    ) -> Result<(), String> {
        let given = self.session.clone();
        let (received, left) = given.clone().receive(self.tables, self.roles, sender, receiver);
        not_impossible(received.number)?;
        expect(received.offered == NO_LABEL, || format!("offers {received:?}"))?;
        match receive_step(steps, sender, receiver)? {
            Some(message) => {
                expect(received.number == ACCEPTED, || format!("allowed, but {received:?}"))?;
                expect(received.label == message.label && received.payload == message.payload, || {
                    format!("{received:?}, the step rules say {message:?}")
                })?;
                self.tree = apply(&self.tree, &Step::Receive(message))
                    .ok_or("a step that is listed cannot be taken")?;
                self.held[pair(sender as usize, receiver as usize)] -= 1;
                tally.received += 1;
            }
            None => {
                expect(received.number != ACCEPTED, || "not allowed, but accepted".to_string())?;
                expect(left == given, || "a refused receive changed the state".to_string())?;
                expect(received.label == 0 && received.payload == 0, || {
                    "a refused receive gave a message".to_string()
                })?;
            }
        }
        self.session = left;
        self.check_queues()
    }

    fn check_queues(&self) -> Result<(), String> {
        let same = (0..PAIRS).all(|pair| self.session.counts[pair] as usize == self.held[pair]);
        expect(same, || "queue counts differ".to_string())
    }

    /// Every send and receive of the present roles with the labels met in tests, none of them made.
    fn probe(&self, steps: &[Step]) -> Result<u64, String> {
        let mut probes = 0;
        for sender in 0..self.roles {
            for receiver in (0..self.roles).filter(|&receiver| receiver != sender) {
                probes += self.probe_pair(sender, receiver, steps)?;
            }
        }
        Ok(probes)
    }

    fn probe_pair(&self, sender: u32, receiver: u32, steps: &[Step]) -> Result<u64, String> {
        let labels = (0..6).chain(steps.iter().filter_map(sent_label).filter(|&label| label >= 6));
        let mut probes = 1;
        for label in labels {
            probes += 1;
            let message =
                Message { sender: sender as u8, receiver: receiver as u8, label: label as u8, payload: 0 };
            let step = Step::Send(message);
            let listed = steps.contains(&step);
            expect(listed == apply(&self.tree, &step).is_some(), || {
                format!("listed {listed}, taken otherwise: {step:?}")
            })?;
            let (sent, _) = self.session.clone().send(self.tables, self.roles, sender, receiver, label, 0);
            let number = sent.number;
            expect((number == ACCEPTED) == (listed && self.has_room(&message)), || {
                format!("probe {step:?}: {number}, listed {listed}")
            })?;
        }
        let listed = receive_step(steps, sender, receiver)?.is_some();
        let (received, _) = self.session.clone().receive(self.tables, self.roles, sender, receiver);
        expect((received.number == ACCEPTED) == listed, || {
            format!("probe receive {sender} {receiver}: {received:?}, listed {listed}")
        })?;
        Ok(probes)
    }
}

/// The label that a send offers: refused for its label, the lowest that the step rules let the pair send; else 64.
fn offered(number: u8, steps: &[Step], sender: u32, receiver: u32) -> u8 {
    let sent = steps.iter().filter_map(|step| match step {
        Step::Send(m) if u32::from(m.sender) == sender && u32::from(m.receiver) == receiver => Some(m.label),
        _ => None,
    });
    if number == LABEL {
        sent.min().unwrap_or(NO_LABEL)
    } else {
        NO_LABEL
    }
}

fn sent_label(step: &Step) -> Option<u32> {
    match step {
        Step::Send(message) => Some(u32::from(message.label)),
        Step::Receive(_) => None,
    }
}

/// The one message of a pair that the steps let be received.
fn receive_step(steps: &[Step], sender: u32, receiver: u32) -> Result<Option<Message>, String> {
    let mut messages = steps.iter().filter_map(|step| match step {
        Step::Receive(m) if u32::from(m.sender) == sender && u32::from(m.receiver) == receiver => Some(*m),
        _ => None,
    });
    let first = messages.next();
    match messages.next() {
        None => Ok(first),
        Some(second) => Err(format!("two receives of one pair: {first:?} and {second:?}")),
    }
}

/// No state that calls lead to meets these.
fn not_impossible(number: u8) -> Result<(), String> {
    expect(!matches!(number, TABLES | STATE | STRAY), || format!("met {number}"))
}

fn expect(holds: bool, otherwise: impl FnOnce() -> String) -> Result<(), String> {
    if holds {
        Ok(())
    } else {
        Err(otherwise())
    }
}
