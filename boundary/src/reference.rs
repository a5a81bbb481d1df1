//! What `second/` answers to a case: for arguments wider than it takes, and for a state of any lengths.

use crate::case::{Call, Case, Memory, Outcome, State};
use second::blocks::Blocks;
use second::limits::{MOST_ROLES, NO_LABEL};
use second::numbers::{STATE, TABLES};
use second::Session;

/// The outcome of a case by the second engine.
pub fn outcome(case: &Case) -> Outcome {
    let roles = narrow(case.roles);
    if case.call == Call::Open {
        let mut memory = case.memory.clone();
        let verdict = second::open(&case.tables, roles, &mut memory.room);
        return Outcome { number: verdict.number, values: [usize::from(verdict.place), 0, 0], memory };
    }
    match case.memory.state.session() {
        None => wrong_lengths(case, roles),
        Some(session) => {
            let (number, values, session) = over_session(case, roles, session);
            Outcome { number, values, memory: Memory { room: Vec::new(), state: State::of(&session) } }
        }
    }
}

/// Every number above 32 bits is out of the range of roles and labels, as 4294967295 is.
pub fn narrow(number: usize) -> u32 {
    u32::try_from(number).unwrap_or(u32::MAX)
}

/// Slices of other lengths are no well-formed state: 13, behind 12; they stay as they are.
fn wrong_lengths(case: &Case, roles: u32) -> Outcome {
    let number = if Blocks::read(&case.tables, roles).is_some() { STATE } else { TABLES };
    let values = match case.call {
        Call::Open | Call::Fresh => [0; 3],
        Call::Send { .. } => [usize::from(NO_LABEL), 0, 0],
        Call::Receive { .. } => [0, 0, usize::from(NO_LABEL)],
        Call::Awaited => [0, 0, MOST_ROLES],
    };
    Outcome { number, values, memory: case.memory.clone() }
}

fn over_session(case: &Case, roles: u32, session: Session) -> (u8, [usize; 3], Session) {
    let tables = &case.tables[..];
    match case.call {
        Call::Open | Call::Fresh => {
            let (number, session) = second::fresh(tables, roles);
            (number, [0; 3], session)
        }
        Call::Send { sender, receiver, label, payload } => {
            let (sent, session) =
                session.send(tables, roles, narrow(sender), narrow(receiver), narrow(label), payload);
            (sent.number, [usize::from(sent.offered), 0, 0], session)
        }
        Call::Receive { sender, receiver } => {
            let (received, session) = session.receive(tables, roles, narrow(sender), narrow(receiver));
            let values = [usize::from(received.label), received.payload as usize, usize::from(received.offered)];
            (received.number, values, session)
        }
        Call::Awaited => {
            let answer = session.awaited(tables, roles);
            let values = [answer.set, answer.count, answer.lowest].map(usize::from);
            (answer.number, values, session)
        }
    }
}
