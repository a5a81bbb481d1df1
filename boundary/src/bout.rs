//! One case, made again and again by one side: what is timed and what is counted.

use crate::gaugetwinkle;
use crate::shapes::{self, Shape};
use second::numbers::ACCEPTED;
use std::hint::black_box;

/// Whose calls are made.
#[derive(Clone, Copy, Debug, PartialEq, Eq)]
pub enum Who {
    Ours,
    Second,
}

impl Who {
    pub fn named(name: &str) -> Option<Who> {
        match name {
            "ours" => Some(Who::Ours),
            "second" => Some(Who::Second),
            _ => None,
        }
    }
}

/// What is done; the calls of a session are made over the line shape.
#[derive(Clone, Copy, Debug, PartialEq, Eq)]
pub enum Deed {
    Open(Shape),
    Send,
    Receive,
    Awaited,
}

pub const DEEDS: [Deed; 8] = [
    Deed::Open(Shape::Line),
    Deed::Open(Shape::Wide),
    Deed::Open(Shape::Loops),
    Deed::Open(Shape::Replies),
    Deed::Open(Shape::Votes),
    Deed::Send,
    Deed::Receive,
    Deed::Awaited,
];

impl Deed {
    pub fn named(name: &str) -> Option<Deed> {
        DEEDS.into_iter().find(|deed| deed.name() == name)
    }

    pub fn name(self) -> &'static str {
        match self {
            Deed::Open(shape) => shape.name(),
            Deed::Send => "send",
            Deed::Receive => "receive",
            Deed::Awaited => "awaited",
        }
    }
}

/// A deed with its inputs, the same for both sides. Every call of it is accepted: `new` sees to that.
pub struct Bout {
    deed: Deed,
    roles: usize,
    /// The variants of the shape, for an opening.
    variants: Vec<Vec<u16>>,
    tables: Vec<u16>,
    /// Before a send the fresh state; before the others the state after it. The same state for each side's type.
    second: second::Session,
    ours: gaugetwinkle::Session,
}

/// The first exchange of the line.
const SENDER: usize = 0;
const RECEIVER: usize = 1;
const LABEL: usize = 0;
const PAYLOAD: u32 = 7;

impl Bout {
    /// The inputs are made by `second/` alone, so that both sides begin with the same.
    pub fn new(deed: Deed, rows: usize, roles: usize) -> Result<Bout, String> {
        if !shapes::ROWS.contains(&rows) || !shapes::ROLES.contains(&roles) {
            return Err(format!("rows are {:?}, roles {:?}", shapes::ROWS, shapes::ROLES));
        }
        let shape = if let Deed::Open(shape) = deed { shape } else { Shape::Line };
        let variants: Vec<_> =
            (0..shapes::VARIANTS).map(|variant| shape.table(rows, roles, variant)).collect();
        let mut tables = vec![0; roles * variants[0].len()];
        let all_open = variants
            .iter()
            .rev()
            .all(|table| second::open(table, roles as u32, &mut tables).number == ACCEPTED);
        let (made, mut session) = second::fresh(&tables, roles as u32);
        if matches!(deed, Deed::Receive | Deed::Awaited) {
            session = sent(session, &tables, roles).1;
        }
        if !all_open || made != ACCEPTED {
            return Err(format!("{} of {rows} rows and {roles} roles does not open", deed.name()));
        }
        let ours = ours_of(&session);
        Ok(Bout { deed, roles, variants, tables, second: session, ours })
    }

    /// Makes the calls; gives the sum of what they answer.
    pub fn run(&self, who: Who, calls: u64) -> u64 {
        match (self.deed, who) {
            (Deed::Open(_), Who::Ours) => self.open_ours(calls),
            (Deed::Open(_), Who::Second) => self.open_second(calls),
            (Deed::Send, Who::Ours) => self.send_ours(calls),
            (Deed::Send, Who::Second) => self.send_second(calls),
            (Deed::Receive, Who::Ours) => self.receive_ours(calls),
            (Deed::Receive, Who::Second) => self.receive_second(calls),
            (Deed::Awaited, Who::Ours) => self.awaited_ours(calls),
            (Deed::Awaited, Who::Second) => self.awaited_second(calls),
        }
    }

    fn in_turn(&self, calls: u64) -> impl Iterator<Item = &Vec<u16>> {
        self.variants.iter().cycle().take(calls as usize)
    }

    fn open_ours(&self, calls: u64) -> u64 {
        let mut room = vec![0; self.tables.len()];
        let mut sum = 0;
        for table in self.in_turn(calls) {
            let (number, place) = gaugetwinkle::open(black_box(table), self.roles, &mut room);
            sum += u64::from(number) + place as u64;
        }
        sum + sum_of(&room)
    }

    fn open_second(&self, calls: u64) -> u64 {
        let mut room = vec![0; self.tables.len()];
        let mut sum = 0;
        for table in self.in_turn(calls) {
            let verdict = second::open(black_box(table), self.roles as u32, &mut room);
            sum += u64::from(verdict.number) + u64::from(verdict.place);
        }
        sum + sum_of(&room)
    }

    // A send or receive changes the state, so each call gets a copy of it, on both sides.

    fn send_ours(&self, calls: u64) -> u64 {
        let mut sum = 0;
        for _ in 0..calls {
            let mut session = black_box(&self.ours).clone();
            let (number, offered) =
                gaugetwinkle::send(&self.tables, self.roles, SENDER, RECEIVER, LABEL, PAYLOAD, &mut session);
            sum += u64::from(number) + u64::from(offered) + u64::from(black_box(&session).heads[SENDER]);
        }
        sum
    }

    fn send_second(&self, calls: u64) -> u64 {
        let mut sum = 0;
        for _ in 0..calls {
            let (sent, session) = sent(black_box(&self.second).clone(), &self.tables, self.roles);
            sum += u64::from(sent.number) + u64::from(sent.offered);
            sum += u64::from(black_box(&session).heads[SENDER]);
        }
        sum
    }

    fn receive_ours(&self, calls: u64) -> u64 {
        let mut sum = 0;
        for _ in 0..calls {
            let mut session = black_box(&self.ours).clone();
            let (number, label, payload, offered) =
                gaugetwinkle::receive(&self.tables, self.roles, SENDER, RECEIVER, &mut session);
            sum += u64::from(number) + u64::from(label) + u64::from(payload) + u64::from(offered);
            sum += u64::from(black_box(&session).heads[RECEIVER]);
        }
        sum
    }

    fn receive_second(&self, calls: u64) -> u64 {
        let mut sum = 0;
        for _ in 0..calls {
            let session = black_box(&self.second).clone();
            let (received, session) =
                session.receive(&self.tables, self.roles as u32, SENDER as u32, RECEIVER as u32);
            sum += u64::from(received.number) + u64::from(received.label) + u64::from(received.payload);
            sum += u64::from(received.offered);
            sum += u64::from(black_box(&session).heads[RECEIVER]);
        }
        sum
    }

    fn awaited_ours(&self, calls: u64) -> u64 {
        let mut sum = 0;
        for _ in 0..calls {
            let answer = gaugetwinkle::awaited(&self.tables, self.roles, black_box(&self.ours));
            sum += u64::from(answer.number) + u64::from(answer.set);
            sum += u64::from(answer.count) + u64::from(answer.lowest);
        }
        sum
    }

    fn awaited_second(&self, calls: u64) -> u64 {
        let mut sum = 0;
        for _ in 0..calls {
            let answer = black_box(&self.second).awaited(&self.tables, self.roles as u32);
            sum += u64::from(answer.number) + u64::from(answer.set);
            sum += u64::from(answer.count) + u64::from(answer.lowest);
        }
        sum
    }
}

fn sent(session: second::Session, tables: &[u16], roles: usize) -> (second::Sent, second::Session) {
    session.send(tables, roles as u32, SENDER as u32, RECEIVER as u32, LABEL as u32, PAYLOAD)
}

fn ours_of(session: &second::Session) -> gaugetwinkle::Session {
    gaugetwinkle::Session {
        heads: session.heads,
        counts: session.counts,
        labels: session.labels,
        payloads: session.payloads,
    }
}

fn sum_of(room: &[u16]) -> u64 {
    room.iter().map(|&word| u64::from(word)).sum()
}
