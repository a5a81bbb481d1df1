//! What the proved library answers to a case, through the boundary.

use crate::bare;
use crate::case::{Call, Case, Memory, Outcome, State};
use crate::gaugetwinkle::{self, Awaited, Lent};
use crate::lending::{Keeping, Lending};

/// Which declarations a call goes through.
#[derive(Clone, Copy, Debug, PartialEq, Eq)]
pub enum Way {
    /// Those of `examples/gaugetwinkle.rs`.
    Declared,
    /// Those of `bare`.
    Bare,
}

type Open = fn(&[u16], usize, &mut [u16]) -> (u8, usize);
type Fresh = fn(&[u16], usize, Lent) -> u8;
type Send = fn(&[u16], usize, usize, usize, usize, u32, Lent) -> (u8, u16);
type Receive = fn(&[u16], usize, usize, usize, Lent) -> (u8, u8, u32, u16);
type AwaitedCall = fn(&[u16], usize, &[u16], &[u8], &[u8], &[u32]) -> Awaited;

/// The five calls of one way.
struct Calls {
    open: Open,
    fresh: Fresh,
    send: Send,
    receive: Receive,
    awaited: AwaitedCall,
}

const DECLARED: Calls = Calls {
    open: gaugetwinkle::open,
    fresh: gaugetwinkle::fresh_lent,
    send: gaugetwinkle::send_lent,
    receive: gaugetwinkle::receive_lent,
    awaited: gaugetwinkle::awaited_lent,
};

const BARE: Calls = Calls {
    open: bare::open,
    fresh: bare::fresh,
    send: bare::send,
    receive: bare::receive,
    awaited: bare::awaited,
};

/// What a case lends, each slice in pages of its own. One case after the other is put there.
#[derive(Default)]
pub struct Buffers {
    tables: Lending<u16>,
    room: Lending<u16>,
    heads: Lending<u16>,
    counts: Lending<u8>,
    labels: Lending<u8>,
    payloads: Lending<u32>,
}

impl Buffers {
    /// The outcome of a case by the proved library; an error says what was written that no call may write.
    pub fn outcome(&mut self, case: &Case, keeping: Keeping, way: Way) -> Result<Outcome, String> {
        let calls = if way == Way::Declared { &DECLARED } else { &BARE };
        self.put(case, keeping);
        let (number, values) = self.answer(calls, case.call, case.roles);
        if self.tables.back("tables")? != case.tables {
            return Err("the tables changed".to_string());
        }
        Ok(Outcome { number, values, memory: self.back()? })
    }

    fn put(&mut self, Case { tables, memory: Memory { room, state }, .. }: &Case, keeping: Keeping) {
        self.tables.put(tables, keeping);
        self.room.put(room, keeping);
        self.heads.put(&state.heads, keeping);
        self.counts.put(&state.counts, keeping);
        self.labels.put(&state.labels, keeping);
        self.payloads.put(&state.payloads, keeping);
    }

    fn back(&mut self) -> Result<Memory, String> {
        let state = State {
            heads: self.heads.back("heads")?,
            counts: self.counts.back("counts")?,
            labels: self.labels.back("labels")?,
            payloads: self.payloads.back("payloads")?,
        };
        Ok(Memory { room: self.room.back("room")?, state })
    }

    /// The number and the values of a call over what was put.
    fn answer(&mut self, calls: &Calls, call: Call, roles: usize) -> (u8, [usize; 3]) {
        let tables = &*self.tables.lent();
        if call == Call::Open {
            let (number, place) = (calls.open)(tables, roles, self.room.lent());
            return (number, [place, 0, 0]);
        }
        let lent = Lent {
            heads: self.heads.lent(),
            counts: self.counts.lent(),
            labels: self.labels.lent(),
            payloads: self.payloads.lent(),
        };
        match call {
            Call::Open | Call::Fresh => ((calls.fresh)(tables, roles, lent), [0; 3]),
            Call::Send { sender, receiver, label, payload } => {
                let (number, offered) = (calls.send)(tables, roles, sender, receiver, label, payload, lent);
                (number, [usize::from(offered), 0, 0])
            }
            Call::Receive { sender, receiver } => {
                let (number, label, payload, offered) = (calls.receive)(tables, roles, sender, receiver, lent);
                (number, [usize::from(label), payload as usize, usize::from(offered)])
            }
            Call::Awaited => {
                let Lent { heads, counts, labels, payloads } = lent;
                let answer = (calls.awaited)(tables, roles, heads, counts, labels, payloads);
                (answer.number, [usize::from(answer.set), answer.count as usize, answer.lowest as usize])
            }
        }
    }
}
