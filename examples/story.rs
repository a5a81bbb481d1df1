//! Two stories over the C boundary: document 01's T5, and a vote that comes out of turn. It prints what `story.c` prints.

#[allow(dead_code)]
mod gaugetwinkle;

use gaugetwinkle::{awaited, fresh, open, receive, send, Session};

/// T5: role 0 may send label 1 again and again, or 2 to end.
const T5: [u16; 24] = [3, 1, 0, 0, 1, 0, 1, 2, 2, 1, 3, 4, 4, 0, 0, 0, 2, 2, 5, 0, 0, 0, 0, 0];

/// The coordinator asks guest 1 and hears its vote, then asks guest 2 and hears its vote. Labels: 0 ask, 1 yes.
const VOTE: [u16; 36] = [
    1, 0, 1, 1, 2, 0, 2, 0, 1, 1, 0, 3, 2, 1, 4, 0, 1, 0, 2, 5, 2, 0, 6, 0, 1, 2, 0, 7, 2, 1, 8, 0, 0, 0, 0, 0,
];

const ROLES: usize = 3;

/// An opened table and a session over it.
struct Story {
    tables: Vec<u16>,
    session: Session,
}

impl Story {
    fn open(name: &str, table: &[u16]) -> Story {
        let mut tables = vec![0; ROLES * table.len()];
        let (number, place) = open(table, ROLES, &mut tables);
        println!("{name} {number} {place}");
        let mut story = Story { tables, session: Session::ZERO };
        let number = fresh(&story.tables, ROLES, &mut story.session);
        print!("fresh {number}");
        story.say_awaited();
        story
    }

    fn say_awaited(&self) {
        let answer = awaited(&self.tables, ROLES, &self.session);
        print!(" awaited {}:", answer.count);
        for role in (0..ROLES).filter(|role| answer.set >> role & 1 == 1) {
            print!(" {role}");
        }
        println!();
    }

    fn send(&mut self, sender: usize, receiver: usize, label: usize, payload: u32) {
        let (number, offered) = send(&self.tables, ROLES, sender, receiver, label, payload, &mut self.session);
        print!("send {sender} {receiver} {label} {number} {offered}");
        self.say_awaited();
    }

    fn receive(&mut self, sender: usize, receiver: usize) {
        let (number, label, payload, offered) = receive(&self.tables, ROLES, sender, receiver, &mut self.session);
        print!("receive {sender} {receiver} {number} {label} {payload} {offered}");
        self.say_awaited();
    }
}

fn main() {
    let mut story = Story::open("T5", &T5);
    for i in 0..5 {
        story.send(0, 1, 1, 100 + i);
    }
    story.receive(0, 1);
    story.send(0, 1, 1, 105);

    let mut story = Story::open("VOTE", &VOTE);
    story.send(2, 0, 1, 7); // guest 2 votes before it is asked: TURN, and nothing is lost
    story.send(0, 1, 0, 0);
    story.receive(0, 1);
    story.send(1, 0, 2, 5); // no vote has the label 2: LABEL, and the label 1 is offered
    story.send(1, 0, 1, 5);
    story.receive(1, 0);
    story.send(0, 2, 0, 0);
    story.receive(0, 2);
    story.send(2, 0, 1, 7); // now it is its turn
    story.receive(2, 0);
}
