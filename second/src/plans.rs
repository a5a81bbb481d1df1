//! Random protocols: trees that often have parts for all roles, their rows, and damage done to them.

use crate::limits::{MOST_ROLES, ROW};
use crate::random::Random;
use crate::table::{row_count, ARM, BACK, END, EXCHANGE, LOOP};

/// A protocol as a tree, before its rows are numbered.
#[derive(Clone, Debug)]
pub enum Plan {
    End,
    Exchange(u16, u16, Vec<(u16, Plan)>),
    Loop(Box<Plan>),
    Back(u16),
}

/// A table with its role count.
#[derive(Clone, Debug)]
pub struct Protocol {
    pub roles: u32,
    pub words: Vec<u16>,
}

/// A random protocol that keeps rules 1 to 10 unless it grew too long; most have parts for all roles.
pub fn protocol(random: &mut Random) -> Protocol {
    let roles = if random.chance(70) { random.between(2, 4) } else { random.between(2, MOST_ROLES) };
    let most = if random.chance(70) { 40 } else { 120 };
    let budget = random.between(2, most);
    let cast: Vec<u16> = (0..roles as u16).collect();
    let plan = Grower { random }.grow(&cast, &[], budget);
    let shuffled = random.chance(50);
    Protocol { roles: roles as u32, words: rows(&plan, shuffled.then_some(random)) }
}

/// Grows plans. A cast is the roles that may act; a list of loops says for each Loop around, innermost
/// last, whether an exchange stands since.
struct Grower<'a> {
    random: &'a mut Random,
}

impl Grower<'_> {
    /// A plan of about `budget` rows.
    fn grow(&mut self, cast: &[u16], loops: &[bool], budget: usize) -> Plan {
        if budget < 3 || self.random.chance(3) {
            return self.stop(loops);
        }
        match self.random.below(100) {
            0..=29 => self.single(cast, loops, budget),
            30..=49 => self.told_choice(cast, loops, budget),
            50..=57 => self.late_choice(cast, loops, budget),
            58..=69 => self.echoed_choice(cast, loops, budget),
            70..=77 => self.wild_choice(cast, loops, budget),
            _ => self.around(cast, loops, budget),
        }
    }

    /// An End, or a Back to a Loop since which an exchange stands.
    fn stop(&mut self, loops: &[bool]) -> Plan {
        let depths: Vec<u16> =
            (0..loops.len()).filter(|&depth| loops[loops.len() - 1 - depth]).map(|d| d as u16).collect();
        match self.random.pick(&depths) {
            Some(depth) if self.random.chance(75) => Plan::Back(depth),
            _ => Plan::End,
        }
    }

    fn two(&mut self, cast: &[u16]) -> (u16, u16) {
        let one = self.random.below(cast.len());
        let other = (one + 1 + self.random.below(cast.len() - 1)) % cast.len();
        (cast[one], cast[other])
    }

    fn label(&mut self) -> u16 {
        let top = if self.random.chance(90) { 5 } else { 64 };
        self.random.below(top) as u16
    }

    /// Distinct labels, in any order.
    fn labels(&mut self, count: usize) -> Vec<u16> {
        let mut labels = Vec::new();
        while labels.len() < count {
            let label = self.label();
            if !labels.contains(&label) {
                labels.push(label);
            }
        }
        labels
    }

    fn single(&mut self, cast: &[u16], loops: &[bool], budget: usize) -> Plan {
        let (sender, receiver) = self.two(cast);
        let label = self.label();
        let then = self.grow(cast, &guarded(loops), budget - 2);
        Plan::Exchange(sender, receiver, vec![(label, then)])
    }

    /// A choice whose bystanders are each told of it, by the same role in every arm, before all else.
    fn told_choice(&mut self, cast: &[u16], loops: &[bool], budget: usize) -> Plan {
        let (sender, receiver) = self.two(cast);
        let arms = self.random.between(2, 3);
        let tellers = self.tellers(cast, sender, receiver);
        let before = self.common_start(cast);
        let labels = self.labels(arms);
        let distinct = self.labels(arms);
        let same_label = self.random.chance(10);
        let each = (budget / arms).saturating_sub(2 + 2 * (before.len() + tellers.len()));
        let arms = labels
            .into_iter()
            .zip(distinct)
            .map(|(label, told)| {
                let then = self.grow(cast, &guarded(loops), each);
                let told = if same_label { 1 } else { told };
                let then = tell(&tellers, told, then);
                (label, tell(&before, 0, then))
            })
            .collect();
        Plan::Exchange(sender, receiver, arms)
    }

    /// A choice in whose arms a bystander first sends, the same labels in each, and is told afterwards: its sends
    /// differ later. At times one arm has another label, and the sends have no merge.
    fn late_choice(&mut self, cast: &[u16], loops: &[bool], budget: usize) -> Plan {
        let (sender, receiver) = self.two(cast);
        let Some(early) = self.random.pick(&bystanders(cast, sender, receiver)) else {
            return self.told_choice(cast, loops, budget);
        };
        let peer = self.random.pick(&[sender, receiver]).unwrap_or(sender);
        let tellers = self.tellers(cast, sender, receiver);
        let (arms, sends) = (self.random.between(2, 3), self.random.between(1, 2));
        let (labels, distinct, sent) = (self.labels(arms), self.labels(arms), self.labels(sends));
        let each = (budget / (arms * sends)).saturating_sub(3 + 2 * tellers.len());
        let arms = labels
            .into_iter()
            .zip(distinct)
            .map(|(label, told)| {
                let then = tell(&tellers, told, self.grow(cast, &guarded(loops), each));
                let mut sent = sent.clone();
                self.random.shuffle(&mut sent);
                if self.random.chance(5) {
                    sent = self.labels(sends);
                }
                let sends = sent.into_iter().map(|label| (label, then.clone())).collect();
                (label, Plan::Exchange(early, peer, sends))
            })
            .collect();
        Plan::Exchange(sender, receiver, arms)
    }

    /// Up to two exchanges that every arm begins with, before anybody is told.
    fn common_start(&mut self, cast: &[u16]) -> Vec<(u16, u16)> {
        let count = if self.random.chance(25) { self.random.between(1, 2) } else { 0 };
        (0..count).map(|_| self.two(cast)).collect()
    }

    /// Who tells each bystander, in an order in which each teller knows.
    fn tellers(&mut self, cast: &[u16], sender: u16, receiver: u16) -> Vec<(u16, u16)> {
        let mut bystanders = bystanders(cast, sender, receiver);
        self.random.shuffle(&mut bystanders);
        // At times one is left untold, and has a part only if the arms are alike to it.
        if self.random.chance(15) {
            bystanders.pop();
        }
        let mut knowing = vec![sender, receiver];
        let mut tellers = Vec::new();
        for bystander in bystanders {
            tellers.extend(self.random.pick(&knowing).map(|teller| (teller, bystander)));
            knowing.push(bystander);
        }
        tellers
    }

    /// A choice whose arms go on alike, at times with two inner arms exchanged in some of them.
    fn echoed_choice(&mut self, cast: &[u16], loops: &[bool], budget: usize) -> Plan {
        let (sender, receiver) = self.two(cast);
        let arms = self.random.between(2, 3);
        let then = self.grow(cast, &guarded(loops), (budget / arms).saturating_sub(2));
        let labels = self.labels(arms);
        let arms = labels
            .into_iter()
            .map(|label| {
                let mut then = then.clone();
                if self.random.chance(30) {
                    self.swap_inner_arms(&mut then);
                }
                (label, then)
            })
            .collect();
        Plan::Exchange(sender, receiver, arms)
    }

    /// Exchanges what follows the first two arms of the first choice below.
    fn swap_inner_arms(&mut self, plan: &mut Plan) {
        match plan {
            Plan::Exchange(_, _, arms) if arms.len() > 1 => {
                let (one, other) = arms.split_at_mut(1);
                std::mem::swap(&mut one[0].1, &mut other[0].1);
            }
            Plan::Exchange(_, _, arms) => self.swap_inner_arms(&mut arms[0].1),
            Plan::Loop(body) => self.swap_inner_arms(body),
            Plan::End | Plan::Back(_) => {}
        }
    }

    /// A choice whose arms have nothing to do with each other.
    fn wild_choice(&mut self, cast: &[u16], loops: &[bool], budget: usize) -> Plan {
        let (sender, receiver) = self.two(cast);
        let arms = self.random.between(2, 4);
        let labels = self.labels(arms);
        let each = (budget / arms).saturating_sub(2);
        let arms = labels.into_iter().map(|label| (label, self.grow(cast, &guarded(loops), each))).collect();
        Plan::Exchange(sender, receiver, arms)
    }

    /// A Loop; at times of a smaller cast, and then with no Back that leads out of it.
    fn around(&mut self, cast: &[u16], loops: &[bool], budget: usize) -> Plan {
        if cast.len() > 2 && self.random.chance(30) {
            let mut smaller = cast.to_vec();
            self.random.shuffle(&mut smaller);
            smaller.truncate(self.random.between(2, cast.len() - 1));
            return Plan::Loop(Box::new(self.grow(&smaller, &[false], budget - 1)));
        }
        let mut loops = loops.to_vec();
        loops.push(false);
        Plan::Loop(Box::new(self.grow(cast, &loops, budget - 1)))
    }
}

/// The roles of a cast that neither send nor receive.
fn bystanders(cast: &[u16], sender: u16, receiver: u16) -> Vec<u16> {
    cast.iter().copied().filter(|&role| role != sender && role != receiver).collect()
}

fn guarded(loops: &[bool]) -> Vec<bool> {
    vec![true; loops.len()]
}

/// Exchanges of one label, in order, and then the plan that follows.
fn tell(tellers: &[(u16, u16)], label: u16, then: Plan) -> Plan {
    tellers
        .iter()
        .rev()
        .fold(then, |then, &(teller, bystander)| Plan::Exchange(teller, bystander, vec![(label, then)]))
}

/// A row that waits to be numbered.
enum Waiting<'a> {
    Plan(&'a Plan),
    Arms(&'a [(u16, Plan)]),
}

/// The rows of a plan: depth first, or in a random order in which each link leads to a higher row.
pub fn rows(plan: &Plan, mut order: Option<&mut Random>) -> Vec<u16> {
    let mut words: Vec<u16> = Vec::new();
    // Each waiting row with the word that is to hold its number; row 0 has none.
    let mut waiting = vec![(None, Waiting::Plan(plan))];
    while !waiting.is_empty() {
        let next = match &mut order {
            Some(random) => random.below(waiting.len()),
            None => waiting.len() - 1,
        };
        let (link, item) = waiting.remove(next);
        let at = words.len();
        if let Some(link) = link {
            words[link] = (at / ROW) as u16;
        }
        match item {
            Waiting::Plan(Plan::End) => words.extend([END, 0, 0, 0]),
            Waiting::Plan(Plan::Back(depth)) => words.extend([BACK, *depth, 0, 0]),
            Waiting::Plan(Plan::Loop(body)) => {
                words.extend([LOOP, 0, 0, 0]);
                waiting.push((Some(at + 1), Waiting::Plan(body)));
            }
            Waiting::Plan(Plan::Exchange(sender, receiver, arms)) => {
                words.extend([EXCHANGE, *sender, *receiver, 0]);
                waiting.push((Some(at + 3), Waiting::Arms(arms)));
            }
            Waiting::Arms(arms) => {
                words.extend([ARM, arms[0].0, 0, 0]);
                if arms.len() > 1 {
                    waiting.push((Some(at + 3), Waiting::Arms(&arms[1..])));
                }
                waiting.push((Some(at + 2), Waiting::Plan(&arms[0].1)));
            }
        }
    }
    words
}

/// Damages a table so that it is likely to break one of the rules 1 to 11; at times it breaks none.
pub fn damage(random: &mut Random, protocol: &mut Protocol) {
    let words = &mut protocol.words;
    let rows = row_count(words);
    if rows == 0 {
        return;
    }
    let some = random.below(rows) * ROW;
    match random.below(12) {
        0 => words.truncate(words.len() - random.between(1, 3)),
        1 => protocol.roles = random.pick(&[0, 1, 9, 255, 65536, u32::MAX]).unwrap_or(0),
        2 => words[some] = random.pick(&[5, 6, 7, 65535]).unwrap_or(5),
        3 => words[some + random.between(1, 3)] = random.below(9) as u16,
        4 => words[some + random.between(1, 3)] = odd_word(random, rows),
        5 => words.extend([END, 0, 0, 0]),
        6 => repeat_label(random, words),
        7 => deepen_back(random, words),
        8 => end_to_loop(random, words),
        9 => share_link(random, words),
        10 => swap_fields(random, words),
        _ => words[some] = random.below(5) as u16,
    }
}

/// A word at an edge of some rule.
pub fn odd_word(random: &mut Random, rows: usize) -> u16 {
    let row = rows as u16;
    random.pick(&[0, 1, 2, row - 1, row, row + 1, 7, 8, 63, 64, 255, 256, 65535]).unwrap_or(0)
}

/// The rows of a kind, by their first word.
fn of_kind(words: &[u16], kind: u16) -> Vec<usize> {
    (0..row_count(words)).map(|number| number * ROW).filter(|&at| words[at] == kind).collect()
}

fn repeat_label(random: &mut Random, words: &mut [u16]) {
    let linked: Vec<usize> = of_kind(words, ARM).into_iter().filter(|&at| words[at + 3] != 0).collect();
    if let Some(at) = random.pick(&linked) {
        let (next, label) = (words[at + 3] as usize * ROW, words[at + 1]);
        // An earlier damage may have led the link out of the table.
        if let Some(word) = words.get_mut(next + 1) {
            *word = label;
        }
    }
}

/// A Back that names a Loop further out, or none.
fn deepen_back(random: &mut Random, words: &mut [u16]) {
    if let Some(at) = random.pick(&of_kind(words, BACK)) {
        words[at + 1] = random.pick(&[1, 2, 3, 255, 65535]).unwrap_or(1);
    }
}

/// Puts Loops with an unguarded Back, or with an End, in the place of an End.
fn end_to_loop(random: &mut Random, words: &mut Vec<u16>) {
    let Some(at) = random.pick(&of_kind(words, END)) else { return };
    let last = row_count(words) as u16;
    words[at..at + 2].copy_from_slice(&[LOOP, last]);
    let inner = random.below(3) as u16;
    if inner == 0 {
        words.extend([END, 0, 0, 0]);
    } else {
        words.extend([LOOP, last + 1, 0, 0, BACK, inner - 1, 0, 0]);
    }
}

/// Two links to one row, and a row with none.
fn share_link(random: &mut Random, words: &mut [u16]) {
    let arms = of_kind(words, ARM);
    if let (Some(one), Some(other)) = (random.pick(&arms), random.pick(&arms)) {
        words[one + 2] = words[other + 2];
    }
}

/// Another sender or receiver: still a good field most times, and often no part.
fn swap_fields(random: &mut Random, words: &mut [u16]) {
    if let Some(at) = random.pick(&of_kind(words, EXCHANGE)) {
        if random.chance(50) {
            words.swap(at + 1, at + 2);
        } else {
            words[at + 1] = random.below(4) as u16;
        }
    }
}
