//! What was compared, counted, so that one sees that every end of a call was reached.

use std::collections::BTreeMap;

/// Ecode and subcode of every stop, in the scope's order.
const STOPS: [(u64, u64, &str); 7] = [
    (8, 0, "fetch address"),
    (8, 1, "data address"),
    (9, 0, "alignment"),
    (10, 0, "bound check"),
    (11, 0, "syscall"),
    (12, 0, "break"),
    (13, 0, "no such instruction"),
];
const REFUSALS: [u64; 11] = [1, 2, 3, 4, 5, 6, 7, 11, 12, 13, 14];

#[derive(Default)]
pub struct Tally {
    pub runs: u64,
    answers: u64,
    decodes: u64,
    writes: u64,
    reads: u64,
    steps: u64,
    spent: u64,
    exist: u64,
    stops: BTreeMap<(u64, u64), u64>,
    refusals: BTreeMap<u64, u64>,
}

impl Tally {
    pub fn run(&mut self, reply: &reference::Reply) {
        self.runs += 1;
        self.steps += reply.steps;
        if reply.refused != 0 {
            self.refusal(reply.refused);
        } else if reply.ecode == 0 {
            self.spent += 1;
        } else {
            *self.stops.entry((reply.ecode, reply.subcode)).or_default() += 1;
        }
    }

    pub fn answer(&mut self, reply: &reference::Reply) {
        self.answers += 1;
        self.refusal(reply.refused);
    }

    pub fn write(&mut self, refused: u64) {
        self.writes += 1;
        self.refusal(refused);
    }

    pub fn read(&mut self, refused: u64) {
        self.reads += 1;
        self.refusal(refused);
    }

    /// 0 is none.
    fn refusal(&mut self, number: u64) {
        if number != 0 {
            *self.refusals.entry(number).or_default() += 1;
        }
    }

    pub fn decode(&mut self, exists: bool) {
        self.decodes += 1;
        self.exist += u64::from(exists);
    }

    pub fn print(&self) {
        let line = |name: &str, count: u64| println!("{:<28}{:>12}", name, count);
        line("runs", self.runs);
        line("answers", self.answers);
        line("decodes", self.decodes);
        line("writes", self.writes);
        line("reads", self.reads);
        line("steps", self.steps);
        line("words that exist", self.exist);
        line("stop budget", self.spent);
        for (ecode, subcode, name) in STOPS {
            let count = self.stops.get(&(ecode, subcode)).copied().unwrap_or(0);
            line(&format!("stop {} {} {}", ecode, subcode, name), count);
        }
        for number in REFUSALS {
            line(&format!("refused {}", number), self.refusals.get(&number).copied().unwrap_or(0));
        }
    }
}
