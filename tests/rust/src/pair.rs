// The table and the model side by side: every operation is done on both, then reply, settings and every word of the three areas are compared.
use crate::bound::BoundSeen;
use crate::coverage::{place, PLACES};
use crate::model::{Areas, Exchanges, Model, Reply, Seen, Settings, FULL};
use crate::mutants::Chosen;
use crate::table::Table;
use crate::words::{Place, ANSWER, ANSWER_NODE, KIND, MOVES, RECORD};

#[derive(Clone, Debug)]
pub enum Op {
    Open,
    Start(u32, u32, u32),
    View(u32, u32, u32),
    Turn(u32),
    Turns(Vec<u8>, u32),
    Last(u32),
}

pub const OPERATIONS: [&str; 6] = ["opening", "start", "view", "turn", "list of turns", "last answer"];
// numbers 0 to 9 and 17
pub const NUMBER_COUNT: usize = 18;
pub type Numbers = [[u64; NUMBER_COUNT]; OPERATIONS.len()];

impl Op {
    pub fn index(&self) -> usize {
        match self {
            Op::Open => 0,
            Op::Start(..) => 1,
            Op::View(..) => 2,
            Op::Turn(..) => 3,
            Op::Turns(..) => 4,
            Op::Last(..) => 5,
        }
    }
}

// What was found, and how many turns had been compared in that sequence.
#[derive(Debug)]
pub struct Difference {
    pub text: String,
    pub turns: u64,
}
pub type Compared<T> = Result<T, Difference>;

#[derive(Clone)]
pub struct Pair {
    pub table: Table,
    pub model: Model,
    pub what: String,
    // how often each operation gave each number, by the width handed in (coverage.rs)
    pub numbers: [Numbers; PLACES],
    pub mutant: Option<Chosen>,
    pub bound: BoundSeen,
    // an opening was carried out, and no test has written to memory since
    fresh: bool,
    // the areas before the newest operation
    before: Areas,
    steps: u64,
}

impl Pair {
    pub fn new(s: Settings, a: Areas, what: &str) -> Pair {
        Pair {
            table: Table::new(s, a.clone()),
            before: a.clone(),
            model: Model::new(s, a),
            what: what.to_string(),
            numbers: Default::default(),
            mutant: None,
            bound: BoundSeen::default(),
            fresh: false,
            steps: 0,
        }
    }

    // a copy to try something on, of which nothing has been seen yet
    pub fn again(&self) -> Pair {
        let mut p = Pair { numbers: Default::default(), bound: BoundSeen::default(), ..self.clone() };
        p.model.seen = Seen::default();
        p
    }

    pub fn turns(&self) -> u64 {
        self.model.seen.turns()
    }

    pub fn difference(&self, text: String) -> Difference {
        Difference { text: format!("{}: step {}: {text}", self.what, self.steps), turns: self.turns() }
    }

    // the same memory and settings for both, as no operation left them
    pub fn set(&mut self, areas: Areas, settings: Settings) {
        self.edit(|a, s| (*a, *s) = (areas.clone(), settings));
    }
    pub fn put(&mut self, place: Place, v: u32) {
        self.edit(|a, s| *place.of(a, s) = v);
    }
    pub fn edit(&mut self, change: impl Fn(&mut Areas, &mut Settings)) {
        self.fresh = false;
        change(&mut self.table.areas, &mut self.table.settings);
        change(&mut self.model.areas, &mut self.model.settings);
    }

    pub fn run(&mut self, op: Op) -> Compared<Reply> {
        self.before.copy(&self.table.areas);
        let (given, made_before) = (self.table.settings, self.model.exchanges);
        let got = self.table.run(&op);
        let mut want = self.model.run(&op);
        if let Some(m) = self.mutant {
            m.alter(&op, &self.before, given, &mut self.model, &mut want);
        }
        self.steps += 1;
        if got != want || self.table.areas != self.model.areas {
            return Err(self.difference(format!("{op:?}: the table gives {got:?}, the model {want:?}{}", self.words_that_differ())));
        }
        self.numbers[place(given.width)][op.index()][got.number as usize] += 1;
        if !self.kept(&op, &got, given) {
            return Err(self.difference(format!("{op:?}: refused by {}, and something changed", got.number)));
        }
        if !self.only_looked(&op, &got, given) {
            return Err(self.difference(format!("{op:?}: a viewer changed more than its own record")));
        }
        self.fresh |= matches!(op, Op::Open) && got.number == 0;
        if self.fresh {
            self.bounded(&op, got.number, given, made_before).map_err(|text| self.difference(format!("{op:?}: {text}")))?;
        }
        Ok(got)
    }

    // what document 02 says of the exchanges of a sequence from a fresh table
    fn bounded(&mut self, op: &Op, number: u32, given: Settings, made_before: Exchanges) -> Result<(), String> {
        let made = self.model.exchanges;
        if let (Op::Turn(i), 0 | 9) = (op, number) {
            let own = Exchanges { done: made.done - made_before.done, failed: made.failed - made_before.failed };
            self.bound.turn(&self.before, given, *i, own)?;
        }
        self.bound.bound(&self.table.areas, self.table.settings, made)
    }

    // "A refusal gives its number, the settings as they came, and unchanged memory. Number 9 alone makes the worker idle"; a list's 6 keeps its turns
    fn kept(&mut self, op: &Op, got: &Reply, given: Settings) -> bool {
        if got.number == 0 || matches!(op, Op::Turns(..)) && got.number == 6 && got.turns > 0 {
            return true;
        }
        if let (Op::Turn(i), 9) = (op, got.number) {
            let at = RECORD * *i as usize;
            for (k, v) in [(KIND, 0), (ANSWER, FULL), (ANSWER_NODE, 0), (MOVES, 0)] {
                self.before.workers[at + k] = v;
            }
        }
        self.table.areas == self.before && got.settings == given && got.turns == 0
    }

    // "Striking all viewers' starts and turns from a sequence leaves every other worker's answers, all nodes and all levels the same"
    fn only_looked(&self, op: &Op, got: &Reply, given: Settings) -> bool {
        let (Op::Start(i, ..) | Op::View(i, ..) | Op::Turn(i)) = op else { return true };
        if got.number != 0 || !given.views(*i) {
            return true;
        }
        let (now, before) = (&self.table.areas, &self.before);
        let (from, to) = (RECORD * *i as usize, RECORD * (*i as usize + 1));
        let others = |a: &Areas| a.workers[..from] == before.workers[..from] && a.workers[to..] == before.workers[to..];
        got.settings == given && now.nodes == before.nodes && now.levels == before.levels && others(now)
    }

    fn words_that_differ(&self) -> String {
        let mut text = String::new();
        for (name, a, b) in [
            ("nodes", &self.table.areas.nodes, &self.model.areas.nodes),
            ("levels", &self.table.areas.levels, &self.model.areas.levels),
            ("workers", &self.table.areas.workers, &self.model.areas.workers),
        ] {
            for k in (0..a.len()).filter(|&k| a[k] != b[k]) {
                text += &format!("\n  {name}[{k}]: {} and {}", a[k], b[k]);
            }
        }
        text
    }
}
