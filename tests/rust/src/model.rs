// A model of the table coded apart, from document 01, document 02's requests 05, 06, 08 and 10 and docs/LAYOUT.md. Nodes and levels are words of any value; a
// worker is a type of its own, read from its words before an operation and written back after it. Nothing here is taken from the Rattle code.

use crate::pair::Op;

pub const NONE: u32 = u32::MAX;
const MAX_PIXEL: u32 = (1 << 24) - 1;
// the greatest chain limit, so the most nodes that a Move remembers
const LONGEST_CHAIN: usize = 8;

#[derive(Clone, Copy, Debug, PartialEq, Eq)]
pub struct Settings {
    pub workers: u32,
    pub limit: u32,
    pub nodes: u32,
    pub nodes_taken: u32,
    pub levels_taken: u32,
    // "how many of the last workers are viewers"
    pub viewers: u32,
    // of a digit, in bits
    pub width: u32,
}

impl Settings {
    // workers, chain limit and nodes
    fn sizes_in_range(&self) -> bool {
        (1..=16).contains(&self.workers) && (1..=LONGEST_CHAIN as u32).contains(&self.limit) && (1..=4096).contains(&self.nodes)
    }
    // but for the width
    pub fn in_range(&self) -> bool {
        self.sizes_in_range() && (ROLES.accepted)(self)
    }
    pub fn placing(&self) -> u32 {
        self.workers.saturating_sub(self.viewers)
    }
    pub fn views(&self, i: u32) -> bool {
        i >= self.placing()
    }
}

// What document 02 fixes for each digit width, one place for each number.
pub const WIDTHS: [u32; 4] = [2, 3, 4, 6];
// "A worker has 256 words", at every width
pub const WORKER_WORDS: usize = 256;

// "depths run to 24 / width − 1, and that number replaces 7"
pub fn last_depth(width: u32) -> u32 {
    24 / width - 1
}
pub fn entries(width: u32) -> u32 {
    1 << width
}
// "A level has 2 + 2^width words"
pub fn level_words(width: u32) -> usize {
    2 + entries(width) as usize
}
// past the last depth that of the last digit
pub fn divisor(width: u32, depth: u32) -> u32 {
    1 << 24u32.saturating_sub(width * (depth + 1))
}
pub fn digit(width: u32, depth: u32, pixel: u32) -> u32 {
    pixel / divisor(width, depth) % entries(width)
}
pub fn level_count(s: &Settings) -> u64 {
    levels(s, last_depth(s.width))
}
// "1 + 7 × floor(nodes / chain limit) + workers levels", with another number for 7
pub fn levels(s: &Settings, seven: u32) -> u64 {
    1 + seven as u64 * (s.nodes as u64 / s.limit as u64) + s.workers as u64
}

// What the model does with the width; a wrong version is one of these changed.
#[derive(Clone, Copy)]
pub struct Sizes {
    pub accepted: fn(u32) -> bool,
    pub worker_words: usize,
    pub level_words: fn(u32) -> usize,
    // the entries that are written where a level is filled
    pub filled: fn(u32) -> u32,
    pub level_count: fn(&Settings) -> u64,
    pub digit: fn(u32, u32, u32) -> u32,
    // the greatest depth at which an entry is picked, and that of a new level
    pub deepest: fn(u32) -> u32,
    pub deepest_new: fn(u32) -> u32,
    // previous words read in going back
    pub most_back: fn(u32) -> u32,
    // Moves one inside another, in a record that fits and where one more would begin
    pub most_moves: fn(u32) -> u32,
    pub room_for_moves: fn(u32) -> u32,
}

pub const DOCUMENT: Sizes = Sizes {
    accepted: |width| WIDTHS.contains(&width),
    worker_words: WORKER_WORDS,
    level_words,
    filled: entries,
    level_count,
    digit,
    deepest: last_depth,
    deepest_new: last_depth,
    most_back: last_depth,
    most_moves: last_depth,
    room_for_moves: last_depth,
};

// What the model does with viewers; a wrong version is one of these changed.
#[derive(Clone, Copy)]
pub struct Roles {
    // question 1
    pub accepted: fn(&Settings) -> bool,
    // worker i is a viewer
    pub views: fn(&Settings, u32) -> bool,
    // question 17, of a call that looks and of one that places: the worker may be a viewer, may be another one
    pub may_start: fn(bool, bool) -> bool,
    // the question that 17 is asked before
    pub asked_before: u32,
    // the kinds of a viewer's open call; the last answers of a viewer and of another worker
    pub viewing: fn(Kind) -> bool,
    pub told: fn(bool, u32) -> bool,
    // the kinds that a viewer's call ends "absent" before
    pub ends_before: fn(Kind) -> bool,
}

pub const ROLES: Roles = Roles {
    // "0 up to all of them, and more is refusal 1"
    accepted: |s| s.viewers <= s.workers,
    views: Settings::views,
    // "It refuses with 17, asked after question 5, a placing call on a viewer, a looking call on another worker"
    may_start: |looks, viewer| looks == viewer,
    asked_before: 6,
    // "follows Look, Read, Tail and Follow"
    viewing: |kind| matches!(kind, Kind::Look | Kind::Read | Kind::Tail | Kind::Follow),
    told: |viewer, answer| if viewer { matches!(answer, NOTHING | FOUND | ABSENT) } else { answer <= FULL },
    // "Where a worker would go to Take, TakeTail or Level, it ends "absent""
    ends_before: |kind| matches!(kind, Kind::Take | Kind::TakeTail | Kind::Level),
};

#[derive(Clone, Copy, Debug, PartialEq, Eq)]
pub struct Reply {
    pub number: u32,
    pub answer: u32,
    pub node: u32,
    pub turns: u32,
    pub exchanges: Exchanges,
    pub settings: Settings,
}

// How many exchanges were done, and how many failed.
#[derive(Clone, Copy, Debug, Default, PartialEq, Eq)]
pub struct Exchanges {
    pub done: u32,
    pub failed: u32,
}

impl std::ops::AddAssign for Exchanges {
    fn add_assign(&mut self, more: Exchanges) {
        self.done += more.done;
        self.failed += more.failed;
    }
}

// answers
pub const NOTHING: u32 = 0;
pub const NEW: u32 = 1;
pub const FOUND: u32 = 2;
pub const FULL: u32 = 3;
pub const OPEN: u32 = 4;
pub const ABSENT: u32 = 5;

#[derive(Clone, Copy, Debug, PartialEq, Eq)]
pub struct Node {
    pub pixel: u32,
    pub next: u32,
}

// The three areas as they are lent, excess words included.
#[derive(Clone, Debug, PartialEq, Eq)]
pub struct Areas {
    pub nodes: Vec<u32>,
    pub levels: Vec<u32>,
    pub workers: Vec<u32>,
}

impl Areas {
    // a copy that keeps this one's allocations
    pub fn copy(&mut self, from: &Areas) {
        self.nodes.clone_from(&from.nodes);
        self.levels.clone_from(&from.levels);
        self.workers.clone_from(&from.workers);
    }
    fn node(&self, i: u32) -> Node {
        let k = 2 * i as usize;
        Node { pixel: self.nodes[k], next: self.nodes[k + 1] }
    }
    fn set_node(&mut self, i: u32, n: Node) {
        let k = 2 * i as usize;
        self.nodes[k] = n.pixel;
        self.nodes[k + 1] = n.next;
    }
}

#[derive(Clone, Copy, Debug, PartialEq, Eq)]
pub enum Ref {
    Level(u32),
    Node(u32),
}

pub fn reference(word: u32) -> Ref {
    if word & 1 == 1 {
        Ref::Node(word >> 1)
    } else {
        Ref::Level(word >> 1)
    }
}

// The kinds of turn, by their number in docs/LAYOUT.md.
#[derive(Clone, Copy, Debug, PartialEq, Eq, PartialOrd, Ord, Hash)]
#[repr(u32)]
pub enum Kind {
    Idle,
    Look,
    Take,
    Put,
    Read,
    Tail,
    TakeTail,
    Append,
    Level,
    Close,
    Follow,
    ChainHead,
    ChainNext,
    SetNext,
    SetLook,
    SetPut,
    SetRead,
    SetTail,
    SetAppend,
    SetLevel,
    SetClose,
    SetFollow,
    MoveEnd,
}
pub const KINDS: [Kind; 23] = {
    use Kind::*;
    [
        Idle, Look, Take, Put, Read, Tail, TakeTail, Append, Level, Close, Follow, ChainHead, ChainNext, SetNext, SetLook, SetPut, SetRead, SetTail,
        SetAppend, SetLevel, SetClose, SetFollow, MoveEnd,
    ]
};

#[derive(Clone, Debug, PartialEq, Eq)]
pub struct Chain {
    pub home: u32,
    pub child: u32,
    pub count: u32,
    pub nodes: [u32; LONGEST_CHAIN],
}

impl Chain {
    fn last(&self) -> u32 {
        self.nodes[self.count as usize - 1]
    }
}

// A worker as its words say; only what fits its layout is ever made.
#[derive(Clone, Debug)]
pub struct Worker {
    pub kind: Kind,
    pub pixel: u32,
    pub level: u32,
    pub node: u32,
    pub count: u32,
    pub held_node: u32,
    pub held_level: u32,
    pub answer: u32,
    pub answer_node: u32,
    pub moves: Vec<Chain>,
}

// The one word that an exchange is about.
#[derive(Clone, Copy)]
enum Cell {
    Entry(u32, usize),
    Next(u32),
}

// What an exchange came to: done, or failed on the word that it met.
#[derive(Clone, Copy)]
enum Exchanged {
    Done,
    Met(u32),
}

// counts of Moves open: none, up to as many as any width has, and one more, which only a wrong version comes to
pub const NESTED: usize = 13;

// What was seen, for coverage: turns by their kind and the one after it, those whose exchange failed and those of viewers apart; Moves open; 6 by kind (23:
// the record does not fit), those of viewers apart, and how many of the others by the word that a failed exchange met; calls that ended "absent" by the kind
// that they would have gone to.
#[derive(Clone, Debug, Default)]
pub struct Seen {
    pub went: [[u64; 23]; 23],
    pub failed: [[u64; 23]; 23],
    pub viewed: [[u64; 23]; 23],
    pub nested: [u64; NESTED],
    pub sixes: [u64; 24],
    pub viewed_sixes: [u64; 24],
    pub failed_sixes: [u64; 23],
    pub absent: [u64; 23],
    pub lists: [ListsSeen; LISTS.len()],
}

// Lists of turns by what they met; a list can be of several sorts.
pub const LISTS: [&str; 7] =
    ["refused", "ended by a 6", "ended by the limit", "ended at the list's end", "with idle entries", "with a full", "with an absent"];

// how many, and in how many of them an exchange was done, and failed
#[derive(Clone, Copy, Debug, Default)]
pub struct ListsSeen {
    pub lists: u64,
    pub done: u64,
    pub failed: u64,
}

impl Seen {
    // turns carried out, "full" included
    pub fn turns(&self) -> u64 {
        self.went.iter().chain(&self.failed).chain(&self.viewed).flatten().sum()
    }

    pub fn add(&mut self, more: &Seen) {
        fn add(to: &mut [u64], from: &[u64]) {
            to.iter_mut().zip(from).for_each(|(x, y)| *x += y);
        }
        for (to, from) in [(&mut self.went, &more.went), (&mut self.failed, &more.failed), (&mut self.viewed, &more.viewed)] {
            to.iter_mut().zip(from).for_each(|(x, y)| add(x, y));
        }
        add(&mut self.nested, &more.nested);
        add(&mut self.sixes, &more.sixes);
        add(&mut self.viewed_sixes, &more.viewed_sixes);
        add(&mut self.failed_sixes, &more.failed_sixes);
        add(&mut self.absent, &more.absent);
        for (x, y) in self.lists.iter_mut().zip(&more.lists) {
            x.lists += y.lists;
            x.done += y.done;
            x.failed += y.failed;
        }
    }
}

#[derive(Clone)]
pub struct Model {
    pub settings: Settings,
    pub areas: Areas,
    pub sizes: Sizes,
    pub roles: Roles,
    pub seen: Seen,
    // of all turns since the newest opening
    pub exchanges: Exchanges,
    // what the newest turn's exchange came to, if it made one; a turn that is refused by the word met has one here, and it counts for nothing
    exchanged: Option<Exchanged>,
    // the newest turn's exchange would have been done, and was refused for want of room for a Move
    pub withheld: bool,
}

type Asked<T> = Result<T, u32>;

fn yes(b: bool) -> Asked<()> {
    if b {
        Ok(())
    } else {
        Err(6)
    }
}

impl Model {
    pub fn new(settings: Settings, areas: Areas) -> Model {
        let (seen, exchanges) = (Seen::default(), Exchanges::default());
        Model { settings, areas, sizes: DOCUMENT, roles: ROLES, seen, exchanges, exchanged: None, withheld: false }
    }

    // the word that the newest turn's exchange met, if it failed
    pub fn met(&self) -> Option<u32> {
        match self.exchanged {
            Some(Exchanged::Met(word)) => Some(word),
            _ => None,
        }
    }

    fn reply(&self, number: u32, answer: u32, node: u32) -> Reply {
        Reply { number, answer, node, turns: 0, exchanges: Exchanges::default(), settings: self.settings }
    }

    fn refuse(&self, number: u32) -> Reply {
        self.reply(number, NOTHING, 0)
    }

    pub fn run(&mut self, op: &Op) -> Reply {
        match op {
            Op::Open => self.open(),
            Op::Start(i, row, column) => self.start(*i, *row, *column),
            Op::View(i, row, column) => self.view(*i, *row, *column),
            Op::Turn(i) => self.turn(*i),
            Op::Turns(list, limit) => self.turns(list, *limit),
            Op::Last(i) => self.last(*i),
        }
    }

    // questions 1 and 2; nothing is reckoned with a width, or divided by a limit, that question 1 has not passed
    fn room(&self) -> Asked<()> {
        let s = &self.settings;
        if !s.sizes_in_range() || !(self.roles.accepted)(s) || !(self.sizes.accepted)(s.width) {
            return Err(1);
        }
        let short = (self.areas.nodes.len() as u64) < 2 * s.nodes as u64
            || (self.areas.levels.len() as u64) < self.level_words() as u64 * self.level_count()
            || self.areas.workers.len() < self.sizes.worker_words * s.workers as usize;
        if short {
            Err(2)
        } else {
            Ok(())
        }
    }

    // questions 1 to 3
    fn counts(&self) -> Asked<()> {
        self.room()?;
        let s = &self.settings;
        if s.nodes_taken > s.nodes || s.levels_taken < 1 || s.levels_taken as u64 > self.level_count() {
            return Err(3);
        }
        Ok(())
    }

    pub fn open(&mut self) -> Reply {
        if let Err(n) = self.room() {
            return self.refuse(n);
        }
        self.settings.nodes_taken = 0;
        self.settings.levels_taken = 1;
        self.fill_level(0, NONE, 0);
        let words = self.sizes.worker_words * self.settings.workers as usize;
        self.areas.workers[..words].fill(0);
        self.exchanges = Exchanges::default();
        self.reply(0, NOTHING, 0)
    }

    fn level_words(&self) -> usize {
        (self.sizes.level_words)(self.settings.width)
    }
    fn level_count(&self) -> u64 {
        (self.sizes.level_count)(&self.settings)
    }
    fn previous(&self, g: u32) -> u32 {
        self.areas.levels[self.level_words() * g as usize]
    }
    fn depth(&self, g: u32) -> u32 {
        self.areas.levels[self.level_words() * g as usize + 1]
    }
    // entry e of level g
    fn cell(&mut self, g: u32, e: usize) -> &mut u32 {
        let k = self.level_words() * g as usize + 2 + e;
        &mut self.areas.levels[k]
    }
    // "An empty entry refers to its own level"
    fn fill_level(&mut self, g: u32, previous: u32, depth: u32) {
        let k = self.level_words() * g as usize;
        self.areas.levels[k] = previous;
        self.areas.levels[k + 1] = depth;
        let filled = (self.sizes.filled)(self.settings.width) as usize;
        self.areas.levels[k + 2..k + 2 + filled].fill(2 * g);
    }

    // the words of worker i's record
    fn record(&self, i: u32) -> std::ops::Range<usize> {
        let words = self.sizes.worker_words;
        words * i as usize..words * (i as usize + 1)
    }
    fn views(&self, i: u32) -> bool {
        (self.roles.views)(&self.settings, i)
    }
    // the record of worker i, if it fits its layout
    fn worker(&self, i: u32) -> Asked<Worker> {
        let w = &self.areas.workers[self.record(i)];
        yes(w[0] <= 22)?;
        let kind = KINDS[w[0] as usize];
        let limit = self.settings.limit;
        let mut r = Worker {
            kind,
            pixel: w[1],
            level: w[2],
            node: w[3],
            count: w[4],
            held_node: w[5],
            held_level: w[6],
            answer: w[7],
            answer_node: w[8],
            moves: vec![],
        };
        if kind == Kind::Idle {
            yes((self.roles.told)(self.views(i), r.answer))?;
            return Ok(r);
        }
        yes(!self.views(i) || (self.roles.viewing)(kind))?;
        yes(r.pixel <= MAX_PIXEL)?;
        if matches!(w[0], 5..=10 | 17..=21) {
            yes(r.count >= 1 && r.count <= limit + 1)?;
        }
        if w[0] <= 10 {
            yes(w[9] == 0)?;
            return Ok(r);
        }
        yes(w[9] >= 1 && w[9] <= (self.sizes.most_moves)(self.settings.width))?;
        for j in 0..w[9] as usize {
            let m = &w[16 + 11 * j..27 + 11 * j];
            let innermost = j + 1 == w[9] as usize;
            let none = innermost && matches!(kind, Kind::ChainHead | Kind::MoveEnd);
            yes(if none { m[2] == 0 } else { m[2] >= 1 && m[2] <= limit })?;
            let mut nodes = [0; LONGEST_CHAIN];
            nodes.copy_from_slice(&m[3..11]);
            r.moves.push(Chain { home: m[0], child: m[1], count: m[2], nodes });
        }
        Ok(r)
    }

    fn keep(&mut self, i: u32, r: &Worker) {
        let words = self.record(i);
        let w = &mut self.areas.workers[words];
        let head = [r.kind as u32, r.pixel, r.level, r.node, r.count, r.held_node, r.held_level, r.answer, r.answer_node, r.moves.len() as u32];
        w[..10].copy_from_slice(&head);
        for (j, m) in r.moves.iter().enumerate() {
            let at = 16 + 11 * j;
            w[at] = m.home;
            w[at + 1] = m.child;
            w[at + 2] = m.count;
            w[at + 3..at + 11].copy_from_slice(&m.nodes);
        }
    }

    pub fn start(&mut self, i: u32, row: u32, column: u32) -> Reply {
        self.begin(false, i, row, column)
    }
    pub fn view(&mut self, i: u32, row: u32, column: u32) -> Reply {
        self.begin(true, i, row, column)
    }

    // question 17, if this is its place
    fn seventeen(&self, next: u32, looks: bool, i: u32) -> Asked<()> {
        if next == self.roles.asked_before && !(self.roles.may_start)(looks, self.views(i)) {
            Err(17)
        } else {
            Ok(())
        }
    }

    // a placing call, or one that looks
    fn begin(&mut self, looks: bool, i: u32, row: u32, column: u32) -> Reply {
        let asked = (|| {
            self.counts()?;
            self.seventeen(4, looks, i)?;
            if i >= self.settings.workers {
                return Err(4);
            }
            self.seventeen(5, looks, i)?;
            if row > 4095 || column > 4095 {
                return Err(5);
            }
            self.seventeen(6, looks, i)?;
            let r = self.worker(i)?;
            self.seventeen(7, looks, i)?;
            if r.kind != Kind::Idle {
                return Err(7);
            }
            self.seventeen(8, looks, i)?;
            Ok(r)
        })();
        match asked {
            Err(n) => self.refuse(n),
            Ok(mut r) => {
                r.kind = Kind::Look;
                r.pixel = row * 4096 + column;
                r.level = 0;
                self.keep(i, &r);
                self.reply(0, OPEN, 0)
            }
        }
    }

    pub fn last(&mut self, i: u32) -> Reply {
        let asked = (|| {
            self.counts()?;
            if i >= self.settings.workers {
                return Err(4);
            }
            self.worker(i)
        })();
        match asked {
            Err(n) => self.refuse(n),
            Ok(r) if r.kind != Kind::Idle => self.reply(0, OPEN, 0),
            Ok(r) => {
                let node = if r.answer == NEW || r.answer == FOUND { r.answer_node } else { 0 };
                self.reply(0, r.answer, node)
            }
        }
    }

    pub fn turn(&mut self, i: u32) -> Reply {
        if let Err(n) = self.counts() {
            return self.refuse(n);
        }
        if i >= self.settings.workers {
            return self.refuse(4);
        }
        self.one(i)
    }

    // The exchange of the newest turn, which was carried out; one that only reads, takes or writes makes none.
    fn made(&self) -> Exchanges {
        match self.exchanged {
            None => Exchanges { done: 0, failed: 0 },
            Some(Exchanged::Done) => Exchanges { done: 1, failed: 0 },
            Some(Exchanged::Met(_)) => Exchanges { done: 0, failed: 1 },
        }
    }

    // one turn, questions 1 to 4 being answered yes
    fn one(&mut self, i: u32) -> Reply {
        (self.exchanged, self.withheld) = (None, false);
        let r = match self.worker(i) {
            Err(n) => {
                self.sixes(i)[23] += 1;
                return self.refuse(n);
            }
            Ok(r) => r,
        };
        if r.kind == Kind::Idle {
            return self.refuse(8);
        }
        let kind = r.kind;
        match self.act(r) {
            Err(9) => {
                self.seen.went[kind as usize][0] += 1;
                let mut r = self.worker(i).unwrap();
                r.kind = Kind::Idle;
                r.answer = FULL;
                r.answer_node = 0;
                self.keep(i, &r);
                self.reply(9, FULL, 0)
            }
            Err(n) => {
                self.sixes(i)[kind as usize] += 1;
                self.seen.failed_sixes[kind as usize] += self.met().is_some() as u64;
                self.refuse(n)
            }
            Ok((r, ..)) if self.views(i) && (self.roles.ends_before)(r.kind) => self.absent(i, kind, r),
            Ok((r, answer, node)) => {
                let seen = if self.views(i) {
                    &mut self.seen.viewed
                } else if self.met().is_some() {
                    &mut self.seen.failed
                } else {
                    &mut self.seen.went
                };
                seen[kind as usize][r.kind as usize] += 1;
                self.seen.nested[r.moves.len()] += 1;
                self.exchanges += self.made();
                self.keep(i, &r);
                self.reply(0, answer, node)
            }
        }
    }

    fn sixes(&mut self, i: u32) -> &mut [u64; 24] {
        if self.views(i) {
            &mut self.seen.viewed_sixes
        } else {
            &mut self.seen.sixes
        }
    }

    // the viewer's call ends in the turn that would have gone to another kind
    fn absent(&mut self, i: u32, kind: Kind, mut r: Worker) -> Reply {
        self.seen.absent[r.kind as usize] += 1;
        self.seen.viewed[kind as usize][Kind::Idle as usize] += 1;
        (r.kind, r.answer, r.answer_node) = (Kind::Idle, ABSENT, 0);
        self.keep(i, &r);
        self.reply(0, ABSENT, 0)
    }

    pub fn turns(&mut self, list: &[u8], limit: u32) -> Reply {
        let mut met = [false; LISTS.len()];
        let reply = self.list(list, limit, &mut met);
        for (seen, _) in self.seen.lists.iter_mut().zip(met).filter(|x| x.1) {
            seen.lists += 1;
            seen.done += (reply.exchanges.done > 0) as u64;
            seen.failed += (reply.exchanges.failed > 0) as u64;
        }
        reply
    }

    // a list, and of LISTS what it met
    fn list(&mut self, list: &[u8], limit: u32, met: &mut [bool; LISTS.len()]) -> Reply {
        let asked = self.counts().and_then(|()| if list.iter().any(|&i| i as u32 >= self.settings.workers) { Err(4) } else { Ok(()) });
        if let Err(n) = asked {
            met[0] = true;
            return self.refuse(n);
        }
        let (mut number, mut turns, mut exchanges, mut left) = (0, 0, Exchanges::default(), list.iter());
        while turns < limit && number == 0 {
            let Some(&i) = left.next() else { break };
            let reply = self.one(i as u32);
            match reply.number {
                8 => met[4] = true,
                6 => number = 6,
                9 => (turns, met[5]) = (turns + 1, true),
                _ => {
                    met[6] |= reply.answer == ABSENT;
                    turns += 1;
                    exchanges += self.made();
                }
            }
        }
        met[if number == 6 {
            1
        } else if left.len() > 0 {
            2
        } else {
            3
        }] = true;
        Reply { turns, exchanges, ..self.reply(number, NOTHING, 0) }
    }

    fn level_taken(&self, g: u32) -> Asked<()> {
        yes(g < self.settings.levels_taken)
    }
    fn node_taken(&self, n: u32) -> Asked<()> {
        yes(n < self.settings.nodes_taken)
    }
    // the number of something held: in hand it must be there
    fn held(&self, word: u32, taken: u32) -> Asked<u32> {
        yes(word >= 1 && word <= taken)?;
        Ok(word - 1)
    }
    // where pixel p, which is in range, goes in level g, which is taken and not too deep
    fn entry(&self, g: u32, p: u32) -> Asked<usize> {
        self.level_taken(g)?;
        let (depth, width) = (self.depth(g), self.settings.width);
        yes(depth <= (self.sizes.deepest)(width))?;
        Ok((self.sizes.digit)(width, depth, p) as usize)
    }
    fn taken(&self, word: u32) -> Asked<Ref> {
        match reference(word) {
            Ref::Level(g) => self.level_taken(g)?,
            Ref::Node(n) => self.node_taken(n)?,
        }
        Ok(reference(word))
    }
    fn node_pixel(&self, n: u32) -> Asked<u32> {
        self.node_taken(n)?;
        let p = self.areas.node(n).pixel;
        yes(p <= MAX_PIXEL)?;
        Ok(p)
    }
    // from level t back to the child of g
    fn back(&self, t: u32, g: u32) -> Asked<u32> {
        let mut at = t;
        for _ in 0..(self.sizes.most_back)(self.settings.width) {
            let p = self.previous(at);
            if p == g {
                return Ok(at);
            }
            self.level_taken(p)?;
            at = p;
        }
        Err(6)
    }
    fn next_count(&self, c: u32) -> u32 {
        (c + 1).min(self.settings.limit + 1)
    }

    // a level for the worker's own level: the spare one or the next number
    fn new_level(&mut self, r: &mut Worker) -> Asked<()> {
        self.level_taken(r.level)?;
        yes(r.held_level <= self.settings.levels_taken)?;
        let depth = self.depth(r.level);
        yes(depth < (self.sizes.deepest_new)(self.settings.width))?;
        let g = if r.held_level > 0 {
            r.held_level - 1
        } else {
            yes((self.settings.levels_taken as u64) < self.level_count())?;
            self.settings.levels_taken += 1;
            self.settings.levels_taken - 1
        };
        self.fill_level(g, r.level, depth + 1);
        r.held_level = g + 1;
        Ok(())
    }

    // a node for the call: the spare one or the next number, else full
    fn new_node(&mut self, r: &mut Worker) -> Asked<()> {
        self.level_taken(r.level)?;
        yes(r.held_node <= self.settings.nodes_taken)?;
        let n = if r.held_node > 0 {
            r.held_node - 1
        } else if self.settings.nodes_taken < self.settings.nodes {
            self.settings.nodes_taken += 1;
            self.settings.nodes_taken - 1
        } else {
            return Err(9);
        };
        self.areas.set_node(n, Node { pixel: r.pixel, next: 2 * r.level });
        r.held_node = n + 1;
        Ok(())
    }

    // ""Exchange x from a to b" writes b only if x holds a"; "The new board's exchange returns what it found"
    fn exchange(&mut self, x: Cell, from: u32, to: u32) -> Exchanged {
        let word = match x {
            Cell::Entry(g, e) => self.cell(g, e),
            Cell::Next(n) => &mut self.areas.nodes[2 * n as usize + 1],
        };
        let came_to = if *word == from { Exchanged::Done } else { Exchanged::Met(*word) };
        if let Exchanged::Done = came_to {
            *word = to;
        }
        self.exchanged = Some(came_to);
        came_to
    }

    // With as many Moves open as there may be R's next is only read. A word that would let the exchange be done, so that one more Move began, is refused; on
    // another word it has failed, and counts as failed. No sequence from an opening comes here.
    fn without_room(&mut self, r: &Worker) -> Asked<Exchanged> {
        let word = self.areas.node(r.node).next;
        self.withheld = word == 2 * r.level;
        yes(!self.withheld)?;
        self.exchanged = Some(Exchanged::Met(word));
        Ok(Exchanged::Met(word))
    }

    // What Read does with its word, and a failed Put with the word it met.
    fn as_read(&self, r: Worker, word: u32) -> Asked<(Worker, u32, u32)> {
        self.as_search(r, word, 1, |_, t| Ok(t))
    }
    // What Follow does with its word, and a failed Append or Close with the word it met.
    fn as_follow(&self, r: Worker, word: u32) -> Asked<(Worker, u32, u32)> {
        let (count, h) = (self.next_count(r.count), r.level);
        self.as_search(r, word, count, |m, t| m.back(t, h))
    }
    fn as_search(&self, mut r: Worker, word: u32, count: u32, down: impl Fn(&Model, u32) -> Asked<u32>) -> Asked<(Worker, u32, u32)> {
        match self.taken(word)? {
            Ref::Node(n) => {
                if self.node_pixel(n)? == r.pixel {
                    r.kind = Kind::Idle;
                    r.answer = FOUND;
                    r.answer_node = n;
                    return Ok((r, FOUND, n));
                }
                r.kind = Kind::Tail;
                r.node = n;
                r.count = count;
            }
            Ref::Level(t) => {
                r.level = down(self, t)?;
                r.kind = Kind::Look;
            }
        }
        Ok((r, OPEN, 0))
    }

    // "the same inside a Move": SetRead and a failed SetPut; no pixel is compared there.
    fn as_set_read(&self, r: &mut Worker, word: u32) -> Asked<()> {
        match self.taken(word)? {
            Ref::Node(n) => (r.kind, r.node, r.count) = (Kind::SetTail, n, 1),
            Ref::Level(t) => (r.kind, r.level) = (Kind::SetNext, t),
        }
        Ok(())
    }
    // SetFollow, and a failed SetAppend or SetClose.
    fn as_set_follow(&self, r: &mut Worker, word: u32) -> Asked<()> {
        match self.taken(word)? {
            Ref::Node(n) => (r.kind, r.node, r.count) = (Kind::SetTail, n, self.next_count(r.count)),
            Ref::Level(t) => (r.kind, r.level) = (Kind::SetNext, self.back(t, r.level)?),
        }
        Ok(())
    }

    // N is set
    fn set(&self, r: &mut Worker) {
        r.moves.last_mut().unwrap().count -= 1;
        self.after_node(r);
    }

    // the node set is done: the next one, or the entry
    fn after_node(&self, r: &mut Worker) {
        let m = r.moves.last().unwrap();
        if m.count == 0 {
            r.kind = Kind::MoveEnd;
        } else {
            r.kind = Kind::SetNext;
            r.level = m.child;
        }
    }

    // N, and where it goes in the level that it is set into
    fn entry_of_n(&self, r: &Worker) -> Asked<(u32, usize)> {
        let n = r.moves.last().unwrap().last();
        Ok((n, self.entry(r.level, self.node_pixel(n)?)?))
    }

    // the key of the innermost Move
    fn key(&self, r: &Worker) -> Asked<u32> {
        let n = r.moves.len();
        if n == 1 {
            Ok(r.pixel)
        } else {
            self.node_pixel(r.moves[n - 2].last())
        }
    }

    fn remember(&self, r: &mut Worker, word: u32) -> Asked<()> {
        let limit = self.settings.limit;
        match self.taken(word)? {
            Ref::Node(n) => {
                let m = r.moves.last_mut().unwrap();
                yes(m.count + 1 <= limit)?;
                m.nodes[m.count as usize] = n;
                m.count += 1;
                r.kind = Kind::ChainNext;
            }
            Ref::Level(_) => self.after_node(r),
        }
        Ok(())
    }

    // what each kind of turn does; Err(6) and Err(9) change nothing
    fn act(&mut self, mut r: Worker) -> Asked<(Worker, u32, u32)> {
        use Kind::*;
        let limit = self.settings.limit;
        let kind = r.kind;
        match kind {
            Idle => unreachable!(),
            Look => {
                let e = self.entry(r.level, r.pixel)?;
                let word = *self.cell(r.level, e);
                self.taken(word)?;
                r.kind = if word == 2 * r.level { Take } else { Read };
            }
            Take => {
                self.new_node(&mut r)?;
                r.kind = Put;
            }
            TakeTail => {
                self.new_node(&mut r)?;
                r.kind = Append;
            }
            // a failed exchange leaves what is held as it is: the node in hand is spare then, and so is the level
            Put => {
                let e = self.entry(r.level, r.pixel)?;
                let n = self.held(r.held_node, self.settings.nodes_taken)?;
                return match self.exchange(Cell::Entry(r.level, e), 2 * r.level, 2 * n + 1) {
                    Exchanged::Done => Ok((Self::ended(r, n), NEW, n)),
                    Exchanged::Met(word) => self.as_read(r, word),
                };
            }
            Append => {
                self.level_taken(r.level)?;
                self.node_taken(r.node)?;
                let n = self.held(r.held_node, self.settings.nodes_taken)?;
                return match self.exchange(Cell::Next(r.node), 2 * r.level, 2 * n + 1) {
                    Exchanged::Done => Ok((Self::ended(r, n), NEW, n)),
                    Exchanged::Met(word) => self.as_follow(r, word),
                };
            }
            Read => {
                let e = self.entry(r.level, r.pixel)?;
                let word = *self.cell(r.level, e);
                return self.as_read(r, word);
            }
            Follow => {
                self.level_taken(r.level)?;
                self.node_taken(r.node)?;
                let word = self.areas.node(r.node).next;
                return self.as_follow(r, word);
            }
            Tail | SetTail => {
                self.level_taken(r.level)?;
                self.node_taken(r.node)?;
                let word = self.areas.node(r.node).next;
                self.taken(word)?;
                let (append, level, follow) = if kind == Tail { (TakeTail, Level, Follow) } else { (SetAppend, SetLevel, SetFollow) };
                r.kind = if word != 2 * r.level || r.count > limit {
                    follow
                } else if r.count < limit {
                    append
                } else {
                    level
                };
            }
            Level => {
                self.new_level(&mut r)?;
                r.kind = Close;
            }
            SetLevel => {
                self.new_level(&mut r)?;
                r.kind = SetClose;
            }
            Close | SetClose => {
                self.level_taken(r.level)?;
                self.node_taken(r.node)?;
                let g = self.held(r.held_level, self.settings.levels_taken)?;
                let room = r.moves.len() < (self.sizes.room_for_moves)(self.settings.width) as usize;
                let exchanged = if room { self.exchange(Cell::Next(r.node), 2 * r.level, 2 * g) } else { self.without_room(&r)? };
                match exchanged {
                    Exchanged::Done => {
                        r.held_level = 0;
                        r.kind = ChainHead;
                        r.moves.push(Chain { home: r.level, child: g, count: 0, nodes: [0; LONGEST_CHAIN] });
                    }
                    Exchanged::Met(word) if kind == Close => return self.as_follow(r, word),
                    Exchanged::Met(word) => self.as_set_follow(&mut r, word)?,
                }
            }
            ChainHead => {
                let key = self.key(&r)?;
                let home = r.moves.last().unwrap().home;
                let e = self.entry(home, key)?;
                let word = *self.cell(home, e);
                self.remember(&mut r, word)?;
            }
            ChainNext => {
                let n = r.moves.last().unwrap().last();
                self.node_taken(n)?;
                let word = self.areas.node(n).next;
                self.remember(&mut r, word)?;
            }
            SetNext => {
                let n = r.moves.last().unwrap().last();
                self.node_taken(n)?;
                self.level_taken(r.level)?;
                let mut x = self.areas.node(n);
                x.next = 2 * r.level;
                self.areas.set_node(n, x);
                r.kind = SetLook;
            }
            SetLook => {
                let (_, e) = self.entry_of_n(&r)?;
                let word = *self.cell(r.level, e);
                self.taken(word)?;
                r.kind = if word == 2 * r.level { SetPut } else { SetRead };
            }
            SetPut => {
                let (n, e) = self.entry_of_n(&r)?;
                match self.exchange(Cell::Entry(r.level, e), 2 * r.level, 2 * n + 1) {
                    Exchanged::Done => self.set(&mut r),
                    Exchanged::Met(word) => self.as_set_read(&mut r, word)?,
                }
            }
            SetRead => {
                let (_, e) = self.entry_of_n(&r)?;
                let word = *self.cell(r.level, e);
                self.as_set_read(&mut r, word)?;
            }
            SetAppend => {
                let n = r.moves.last().unwrap().last();
                self.node_taken(n)?;
                self.level_taken(r.level)?;
                self.node_taken(r.node)?;
                match self.exchange(Cell::Next(r.node), 2 * r.level, 2 * n + 1) {
                    Exchanged::Done => self.set(&mut r),
                    Exchanged::Met(word) => self.as_set_follow(&mut r, word)?,
                }
            }
            SetFollow => {
                self.level_taken(r.level)?;
                self.node_taken(r.node)?;
                let word = self.areas.node(r.node).next;
                self.as_set_follow(&mut r, word)?;
            }
            MoveEnd => {
                let key = self.key(&r)?;
                let m = r.moves.last().unwrap().clone();
                let e = self.entry(m.home, key)?;
                self.level_taken(m.child)?;
                *self.cell(m.home, e) = 2 * m.child;
                r.moves.pop();
                r.level = m.child;
                r.kind = if r.moves.is_empty() { Look } else { SetNext };
            }
        }
        Ok((r, OPEN, 0))
    }

    fn ended(mut r: Worker, n: u32) -> Worker {
        r.kind = Kind::Idle;
        r.answer = NEW;
        r.answer_node = n;
        r.held_node = 0;
        r
    }
}
