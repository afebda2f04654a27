// Wrong versions of the model: each alters what the model leaves after one operation, or what the digit width fixes, or what is done with viewers, and the
// comparison must find it at every width at which it is wrong. So a table that were wrong in the same way would be found. There is at least one for each kind of
// turn, and several for each kind of exchange that fails, for each number that the width gives and for each sentence on viewers; document 01's shortcuts and
// wrong firmwares are among them. Others are run alone as machines, of which the bound of failed exchanges must not hold.
use crate::bound::{self, EXCHANGES};
use crate::coverage::Total;
use crate::examples;
use crate::exchanges;
use crate::lists;
use crate::model::{
    digit, last_depth, level_words, levels, Areas, Exchanges, Kind, Kind::*, Model, Reply, Roles, Settings, Sizes, ABSENT, DOCUMENT, FOUND, FULL,
    KINDS, NEW, NOTHING, OPEN, ROLES, WIDTHS,
};
use crate::pair::{Compared, Op};
use crate::random::Random;
use crate::refusals;
use crate::sequences;
use crate::six;
use crate::viewers;
use crate::words::*;

pub struct Mutant {
    name: &'static str,
    of: Of,
    // the widths at which it is wrong
    at: &'static [u32],
    wrong: fn(&Op, &mut Wrong),
}

// What a wrong version alters.
#[derive(Clone, Copy)]
enum Of {
    // every operation that was carried out
    Operations,
    // turns of this kind that were carried out; of an exchange, those in which it was done
    Turns(Kind),
    // of these kinds, one by one, turns that were carried out and whose exchange failed
    Failed(&'static [Kind]),
    // the same on memory spoiled at question 6, with turns that it refused by the word met
    Asked(&'static [Kind]),
    // on that memory, turns that were carried out and of which no exchange failed
    Spoiled(&'static [Kind]),
    // on that memory, turns that it refused although their exchange would be done: for want of room for a Move
    Refused(&'static [Kind]),
    // lists that were carried out or ended by a 6
    Lists,
    // the same, with one of these kinds counted wrongly
    Counts(&'static [Kind]),
    // the same on memory spoiled at question 6
    SpoiledCounts(&'static [Kind]),
    // lists that were refused as a whole
    RefusedLists,
    // operations that were refused by 1 for their width, the other settings being in range
    NoWidth,
    // nothing after an operation, but what the width fixes, and what is done with viewers
    Sizes(Sizes),
    Roles(Roles),
    // turns of viewers of these kinds, one by one, that were carried out; the same on memory spoiled at question 6
    Viewers(&'static [Kind]),
    SpoiledViewers(&'static [Kind]),
}

// the exchanges of a search, which compare the pixel of a node met; those in a Move, which do not
const SEARCHING: &[Kind] = &[Put, Append, Close];
const MOVING: &[Kind] = &[SetPut, SetAppend, SetClose];
// the exchanges at R, which go back from a level met
const AT_R: &[Kind] = &[Append, Close, SetAppend, SetClose];

// A wrong version, and the one of its kinds that it alters here.
#[derive(Clone, Copy)]
pub struct Chosen {
    mutant: &'static Mutant,
    kind: Option<Kind>,
}

impl Chosen {
    pub fn alter(&self, op: &Op, before: &Areas, given: Settings, model: &mut Model, reply: &mut Reply) {
        let (turn, number, failed) = (matches!(op, Op::Turn(_)), reply.number, model.met().is_some());
        let altered = match self.mutant.of {
            Of::Operations => matches!(number, 0 | 9),
            Of::Turns(_) => turn && number == 0 && !failed,
            Of::Failed(_) => turn && number == 0 && failed,
            Of::Asked(_) => turn && matches!(number, 0 | 6) && failed,
            Of::Spoiled(_) => turn && number == 0 && !failed,
            Of::Refused(_) => turn && number == 6 && model.withheld,
            Of::Lists | Of::Counts(_) | Of::SpoiledCounts(_) => matches!((op, number), (Op::Turns(..), 0 | 6)),
            Of::RefusedLists => matches!((op, number), (Op::Turns(..), 1..=4)),
            Of::NoWidth => number == 1 && given.in_range(),
            Of::Viewers(_) | Of::SpoiledViewers(_) => matches!(op, Op::Turn(i) if given.views(*i)) && number == 0,
            Of::Sizes(_) | Of::Roles(_) => false,
        };
        if !altered {
            return;
        }
        let worker = match op {
            Op::Start(i, ..) | Op::View(i, ..) | Op::Turn(i) | Op::Last(i) => *i,
            Op::Open | Op::Turns(..) => 0,
        };
        let mut x = Wrong { before, given, model, reply, worker, kind: self.kind };
        if turn && self.kind.is_some_and(|kind| x.was(KIND) != kind as u32) {
            return;
        }
        (self.mutant.wrong)(op, &mut x);
        x.reply.settings = x.model.settings;
    }

    // what its model does with the width
    pub fn sizes(&self) -> Sizes {
        match self.mutant.of {
            Of::Sizes(wrong) => wrong,
            _ => DOCUMENT,
        }
    }

    // and with viewers
    pub fn roles(&self) -> Roles {
        match self.mutant.of {
            Of::Roles(wrong) => wrong,
            _ => ROLES,
        }
    }

    fn name(&self) -> String {
        match (self.mutant.of, self.kind) {
            (Of::Operations | Of::Turns(_) | Of::Lists | Of::RefusedLists | Of::NoWidth | Of::Sizes(_) | Of::Roles(_), _) | (_, None) => {
                self.mutant.name.to_string()
            }
            (Of::Viewers(_) | Of::SpoiledViewers(_), Some(kind)) => format!("a viewer's {kind:?}: {}", self.mutant.name),
            (_, Some(kind)) => format!("{kind:?}: {}", self.mutant.name),
        }
    }
}

// The model after an operation, with the areas and the settings before it.
struct Wrong<'a> {
    before: &'a Areas,
    given: Settings,
    model: &'a mut Model,
    reply: &'a mut Reply,
    worker: u32,
    // the kind that is altered here, of a wrong version for several
    kind: Option<Kind>,
}

// An entry of a list: the kind of its turn and of the next one, the Moves before it, its number, the exchange that it made; whether one failed or was
// withheld, also where the turn was refused; whether it ended "absent".
struct Entry {
    kind: Option<Kind>,
    then: Option<Kind>,
    moves: u32,
    number: u32,
    made: Exchanges,
    failed: bool,
    withheld: bool,
    absent: bool,
}

const ONE_DONE: Exchanges = Exchanges { done: 1, failed: 0 };
const ONE_FAILED: Exchanges = Exchanges { done: 0, failed: 1 };
const NO_EXCHANGE: Exchanges = Exchanges { done: 0, failed: 0 };

impl Wrong<'_> {
    fn absent(&self) -> bool {
        self.reply.answer == ABSENT
    }
    // a viewer's call ends so in place of its right end or instead of going on
    fn ends(&mut self, answer: u32) {
        self.undone(0, answer);
        self.to(Idle);
        self.set(ANSWER, answer);
        self.set(ANSWER_NODE, 0);
    }
    // where another worker would have gone in place of "absent"
    fn placing_kind(&self) -> Kind {
        match self.view().kind() {
            Look => Take,
            _ if self.was(COUNT) < self.given.limit => TakeTail,
            _ => Level,
        }
    }
    fn view(&self) -> View<'_> {
        View { areas: self.before, settings: self.model.settings, worker: self.worker }
    }
    fn was(&self, k: usize) -> u32 {
        self.view().word(k)
    }
    fn is(&self, k: usize) -> u32 {
        self.model.areas.workers[RECORD * self.worker as usize + k]
    }
    fn set(&mut self, k: usize, v: u32) {
        self.model.areas.workers[RECORD * self.worker as usize + k] = v;
    }
    fn went_to(&self, kind: Kind) -> bool {
        self.is(KIND) == kind as u32
    }
    fn to(&mut self, kind: Kind) {
        self.set(KIND, kind as u32);
    }
    fn instead_of(&mut self, right: Kind, wrong: Kind) {
        if self.went_to(right) {
            self.to(wrong);
        }
    }
    fn when(&mut self, kind: Kind, word: usize, v: u32) {
        if self.went_to(kind) {
            self.set(word, v);
        }
    }
    // having gone to this kind, its turn is done too
    fn and_at_once(&mut self, kind: Kind, op: &Op) {
        if self.went_to(kind) {
            *self.reply = self.model.run(op);
        }
    }
    fn put(&mut self, place: Place, v: u32) {
        *place.of(&mut self.model.areas, &mut self.model.settings) = v;
    }
    // the node in hand gets another next word
    fn next_in_hand(&mut self, word: u32) {
        let place = self.view().next_of(self.is(HELD_NODE) - 1);
        self.put(place, word);
    }
    // the new level's word k
    fn new_level(&mut self, k: usize, v: u32) {
        self.put(Place::Levels(level_at(self.given.width, self.is(HELD_LEVEL) - 1) + k), v);
    }
    fn last_depth(&self) -> u32 {
        last_depth(self.given.width)
    }
    // a number is taken although a spare was there
    fn take_node(&mut self) {
        if self.was(HELD_NODE) > 0 && self.model.settings.nodes_taken < self.model.settings.nodes {
            self.model.settings.nodes_taken += 1;
            self.set(HELD_NODE, self.model.settings.nodes_taken);
        }
    }
    fn take_level(&mut self) {
        if self.was(HELD_LEVEL) > 0 {
            self.model.settings.levels_taken += 1;
            self.set(HELD_LEVEL, self.model.settings.levels_taken);
        }
    }
    // the level whose reference R's next was
    fn level_met(&self) -> u32 {
        self.view().read() / 2
    }
    // the word that the failed exchange met
    fn met(&self) -> u32 {
        self.model.met().unwrap()
    }
    fn met_is_taken(&self) -> bool {
        self.met() / 2 < if is_node(self.met()) { self.given.nodes_taken } else { self.given.levels_taken }
    }
    // a node is met that holds no pixel
    fn met_no_pixel(&self) -> bool {
        is_node(self.met()) && self.met_is_taken() && self.view().get(self.view().pixel_of(self.met() / 2)) > TOP
    }
    fn in_a_move(&self) -> bool {
        self.was(MOVES) > 0
    }
    // the turn is undone and answered so
    fn undone(&mut self, number: u32, answer: u32) {
        self.model.areas.copy(self.before);
        self.model.settings = self.given;
        (self.reply.number, self.reply.answer, self.reply.node) = (number, answer, 0);
    }
    // the turn leaves all but its kind, which is this one
    fn only_goes_to(&mut self, kind: Kind) {
        self.undone(0, OPEN);
        self.to(kind);
    }
    // the kind that reads the word once more
    fn reading(&self) -> Kind {
        match self.view().kind() {
            Put => Read,
            SetPut => SetRead,
            SetAppend | SetClose => SetFollow,
            _ => Follow,
        }
    }
    // acts on a word, with this count for a node; nothing is asked or compared, nothing is gone back from
    fn goes_on(&mut self, word: u32, count: u32) {
        let (at_node, at_level) = if self.in_a_move() { (SetTail, SetNext) } else { (Tail, Look) };
        self.only_goes_to(if is_node(word) { at_node } else { at_level });
        if is_node(word) {
            self.set(NODE, word / 2);
            self.set(COUNT, count);
        } else {
            self.set(LEVEL, word / 2);
        }
    }
    fn count_raised(&self) -> u32 {
        match self.view().kind() {
            Put | SetPut => 1,
            _ => self.one_more(),
        }
    }
    // the count before the turn and one more, as Follow has it
    fn one_more(&self) -> u32 {
        (self.was(COUNT) + 1).min(self.given.limit + 1)
    }
    // from this level back to the one below H, over at most so many previous words, each naming one of the first levels
    fn back(&self, from: u32, most: u32, levels: u32) -> Option<u32> {
        let (v, mut at) = (self.view(), from);
        for _ in 0..most {
            if at >= levels {
                return None;
            }
            let previous = v.get(v.previous_of(at));
            if previous == v.word(LEVEL) {
                return Some(at);
            }
            at = previous;
        }
        None
    }
    // the same from a taken level met, where the turn was refused
    fn back_refused(&self, most: u32, levels: u32) -> Option<u32> {
        let level = self.reply.number == 6 && !is_node(self.met()) && self.met_is_taken();
        Some(self.met() / 2).filter(|_| level).and_then(|g| self.back(g, most, levels))
    }
    // a level that the turn has gone to is gone back from, as Follow does
    fn goes_back_from(&mut self, word: u32) {
        if is_node(word) || self.reply.number != 0 {
            return;
        }
        match self.back(word / 2, self.last_depth(), self.given.levels_taken) {
            Some(g) => self.goes_on(2 * g, 0),
            None => self.undone(6, NOTHING),
        }
    }
    // the level in hand is written to R's next
    fn closes(&mut self) {
        self.put(self.view().cell(), 2 * (self.was(HELD_LEVEL) - 1));
    }
    // the entry that the one to be placed or set has in the worker's level
    fn its_entry(&self) -> u32 {
        let v = self.view();
        let pixel = if self.in_a_move() { v.get(v.pixel_of(v.n())) } else { v.word(PIXEL) };
        v.get(v.entry_of(v.word(LEVEL), pixel))
    }
    // another operation is done in place of this one
    fn instead(&mut self, op: &Op) {
        self.model.areas.copy(self.before);
        self.model.settings = self.given;
        *self.reply = self.model.run(op);
    }
    // the entries that the list comes to, turn by turn, up to the one that met 6
    fn entries(&self, op: &Op) -> Vec<Entry> {
        let Op::Turns(list, limit) = op else { return vec![] };
        let mut m = Model::new(self.given, self.before.clone());
        let (mut entries, mut left) = (vec![], *limit);
        for &i in list {
            if left == 0 || entries.last().is_some_and(|e: &Entry| e.number == 6) {
                break;
            }
            let word = |m: &Model, k: usize| m.areas.workers[RECORD * i as usize + k];
            let kind = |m: &Model| KINDS.get(word(m, KIND) as usize).copied();
            let (before, moves, made) = (kind(&m), word(&m, MOVES), m.exchanges);
            let Reply { number, answer, .. } = m.turn(i as u32);
            let made = Exchanges { done: m.exchanges.done - made.done, failed: m.exchanges.failed - made.failed };
            let (failed, withheld, absent) = (m.met().is_some(), m.withheld, answer == ABSENT);
            entries.push(Entry { kind: before, then: kind(&m), moves, number, made, failed, withheld, absent });
            left -= (number != 8) as u32;
        }
        entries
    }
    // the list reports so much of each entry
    fn counts(&mut self, op: &Op, of: impl Fn(&Entry) -> Exchanges) {
        self.reply.exchanges = NO_EXCHANGE;
        for e in self.entries(op) {
            self.reply.exchanges += of(&e);
        }
    }
    // the same, of turns of the kind that is altered here; of the others what they made
    fn counts_here(&mut self, op: &Op, of: impl Fn(&Entry) -> Exchanges) {
        let kind = self.kind;
        self.counts(op, |e| if e.kind == kind { of(e) } else { e.made });
    }
    // the worker's words past its first 128 stay as they were
    fn keep_past_128(&mut self, i: u32) {
        let words = RECORD * i as usize + 128..RECORD * (i as usize + 1);
        self.model.areas.workers[words.clone()].copy_from_slice(&self.before.workers[words]);
    }
    // the settings given back have no viewers
    fn forgets_viewers(&mut self, these: bool) {
        if these {
            self.model.settings.viewers = 0;
        }
    }
    // the settings given back have this width
    fn gives_back(&mut self, these: bool, width: u32) {
        if these {
            self.model.settings.width = width;
        }
    }
    // the number of this question, if the operation asks it and the answer is no; of question 6 what is asked of an idle worker's record alone
    fn asks_before_the_width(&mut self, op: &Op, question: u32) {
        let (s, a) = (&self.given, self.before);
        let worker = match op {
            Op::Start(i, ..) | Op::View(i, ..) | Op::Turn(i) | Op::Last(i) => Some(*i),
            Op::Turns(list, _) => list.iter().map(|&i| i as u32).max(),
            Op::Open => None,
        };
        let opening = matches!(op, Op::Open);
        let no = match question {
            2 => a.nodes.len() < 2 * s.nodes as usize || a.levels.len() < 2 || a.workers.len() < RECORD * s.workers as usize,
            3 => !opening && (s.nodes_taken > s.nodes || s.levels_taken == 0),
            4 => worker.is_some_and(|i| i >= s.workers),
            5 => matches!(op, Op::Start(_, row, column) | Op::View(_, row, column) if row.max(column) > &4095),
            _ => worker == Some(0) && a.workers.first().is_some_and(|&kind| kind > 22 || kind == 0 && a.workers[ANSWER] > 3),
        };
        if no {
            self.reply.number = question;
        }
    }
    // the entry of the call's pixel in the innermost Move's home, also inside another Move
    fn entry_of_the_call(&self) -> Place {
        let v = self.view();
        v.entry_of(v.word(home(v.inner())), v.word(PIXEL))
    }
}

// wrong at every width
const fn mutant(of: Of, name: &'static str, wrong: fn(&Op, &mut Wrong)) -> Mutant {
    Mutant { name, of, at: &WIDTHS, wrong }
}
const fn turn(kind: Kind, name: &'static str, wrong: fn(&Op, &mut Wrong)) -> Mutant {
    mutant(Of::Turns(kind), name, wrong)
}
const fn failed(kinds: &'static [Kind], name: &'static str, wrong: fn(&Op, &mut Wrong)) -> Mutant {
    mutant(Of::Failed(kinds), name, wrong)
}
const fn asked(kinds: &'static [Kind], name: &'static str, wrong: fn(&Op, &mut Wrong)) -> Mutant {
    mutant(Of::Asked(kinds), name, wrong)
}
const fn spoiled(kinds: &'static [Kind], name: &'static str, wrong: fn(&Op, &mut Wrong)) -> Mutant {
    mutant(Of::Spoiled(kinds), name, wrong)
}
const fn refused(kinds: &'static [Kind], name: &'static str, wrong: fn(&Op, &mut Wrong)) -> Mutant {
    mutant(Of::Refused(kinds), name, wrong)
}
const fn list(name: &'static str, wrong: fn(&Op, &mut Wrong)) -> Mutant {
    mutant(Of::Lists, name, wrong)
}
const fn counts(kinds: &'static [Kind], name: &'static str, wrong: fn(&Op, &mut Wrong)) -> Mutant {
    mutant(Of::Counts(kinds), name, wrong)
}
const fn spoiled_counts(kinds: &'static [Kind], name: &'static str, wrong: fn(&Op, &mut Wrong)) -> Mutant {
    mutant(Of::SpoiledCounts(kinds), name, wrong)
}
const fn operation(name: &'static str, wrong: fn(&Op, &mut Wrong)) -> Mutant {
    mutant(Of::Operations, name, wrong)
}
const fn no_width(name: &'static str, wrong: fn(&Op, &mut Wrong)) -> Mutant {
    mutant(Of::NoWidth, name, wrong)
}
const fn viewed(kinds: &'static [Kind], name: &'static str, wrong: fn(&Op, &mut Wrong)) -> Mutant {
    mutant(Of::Viewers(kinds), name, wrong)
}
const fn spoiled_viewed(kinds: &'static [Kind], name: &'static str, wrong: fn(&Op, &mut Wrong)) -> Mutant {
    mutant(Of::SpoiledViewers(kinds), name, wrong)
}
const fn roles(name: &'static str, wrong: Roles) -> Mutant {
    mutant(Of::Roles(wrong), name, |_, _| {})
}
const fn sizes(at: &'static [u32], name: &'static str, wrong: Sizes) -> Mutant {
    Mutant { name, of: Of::Sizes(wrong), at, wrong: |_, _| {} }
}

// the widths but 3, whose numbers are document 01's; those with more entries than its eight
const BUT_3: &[u32] = &[2, 4, 6];
const WIDE: &[u32] = &[4, 6];

static MUTANTS: &[Mutant] = &[
    turn(Look, "Look: an empty entry goes to Read", |_, x| x.instead_of(Take, Read)),
    turn(Look, "Look: a used entry goes to Take", |_, x| x.instead_of(Read, Take)),
    // "Look still goes to Read where it found the entry used"; so do the other turns that only look
    turn(Look, "Look: a used entry is read in the same turn", |op, x| x.and_at_once(Read, op)),
    turn(Take, "Take: leaves its spare and takes a number", |_, x| x.take_node()),
    turn(Take, "Take: the node's next is the root", |_, x| x.next_in_hand(0)),
    turn(Put, "Put: a placed node stays spare", |_, x| x.set(HELD_NODE, x.was(HELD_NODE))),
    turn(Read, "Read: a node's count is 2", |_, x| x.when(Tail, COUNT, 2)),
    turn(Read, "Read: K's own node is not found", |_, x| {
        if x.went_to(Idle) {
            x.to(Tail);
            x.set(NODE, x.reply.node);
            x.set(COUNT, 1);
            (x.reply.answer, x.reply.node) = (OPEN, 0);
        }
    }),
    turn(Read, "Read: a level met is not gone to", |_, x| x.when(Look, LEVEL, x.was(LEVEL))),
    turn(Tail, "Tail: appends at the limit", |_, x| x.instead_of(Level, TakeTail)),
    turn(Tail, "Tail: closes below the limit", |_, x| x.instead_of(TakeTail, Level)),
    turn(Tail, "Tail: another next is followed in the same turn", |op, x| x.and_at_once(Follow, op)),
    turn(TakeTail, "TakeTail: goes to Put", |_, x| x.to(Put)),
    turn(TakeTail, "TakeTail: leaves its spare and takes a number", |_, x| x.take_node()),
    turn(TakeTail, "TakeTail: the node's next is R", |_, x| x.next_in_hand(2 * x.was(NODE) + 1)),
    turn(Append, "Append: an appended node stays spare", |_, x| x.set(HELD_NODE, x.was(HELD_NODE))),
    turn(Level, "Level: H's own depth", |_, x| x.new_level(1, x.view().get(x.view().depth_of(x.was(LEVEL))))),
    turn(Level, "Level: previous is the root", |_, x| x.new_level(0, 0)),
    turn(Level, "Level: an entry refers to the root", |_, x| x.new_level(level_words(x.given.width) - 1, 0)),
    turn(Level, "Level: leaves its spare and takes a number", |_, x| x.take_level()),
    turn(Close, "Close: done, moves nothing", |_, x| {
        if x.went_to(ChainHead) {
            x.to(Look);
            x.set(LEVEL, x.is(child(0)));
            x.set(MOVES, 0);
        }
    }),
    turn(Follow, "Follow: the count is not raised", |_, x| x.when(Tail, COUNT, x.was(COUNT))),
    turn(Follow, "Follow: the count goes past limit + 1", |_, x| x.when(Tail, COUNT, x.was(COUNT) + 1)),
    // document 01's shortcut
    turn(Follow, "Follow: goes on at the level met", |_, x| x.when(Look, LEVEL, x.level_met())),
    turn(ChainHead, "ChainHead: remembers nothing", |_, x| {
        x.to(MoveEnd);
        x.set(remembered(x.view().inner()), 0);
    }),
    turn(ChainHead, "ChainHead: keyed by the call's pixel inside a Move", |_, x| {
        let word = x.view().get(x.entry_of_the_call());
        if is_node(word) {
            x.set(node(x.view().inner(), 0), word / 2);
        }
    }),
    // document 01's shortcut: then the first node is set first
    turn(ChainNext, "ChainNext: a further node stands before the first", |_, x| {
        if x.went_to(ChainNext) {
            let j = x.view().inner();
            let (first, last) = (node(j, 0), node(j, x.was(remembered(j)) as usize));
            let (a, b) = (x.is(first), x.is(last));
            x.set(first, b);
            x.set(last, a);
        }
    }),
    turn(ChainNext, "ChainNext: the first node alone", |_, x| {
        if x.went_to(ChainNext) {
            x.to(SetNext);
            x.set(LEVEL, x.was(child(x.view().inner())));
        }
    }),
    turn(SetNext, "SetNext: N's next is the home", |_, x| x.put(x.view().cell(), 2 * x.was(home(x.view().inner())))),
    turn(SetNext, "SetNext: goes to SetPut", |_, x| x.to(SetPut)),
    turn(SetLook, "SetLook: a used entry goes to SetPut", |_, x| x.instead_of(SetRead, SetPut)),
    turn(SetLook, "SetLook: a used entry is read in the same turn", |op, x| x.and_at_once(SetRead, op)),
    turn(SetPut, "SetPut: the next node goes into the level reached", |_, x| x.when(SetNext, LEVEL, x.was(LEVEL))),
    // document 01's shortcut
    turn(SetPut, "SetPut: the entry in H is written before the last node is set", |_, x| {
        let v = x.view();
        let (j, place) = (v.inner(), v.entry_of(v.word(home(v.inner())), v.key()));
        if x.went_to(SetNext) && x.is(remembered(j)) == 1 {
            x.put(place, 2 * x.was(child(j)));
        }
    }),
    turn(SetRead, "SetRead: a node's count is 2", |_, x| x.when(SetTail, COUNT, 2)),
    turn(SetRead, "SetRead: a level met is not gone to", |_, x| x.when(SetNext, LEVEL, x.was(LEVEL))),
    turn(SetTail, "SetTail: appends at the limit", |_, x| x.instead_of(SetLevel, SetAppend)),
    turn(SetTail, "SetTail: closes below the limit", |_, x| x.instead_of(SetAppend, SetLevel)),
    turn(SetTail, "SetTail: another next is followed in the same turn", |op, x| x.and_at_once(SetFollow, op)),
    turn(SetAppend, "SetAppend: N is not forgotten", |_, x| {
        let j = x.view().inner();
        x.set(remembered(j), x.was(remembered(j)));
    }),
    turn(SetLevel, "SetLevel: T's own depth", |_, x| x.new_level(1, x.view().get(x.view().depth_of(x.was(LEVEL))))),
    turn(SetLevel, "SetLevel: leaves its spare and takes a number", |_, x| x.take_level()),
    turn(SetClose, "SetClose: the inner Move's home is the outer one's", |_, x| {
        let j = x.view().moves();
        x.when(ChainHead, home(j), x.was(home(j - 1)));
    }),
    turn(SetFollow, "SetFollow: the count is not raised", |_, x| x.when(SetTail, COUNT, x.was(COUNT))),
    turn(SetFollow, "SetFollow: goes on at the level met", |_, x| x.when(SetNext, LEVEL, x.level_met())),
    turn(MoveEnd, "MoveEnd: then Look at the root", |_, x| x.when(Look, LEVEL, 0)),
    turn(MoveEnd, "MoveEnd: Look also inside a Move", |_, x| x.instead_of(SetNext, Look)),
    turn(MoveEnd, "MoveEnd: N goes into G again, not into the inner G", |_, x| {
        if x.went_to(SetNext) {
            x.set(LEVEL, x.was(child(x.view().inner() - 1)));
        }
    }),
    turn(MoveEnd, "MoveEnd: keyed by the call's pixel inside a Move", |_, x| {
        let (right, wrong) = (x.view().cell(), x.entry_of_the_call());
        let g = x.was(child(x.view().inner()));
        x.put(right, x.view().get(right));
        x.put(wrong, 2 * g);
    }),
    // failed exchanges
    failed(EXCHANGES, "failed, reads the word again a turn later", |_, x| x.only_goes_to(x.reading())),
    failed(&[SetPut], "failed, looks again", |_, x| x.only_goes_to(SetLook)),
    failed(AT_R, "failed, reads R's next again from the beginning", |_, x| x.only_goes_to(if x.in_a_move() { SetTail } else { Tail })),
    failed(AT_R, "failed, acts on the entry, not on the word met", |_, x| x.goes_on(x.its_entry(), x.count_raised())),
    failed(EXCHANGES, "failed, acts on the word it compared with, not on the word met", |_, x| x.goes_on(2 * x.was(LEVEL), 0)),
    failed(SEARCHING, "failed, does not find K's node", |_, x| {
        if x.went_to(Idle) {
            x.goes_on(x.met(), x.count_raised());
        }
    }),
    failed(&[Put, SetPut], "failed, acts as Follow: the count is raised", |_, x| {
        if is_node(x.met()) && !x.went_to(Idle) {
            x.set(COUNT, x.one_more());
        }
    }),
    failed(AT_R, "failed, acts as Read: the count is not raised", |_, x| {
        if is_node(x.met()) && !x.went_to(Idle) {
            x.set(COUNT, x.was(COUNT));
        }
    }),
    failed(AT_R, "failed, acts as Read: goes on at the level met", |_, x| {
        if !is_node(x.met()) {
            x.set(LEVEL, x.met() / 2);
        }
    }),
    failed(&[Put, SetPut], "failed, a level met is not gone to", |_, x| x.set(LEVEL, x.was(LEVEL))),
    failed(&[Put, Append], "a failed node is not kept", |_, x| x.set(HELD_NODE, 0)),
    failed(&[Close, SetClose], "a failed level is not kept", |_, x| x.set(HELD_LEVEL, 0)),
    // document 01's shortcut
    failed(&[Put, Append], "a failed node is given to all workers", |_, x| {
        x.set(HELD_NODE, 0);
        x.model.settings.nodes_taken -= 1;
    }),
    failed(MOVING, "failed, N counts as set", |_, x| {
        let count = remembered(x.view().inner());
        x.set(count, x.was(count) - 1);
    }),
    // question 6 of the word met
    asked(EXCHANGES, "6 by the word met comes a turn later", |_, x| {
        if x.reply.number == 6 {
            x.only_goes_to(x.reading());
        }
    }),
    asked(EXCHANGES, "a 6 by the word met leaves another kind", |_, x| {
        if x.reply.number == 6 {
            x.to(x.reading());
        }
    }),
    asked(&[Put, Append], "a 6 by the word met loses the node in hand", |_, x| {
        if x.reply.number == 6 {
            x.set(HELD_NODE, 0);
        }
    }),
    asked(&[Close, SetClose], "a 6 by the word met loses the level in hand", |_, x| {
        if x.reply.number == 6 {
            x.set(HELD_LEVEL, 0);
        }
    }),
    asked(EXCHANGES, "a word met that names nothing taken is acted on", |_, x| {
        if !x.met_is_taken() {
            x.goes_on(x.met(), x.count_raised());
        }
    }),
    asked(SEARCHING, "a node met that holds no pixel is another node", |_, x| {
        if x.met_no_pixel() {
            x.goes_on(x.met(), x.count_raised());
        }
    }),
    asked(MOVING, "the pixel of a node met in a Move is asked", |_, x| {
        if x.met_no_pixel() {
            x.undone(6, NOTHING);
        }
    }),
    asked(AT_R, "going back from the level met reads one word too many", |_, x| {
        if let Some(g) = x.back_refused(x.last_depth() + 1, x.given.levels_taken) {
            x.goes_on(2 * g, 0);
        }
    }),
    asked(AT_R, "going back from the level met goes over a level not taken", |_, x| {
        if let Some(g) = x.back_refused(x.last_depth(), (x.before.levels.len() / level_words(x.given.width)) as u32) {
            x.goes_on(2 * g, 0);
        }
    }),
    // what Read does, but with Follow's way back: on sound memory the level that an entry holds hangs below H
    asked(&[Put, SetPut], "the level met is gone back from", |_, x| x.goes_back_from(x.met())),
    spoiled(&[Read, SetRead], "the level read is gone back from", |_, x| x.goes_back_from(x.view().read())),
    asked(AT_R, "the count of a node met goes past limit + 1", |_, x| {
        if x.reply.number == 0 && is_node(x.met()) && x.reply.answer == OPEN {
            x.set(COUNT, x.was(COUNT) + 1);
        }
    }),
    asked(&[SetClose], "failed without room for a Move, it is refused", |_, x| {
        if x.was(MOVES) == x.last_depth() {
            x.undone(6, NOTHING);
        }
    }),
    refused(&[SetClose], "the exchange is done, then one more Move is refused", |_, x| x.closes()),
    refused(&[SetClose], "one more Move begins", |_, x| {
        let (h, g) = (x.was(LEVEL), x.was(HELD_LEVEL) - 1);
        x.closes();
        x.to(ChainHead);
        x.set(HELD_LEVEL, 0);
        let most = x.last_depth();
        x.set(MOVES, most + 1);
        for (k, v) in [h, g].into_iter().chain([0; 9]).enumerate() {
            x.set(home(most as usize) + k, v);
        }
        (x.reply.number, x.reply.answer) = (0, OPEN);
    }),
    // an entry or next that holds H names a taken level; going back from it is the one question that could tell
    turn(Append, "Append: the word is gone back from where the exchange is done", |_, x| x.undone(6, NOTHING)),
    turn(Close, "Close: the word is gone back from where the exchange is done", |_, x| x.undone(6, NOTHING)),
    turn(SetAppend, "SetAppend: the word is gone back from where the exchange is done", |_, x| x.undone(6, NOTHING)),
    turn(SetClose, "SetClose: the word is gone back from where the exchange is done", |_, x| x.undone(6, NOTHING)),
    // document 01's firmwares for the testers
    operation("a whole call in its first turn", |op, x| {
        while matches!(op, Op::Turn(_)) && x.reply.answer == OPEN {
            *x.reply = x.model.run(op);
        }
    }),
    // the same with the answers told turn by turn, so that the memory alone shows it
    operation("a whole call in its first turn, and its answer only at its end", |op, x| {
        if let (Op::Turn(_), OPEN) = (op, x.reply.answer) {
            let told = x.reply.answer;
            while x.reply.answer == OPEN {
                *x.reply = x.model.run(op);
            }
            (x.reply.number, x.reply.answer, x.reply.node) = (0, told, 0);
        }
    }),
    operation("full with nodes left", |op, x| {
        if matches!(op, Op::Turn(_)) && x.went_to(Put) {
            x.to(Idle);
            x.set(ANSWER, FULL);
            (x.reply.number, x.reply.answer) = (9, FULL);
        }
    }),
    operation("new 0 always", |op, x| {
        if matches!(op, Op::Turn(_)) && matches!(x.reply.answer, NEW | FOUND) {
            (x.reply.answer, x.reply.node) = (NEW, 0);
        }
    }),
    operation("turns alter nothing", |op, x| {
        if matches!(op, Op::Turn(_)) {
            x.model.areas = x.before.clone();
        }
    }),
    operation("the turns done are the entries of the list", |op, x| {
        if let Op::Turns(list, _) = op {
            x.reply.turns = list.len() as u32;
        }
    }),
    operation("every call is turned away", |op, x| {
        if matches!(op, Op::Start(..)) {
            x.model.areas = x.before.clone();
            (x.reply.number, x.reply.answer) = (7, NOTHING);
        }
    }),
    // the other operations
    operation("opening: leaves the workers' words", |op, x| {
        if matches!(op, Op::Open) {
            x.model.areas.workers = x.before.workers.clone();
        }
    }),
    operation("start: loses the spare node", |op, x| {
        if matches!(op, Op::Start(..)) {
            x.set(HELD_NODE, 0);
        }
    }),
    operation("start: loses the spare level", |op, x| {
        if matches!(op, Op::Start(..)) {
            x.set(HELD_LEVEL, 0);
        }
    }),
    operation("full: loses the spare level", |_, x| {
        if x.reply.number == 9 {
            x.set(HELD_LEVEL, 0);
        }
    }),
    operation("last answer: the answer before, during a call", |op, x| {
        if matches!(op, Op::Last(_)) && x.reply.answer == OPEN {
            x.reply.answer = x.is(ANSWER);
        }
    }),
    operation("list: idle entries use up the limit", |op, x| {
        if let Op::Turns(list, limit) = op {
            let reached = list.iter().take(*limit as usize).copied().collect();
            x.instead(&Op::Turns(reached, *limit));
        }
    }),
    operation("list: idle entries are counted as turns done", |op, x| {
        if let Op::Turns(list, limit) = op {
            x.reply.turns = (list.len() as u32).min(*limit);
        }
    }),
    operation("list: limit 0 does one turn", |op, x| {
        if let Op::Turns(list, 0) = op {
            if let Some(&i) = list.first() {
                x.model.run(&Op::Turn(i as u32));
            }
        }
    }),
    // what a list reports of its exchanges
    counts(EXCHANGES, "done, it is not counted", |op, x| x.counts_here(op, |e| if e.made == ONE_DONE { NO_EXCHANGE } else { e.made })),
    counts(EXCHANGES, "failed, it is not counted", |op, x| x.counts_here(op, |e| if e.made == ONE_FAILED { NO_EXCHANGE } else { e.made })),
    counts(EXCHANGES, "failed, it counts as done", |op, x| x.counts_here(op, |e| if e.made == ONE_FAILED { ONE_DONE } else { e.made })),
    counts(EXCHANGES, "done, it counts as failed", |op, x| x.counts_here(op, |e| if e.made == ONE_DONE { ONE_FAILED } else { e.made })),
    counts(EXCHANGES, "failed, it counts as both", |op, x| {
        x.counts_here(op, |e| if e.made == ONE_FAILED { Exchanges { done: 1, failed: 1 } } else { e.made })
    }),
    counts(&[SetNext, MoveEnd], "what is written counts as an exchange", |op, x| x.counts_here(op, |_| ONE_DONE)),
    counts(&[Take, TakeTail, Level, SetLevel], "what is taken counts as an exchange", |op, x| x.counts_here(op, |_| ONE_DONE)),
    // these read the cell and go to the kind that reads it again
    counts(&[Look, Tail, SetLook, SetTail], "another word than its level counts as failed", |op, x| {
        x.counts_here(op, |e| if matches!(e.then, Some(Read | Follow | SetRead | SetFollow)) { ONE_FAILED } else { NO_EXCHANGE })
    }),
    counts(&[Take, TakeTail], "full counts as failed", |op, x| x.counts_here(op, |e| if e.number == 9 { ONE_FAILED } else { e.made })),
    spoiled_counts(EXCHANGES, "refused by the word met, it counts as failed", |op, x| {
        x.counts_here(op, |e| if e.failed { ONE_FAILED } else { e.made })
    }),
    spoiled_counts(EXCHANGES, "refused for another reason, it counts as failed", |op, x| {
        x.counts_here(op, |e| if e.number == 6 && !e.failed { ONE_FAILED } else { e.made })
    }),
    spoiled_counts(&[SetClose], "refused for want of room, it counts as done", |op, x| {
        x.counts_here(op, |e| if e.withheld { ONE_DONE } else { e.made })
    }),
    spoiled_counts(&[SetClose], "failed without room for a Move, it is not counted", |op, x| {
        let most = x.last_depth();
        x.counts_here(op, |e| if e.moves == most { NO_EXCHANGE } else { e.made })
    }),
    list("list: a Move's exchanges are not counted", |op, x| {
        x.counts(op, |e| if e.kind.is_some_and(|k| MOVING.contains(&k)) { NO_EXCHANGE } else { e.made })
    }),
    list("list: a Move's exchanges alone are counted", |op, x| {
        x.counts(op, |e| if e.kind.is_some_and(|k| MOVING.contains(&k)) { e.made } else { NO_EXCHANGE })
    }),
    list("list: exchanges of all turns since the opening", |_, x| x.reply.exchanges = x.model.exchanges),
    list("list: exchanges of its last turn alone", |op, x| x.reply.exchanges = x.entries(op).last().map_or(NO_EXCHANGE, |e| e.made)),
    list("list: the turn at the limit is not counted", |op, x| {
        if let (Op::Turns(_, limit), Some(last)) = (op, x.entries(op).last()) {
            if x.reply.turns == *limit {
                x.reply.exchanges.done -= last.made.done;
                x.reply.exchanges.failed -= last.made.failed;
            }
        }
    }),
    list("list: a 6 drops what was counted", |_, x| {
        if x.reply.number == 6 {
            x.reply.exchanges = NO_EXCHANGE;
        }
    }),
    list("list: a 6 counts as failed", |_, x| x.reply.exchanges.failed += (x.reply.number == 6) as u32),
    list("list: idle entries count as failed", |op, x| x.counts(op, |e| if e.number == 8 { ONE_FAILED } else { e.made })),
    list("list: done and failed exchanged", |_, x| x.reply.exchanges = Exchanges { done: x.reply.exchanges.failed, failed: x.reply.exchanges.done }),
    list("list: done tells all exchanges", |_, x| x.reply.exchanges.done += x.reply.exchanges.failed),
    mutant(Of::RefusedLists, "list: refused, it reports the exchanges since the opening", |_, x| x.reply.exchanges = x.model.exchanges),
    operation("a single turn reports its exchange", |op, x| {
        if let (Op::Turn(i), 0) = (op, x.reply.number) {
            let own = Op::Turns(vec![*i as u8], 1);
            x.reply.exchanges = x.entries(&own)[0].made;
        }
    }),
    operation("a start reports the exchanges since the opening", |op, x| {
        if matches!(op, Op::Start(..)) {
            x.reply.exchanges = x.model.exchanges;
        }
    }),
    operation("a last answer reports the exchanges since the opening", |op, x| {
        if matches!(op, Op::Last(_)) {
            x.reply.exchanges = x.model.exchanges;
        }
    }),
    // the number that replaces 7: document 01's at every width, one more, one fewer; each use of it by itself
    sizes(BUT_3, "level count with 7", Sizes { level_count: |s| levels(s, 7), ..DOCUMENT }),
    sizes(&WIDTHS, "level count with all depths", Sizes { level_count: |s| levels(s, last_depth(s.width) + 1), ..DOCUMENT }),
    sizes(&WIDTHS, "level count with one fewer", Sizes { level_count: |s| levels(s, last_depth(s.width) - 1), ..DOCUMENT }),
    sizes(BUT_3, "depth at most 7", Sizes { deepest: |_| 7, ..DOCUMENT }),
    sizes(&WIDTHS, "depth at most one more", Sizes { deepest: |w| last_depth(w) + 1, ..DOCUMENT }),
    sizes(&WIDTHS, "depth at most one fewer", Sizes { deepest: |w| last_depth(w) - 1, ..DOCUMENT }),
    sizes(BUT_3, "a new level's depth at most 7", Sizes { deepest_new: |_| 7, ..DOCUMENT }),
    sizes(&WIDTHS, "a new level's depth at most one more", Sizes { deepest_new: |w| last_depth(w) + 1, ..DOCUMENT }),
    sizes(&WIDTHS, "a new level's depth at most one fewer", Sizes { deepest_new: |w| last_depth(w) - 1, ..DOCUMENT }),
    sizes(BUT_3, "going back reads at most 7 words", Sizes { most_back: |_| 7, ..DOCUMENT }),
    sizes(&WIDTHS, "going back reads at most one word more", Sizes { most_back: |w| last_depth(w) + 1, ..DOCUMENT }),
    sizes(&WIDTHS, "going back reads at most one word fewer", Sizes { most_back: |w| last_depth(w) - 1, ..DOCUMENT }),
    sizes(BUT_3, "a record with room for 7 Moves", Sizes { most_moves: |_| 7, ..DOCUMENT }),
    sizes(&WIDTHS, "a record with room for one Move more", Sizes { most_moves: |w| last_depth(w) + 1, ..DOCUMENT }),
    sizes(&WIDTHS, "a record with room for one Move fewer", Sizes { most_moves: |w| last_depth(w) - 1, ..DOCUMENT }),
    sizes(BUT_3, "7 Moves are open at most", Sizes { room_for_moves: |_| 7, ..DOCUMENT }),
    sizes(&WIDTHS, "one Move more is open at most", Sizes { room_for_moves: |w| last_depth(w) + 1, ..DOCUMENT }),
    sizes(&WIDTHS, "one Move fewer is open at most", Sizes { room_for_moves: |w| last_depth(w) - 1, ..DOCUMENT }),
    // digits
    sizes(BUT_3, "octal digits", Sizes { digit: |_, depth, pixel| digit(3, depth, pixel), ..DOCUMENT }),
    sizes(WIDE, "eight entries are picked from", Sizes { digit: |w, depth, pixel| digit(w, depth, pixel) % 8, ..DOCUMENT }),
    sizes(&WIDTHS, "the digit of the next depth", Sizes { digit: |w, depth, pixel| digit(w, depth + 1, pixel), ..DOCUMENT }),
    sizes(&WIDTHS, "the digit of the previous depth", Sizes { digit: |w, depth, pixel| digit(w, depth.saturating_sub(1), pixel), ..DOCUMENT }),
    sizes(&WIDTHS, "the rightmost digit is that of depth 0", Sizes { digit: |w, depth, pixel| digit(w, last_depth(w) - depth, pixel), ..DOCUMENT }),
    // words
    sizes(BUT_3, "10 words a level", Sizes { level_words: |_| 10, ..DOCUMENT }),
    sizes(&WIDTHS, "a word more a level", Sizes { level_words: |w| level_words(w) + 1, ..DOCUMENT }),
    sizes(&WIDTHS, "128 words a worker", Sizes { worker_words: 128, ..DOCUMENT }),
    sizes(BUT_3, "8 entries are written", Sizes { filled: |_| 8, ..DOCUMENT }),
    operation("opening: zeroes 128 words of each worker", |op, x| {
        if matches!(op, Op::Open) {
            (0..x.given.workers).for_each(|i| x.keep_past_128(i));
        }
    }),
    // the eleventh Move has words there
    Mutant {
        at: &[2],
        ..operation("turn: writes the first 128 words of its record", |op, x| {
            if matches!(op, Op::Turn(_)) {
                x.keep_past_128(x.worker);
            }
        })
    },
    // question 1
    sizes(&WIDTHS, "width 1 is accepted", Sizes { accepted: |w| w == 1 || WIDTHS.contains(&w), ..DOCUMENT }),
    sizes(&WIDTHS, "width 5 is accepted", Sizes { accepted: |w| w == 5 || WIDTHS.contains(&w), ..DOCUMENT }),
    sizes(&WIDTHS, "width 8 is accepted", Sizes { accepted: |w| w == 8 || WIDTHS.contains(&w), ..DOCUMENT }),
    sizes(&WIDTHS, "width 12 is accepted", Sizes { accepted: |w| w == 12 || WIDTHS.contains(&w), ..DOCUMENT }),
    sizes(&WIDTHS, "every width from 1 to 24 is accepted", Sizes { accepted: |w| (1..=24).contains(&w), ..DOCUMENT }),
    sizes(BUT_3, "width 3 alone is accepted", Sizes { accepted: |w| w == 3, ..DOCUMENT }),
    no_width("the width is not asked", |_, x| x.reply.number = 0),
    no_width("question 2 is asked before the width", |op, x| x.asks_before_the_width(op, 2)),
    no_width("question 3 is asked before the width", |op, x| x.asks_before_the_width(op, 3)),
    no_width("question 4 is asked before the width", |op, x| x.asks_before_the_width(op, 4)),
    no_width("question 5 is asked before the width", |op, x| x.asks_before_the_width(op, 5)),
    no_width("question 6 is asked before the width", |op, x| x.asks_before_the_width(op, 6)),
    no_width("a width that is refused is given back as 3", |_, x| x.model.settings.width = 3),
    // the width in the settings given back
    Mutant { at: BUT_3, ..operation("an opening gives back width 3", |op, x| x.gives_back(matches!(op, Op::Open), 3)) },
    operation("an opening gives back no width", |op, x| x.gives_back(matches!(op, Op::Open), 0)),
    Mutant { at: BUT_3, ..operation("a start gives back width 3", |op, x| x.gives_back(matches!(op, Op::Start(..)), 3)) },
    operation("a turn gives back no width", |op, x| x.gives_back(matches!(op, Op::Turn(_)), 0)),
    operation("a list gives back no width", |op, x| x.gives_back(matches!(op, Op::Turns(..)), 0)),
    operation("a last answer gives back no width", |op, x| x.gives_back(matches!(op, Op::Last(_)), 0)),
    // viewers: how many there may be, and who they are
    sizes(&WIDTHS, "level count without viewers", Sizes { level_count: |s| levels(s, last_depth(s.width)) - s.viewers as u64, ..DOCUMENT }),
    roles("any number of viewers is accepted", Roles { accepted: |_| true, ..ROLES }),
    roles("one viewer more than workers is accepted", Roles { accepted: |s| s.viewers <= s.workers + 1, ..ROLES }),
    roles("16 viewers are accepted", Roles { accepted: |s| s.viewers <= 16, ..ROLES }),
    roles("one worker has to place", Roles { accepted: |s| s.viewers < s.workers, ..ROLES }),
    roles("no viewer is accepted", Roles { accepted: |s| s.viewers == 0, ..ROLES }),
    roles("viewers are counted in eight bits", Roles { accepted: |s| s.viewers % 256 <= s.workers, ..ROLES }),
    roles("the first workers are viewers", Roles { views: |s, i| i < s.viewers, ..ROLES }),
    roles("one worker more is a viewer", Roles { views: |s, i| i + 1 >= s.placing(), ..ROLES }),
    roles("one viewer fewer", Roles { views: |s, i| i > s.placing(), ..ROLES }),
    roles("the last worker alone is a viewer", Roles { views: |s, i| s.viewers > 0 && i + 1 == s.workers, ..ROLES }),
    roles("nobody is a viewer", Roles { views: |_, _| false, ..ROLES }),
    // question 17, and the questions around it
    roles("a viewer's placing call is accepted", Roles { may_start: |looks, viewer| viewer || !looks, ..ROLES }),
    roles("another worker's looking call is accepted", Roles { may_start: |looks, viewer| looks || !viewer, ..ROLES }),
    roles("17 is not asked", Roles { may_start: |_, _| true, ..ROLES }),
    roles("17 before 4", Roles { asked_before: 4, ..ROLES }),
    roles("17 before 5", Roles { asked_before: 5, ..ROLES }),
    roles("17 after 6", Roles { asked_before: 7, ..ROLES }),
    roles("17 after 7", Roles { asked_before: 8, ..ROLES }),
    // which records fit
    roles("a viewer's last answer may be new", Roles { told: |viewer, a| viewer && a == 1 || (ROLES.told)(viewer, a), ..ROLES }),
    roles("a viewer's last answer may be full", Roles { told: |viewer, a| viewer && a == 3 || (ROLES.told)(viewer, a), ..ROLES }),
    roles("a viewer's last answer may be 4", Roles { told: |viewer, a| viewer && a == 4 || (ROLES.told)(viewer, a), ..ROLES }),
    roles("a viewer's last answer may be 6", Roles { told: |viewer, a| viewer && a == 6 || (ROLES.told)(viewer, a), ..ROLES }),
    roles("a viewer's last answer is any", Roles { told: |viewer, a| viewer || a <= FULL, ..ROLES }),
    roles("a viewer's last answer is as another worker's", Roles { told: |_, a| a <= FULL, ..ROLES }),
    roles("a viewer's last answer may not be none", Roles { told: |viewer, a| !(viewer && a == NOTHING) && (ROLES.told)(viewer, a), ..ROLES }),
    roles("a viewer's last answer may not be absent", Roles { told: |viewer, a| !(viewer && a == ABSENT) && (ROLES.told)(viewer, a), ..ROLES }),
    roles("a viewer's last answer may not be found", Roles { told: |viewer, a| !(viewer && a == FOUND) && (ROLES.told)(viewer, a), ..ROLES }),
    roles("another worker's last answer may be absent", Roles { told: |viewer, a| !viewer && a == ABSENT || (ROLES.told)(viewer, a), ..ROLES }),
    roles("another worker's last answer is as a viewer's", Roles { told: |_, a| (ROLES.told)(true, a), ..ROLES }),
    roles("a viewer's record fits at every kind", Roles { viewing: |_| true, ..ROLES }),
    roles("a viewer's record fits while it searches", Roles { viewing: |k| k <= Follow, ..ROLES }),
    roles("a viewer's record does not fit at Look", Roles { viewing: |k| k != Look && (ROLES.viewing)(k), ..ROLES }),
    roles("a viewer's record does not fit at Read", Roles { viewing: |k| k != Read && (ROLES.viewing)(k), ..ROLES }),
    roles("a viewer's record does not fit at Tail", Roles { viewing: |k| k != Tail && (ROLES.viewing)(k), ..ROLES }),
    roles("a viewer's record does not fit at Follow", Roles { viewing: |k| k != Follow && (ROLES.viewing)(k), ..ROLES }),
    // where a viewer's call ends
    roles("a viewer goes to Take", Roles { ends_before: |k| k != Take && (ROLES.ends_before)(k), ..ROLES }),
    roles("a viewer goes to TakeTail", Roles { ends_before: |k| k != TakeTail && (ROLES.ends_before)(k), ..ROLES }),
    roles("a viewer goes to Level", Roles { ends_before: |k| k != Level && (ROLES.ends_before)(k), ..ROLES }),
    roles("a viewer's turns are as another worker's", Roles { ends_before: |_| false, viewing: |_| true, ..ROLES }),
    roles("a viewer ends before Read", Roles { ends_before: |k| k == Read || (ROLES.ends_before)(k), ..ROLES }),
    roles("a viewer ends before Follow", Roles { ends_before: |k| k == Follow || (ROLES.ends_before)(k), ..ROLES }),
    roles("a viewer ends before Tail", Roles { ends_before: |k| k == Tail || (ROLES.ends_before)(k), ..ROLES }),
    viewed(&[Look, Tail], "absent comes a turn later", |_, x| {
        if x.absent() {
            x.only_goes_to(x.placing_kind());
        }
    }),
    viewed(&[Look, Tail], "absent is told, and the call goes on", |_, x| {
        if x.absent() {
            x.only_goes_to(x.placing_kind());
            x.reply.answer = ABSENT;
        }
    }),
    viewed(&[Look, Tail], "absent is kept, and told as open", |_, x| {
        if x.absent() {
            x.reply.answer = OPEN;
        }
    }),
    viewed(&[Look, Tail], "absent is kept as the answer before", |_, x| {
        if x.absent() {
            x.set(ANSWER, x.was(ANSWER));
        }
    }),
    viewed(&[Look, Tail], "absent keeps the node of the answer before", |_, x| {
        if x.absent() {
            x.set(ANSWER_NODE, x.was(ANSWER_NODE));
        }
    }),
    viewed(&[Tail], "absent keeps R as its node", |_, x| {
        if x.absent() {
            x.set(ANSWER_NODE, x.was(NODE));
        }
    }),
    viewed(&[Tail], "absent tells R as its node", |_, x| {
        if x.absent() {
            x.reply.node = x.was(NODE);
        }
    }),
    viewed(&[Look, Tail], "absent comes with 9", |_, x| x.reply.number = if x.absent() { 9 } else { 0 }),
    viewed(&[Look, Tail], "full in place of absent", |_, x| {
        if x.absent() {
            x.ends(FULL);
        }
    }),
    viewed(&[Look, Tail], "full where no node is left", |_, x| {
        if x.absent() && x.given.nodes_taken == x.given.nodes {
            x.ends(FULL);
        }
    }),
    viewed(&[Look, Tail], "absent takes a node", |_, x| {
        if x.absent() && x.given.nodes_taken < x.given.nodes {
            x.model.settings.nodes_taken += 1;
        }
    }),
    viewed(&[Tail], "absent at the limit takes a level", |_, x| {
        if x.absent() && x.placing_kind() == Level {
            x.model.settings.levels_taken += 1;
        }
    }),
    viewed(&[Tail], "absent below the limit alone", |_, x| {
        if x.absent() && x.placing_kind() == Level {
            x.only_goes_to(Follow);
        }
    }),
    viewed(&[Tail], "absent at the limit alone", |_, x| {
        if x.absent() && x.placing_kind() == TakeTail {
            x.only_goes_to(Follow);
        }
    }),
    viewed(&[Read, Follow], "absent for K's own node", |_, x| {
        if x.reply.answer == FOUND {
            x.ends(ABSENT);
        }
    }),
    viewed(&[Read, Follow], "new for K's own node", |_, x| {
        if x.reply.answer == FOUND {
            x.reply.answer = NEW;
        }
    }),
    spoiled_viewed(&[Look, Tail], "absent loses the held node", |_, x| {
        if x.absent() {
            x.set(HELD_NODE, 0);
        }
    }),
    spoiled_viewed(&[Look, Tail], "absent loses the held level", |_, x| {
        if x.absent() {
            x.set(HELD_LEVEL, 0);
        }
    }),
    spoiled_viewed(&[Tail], "absent past the limit", |_, x| {
        if x.went_to(Follow) && x.view().read() == 2 * x.was(LEVEL) {
            x.ends(ABSENT);
        }
    }),
    spoiled_viewed(&[Tail], "a new level's depth is asked", |_, x| {
        if x.absent() && x.placing_kind() == Level && x.view().get(x.view().depth_of(x.was(LEVEL))) >= x.last_depth() {
            x.undone(6, NOTHING);
        }
    }),
    spoiled_viewed(&[Tail], "the level's depth is asked", |_, x| {
        if x.view().get(x.view().depth_of(x.was(LEVEL))) > x.last_depth() {
            x.undone(6, NOTHING);
        }
    }),
    // the other operations with viewers
    operation("last answer: absent is told as none", |op, x| {
        if matches!(op, Op::Last(_)) && x.absent() {
            x.reply.answer = NOTHING;
        }
    }),
    operation("last answer: absent has a node", |op, x| {
        if matches!(op, Op::Last(_)) && x.absent() {
            x.reply.node = x.is(ANSWER_NODE);
        }
    }),
    operation("view: row and column are exchanged", |op, x| {
        if let Op::View(_, row, column) = op {
            x.set(PIXEL, column * 4096 + row);
        }
    }),
    operation("view: begins where the call before ended", |op, x| {
        if matches!(op, Op::View(..)) {
            x.set(LEVEL, x.was(LEVEL));
        }
    }),
    operation("an opening gives back no viewers", |op, x| x.forgets_viewers(matches!(op, Op::Open))),
    operation("a start gives back no viewers", |op, x| x.forgets_viewers(matches!(op, Op::Start(..)))),
    operation("a view gives back no viewers", |op, x| x.forgets_viewers(matches!(op, Op::View(..)))),
    operation("a turn gives back no viewers", |op, x| x.forgets_viewers(matches!(op, Op::Turn(_)))),
    operation("a list gives back no viewers", |op, x| x.forgets_viewers(matches!(op, Op::Turns(..)))),
    operation("a last answer gives back no viewers", |op, x| x.forgets_viewers(matches!(op, Op::Last(_)))),
    list("list: viewers' entries are passed over", |op, x| {
        if let Op::Turns(list, limit) = op {
            let others = list.iter().copied().filter(|&i| !x.given.views(i as u32)).collect();
            x.instead(&Op::Turns(others, *limit));
        }
    }),
    list("list: an absent ends it", |op, x| {
        if let (Op::Turns(list, limit), Some(k)) = (op, x.entries(op).iter().position(|e| e.absent)) {
            x.instead(&Op::Turns(list[..=k].to_vec(), *limit));
        }
    }),
    list("list: an absent is no turn done", |op, x| x.reply.turns -= x.entries(op).iter().filter(|e| e.absent).count() as u32),
    list("list: an absent counts as failed", |op, x| x.counts(op, |e| if e.absent { ONE_FAILED } else { e.made })),
];

// A viewer's record that fits at one kind more.
macro_rules! fits_at {
    ($($kind:ident)*) => {
        &[$(roles(concat!("a viewer's record fits at ", stringify!($kind)), Roles { viewing: |k| k == $kind || (ROLES.viewing)(k), ..ROLES })),*]
    };
}
static KINDS_MORE: &[Mutant] = fits_at!(Take Put TakeTail Append Level Close ChainHead ChainNext SetNext SetLook SetPut SetRead SetTail SetAppend SetLevel SetClose SetFollow MoveEnd);

// Wrong machines, of which failed exchanges are not bounded: one that tries again without reading, and ones that exchange a cell that they read as used.
static MACHINES: &[Mutant] = &[
    failed(EXCHANGES, "failed, is tried again without reading", |_, x| x.undone(0, OPEN)),
    turn(Look, "Look: a used entry goes to Take", |_, x| x.instead_of(Read, Take)),
    turn(Tail, "Tail: another next goes to TakeTail", |_, x| x.instead_of(Follow, TakeTail)),
    turn(SetLook, "SetLook: a used entry goes to SetPut", |_, x| x.instead_of(SetRead, SetPut)),
    turn(SetTail, "SetTail: another next goes to SetAppend", |_, x| x.instead_of(SetFollow, SetAppend)),
];

// Each wrong version through the same sequences until the first difference, at each width at which it is wrong; gives the names of those not found there.
pub fn missed(seed: u64) -> Vec<String> {
    let all: Vec<Chosen> = MUTANTS.iter().chain(KINDS_MORE).flat_map(each).collect();
    for k in &KINDS[1..] {
        assert!(all.iter().any(|m| m.kind == Some(*k)), "no wrong version of {k:?}");
    }
    let (mut missed, mut found) = (vec![], 0);
    for m in &all {
        let mut after = vec![];
        for &width in m.mutant.at {
            match found_after(*m, width, seed) {
                Some(turns) => after.push(format!("{turns} turns at width {width}")),
                None => missed.push(format!("wrong version never found at width {width}: {}", m.name())),
            }
        }
        found += (after.len() == m.mutant.at.len()) as usize;
        println!("wrong version found after {}: {}", after.join(", "), m.name());
    }
    let widths: usize = all.iter().map(|m| m.mutant.at.len()).sum();
    println!("{found} of {} wrong versions found, each at every width at which it is wrong, {} of {widths}", all.len(), widths - missed.len());
    missed.extend(unbounded(seed));
    missed
}

// The wrong machines that the bound, or a worker alone, does not tell from a right one.
fn unbounded(seed: u64) -> Vec<String> {
    let all: Vec<Chosen> = MACHINES.iter().flat_map(each).collect();
    let mut missed = vec![];
    for (m, &width) in all.iter().flat_map(|m| m.mutant.at.iter().map(move |width| (m, width))) {
        match bound::found(*m, width, seed) {
            [Some(bound), Some(alone)] => {
                println!("wrong machine found at width {width} by the bound in table {bound}, by a worker alone in table {alone}: {}", m.name())
            }
            found => missed.push(format!("wrong machine found at width {width} by the bound and by a worker alone {found:?}: {}", m.name())),
        }
    }
    let widths = WIDTHS.len() * all.len();
    println!("{} wrong machines, found at {} of {widths} widths", all.len(), widths - missed.len());
    missed
}

// a wrong version of several kinds must be found at each of them
fn each(mutant: &'static Mutant) -> Vec<Chosen> {
    match mutant.of {
        Of::Operations | Of::Lists | Of::RefusedLists | Of::NoWidth | Of::Sizes(_) | Of::Roles(_) => vec![Chosen { mutant, kind: None }],
        Of::Turns(kind) => vec![Chosen { mutant, kind: Some(kind) }],
        Of::Failed(kinds)
        | Of::Asked(kinds)
        | Of::Spoiled(kinds)
        | Of::Refused(kinds)
        | Of::Counts(kinds)
        | Of::SpoiledCounts(kinds)
        | Of::Viewers(kinds)
        | Of::SpoiledViewers(kinds) => kinds.iter().map(|&kind| Chosen { mutant, kind: Some(kind) }).collect(),
    }
}

// the number of turns compared until the wrong version was found
fn found_after(m: Chosen, width: u32, seed: u64) -> Option<u64> {
    let mut total = Total::default();
    total.mutant = Some(m);
    let difference = some_difference(m.mutant.of, width, seed, &mut total).err()?;
    Some(total.turns + difference.turns)
}

fn some_difference(of: Of, width: u32, seed: u64, total: &mut Total) -> Compared<()> {
    let spoiled = matches!(of, Of::Asked(_) | Of::Spoiled(_) | Of::Refused(_) | Of::SpoiledCounts(_) | Of::SpoiledViewers(_));
    if spoiled {
        return six::one_width(width, seed, total).map(|_| ());
    }
    if let Of::NoWidth = of {
        return refusals::no_width(width, total);
    }
    if let Of::Sizes(_) = of {
        examples::all(width, total)?;
        sequences::written(width, total)?;
        refusals::no_width(width, total)?;
        six::one_width(width, seed, total)?;
        return refusals::all(width, seed, total);
    }
    if let Of::Roles(_) = of {
        viewers::all(width, seed, total)?;
        return refusals::all(width, seed, total);
    }
    let r = &mut Random::new(seed);
    sequences::written(width, total)?;
    exchanges::all(width, total)?;
    lists::all(width, seed, total)?;
    viewers::all(width, seed, total)?;
    while total.turns < 300_000 {
        sequences::orders(width, r.next(), total)?;
    }
    Ok(())
}
