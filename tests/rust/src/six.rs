// Question 6, clause by clause and kind by kind, at each digit width: real calls lead a worker to each kind of turn; there one word is set to values just
// outside the clause, where the table must answer 6 with nothing changed, and to values just inside, where it must not. The words that a kind does not read
// are spoilt too. Most clauses need nothing else written; `first` is for those that real calls never come near.
use crate::coverage::Total;
use crate::model::{self, Kind, Kind::*, Settings, ABSENT, KINDS, NONE, WIDTHS};
use crate::pair::{Compared, Op, Pair};
use crate::random::Random;
use crate::sequences::{call, go_on, opened, other_call, settings};
use crate::words::*;

const MAX: u32 = u32::MAX;
// its double is 0 in 32 bits
const HALF: u32 = 1 << 31;

// A word with values outside and inside a clause, and what is written before it to bring the clause about.
struct Spot {
    place: Place,
    outside: Vec<u32>,
    inside: Vec<u32>,
    first: Vec<(Place, u32)>,
}

fn spot(place: Place, outside: &[u32], inside: &[u32]) -> Option<Spot> {
    Some(Spot { place, outside: outside.to_vec(), inside: inside.to_vec(), first: vec![] })
}
// nothing in this word is asked
fn free(place: Place, values: &[u32]) -> Option<Spot> {
    spot(place, &[], values)
}

struct Clause {
    name: &'static str,
    // of placing workers, and of viewers
    kinds: [Vec<Kind>; 2],
    // the record alone is asked, so by a start and by reading a last answer too
    record: bool,
    spot: fn(&View) -> Option<Spot>,
}

// where a viewer can stand
const VIEWERS_KINDS: [Kind; 5] = [Idle, Look, Read, Tail, Follow];
const ROLES: [&str; 2] = ["", "a viewer's "];

impl View<'_> {
    fn taken_nodes(&self) -> u32 {
        self.settings.nodes_taken
    }
    fn taken_levels(&self) -> u32 {
        self.settings.levels_taken
    }
    // there are words for this level, taken or not
    fn has_room(&self, g: u32) -> bool {
        (g as u64) < model::level_count(&self.settings)
    }
    fn limit(&self) -> u32 {
        self.settings.limit
    }
    fn level(&self) -> u32 {
        self.word(LEVEL)
    }
    // with this word read or met, question 6 has nothing against a turn that goes back or remembers
    fn accepts(&self, word: u32) -> bool {
        let child = || self.get(self.previous_of(word / 2)) == self.level();
        let room = || self.word(remembered(self.inner())) < self.limit();
        match self.kind() {
            Follow | SetFollow => is_node(word) || child(),
            Append | Close | SetAppend | SetClose => is_node(word) || word == 2 * self.level() || child(),
            ChainNext => !is_node(word) || room(),
            _ => true,
        }
    }

    // ChainNext reads the next of the last of c nodes, and at the limit no further node may come
    fn may_remember(&self, c: u32) -> bool {
        let last = self.word(node(self.inner(), c as usize - 1));
        self.kind() != ChainNext || c < self.limit() || !is_node(self.get(self.next_of(last)))
    }

    // a number in a record: any taken one is accepted
    fn number(&self, word: usize, taken: u32) -> Option<Spot> {
        spot(self.at(word), &[taken, HALF, MAX], &[0, taken - 1])
    }
    // the record's level; going back from a level would not meet another one, and a new level needs room below
    fn record_level(&self) -> Option<Spot> {
        let newest = self.taken_levels() - 1;
        let fits = match self.kind() {
            Follow | SetFollow => is_node(self.read()),
            Level | SetLevel => self.get(self.depth_of(newest)) < self.last_depth(),
            _ => true,
        };
        let mut x = self.number(LEVEL, self.taken_levels()).filter(|_| fits)?;
        // an exchange at R from another level's reference fails: it meets a node
        if matches!(self.kind(), Append | Close | SetAppend | SetClose) {
            x.first.push((self.cell(), 1));
        }
        Some(x)
    }
    // a node in a record whose next is read or exchanged
    fn record_node(&self, word: usize) -> Option<Spot> {
        let reads_next = word == NODE || self.kind() == ChainNext;
        if reads_next && [0, self.taken_nodes() - 1].iter().any(|&i| !self.accepts(self.get(self.next_of(i)))) {
            return None;
        }
        self.number(word, self.taken_nodes())
    }
    fn node_read(&self) -> Option<Spot> {
        let n = self.taken_nodes();
        if n == 0 || !self.accepts(2 * n - 1) {
            return None;
        }
        spot(self.cell(), &[2 * n + 1, MAX], &[1, 2 * n - 1])
    }
    fn level_read(&self) -> Option<Spot> {
        let g = self.taken_levels();
        if !self.accepts(2 * g - 2) {
            return None;
        }
        spot(self.cell(), &[2 * g, MAX - 1], &[2 * g - 2])
    }
    // the same where an exchange fails: the newest level is another one than H; those that go back from it meet H
    fn level_met_read(&self) -> Option<Spot> {
        let newest = self.taken_levels() - 1;
        let mut x = spot(self.cell(), &[2 * newest + 2, MAX - 1], &[2 * newest]).filter(|_| newest != self.level())?;
        if matches!(self.kind(), Append | Close | SetAppend | SetClose) {
            x.first.push((self.previous_of(newest), self.level()));
        }
        Some(x)
    }
    fn pixel_word(&self, i: u32) -> Option<Spot> {
        spot(self.pixel_of(i), &[TOP + 1, MAX], &[0, TOP])
    }
    // the node named by the word that is read
    fn node_met(&self) -> Option<u32> {
        Some(self.read()).filter(|&w| is_node(w)).map(|w| w / 2)
    }
    fn level_met(&self) -> Option<u32> {
        Some(self.read()).filter(|&w| !is_node(w)).map(|w| w / 2)
    }
    // a node but this one that a failed exchange meets: the one in its cell, or one written there first
    fn node_exchanged(&self, but: u32) -> Option<(u32, Vec<(Place, u32)>)> {
        let n = self.node_met().into_iter().chain(0..self.taken_nodes()).find(|&n| n != but)?;
        Some((n, vec![(self.cell(), 2 * n + 1)]))
    }
    // what is held is asked for also where the exchange fails
    fn with_a_node_met(&self, held: usize, taken: u32) -> Option<Spot> {
        let (_, first) = self.node_exchanged(MAX)?;
        Some(Spot { first, ..spot(self.at(held), &[0, taken + 1, MAX], &[1, taken])? })
    }
    // a level but this one that is met; where an exchange meets H it has not failed
    fn another_level_met(&self, but: u32) -> Option<(u32, Vec<(Place, u32)>)> {
        if matches!(self.kind(), Follow | SetFollow) {
            return Some((self.level_met().filter(|&g| g != but)?, vec![]));
        }
        let g = self.level_met().into_iter().chain(0..self.taken_levels()).find(|&g| g != but && g != self.level())?;
        Some((g, vec![(self.cell(), 2 * g)]))
    }
    // the level in which an entry is picked
    fn picked(&self) -> u32 {
        match self.kind() {
            ChainHead | MoveEnd => self.word(home(self.inner())),
            _ => self.level(),
        }
    }
    // the last node of the Move around the innermost one
    fn outer_last(&self) -> Option<usize> {
        if self.moves() < 2 {
            return None;
        }
        Some(self.last(self.inner() - 1))
    }

    // n Moves: the innermost one as it is, those around it with one node each
    fn stacked(&self, n: usize) -> Vec<(Place, u32)> {
        let mut put = vec![(MOVES, n as u32)];
        for j in 0..n - 1 {
            put.extend([(home(j), 0), (child(j), 0), (remembered(j), 1), (node(j, 0), 0)]);
        }
        put.extend((0..11).map(|k| (home(n - 1) + k, self.word(home(self.inner()) + k))));
        put.into_iter().map(|(k, v)| (self.at(k), v)).collect()
    }
    // as many Moves as there may be, one inside another
    fn most_moves(&self) -> Option<Spot> {
        // SetClose: an exchange that fails needs no further Move
        let mut x = if self.kind() == SetClose { free(self.cell(), &[1])? } else { free(self.at(MOVES), &[self.last_depth()])? };
        x.first = self.stacked(self.last_depth() as usize);
        Some(x)
    }
    fn too_many_moves(&self) -> Option<Spot> {
        let mut x = spot(self.at(MOVES), &[self.last_depth() + 1], &[])?;
        x.first = self.stacked(self.last_depth() as usize + 1);
        Some(x)
    }
    // the innermost of as many Moves as there may be closes a chain
    fn one_more_move(&self, by: Place, outside: &[u32], inside: &[u32]) -> Option<Spot> {
        let mut x = spot(by, outside, inside)?;
        x.first = self.stacked(self.last_depth() as usize);
        x.first.push((self.cell(), 2 * self.level()));
        Some(x)
    }

    // R's next leads over as many levels as previous words may be read, and one more: the last but one hangs below H or below the last
    fn long_way_back(&self) -> Option<Spot> {
        let most = self.last_depth() as usize;
        let levels: Vec<u32> = (0..self.taken_levels()).filter(|&g| g != self.level()).take(most + 1).collect();
        if levels.len() < most + 1 {
            return None;
        }
        let mut x = spot(self.previous_of(levels[most - 1]), &[levels[most]], &[self.level()])?;
        x.first.push((self.cell(), 2 * levels[0]));
        for k in 0..most - 1 {
            x.first.push((self.previous_of(levels[k]), levels[k + 1]));
        }
        x.first.push((self.previous_of(levels[most]), self.level()));
        Some(x)
    }
    // a kind that is no viewer's, with these words, beside which nothing in the record is wrong
    fn other_kind(&self, kinds: &[u32], words: &[(usize, u32)]) -> Option<Spot> {
        let mut x = spot(self.at(KIND), kinds, if words.is_empty() && self.kind() != Idle { &[1, 4] } else { &[] })?;
        x.first = [(PIXEL, 0), (LEVEL, 0), (COUNT, 1), (HELD_NODE, 0), (HELD_LEVEL, 0)].iter().chain(words).map(|&(k, v)| (self.at(k), v)).collect();
        Some(x)
    }
    fn no_level_left(&self) -> Option<Spot> {
        let all = model::level_count(&self.settings) as u32;
        let mut x = spot(Place::LevelsTaken, &[all], &[all - 1])?;
        x.first.push((self.at(HELD_LEVEL), 0));
        Some(x)
    }
}

// what is asked at a kind is asked of a viewer there too
fn clause(name: &'static str, kinds: &[Kind], spot: fn(&View) -> Option<Spot>) -> Clause {
    let viewers = kinds.iter().copied().filter(|kind| VIEWERS_KINDS.contains(kind)).collect();
    Clause { name, kinds: [kinds.to_vec(), viewers], record: false, spot }
}
fn record(name: &'static str, kinds: &[Kind], spot: fn(&View) -> Option<Spot>) -> Clause {
    Clause { record: true, ..clause(name, kinds, spot) }
}
// of viewers alone
fn viewers(name: &'static str, kinds: &[Kind], spot: fn(&View) -> Option<Spot>) -> Clause {
    Clause { name, kinds: [vec![], kinds.to_vec()], record: true, spot }
}
// of the other workers alone
fn placing(name: &'static str, kinds: &[Kind], spot: fn(&View) -> Option<Spot>) -> Clause {
    Clause { name, kinds: [kinds.to_vec(), vec![]], record: true, spot }
}
fn but(kinds: &[Kind], not: &[Kind]) -> Vec<Kind> {
    kinds.iter().copied().filter(|k| !not.contains(k)).collect()
}

fn clauses() -> Vec<Clause> {
    let (open, searching, moving) = (&KINDS[1..], &KINDS[1..11], &KINDS[11..]);
    let counting = [Tail, TakeTail, Append, Level, Close, Follow, SetTail, SetAppend, SetLevel, SetClose, SetFollow];
    let at_r = [Tail, Append, Close, Follow, SetTail, SetAppend, SetClose, SetFollow];
    let reading = [Look, Read, Tail, Follow, ChainHead, ChainNext, SetLook, SetRead, SetTail, SetFollow];
    let exchanging = [Put, Append, Close, SetPut, SetAppend, SetClose];
    let picking = [Look, Put, Read, SetLook, SetPut, SetRead, ChainHead, MoveEnd];
    let going_back = [Append, Close, Follow, SetAppend, SetClose, SetFollow];
    let making_levels = [Level, SetLevel];
    let gathering = [ChainHead, MoveEnd];
    vec![
        // the record fits its layout
        record("kind above 22", &KINDS, |v| spot(v.at(KIND), &[23, MAX], &[v.word(KIND)])),
        placing("last answer above 3", &[Idle], |v| spot(v.at(ANSWER), &[4, ABSENT, 6, MAX], &[0, 1, 2, 3])),
        viewers("last answer not none, found or absent", &[Idle], |v| spot(v.at(ANSWER), &[1, 3, 4, 6, MAX], &[0, 2, ABSENT])),
        // kinds at which another worker's record would fit
        viewers("kind that takes or exchanges", &VIEWERS_KINDS, |v| v.other_kind(&[2, 3, 6, 7, 8, 9], &[])),
        viewers("kind in a Move", &VIEWERS_KINDS, |v| {
            v.other_kind(&[12, 13, 14, 15, 16, 17, 18, 19, 20, 21], &[(MOVES, 1), (home(0), 0), (child(0), 0), (remembered(0), 1), (node(0, 0), 0)])
        }),
        viewers("kind that gathers", &VIEWERS_KINDS, |v| v.other_kind(&[11, 22], &[(MOVES, 1), (home(0), 0), (child(0), 0), (remembered(0), 0)])),
        record("call's pixel", open, |v| spot(v.at(PIXEL), &[TOP + 1, MAX], &[0, TOP])),
        record("count", &counting, |v| spot(v.at(COUNT), &[0, v.limit() + 2, MAX], &[1, v.limit() + 1])),
        record("a Move in a search", searching, |v| spot(v.at(MOVES), &[1, v.last_depth(), MAX], &[0])),
        record("no Move in a Move", moving, |v| spot(v.at(MOVES), &[0], &[v.word(MOVES)])),
        record("one Move too many", moving, |v| v.too_many_moves()),
        record("nodes of an outer Move", moving, |v| {
            v.outer_last()?;
            spot(v.at(remembered(0)), &[0, v.limit() + 1, MAX], &[1, v.limit()])
        }),
        record("nodes of the innermost Move", &but(moving, &gathering), |v| {
            let inside: Vec<u32> = [1, v.limit()].into_iter().filter(|&c| v.may_remember(c)).collect();
            spot(v.at(remembered(v.inner())), &[0, v.limit() + 1, MAX], &inside)
        }),
        record("a node where none is remembered", &gathering, |v| spot(v.at(remembered(v.inner())), &[1, v.limit(), MAX], &[0])),
        // references from the record
        clause("level not taken", &but(open, &[ChainHead, ChainNext, MoveEnd]), |v| v.record_level()),
        clause("R not taken", &at_r, |v| v.record_node(NODE)),
        clause("N not taken", &[ChainNext, SetNext, SetLook, SetPut, SetRead, SetAppend], |v| v.record_node(v.last(v.inner()))),
        clause("outer N not taken", &gathering, |v| v.number(v.outer_last()?, v.taken_nodes())),
        clause("home not taken", &gathering, |v| v.number(home(v.inner()), v.taken_levels())),
        clause("child not taken", &[MoveEnd], |v| v.number(child(v.inner()), v.taken_levels())),
        clause("node in hand", &[Put, Append], |v| spot(v.at(HELD_NODE), &[0, v.taken_nodes() + 1, MAX], &[1, v.taken_nodes()])),
        clause("spare node", &[Take, TakeTail], |v| spot(v.at(HELD_NODE), &[v.taken_nodes() + 1, MAX], &[0, v.taken_nodes()])),
        clause("level in hand", &[Close, SetClose], |v| spot(v.at(HELD_LEVEL), &[0, v.taken_levels() + 1, MAX], &[1, v.taken_levels()])),
        clause("spare level", &making_levels, |v| spot(v.at(HELD_LEVEL), &[v.taken_levels() + 1, MAX], &[1, v.taken_levels()])),
        // what is read from the areas
        clause("node read not taken", &reading, |v| v.node_read()),
        clause("level read not taken", &reading, |v| v.level_read()),
        clause("node met not taken", &exchanging, |v| v.node_read()),
        clause("level met not taken", &exchanging, |v| v.level_met_read()),
        clause("node in hand, with a node met", &[Put, Append], |v| v.with_a_node_met(HELD_NODE, v.taken_nodes())),
        clause("level in hand, with a node met", &[Close, SetClose], |v| v.with_a_node_met(HELD_LEVEL, v.taken_levels())),
        clause("pixel compared", &[Read, Follow], |v| v.pixel_word(v.node_met()?)),
        clause("pixel of the node met", &[Put, Append, Close], |v| {
            let (n, first) = v.node_exchanged(MAX)?;
            Some(Spot { first, ..v.pixel_word(n)? })
        }),
        clause("N's pixel", &[SetLook, SetPut, SetRead], |v| v.pixel_word(v.n())),
        clause("outer N's pixel", &gathering, |v| v.pixel_word(v.word(v.outer_last()?))),
        clause("depth", &picking, |v| spot(v.depth_of(v.picked()), &[v.last_depth() + 1, MAX], &[0, v.last_depth()])),
        clause("new level's depth", &making_levels, |v| {
            let last = v.last_depth();
            spot(v.depth_of(v.level()), &[last, last + 1, MAX], &[0, last - 1])
        }),
        clause("going back meets none", &going_back, |v| {
            let (met, first) = v.another_level_met(MAX)?;
            Some(Spot { first, ..spot(v.previous_of(met), &[NONE], &[v.level()])? })
        }),
        clause("going back meets a level not taken", &going_back, |v| {
            // the newest level hangs below H, and so would the next one
            let newest = v.taken_levels() - 1;
            let (met, mut first) = v.another_level_met(newest).filter(|_| newest != v.level())?;
            first.extend([newest, newest + 1].into_iter().filter(|&g| v.has_room(g)).map(|g| (v.previous_of(g), v.level())));
            Some(Spot { first, ..spot(v.previous_of(met), &[newest + 1, HALF, MAX - 1], &[newest])? })
        }),
        clause("going back reads one word too many", &going_back, |v| v.long_way_back()),
        clause("a chain above the limit", &[ChainNext], |v| {
            if v.word(remembered(v.inner())) != v.limit() {
                return None;
            }
            spot(v.cell(), &[1, 2 * v.taken_nodes() - 1], &[0, 2 * v.taken_levels() - 2])
        }),
        clause("one more Move, by the Moves", &[SetClose], |v| v.one_more_move(v.at(MOVES), &[v.last_depth()], &[v.last_depth() - 1])),
        clause("one more Move, by R's next", &[SetClose], |v| {
            // an exchange that fails needs none, and asks for the word it met
            let (n, g) = (v.taken_nodes(), v.taken_levels());
            let mut x = v.one_more_move(v.cell(), &[2 * v.level(), 2 * n + 1, 2 * g], &[1, 2 * n - 1])?;
            if g - 1 != v.level() {
                x.first.push((v.previous_of(g - 1), v.level()));
                x.inside.push(2 * g - 2);
            }
            Some(x)
        }),
        clause("no level left", &making_levels, |v| v.no_level_left()),
        // what is not read is not asked
        clause("free: as many Moves as there may be", moving, |v| v.most_moves()),
        clause("free: a spare level where none is left", &making_levels, |v| {
            let mut x = free(v.at(HELD_LEVEL), &[1, v.taken_levels()])?;
            x.first.push((Place::LevelsTaken, model::level_count(&v.settings) as u32));
            Some(x)
        }),
        clause("free: count, with a node met", &[Append, Close, SetAppend, SetClose], |v| {
            let (_, first) = v.node_exchanged(MAX)?;
            Some(Spot { first, ..free(v.at(COUNT), &[1, v.limit(), v.limit() + 1])? })
        }),
        // where the exchange is done its word is not gone back from
        clause("free: the level's previous, with the exchange done", &exchanging, |v| {
            let mut x = free(v.previous_of(v.level()), &[NONE, v.taken_levels(), MAX - 1])?;
            x.first.push((v.cell(), 2 * v.level()));
            Some(x).filter(|_| v.moves() < v.last_depth() as usize)
        }),
        // these go on at the level met, wherever it hangs
        clause("free: previous of the level met", &[Put, Read, SetPut, SetRead], |v| {
            let (met, mut first) = v.another_level_met(MAX)?;
            let mut x = free(v.previous_of(met), &[NONE, v.taken_levels(), MAX - 1])?;
            // going back over another level would meet H
            if let Some(g) = (0..v.taken_levels()).find(|&g| g != met && g != v.level()) {
                first.push((v.previous_of(g), v.level()));
                x.inside.push(g);
            }
            Some(Spot { first, ..x })
        }),
        clause("free: pixel of the node met in a Move", &[SetPut, SetAppend, SetClose], |v| {
            let (n, first) = v.node_exchanged(v.n())?;
            Some(Spot { first, ..free(v.pixel_of(n), &[TOP + 1, MAX])? })
        }),
        clause("free: the cell that is written", &[SetNext, MoveEnd], |v| {
            free(v.cell(), &[2 * v.taken_nodes() + 1, 2 * v.taken_levels(), MAX, MAX - 1])
        }),
        clause("free: an idle worker's words", &[Idle], |v| {
            let mut x = free(v.at(PIXEL), &[MAX])?;
            x.first = [LEVEL, NODE, COUNT, HELD_NODE, HELD_LEVEL, ANSWER_NODE, MOVES].map(|k| (v.at(k), MAX)).to_vec();
            Some(x)
        }),
        clause("free: level", &[ChainHead, ChainNext, MoveEnd], |v| free(v.at(LEVEL), &[MAX])),
        clause("free: R", &but(open, &at_r), |v| free(v.at(NODE), &[MAX])),
        clause("free: count", &but(open, &counting), |v| free(v.at(COUNT), &[0, MAX])),
        clause("free: held node", &but(open, &[Take, TakeTail, Put, Append]), |v| free(v.at(HELD_NODE), &[MAX])),
        clause("free: held level", &but(open, &[Level, SetLevel, Close, SetClose]), |v| free(v.at(HELD_LEVEL), &[MAX])),
        clause("free: last answer", open, |v| free(v.at(ANSWER), &[4, MAX])),
        clause("free: N", &[SetTail, SetLevel, SetClose, SetFollow], |v| free(v.at(v.last(v.inner())), &[MAX])),
        clause("free: home", &but(moving, &gathering), |v| free(v.at(home(v.inner())), &[MAX])),
        clause("free: child", &but(moving, &[MoveEnd]), |v| free(v.at(child(v.inner())), &[MAX])),
        clause("free: the level's depth", &[Take, TakeTail, Tail, Append, Close, Follow, SetNext, SetTail, SetAppend, SetClose, SetFollow], |v| {
            free(v.depth_of(v.level()), &[v.last_depth() + 1, MAX])
        }),
        // where a placing worker goes on to Level, which asks it then, and a viewer ends "absent"
        clause("free: the level's depth at the chain's end and the limit", &[Tail], |v| {
            let mut x = free(v.depth_of(v.level()), &[v.last_depth(), v.last_depth() + 1, MAX])?;
            x.first = vec![(v.at(COUNT), v.limit()), (v.cell(), 2 * v.level())];
            Some(x)
        }),
        clause("free: the level's previous", &but(open, &[Follow, SetFollow]), |v| free(v.previous_of(v.level()), &[NONE, MAX - 1])),
        clause("free: R's pixel", &at_r, |v| free(v.pixel_of(v.word(NODE)), &[MAX])),
        clause("free: N's pixel", &[ChainNext, SetNext, SetTail, SetAppend, SetLevel, SetClose, SetFollow], |v| free(v.pixel_of(v.n()), &[MAX])),
        clause("free: pixel of the node read", &but(&reading, &[Read, Follow]), |v| free(v.pixel_of(v.node_met()?), &[MAX])),
    ]
}

// how often each clause is tried at each kind and width, and how often of these in one table
const OFTEN: u64 = 15;
const IN_ONE: u64 = 3;

// how often each clause was tried at each kind, of viewers apart
type Tried = Vec<[[u64; 23]; 2]>;

// What each kind was tried with, how often at each width; clauses never reached there are given back.
pub fn aimed(seed: u64, total: &mut Total) -> Compared<Vec<String>> {
    let tried = WIDTHS.iter().map(|&width| one_width(width, seed, total)).collect::<Compared<Vec<Tried>>>()?;
    let mut missing = vec![];
    println!("6 by clause and kind, so often at widths {WIDTHS:?}:");
    for (n, c) in clauses().iter().enumerate() {
        let mut kinds = vec![];
        for (role, name) in ROLES.iter().enumerate() {
            for &kind in &c.kinds[role] {
                let times: Vec<u64> = tried.iter().map(|t| t[n][role][kind as usize]).collect();
                kinds.push(format!("{name}{kind:?}{}", times.iter().map(|t| format!(" {t}")).collect::<String>()));
                let never = WIDTHS.into_iter().zip(times).filter(|x| x.1 == 0);
                missing.extend(never.map(|(width, _)| format!("6 of {name}{kind:?} at width {width}: {}", c.name)));
            }
        }
        println!("6, {}: {}", c.name, kinds.join(", "));
    }
    Ok(missing)
}

// At one width and without a word: for the wrong versions too.
pub fn one_width(width: u32, seed: u64, total: &mut Total) -> Compared<Tried> {
    let clauses = clauses();
    let mut tried = vec![[[0; 23]; 2]; clauses.len()];
    let r = &mut Random::new(seed);
    let enough = |kinds: &[Kind], times: &[u64; 23]| kinds.iter().all(|&k| times[k as usize] >= OFTEN);
    for n in 0..300 {
        if clauses.iter().zip(&tried).all(|(c, t)| c.kinds.iter().zip(t).all(|(kinds, times)| enough(kinds, times))) {
            break;
        }
        one_table(r, width, total, &clauses, &mut tried, &format!("six {seed} {width}, table {n}"))?;
    }
    Ok(tried)
}

fn one_table(r: &mut Random, width: u32, total: &mut Total, clauses: &[Clause], tried: &mut Tried, what: &str) -> Compared<()> {
    let viewers = r.below(3) as u32;
    let s = settings(2 + r.below(4) as u32 + viewers, r.pick(&[1, 1, 2, 2, 3, 8]), 6 + r.below(26) as u32, width);
    let s = Settings { viewers, ..s };
    let mut p = opened(total, s, 0, 6, what)?;
    let spread = r.pick(&[2, 3, 4, 6]);
    let mut here = vec![[[0; 23]; 2]; clauses.len()];
    for _ in 0..700 {
        let i = r.below(s.workers as u64) as u32;
        let role = s.views(i) as usize;
        for (c, clause) in clauses.iter().enumerate() {
            let k = p.table.areas.workers[RECORD * i as usize] as usize;
            let (tried, here): (&mut u64, &mut u64) = (&mut tried[c][role][k], &mut here[c][role][k]);
            if *tried < OFTEN && *here < IN_ONE && clause.kinds[role].contains(&KINDS[k]) && check(&mut p, clause, i)? {
                *tried += 1;
                *here += 1;
            }
        }
        go_on(r, &mut p, i, spread)?;
    }
    total.add(&p);
    Ok(())
}

// tries the clause where worker i stands, if it can be brought about there
fn check(p: &mut Pair, c: &Clause, i: u32) -> Compared<bool> {
    let kept = (p.table.areas.clone(), p.table.settings);
    let v = View { areas: &kept.0, settings: kept.1, worker: i };
    let Some(x) = (c.spot)(&v) else { return Ok(false) };
    let idle = v.kind() == Idle;
    for (values, outside) in [(&x.outside, true), (&x.inside, false)] {
        for &value in values {
            for &(place, w) in &x.first {
                p.put(place, w);
            }
            p.put(x.place, value);
            let spoilt = (p.table.areas.clone(), p.table.settings);
            for (op, wanted) in wanted(c, &kept.1, i, idle, outside) {
                let got = p.run(op.clone())?;
                if !wanted.contains(&(got.number, got.turns)) {
                    return Err(p.difference(format!("{:?}, {}: {op:?} with {value} in {:?} gives {got:?}", v.kind(), c.name, x.place)));
                }
                p.set(spoilt.0.clone(), spoilt.1);
            }
            p.set(kept.0.clone(), kept.1);
        }
    }
    Ok(true)
}

// the numbers and turns done that each operation may give
fn wanted(c: &Clause, s: &Settings, i: u32, idle: bool, outside: bool) -> Vec<(Op, Vec<(u32, u32)>)> {
    let (turn, list): (&[u32], (u32, u32)) = match (outside, idle) {
        (true, _) => (&[6], (6, 0)),
        (false, true) => (&[8], (0, 0)),
        (false, false) => (&[0, 9], (0, 1)),
    };
    let (start, last) = match (outside && c.record, idle) {
        (true, _) => (6, 6),
        (false, true) => (0, 0),
        (false, false) => (7, 0),
    };
    vec![
        (Op::Turn(i), turn.iter().map(|&n| (n, 0)).collect()),
        (Op::Turns(vec![i as u8], 1), vec![list]),
        (call(s, i, (1, 2)), vec![(start, 0)]),
        (other_call(s, i, (1, 2)), vec![(17, 0)]),
        (Op::Last(i), vec![(last, 0)]),
    ]
}
