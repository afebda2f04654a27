// Document 02's bound: "In every sequence from a fresh table, failed exchanges are at most (placing workers − 1) × successful ones." It is checked after every
// operation on memory that no test has written to, by what also holds amid calls: a worker that is doomed has its failure before it, and no other worker has.
// Relies on words.rs for the words of a record, on mutants.rs for the wrong machines.
use crate::model::{Areas, Exchanges, Kind, Kind::*, Model, Settings, KINDS, OPEN};
use crate::mutants::Chosen;
use crate::pair::{Compared, Op, Pair};
use crate::random::Random;
use crate::sequences::{clustered, settings, sized};
use crate::words::{Place, View, KIND, LEVEL, NODE, PIXEL, RECORD};

pub const EXCHANGES: &[Kind] = &[Put, Append, Close, SetPut, SetAppend, SetClose];

// The cell that a worker has read as its level and will exchange from it: it is committed to it from the one turn to the other.
fn committed(v: &View) -> Option<Place> {
    match v.kind() {
        Take | Put => Some(v.entry_of(v.word(LEVEL), v.word(PIXEL))),
        SetPut => Some(v.entry_of(v.word(LEVEL), v.get(v.pixel_of(v.n())))),
        TakeTail | Append | Level | Close | SetAppend | SetLevel | SetClose => Some(v.next_of(v.word(NODE))),
        Idle | Look | Read | Tail | Follow | ChainHead | ChainNext | SetNext | SetLook | SetRead | SetTail | SetFollow | MoveEnd => None,
    }
}

// It is doomed if the cell holds something else by now.
fn doomed(v: &View) -> bool {
    committed(v).is_some_and(|cell| v.get(cell) != 2 * v.word(LEVEL))
}

fn view(areas: &Areas, settings: Settings, worker: u32) -> View<'_> {
    View { areas, settings, worker }
}

// What the exchange of worker i's next turn comes to, by the words before it.
fn next_exchange(v: &View) -> Exchanges {
    let (exchanges, fails) = (EXCHANGES.contains(&v.kind()), doomed(v));
    Exchanges { done: (exchanges && !fails) as u32, failed: (exchanges && fails) as u32 }
}

// What the checks came across; what they never did fails.
#[derive(Clone, Default)]
pub struct BoundSeen {
    // operations after which so many workers were doomed
    doomed: [u64; 17],
    // operations after which as many exchanges had failed as can, and one had
    reached: u64,
    // operations beside viewers after which one had failed; operations where all are viewers
    with_viewers: u64,
    nobody_places: u64,
    // turns whose exchange was told from the words before them
    foretold: u64,
    // calls that were run to their end alone: not doomed, doomed, of viewers
    alone: [u64; 3],
}

impl BoundSeen {
    pub fn add(&mut self, more: &BoundSeen) {
        self.doomed.iter_mut().zip(more.doomed).for_each(|(x, y)| *x += y);
        self.alone.iter_mut().zip(more.alone).for_each(|(x, y)| *x += y);
        self.reached += more.reached;
        self.with_viewers += more.with_viewers;
        self.nobody_places += more.nobody_places;
        self.foretold += more.foretold;
    }

    // failed + doomed workers ≤ (placing workers − 1) × done; with one nothing fails, "with no placing worker both are zero"; a viewer is never doomed
    pub fn bound(&mut self, areas: &Areas, s: Settings, made: Exchanges) -> Result<(), String> {
        let most = s.placing().saturating_sub(1) * made.done;
        let doomed = (0..s.workers).filter(|&i| doomed(&view(areas, s, i))).count();
        self.doomed[doomed] += 1;
        self.reached += (made.failed == most && most > 0) as u64;
        self.with_viewers += (s.viewers > 0 && made.failed > 0) as u64;
        self.nobody_places += (s.placing() == 0) as u64;
        if made.failed + doomed as u32 <= most && (s.placing() > 0 || made.done == 0) {
            return Ok(());
        }
        Err(format!("{made:?} with {doomed} workers doomed: more than {} placing workers may have", s.placing()))
    }

    // the turn of worker i, which was carried out, made the exchange that the words before it tell
    pub fn turn(&mut self, before: &Areas, given: Settings, i: u32, made: Exchanges) -> Result<(), String> {
        let told = next_exchange(&view(before, given, i));
        self.foretold += (told != Exchanges::default()) as u64;
        if made == told {
            return Ok(());
        }
        Err(format!("the turn of worker {i} made {made:?}, by the words before it {told:?}"))
    }

    // prints what was seen and gives what never was
    pub fn report(&self) -> Vec<String> {
        let amid: Vec<String> = (1..17).filter(|&n| self.doomed[n] > 0).map(|n| format!("{n} doomed {}", self.doomed[n])).collect();
        println!("bound held after {} operations, of these {}; reached {} times", self.doomed.iter().sum::<u64>(), amid.join(", "), self.reached);
        println!(
            "exchanges as the words before them tell: {}; calls run alone: {} not doomed, {} doomed, {} of viewers",
            self.foretold, self.alone[0], self.alone[1], self.alone[2]
        );
        println!("failures beside viewers: after {} operations; all workers viewers: {} operations", self.with_viewers, self.nobody_places);
        let seen = [("a doomed worker", self.doomed[1]), ("15 doomed workers", self.doomed[15]), ("the bound reached", self.reached)];
        let alone = [("an exchange told", self.foretold), ("a call alone, not doomed", self.alone[0]), ("a call alone, doomed", self.alone[1])];
        let viewers =
            [("a viewer's call alone", self.alone[2]), ("a failure beside viewers", self.with_viewers), ("viewers alone", self.nobody_places)];
        seen.iter().chain(&alone).chain(&viewers).filter(|x| x.1 == 0).map(|x| x.0.to_string()).collect()
    }
}

// Each open call run to its end on a copy, with all turns: where its worker is not doomed no exchange fails, else one at most.
pub fn alone(p: &mut Pair) -> Compared<()> {
    let s = p.table.settings;
    for i in 0..s.workers {
        let v = view(&p.table.areas, s, i);
        if v.kind() == Idle {
            continue;
        }
        let may_fail = doomed(&v) as u32;
        let (mut copy, mut failed) = (p.clone(), 0);
        while copy.run(Op::Last(i))?.answer == OPEN {
            failed += copy.run(Op::Turns(vec![i as u8; 100], 100))?.exchanges.failed;
            if failed > may_fail {
                return Err(copy.difference(format!("worker {i} alone: {failed} exchanges failed, {may_fail} may")));
            }
        }
        p.bound.alone[if s.views(i) { 2 } else { may_fail as usize }] += 1;
    }
    Ok(())
}

// A wrong machine: the model alone, with what it does wrong. Gives after how many tables the bound found it, and a worker alone; each within its table.
pub fn found(wrong: Chosen, width: u32, seed: u64) -> [Option<u64>; 2] {
    let r = &mut Random::new(seed);
    let mut found = [None; 2];
    for tables in 1..=200 {
        let mut m = Machine::fresh(r, wrong, width);
        for _ in 0..2000 {
            m.go_on(r);
            if found[0].is_none() && BoundSeen::default().bound(&m.model.areas, m.model.settings, m.model.exchanges).is_err() {
                found[0] = Some(tables);
            }
            if found[1].is_none() && r.below(50) == 0 && m.fails_alone(r) {
                found[1] = Some(tables);
            }
            if found.iter().all(Option::is_some) {
                return found;
            }
        }
    }
    found
}

#[derive(Clone)]
struct Machine {
    model: Model,
    wrong: Chosen,
    spread: u64,
}

impl Machine {
    // few workers, so that the bound is near
    fn fresh(r: &mut Random, wrong: Chosen, width: u32) -> Machine {
        let s = settings(1 + r.below(3) as u32, r.pick(&[1, 1, 2, 3]), 8 + r.below(56) as u32, width);
        let mut model = Model::new(s, sized(&s, 0, 5));
        model.open();
        Machine { model, wrong, spread: r.pick(&[2, 3, 4, 6]) }
    }

    fn run(&mut self, op: Op) -> u32 {
        let (before, given) = (self.model.areas.clone(), self.model.settings);
        let mut reply = self.model.run(&op);
        self.wrong.alter(&op, &before, given, &mut self.model, &mut reply);
        reply.number
    }

    fn go_on(&mut self, r: &mut Random) {
        let i = r.below(self.model.settings.workers as u64) as u32;
        if self.run(Op::Turn(i)) == 8 {
            let (row, column) = clustered(r, self.spread);
            self.run(Op::Start(i, row, column));
        }
    }

    // some worker, alone on a copy, fails more often than it may
    fn fails_alone(&self, r: &mut Random) -> bool {
        let i = r.below(self.model.settings.workers as u64) as u32;
        let mut copy = self.clone();
        let most = self.model.exchanges.failed + doomed(&view(&self.model.areas, self.model.settings, i)) as u32;
        let kind = |m: &Machine| KINDS[m.model.areas.workers[RECORD * i as usize + KIND] as usize];
        for _ in 0..300 {
            if kind(&copy) == Idle || copy.model.exchanges.failed > most {
                break;
            }
            copy.run(Op::Turn(i));
        }
        copy.model.exchanges.failed > most
    }
}
