// Sequences of operations at a digit width, random ones from a seed of their own: `leafdrum_tests NAME SEED WIDTH` runs one again.
use crate::bound;
use crate::coverage::{place, Total};
use crate::listing::at_some_places;
use crate::model::{self, Areas, Kind, Settings, KINDS, NONE, WIDTHS};
use crate::pair::{Compared, Op, Pair};
use crate::random::Random;
use crate::words::{home, level_at, remembered, Place, View, COUNT, KIND, LEVEL, MOVES, NODE, PIXEL, RECORD, TOP};

pub fn settings(workers: u32, limit: u32, nodes: u32, width: u32) -> Settings {
    Settings { workers, limit, nodes, nodes_taken: 0, levels_taken: 1, viewers: 0, width }
}

// any number of viewers; none half of the time
pub fn some_viewers(r: &mut Random, s: Settings) -> Settings {
    let viewers = r.below(s.workers as u64 + 1) as u32;
    Settings { viewers: if r.below(2) == 0 { viewers } else { 0 }, ..s }
}

// areas with `more` words beyond those needed
pub fn sized(s: &Settings, more: usize, fill: u32) -> Areas {
    Areas {
        nodes: vec![fill; 2 * s.nodes as usize + more],
        levels: vec![fill; model::level_words(s.width) * model::level_count(s) as usize + more],
        workers: vec![fill; RECORD * s.workers as usize + more],
    }
}

pub fn opened(total: &Total, s: Settings, more: usize, fill: u32, what: &str) -> Compared<Pair> {
    let mut p = total.pair(s, sized(&s, more, fill), what);
    p.run(Op::Open)?;
    Ok(p)
}

// the one of four that is for this width
pub fn of_width<T: Copy>(width: u32, four: [T; WIDTHS.len()]) -> T {
    four[place(width)]
}

// the pixel with these digits from depth 0 on, then zeros
pub fn pixel(width: u32, digits: &str) -> u32 {
    digits.bytes().zip(0..).map(|(digit, depth)| (digit - b'0') as u32 * model::divisor(width, depth)).sum()
}

pub fn start(i: u32, pixel: u32) -> Op {
    Op::Start(i, pixel >> 12, pixel & 4095)
}
pub fn view(i: u32, pixel: u32) -> Op {
    Op::View(i, pixel >> 12, pixel & 4095)
}
// a call of worker i of the sort that it has
pub fn call(s: &Settings, i: u32, (row, column): (u32, u32)) -> Op {
    if s.views(i) {
        Op::View(i, row, column)
    } else {
        Op::Start(i, row, column)
    }
}
// and of the sort that is refused by 17
pub fn other_call(s: &Settings, i: u32, (row, column): (u32, u32)) -> Op {
    if s.views(i) {
        Op::Start(i, row, column)
    } else {
        Op::View(i, row, column)
    }
}

// Pixels that share long beginnings, so that chains close and Moves nest.
pub fn clustered(r: &mut Random, spread: u64) -> (u32, u32) {
    let base = r.pick(&[0u64, 0o7, 0o777, 0o12345670, 0o77777777, 0o40000000]);
    let p = (base ^ r.below(1 << spread)) & 0xffffff;
    ((p >> 12) as u32, (p & 4095) as u32)
}

// a turn of worker i, or a start if it is idle
pub fn go_on(r: &mut Random, p: &mut Pair, i: u32, spread: u64) -> Compared<()> {
    if p.run(Op::Turn(i))?.number == 8 {
        let pixel = clustered(r, spread);
        p.run(call(&p.table.settings, i, pixel))?;
    }
    Ok(())
}

fn some_list(r: &mut Random, workers: u32, longest: u64) -> Op {
    let list = (0..r.below(longest + 1)).map(|_| r.below(workers as u64) as u8).collect();
    Op::Turns(list, r.below(longest + 10) as u32)
}

pub fn orders(width: u32, seed: u64, total: &mut Total) -> Compared<()> {
    let r = &mut Random::new(seed);
    let limit = r.pick(&[1, 1, 1, 2, 2, 3, 4, 5, 6, 7, 8]);
    let s = settings(1 + r.below(16) as u32, limit, 1 + r.below(64) as u32, width);
    let s = some_viewers(r, s);
    let spread = r.pick(&[2, 3, 4, 6, 8, 12, 24]);
    any_order(r, total, s, spread, 2000, &format!("orders {seed} {width}"))
}

pub fn large(width: u32, seed: u64, total: &mut Total) -> Compared<()> {
    let r = &mut Random::new(seed);
    let s = settings(1 + r.below(16) as u32, 1 + r.below(8) as u32, r.pick(&[256, 1024, 4096]), width);
    let s = some_viewers(r, s);
    any_order(r, total, s, 24, 20_000, &format!("large {seed} {width}"))
}

// Random starts, turns, lists and reads of last answers on a fresh table, calls of the other sort among them.
fn any_order(r: &mut Random, total: &mut Total, s: Settings, spread: u64, steps: u64, what: &str) -> Compared<()> {
    let (more, fill) = (r.pick(&[0, 0, 1, 7, 200]), r.next() as u32);
    let mut p = opened(total, s, more, fill, what)?;
    for k in 0..steps {
        if k % (steps / 8) == steps / 16 {
            bound::alone(&mut p)?;
        }
        let i = r.below(s.workers as u64) as u32;
        match r.below(64) {
            0 => {
                p.run(Op::Last(i))?;
            }
            1 => {
                p.run(some_list(r, s.workers, 39))?;
            }
            2 => {
                p.run(call(&s, i, clustered(r, spread)))?;
            }
            3 => {
                let (row, column) = clustered(r, spread);
                p.run(other_call(&s, i, r.pick(&[(row, column), (row, column), (4096, column), (row, 4096)])))?;
            }
            _ => go_on(r, &mut p, i, spread)?,
        }
    }
    too_many_viewers(r, total, &p)?;
    at_some_places(&mut p, &mut total.listings)?;
    total.add(&p);
    Ok(())
}

// "0 up to all of them, and more is refusal 1": with more viewers than workers a copy refuses everything by 1
fn too_many_viewers(r: &mut Random, total: &mut Total, p: &Pair) -> Compared<()> {
    let mut q = p.again();
    let (workers, i) = (p.table.settings.workers, r.below(p.table.settings.workers as u64) as u32);
    let viewers = r.pick(&[workers + 1, workers + 1, 17, 256, u32::MAX]).max(workers + 1);
    q.edit(|_, s| s.viewers = viewers);
    for op in [Op::Start(i, 0, 0), Op::View(i, 0, 0), Op::Turn(i), some_list(r, workers, 5), Op::Last(i), Op::Open] {
        assert_eq!(q.run(op.clone())?.number, 1, "{}: {op:?} with {viewers} viewers of {workers} workers", p.what);
    }
    total.add(&q);
    Ok(())
}

pub fn written(width: u32, total: &mut Total) -> Compared<()> {
    nested(width, total)?;
    past_the_limit(width, total)?;
    way_back_in_a_move(width, total)
}

// Openings one after another over the same areas, each with another width and any number of viewers, calls amid Moves left behind; the last one is at the width
// named. No wrong version is tried on it: each is to be found at the width at which it is wrong.
pub fn reopened(width: u32, seed: u64, total: &mut Total) -> Compared<()> {
    let r = &mut Random::new(seed + width as u64);
    let widest = settings(5, 1, 24, *WIDTHS.last().expect("four widths"));
    let mut p = total.pair(widest, sized(&widest, 0, 7), &format!("reopened, width {width}"));
    for other in WIDTHS.into_iter().filter(|&w| w != width).chain([width]) {
        let viewers = r.below(4) as u32;
        p.edit(|_, s| (s.viewers, s.width) = (viewers, other));
        p.run(Op::Open)?;
        let mut q = p.again();
        for _ in 0..1500 {
            let i = r.below(5) as u32;
            go_on(r, &mut q, i, 6)?;
        }
        total.add(&q);
        p = q;
    }
    Ok(())
}

// A written schedule that nests Moves to the last depth: pixel 0 is placed; worker 0 places 3; worker 1 places the others, each whole just before a SetLook of
// worker 0. The k-th has zeros to depth k + 1, so that it meets the one before it at depth k and the one after it a depth below.
fn nested(width: u32, total: &mut Total) -> Compared<()> {
    let last = model::last_depth(width);
    let others: Vec<u32> = (3..=last).map(|depth| model::divisor(width, depth)).chain([2]).collect();
    let mut p = opened(total, settings(2, 1, 16, width), 0, 7, &format!("nested, width {width}"))?;
    whole(&mut p, 0, 0)?;
    p.run(start(0, 3))?;
    let (mut placed, mut deepest) = (vec![], 0);
    loop {
        if placed.len() < others.len() && p.table.areas.workers[KIND] == Kind::SetLook as u32 {
            placed.push(whole(&mut p, 1, others[placed.len()])?);
        }
        let q = p.run(Op::Turn(0))?;
        deepest = deepest.max(p.table.areas.workers[MOVES]);
        if q.answer != model::OPEN {
            placed.push((q.answer, q.node));
            break;
        }
    }
    assert_eq!(deepest, last, "Moves nested");
    assert_eq!(placed, (1..=last).map(|n| (model::NEW, n)).collect::<Vec<_>>(), "worker 1's pixels, then worker 0's");
    for (pixel, n) in [0].into_iter().chain(others).chain([3]).zip(0..) {
        assert_eq!(whole(&mut p, 1, pixel)?, (model::FOUND, n), "pixel {pixel}");
    }
    total.add(&p);
    Ok(())
}

// "A count past the limit stays at limit + 1": worker 0 stands at the third node of a full chain while worker 1 moves it, so that the chain is
// met once more the other way round.
fn past_the_limit(width: u32, total: &mut Total) -> Compared<()> {
    let mut p = opened(total, settings(2, 3, 16, width), 0, 7, &format!("past the limit, width {width}"))?;
    for pixel in 0..3 {
        whole(&mut p, 0, pixel)?;
    }
    p.run(start(0, 3))?;
    p.run(Op::Turns(vec![0; 6], 6))?;
    p.run(start(1, 4))?;
    stand_before(&mut p, 1, Kind::MoveEnd)?;
    let mut stood = vec![];
    for _ in 0..6 {
        stood.push((p.table.areas.workers[NODE], p.table.areas.workers[COUNT]));
        p.run(Op::Turn(0))?;
    }
    assert_eq!(stood, [(2, 3), (2, 3), (1, 4), (1, 4), (0, 4), (0, 4)], "node and count");
    assert_eq!((p.table.areas.workers[KIND], p.table.areas.workers[LEVEL]), (Kind::Look as u32, 1));
    total.add(&p);
    Ok(())
}

// Going back inside a Move, which ends at the child of the level that N is set into: worker 0 sets pixel 0 into level 1 and stands at the node of pixel 1 there
// while worker 1 moves that node down to the last depth.
fn way_back_in_a_move(width: u32, total: &mut Total) -> Compared<()> {
    let mut p = opened(total, settings(2, 1, 4, width), 0, 7, &format!("way back in a Move, width {width}"))?;
    whole(&mut p, 1, 0)?;
    p.run(start(0, 3))?;
    for (kind, pixel) in [(Kind::SetLook, 1), (Kind::SetTail, 2)] {
        stand_before(&mut p, 0, kind)?;
        assert_eq!(whole(&mut p, 1, pixel)?, (model::NEW, pixel));
    }
    stand_before(&mut p, 0, Kind::SetFollow)?;
    let words = |p: &Pair| [KIND, LEVEL, NODE].map(|k| p.table.areas.workers[k]);
    assert_eq!((words(&p), p.table.areas.nodes[3]), ([Kind::SetFollow as u32, 1, 1], 2 * model::last_depth(width)));
    p.run(Op::Turn(0))?;
    assert_eq!(words(&p), [Kind::SetNext as u32, 2, 1]);
    while p.run(Op::Turn(0))?.answer == model::OPEN {}
    for pixel in 0..4 {
        assert_eq!(whole(&mut p, 1, pixel)?, (model::FOUND, pixel), "pixel {pixel}");
    }
    total.add(&p);
    Ok(())
}

// turns of worker i up to one of this kind, which its call comes to
pub fn stand_before(p: &mut Pair, i: u32, kind: Kind) -> Compared<()> {
    while p.table.areas.workers[RECORD * i as usize + KIND] != kind as u32 {
        assert_eq!(p.run(Op::Turn(i))?.answer, model::OPEN, "{}: the call ends before {kind:?}", p.what);
    }
    Ok(())
}

// a whole call of worker i alone: its answer and node
pub fn whole(p: &mut Pair, i: u32, pixel: u32) -> Compared<(u32, u32)> {
    p.run(call(&p.table.settings, i, (pixel >> 12, pixel & 4095)))?;
    for _ in 0..100_000 {
        let q = p.run(Op::Turn(i))?;
        if q.answer != model::OPEN {
            return Ok((q.answer, q.node));
        }
    }
    Err(p.difference(format!("the call of worker {i} for pixel {pixel}, alone, did not end")))
}

// Memory of any content: words of a running table spoiled, one or several, in all three areas and in the settings.
pub fn spoiled(width: u32, seed: u64, total: &mut Total) -> Compared<()> {
    let r = &mut Random::new(seed);
    let s = settings(1 + r.below(4) as u32, r.pick(&[1, 1, 2, 3, 8]), 1 + r.below(24) as u32, width);
    let s = some_viewers(r, s);
    let more = r.below(3) as usize;
    let mut p = opened(total, s, more, 3, &format!("spoiled {seed} {width}"))?;
    let spread = r.pick(&[2, 3, 6, 12]);
    for _ in 0..40 {
        for _ in 0..r.below(60) {
            let i = r.below(s.workers as u64) as u32;
            go_on(r, &mut p, i, spread)?;
        }
        let good = (p.table.areas.clone(), p.table.settings);
        for _ in 0..1 + r.below(3) {
            if r.below(4) > 0 || !spoil_exchange(r, &mut p) {
                spoil(r, &mut p);
            }
        }
        at_some_places(&mut p, &mut total.listings)?;
        for _ in 0..r.below(12) {
            let i = r.below(s.workers as u64) as u32;
            match r.below(7) {
                0 => p.run(Op::Start(i, r.below(4097) as u32, r.below(4097) as u32))?,
                1 => p.run(Op::View(i, r.below(4097) as u32, r.below(4097) as u32))?,
                2 => p.run(Op::Last(i))?,
                3 => p.run(some_list(r, s.workers, 12))?,
                _ => p.run(Op::Turn(i))?,
            };
        }
        // now and then the spoiled table goes on
        if r.below(4) != 0 {
            p.set(good.0, good.1);
        }
    }
    total.add(&p);
    Ok(())
}

// The word that worker i is about to exchange, where its record leads to one.
fn exchanged(v: &View) -> Option<Place> {
    use Kind::*;
    let s = v.settings;
    let entry = |pixel: u32| {
        let g = v.word(LEVEL);
        (g < s.levels_taken && v.get(v.depth_of(g)) <= v.last_depth()).then(|| v.entry_of(g, pixel))
    };
    match KINDS.get(v.word(KIND) as usize)? {
        Put => entry(v.word(PIXEL)),
        Append | Close | SetAppend | SetClose => (v.word(NODE) < s.nodes_taken).then(|| v.next_of(v.word(NODE))),
        SetPut => {
            let remembers = (1..=v.last_depth() as usize).contains(&v.moves()) && (1..=8).contains(&v.word(remembered(v.inner())));
            let n = remembers.then(|| v.n()).filter(|&n| n < s.nodes_taken)?;
            entry(v.get(v.pixel_of(n)))
        }
        _ => None,
    }
}

// An exchange is made to fail: on a reference near the bounds, or on a node or level whose word that question 6 asks for is near them.
fn spoil_exchange(r: &mut Random, p: &mut Pair) -> bool {
    let s = p.model.settings;
    let view = View { areas: &p.model.areas, settings: s, worker: r.below(s.workers as u64) as u32 };
    let Some(cell) = exchanged(&view) else { return false };
    let (nt, lt) = (s.nodes_taken, s.levels_taken);
    let (n, g) = (r.below(nt as u64 + 1) as u32, r.below(lt as u64 + 1) as u32);
    if r.below(2) == 0 {
        p.put(cell, 2 * n + 1);
        if n < nt && r.below(2) == 0 {
            p.put(Place::Nodes(2 * n as usize), r.pick(&[TOP, TOP + 1, u32::MAX]));
        }
    } else {
        p.put(cell, 2 * g);
        if g < lt && r.below(2) == 0 {
            p.put(Place::Levels(level_at(s.width, g)), r.pick(&[0, lt - 1, lt, NONE]));
        }
    }
    true
}

// One word near what the next turns read set to something near its bounds, or levels taken to any number that question 3 accepts, or viewers to any number
// of workers, and one more.
fn spoil(r: &mut Random, p: &mut Pair) {
    let s = p.model.settings;
    let (nt, lt) = (s.nodes_taken, s.levels_taken);
    if r.below(17) == 0 {
        p.put(Place::LevelsTaken, 1 + r.below(model::level_count(&s)) as u32);
        return;
    }
    if r.below(17) == 0 {
        p.put(Place::Viewers, r.below(s.workers as u64 + 2) as u32);
        return;
    }
    let (last, limit) = (model::last_depth(s.width), s.limit);
    let bounds =
        [last - 1, last, last + 1, last + 2, lt, 2 * lt, 2 * lt - 2, nt, 2 * nt + 1, (2 * nt).saturating_sub(1), limit, limit + 1, limit + 2];
    let v = match r.below(8) {
        0 => r.next() as u32,
        1 => r.pick(&[16_777_215, 16_777_216, u32::MAX, u32::MAX - 1, 1 << 31]),
        2 => r.below(4) as u32,
        _ => r.pick(&bounds),
    };
    let worker = RECORD * r.below(s.workers as u64) as usize;
    let place = match r.below(4) {
        0 => Place::Nodes(r.below(2 * nt.max(1) as u64) as usize),
        1 => {
            // of many entries few are used: half of the time one of the first words
            let words = if r.below(2) == 0 { 4 } else { model::level_words(s.width) as u64 };
            Place::Levels(level_at(s.width, r.below(lt as u64) as u32) + r.below(words) as usize)
        }
        2 => Place::Workers(worker + r.below(10) as usize),
        _ => Place::Workers(worker + home(0) + r.below(34) as usize),
    };
    p.put(place, v);
}
