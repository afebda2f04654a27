// What a list of turns reports of its exchanges: "A list of turns reports both numbers for its own turns, equal to a count over the turns' definition."
// Races that reach the bound, every way in which a list ends, and sequences cut into lists in several ways. Relies on sequences.rs for fresh tables.
use crate::coverage::Total;
use crate::model::{self, Exchanges, FOUND, NEW};
use crate::pair::{Compared, Op, Pair};
use crate::random::Random;
use crate::sequences::{call, clustered, opened, pixel, settings, some_viewers, start, whole};
use crate::words::{Place, LEVEL, RECORD};

pub fn all(width: u32, seed: u64, total: &mut Total) -> Compared<()> {
    for workers in 1..=16 {
        race(width, total, workers)?;
    }
    ends(width, total)?;
    full(width, total)?;
    many(width, total)?;
    let r = &mut Random::new(seed);
    for _ in 0..15 {
        cut(width, r.next(), total)?;
    }
    Ok(())
}

// the list has this number, so many turns, and these exchanges
fn gives(p: &mut Pair, list: &[u8], limit: u32, number: u32, turns: u32, done: u32, failed: u32) -> Compared<()> {
    let q = p.run(Op::Turns(list.to_vec(), limit))?;
    assert_eq!((q.number, q.turns, q.exchanges), (number, turns, Exchanges { done, failed }), "{}: {list:?}, limit {limit}", p.what);
    Ok(())
}

// the root's entries, but no more than eight
fn some_entries(width: u32) -> u32 {
    model::entries(width).min(8)
}

// All look, all take, all put: one exchange is done, the others fail, as many as can. So for one pixel of each of the root's entries, the Puts in one list
// and in two by turns: after the first Put all the others are doomed.
fn race(width: u32, total: &mut Total, workers: u32) -> Compared<()> {
    let mut p = opened(total, settings(workers, 4, 32, width), 0, 7, &format!("a race of {workers}, width {width}"))?;
    let each: Vec<u8> = (0..workers as u8).collect();
    for entry in 0..some_entries(width) {
        for i in 0..workers {
            p.run(start(i, entry * model::divisor(width, 0)))?;
        }
        gives(&mut p, &each, 99, 0, workers, 0, 0)?;
        gives(&mut p, &each, 99, 0, workers, 0, 0)?;
        if entry % 2 == 0 {
            gives(&mut p, &each, 99, 0, workers, 1, workers - 1)?;
        } else {
            gives(&mut p, &each, 1, 0, 1, 1, 0)?;
            gives(&mut p, &each, 99, 0, workers - 1, 0, workers - 1)?;
        }
        for i in 0..workers {
            assert_eq!(p.run(Op::Last(i))?.answer, if i == 0 { NEW } else { FOUND });
        }
        gives(&mut p, &[0, workers as u8], 99, 4, 0, 0, 0)?;
        assert_eq!(p.model.exchanges, Exchanges { done: entry + 1, failed: (workers - 1) * (entry + 1) });
    }
    total.add(&p);
    Ok(())
}

// Three workers before their Puts for one pixel, a fourth without a call: lists that end at their end, by the limit, by a 6 of each sort, and refused ones.
fn ends(width: u32, total: &mut Total) -> Compared<()> {
    let mut before = opened(total, settings(4, 4, 8, width), 0, 7, &format!("ends of lists, width {width}"))?;
    for i in 0..3 {
        before.run(Op::Start(i, 0, 0))?;
    }
    gives(&mut before, &[0, 1, 2, 3, 0, 1, 2, 3], 99, 0, 6, 0, 0)?;
    total.add(&before);
    // their entry names a node that is not taken, or node 0; worker 0's or worker 2's record refers to a level that is not taken; no level is taken
    let sound: &[(Place, u32)] = &[];
    let (untaken, node_0) = ((Place::Levels(2), 2 * 7 + 1), (Place::Levels(2), 1));
    let (first, last) = ((Place::Workers(LEVEL), 1), (Place::Workers(2 * RECORD + LEVEL), 1));
    // what is written, the list and its limit; its number, turns, exchanges done and failed
    let cases: &[(&[(Place, u32)], &[u8], u32, [u32; 4])] = &[
        (sound, &[0, 1, 2], 99, [0, 3, 1, 2]),
        (sound, &[], 99, [0, 0, 0, 0]),
        // idle: worker 3, and each of the others once its call has ended
        (sound, &[3, 2, 2, 3, 1, 2, 0, 0], 99, [0, 3, 1, 2]),
        (sound, &[3, 0, 3, 0, 1, 1, 3, 2], 0, [0, 0, 0, 0]),
        (sound, &[3, 0, 3, 0, 1, 1, 3, 2], 1, [0, 1, 1, 0]),
        (sound, &[3, 0, 3, 0, 1, 1, 3, 2], 2, [0, 2, 1, 1]),
        (sound, &[3, 0, 3, 0, 1, 1, 3, 2], 3, [0, 3, 1, 2]),
        // refused: there is no worker 4
        (sound, &[0, 1, 2, 4], 99, [4, 0, 0, 0]),
        (&[(Place::LevelsTaken, 0)], &[0, 1, 2], 99, [3, 0, 0, 0]),
        // a 6 before all, after one done, after one done and one failed; the limit ends the list at the entry before it
        (&[last], &[2, 0, 1], 99, [6, 0, 0, 0]),
        (&[last], &[0, 2, 1], 99, [6, 1, 1, 0]),
        (&[last], &[0, 1, 2], 99, [6, 2, 1, 1]),
        (&[last], &[0, 1, 2], 2, [0, 2, 1, 1]),
        // the exchange of a turn that the word met refuses counts for nothing
        (&[untaken], &[1, 0, 2], 99, [6, 0, 0, 0]),
        (&[node_0], &[1, 0, 2], 99, [0, 3, 0, 3]),
        (&[node_0, first], &[1, 0, 2], 99, [6, 1, 0, 1]),
    ];
    for &(written, list, limit, [number, turns, done, failed]) in cases {
        let mut p = before.again();
        written.iter().for_each(|&(place, v)| p.put(place, v));
        gives(&mut p, list, limit, number, turns, done, failed)?;
        total.add(&p);
    }
    Ok(())
}

// A list goes on after "full", which makes no exchange: of two nodes worker 0 places one, worker 1's Put fails and its node is spare.
fn full(width: u32, total: &mut Total) -> Compared<()> {
    let mut p = opened(total, settings(3, 4, 2, width), 0, 7, &format!("full in a list, width {width}"))?;
    for i in 0..3 {
        p.run(Op::Start(i, 0, 0))?;
    }
    gives(&mut p, &[0, 1, 2, 0, 1, 2, 0, 1, 2], 99, 0, 8, 1, 1)?;
    // worker 2 is full at Take, worker 0 at TakeTail; worker 1 has its spare
    for (i, digits) in [(0, "01"), (1, "02"), (2, "1")] {
        p.run(start(i, pixel(width, digits)))?;
    }
    gives(&mut p, &[2, 2, 0, 1, 0, 1, 0, 1, 0, 1, 1], 99, 0, 11, 1, 0)?;
    total.add(&p);
    Ok(())
}

// Eight full chains of eight nodes, at width 2 four of four, one in each entry of the root, whose pixels differ in the last digit alone; in each a further
// pixel differs in the digit before it. Its call closes the chain at every depth but the last two, each time with one exchange for the level and one for each
// node, and puts its node: 55 exchanges at width 3.
fn many(width: u32, total: &mut Total) -> Compared<()> {
    let (n, last) = (some_entries(width), model::last_depth(width));
    let mut p = opened(total, settings(n, n, n * (n + 1), width), 0, 7, &format!("many exchanges in a list, width {width}"))?;
    let root = |entry: u32| entry * model::divisor(width, 0);
    for pixel in (0..n * n).map(|k| root(k / n) + k % n) {
        assert_eq!(whole(&mut p, 0, pixel)?.0, NEW);
    }
    let already = p.model.exchanges;
    for i in 0..n {
        p.run(start(i, root(i) + model::divisor(width, last - 1)))?;
    }
    let list: Vec<u8> = (0..n * 2000).map(|k| (k % n) as u8).collect();
    let q = p.run(Op::Turns(list, u32::MAX))?;
    let of_a_call = (last - 1) * (n + 1) + 1;
    assert_eq!((already, q.number, q.exchanges), (Exchanges { done: n * n, failed: 0 }, 0, Exchanges { done: n * of_a_call, failed: 0 }));
    assert!((0..n as usize).all(|i| p.table.areas.workers[RECORD * i] == 0), "every call has ended");
    total.add(&p);
    Ok(())
}

// One event of a sequence: a start of worker, row and column, of the sort that the worker has; a turn of a worker, whose entry a list passes over if it is idle.
enum Event {
    Start(u32, u32, u32),
    Turn { worker: u32, idle: bool },
}

// The same sequence turn by turn and in lists of any length and limit: the same table, and of all lists together the exchanges of all turns.
pub fn cut(width: u32, seed: u64, total: &mut Total) -> Compared<()> {
    let r = &mut Random::new(seed);
    let s = settings(1 + r.below(16) as u32, r.pick(&[1, 1, 2, 3, 8]), 1 + r.below(48) as u32, width);
    let s = some_viewers(r, s);
    let spread = r.pick(&[2, 3, 4, 6]);
    let mut single = opened(total, s, 0, 7, &format!("cut {seed} {width}, turn by turn"))?;
    let mut events = vec![];
    for _ in 0..800 {
        let worker = r.below(s.workers as u64) as u32;
        let idle = single.run(Op::Turn(worker))?.number == 8;
        events.push(Event::Turn { worker, idle });
        if idle && r.below(4) > 0 {
            let (row, column) = clustered(r, spread);
            single.run(call(&s, worker, (row, column)))?;
            events.push(Event::Start(worker, row, column));
        }
    }
    total.add(&single);
    for longest in [1, 3, 12, 200] {
        let mut p = opened(total, s, 0, 7, &format!("cut {seed} {width}, lists up to {longest}"))?;
        let reported = in_lists(r, &mut p, &events, longest)?;
        assert_eq!(reported, single.model.exchanges, "{}", p.what);
        assert!(p.table.areas == single.table.areas && p.table.settings == single.table.settings, "{}: another table", p.what);
        total.add(&p);
    }
    Ok(())
}

// Runs the events, turns between starts as lists; gives the sum of what the table's lists report.
fn in_lists(r: &mut Random, p: &mut Pair, events: &[Event], longest: u64) -> Compared<Exchanges> {
    let (mut sum, mut at) = (Exchanges::default(), 0);
    while at < events.len() {
        if let Event::Start(i, row, column) = events[at] {
            p.run(call(&p.table.settings, i, (row, column)))?;
            at += 1;
            continue;
        }
        let turn = |e: &Event| match *e {
            Event::Start(..) => None,
            Event::Turn { worker, idle } => Some((worker as u8, idle)),
        };
        let entries: Vec<(u8, bool)> = events[at..].iter().map_while(turn).take(1 + r.below(longest) as usize).collect();
        let limit = r.below(entries.len() as u64 + 3) as u32;
        sum += p.run(Op::Turns(entries.iter().map(|e| e.0).collect(), limit))?.exchanges;
        // where the limit ended the list the entries behind it belong to the next one
        let mut left = limit;
        for (_, idle) in entries {
            if left == 0 {
                break;
            }
            left -= !idle as u32;
            at += 1;
        }
    }
    Ok(sum)
}
