// Viewers, by document 02's request 06: what their calls answer and when, at the last depth, past the limit and beside Moves; their records; and the same
// sequence with their starts and turns struck from it. That a viewer's start or turn writes its own record alone is checked after every operation (pair.rs).
use crate::coverage::Total;
use crate::model::{self, last_depth, Exchanges, Kind, Settings, ABSENT, FOUND, NEW, NOTHING, OPEN};
use crate::pair::{Compared, Op, Pair};
use crate::random::Random;
use crate::sequences::{call, clustered, opened, other_call, pixel, settings, start, view, whole};
use crate::words::*;

pub fn all(width: u32, seed: u64, total: &mut Total) -> Compared<()> {
    answers(width, total)?;
    the_last_depth(width, total)?;
    past_the_limit(width, total)?;
    records(width, total)?;
    in_lists(width, total)?;
    at_each_turn_of_a_move(width, total)?;
    let r = &mut Random::new(seed);
    for _ in 0..6 {
        open_beside_a_move(width, r, total)?;
        struck(width, r.next(), total)?;
    }
    Ok(())
}

fn with_viewers(viewers: u32, s: Settings) -> Settings {
    Settings { viewers, ..s }
}

// Pixels are placed by worker 0, no node is left, and worker 1, a viewer, looks one up: its call's turns, its answer and node. Where worker 0 would take a node
// or a level, it is absent.
fn answers(width: u32, total: &mut Total) -> Compared<()> {
    let cases: &[(u32, &[&str], &str, u32, u32, u32)] = &[
        // Look of an empty entry; Look and Read
        (4, &[], "1", 1, ABSENT, 0),
        (4, &["1"], "1", 2, FOUND, 0),
        (4, &["1"], "2", 1, ABSENT, 0),
        // Tail of the chain's last node, below the limit and at the limit
        (4, &["1"], "11", 3, ABSENT, 0),
        (1, &["1"], "11", 3, ABSENT, 0),
        (3, &["1", "11"], "12", 5, ABSENT, 0),
        (2, &["1", "11"], "12", 5, ABSENT, 0),
        // Follow
        (2, &["1", "11"], "11", 4, FOUND, 1),
        // the three have gone to level 1; there Look, Read and Tail
        (2, &["1", "11", "12"], "13", 3, ABSENT, 0),
        (2, &["1", "11", "12"], "12", 4, FOUND, 2),
        (2, &["1", "11", "12"], "121", 5, ABSENT, 0),
        (1, &["1", "11", "12"], "121", 5, ABSENT, 0),
    ];
    for &(limit, placed, looked_up, turns, answer, node) in cases {
        let what = format!("{looked_up} with {placed:?} placed, limit {limit}, width {width}");
        let s = with_viewers(1, settings(2, limit, placed.len().max(1) as u32, width));
        let mut p = opened(total, s, 0, 7, &what)?;
        for (digits, n) in placed.iter().zip(0..) {
            assert_eq!(whole(&mut p, 0, pixel(width, digits))?, (NEW, n), "{what}");
        }
        assert_eq!(p.run(Op::Last(1))?.answer, NOTHING);
        let before = p.table.settings;
        assert_eq!(p.run(view(1, pixel(width, looked_up)))?.answer, OPEN);
        for turn in 1..=turns {
            assert_eq!(p.run(Op::Last(1))?.answer, OPEN, "{what}: before turn {turn}");
            let q = p.run(Op::Turn(1))?;
            let wanted = if turn == turns { (0, answer, node) } else { (0, OPEN, 0) };
            assert_eq!((q.number, q.answer, q.node), wanted, "{what}: turn {turn}");
        }
        let q = p.run(Op::Last(1))?;
        assert_eq!((q.answer, q.node, p.table.settings), (answer, node, before), "{what}");
        assert_eq!([KIND, ANSWER, ANSWER_NODE].map(|k| p.table.areas.workers[RECORD + k]), [0, answer, node], "{what}");
        // the answer before is told no more: "absent" after a "found" has no node
        if !placed.is_empty() {
            let last = *placed.last().unwrap();
            assert_eq!(whole(&mut p, 1, pixel(width, last))?, (FOUND, placed.len() as u32 - 1), "{what}");
            assert_eq!(whole(&mut p, 1, pixel(width, looked_up))?, (answer, node), "{what}: once more");
            assert_eq!(p.run(Op::Last(1))?.node, node, "{what}: once more");
        }
        total.add(&p);
    }
    Ok(())
}

// No question about a new level or node is asked of a viewer: it is absent at and past the last depth, with every level and node taken. The depth of the level
// in which it picks an entry is asked.
fn the_last_depth(width: u32, total: &mut Total) -> Compared<()> {
    let last = last_depth(width);
    // real levels down to the last one
    let mut p = opened(total, with_viewers(1, settings(2, 1, 2, width)), 0, 7, &format!("a viewer at the last depth, width {width}"))?;
    whole(&mut p, 0, 0)?;
    whole(&mut p, 0, 1)?;
    assert_eq!(p.table.settings.levels_taken, last + 1);
    assert_eq!((whole(&mut p, 1, 2)?, p.table.areas.workers[RECORD + LEVEL]), ((ABSENT, 0), last));
    assert_eq!((whole(&mut p, 1, 1)?, p.table.areas.workers[RECORD + LEVEL]), ((FOUND, 1), last));
    total.add(&p);
    // Tail at the limit and below it, and Look of an empty entry; the number past the last depth; the number of another worker's next turn
    for (limit, pixel, turns, past, next) in [(1, 1, 2, 0, 6), (2, 1, 2, 0, 9), (2, TOP, 0, 6, 9)] {
        for (i, depth, number) in [0, 1].into_iter().flat_map(|i| [(i, last, 0), (i, last + 1, past), (i, u32::MAX, past)]) {
            let s = with_viewers(1, settings(2, limit, 2, width));
            let mut p = opened(total, s, 0, 7, &format!("worker {i} at depth {depth}, limit {limit}, width {width}"))?;
            whole(&mut p, 0, 0)?;
            p.run(call(&s, i, (pixel >> 12, pixel & 4095)))?;
            p.run(Op::Turns(vec![i as u8; turns], 9))?;
            p.edit(|a, s| {
                a.levels[1] = depth;
                (s.nodes_taken, s.levels_taken) = (s.nodes, model::level_count(s) as u32);
            });
            let wanted = if number != 0 {
                NOTHING
            } else if i == 0 {
                OPEN
            } else {
                ABSENT
            };
            let q = p.run(Op::Turn(i))?;
            assert_eq!((q.number, q.answer, q.node), (number, wanted, 0), "{}", p.what);
            if wanted == OPEN {
                assert_eq!(p.run(Op::Turn(i))?.number, next, "{}", p.what);
            }
            total.add(&p);
        }
    }
    Ok(())
}

// It is the next kind that decides: "A count past the limit stays at limit + 1", and a Tail there goes to Follow, also where R's next is H. Follow goes back
// from H then, and does not meet it.
fn past_the_limit(width: u32, total: &mut Total) -> Compared<()> {
    for limit in 1..=8 {
        let mut p = opened(total, with_viewers(1, settings(2, limit, 2, width)), 0, 7, &format!("a viewer past the limit, width {width}"))?;
        whole(&mut p, 0, 0)?;
        p.run(Op::View(1, 0, 1))?;
        p.run(Op::Turns(vec![1, 1], 2))?;
        for (count, kind, answer) in [(1, Kind::Idle, ABSENT), (limit, Kind::Idle, ABSENT), (limit + 1, Kind::Follow, OPEN)] {
            let mut q = p.again();
            q.put(Place::Workers(RECORD + COUNT), count);
            assert_eq!(q.run(Op::Turn(1))?.answer, answer, "{}: count {count}", q.what);
            assert_eq!(q.table.areas.workers[RECORD + KIND], kind as u32, "{}: count {count}", q.what);
            if kind == Kind::Follow {
                assert_eq!(q.run(Op::Turn(1))?.number, 6, "{}", q.what);
            }
            total.add(&q);
        }
        p.put(Place::Workers(RECORD + COUNT), limit + 2);
        assert_eq!(p.run(Op::Turn(1))?.number, 6, "{}: count limit + 2", p.what);
        total.add(&p);
    }
    Ok(())
}

// on a copy, this number; gives the answer and its node
fn gives(before: &Pair, op: Op, number: u32, total: &mut Total) -> Compared<(u32, u32)> {
    let mut p = before.again();
    let q = p.run(op.clone())?;
    assert_eq!(q.number, number, "{}: {op:?}", p.what);
    total.add(&p);
    Ok((q.answer, q.node))
}

// Every kind and last answer in a record that fits but for it, of worker 0 and of worker 1, a viewer; 17 is asked before. Words that a viewer's kinds do not
// use are not asked: what it holds stays held.
fn records(width: u32, total: &mut Total) -> Compared<()> {
    let mut before = opened(total, with_viewers(1, settings(2, 2, 5, width)), 0, 7, "a record")?;
    whole(&mut before, 0, 0)?;
    let s = before.table.settings;
    for i in [0, 1] {
        let place = |k: usize| Place::Workers(RECORD * i as usize + k);
        let (own, other, turn, list) = (call(&s, i, (1, 2)), other_call(&s, i, (1, 2)), Op::Turn(i), Op::Turns(vec![i as u8], 1));
        for kind in (0..=24).chain([32 + 1, 64 + 4, 256, u32::MAX]) {
            let mut p = before.again();
            p.what = format!("worker {i} with kind {kind}, width {width}");
            let (moves, nodes) = ((11..=22).contains(&kind) as u32, (12..=21).contains(&kind) as u32);
            let head = [(KIND, kind), (PIXEL, 1), (COUNT, 1), (HELD_NODE, 1), (HELD_LEVEL, 1), (ANSWER, FOUND), (MOVES, moves)];
            head.into_iter().chain([(remembered(0), nodes)]).for_each(|(k, v)| p.put(place(k), v));
            let fits = if i == 0 { kind <= 22 } else { matches!(kind, 0 | 1 | 4 | 5 | 10) };
            let (of_call, of_last, told) = match (fits, kind) {
                (false, _) => (6, 6, NOTHING),
                (true, 0) => (0, 0, FOUND),
                (true, _) => (7, 0, OPEN),
            };
            gives(&p, own.clone(), of_call, total)?;
            gives(&p, other.clone(), 17, total)?;
            assert_eq!(gives(&p, Op::Last(i), of_last, total)?.0, told, "{}", p.what);
            if !fits {
                gives(&p, turn.clone(), 6, total)?;
                gives(&p, list.clone(), 6, total)?;
            } else if i == 1 && kind != 0 {
                p.run(turn.clone())?;
                assert_eq!([HELD_NODE, HELD_LEVEL].map(|k| p.table.areas.workers[RECORD + k]), [1, 1], "{}", p.what);
            }
            total.add(&p);
        }
        for answer in (0..=8).chain([16 + 2, 256 + 5, u32::MAX]) {
            let mut p = before.again();
            p.what = format!("worker {i} with last answer {answer}, width {width}");
            p.put(place(ANSWER), answer);
            p.put(place(ANSWER_NODE), 9);
            let fits = if i == 0 { answer <= 3 } else { matches!(answer, 0 | 2 | 5) };
            let number = |fitting: u32| if fits { fitting } else { 6 };
            gives(&p, own.clone(), number(0), total)?;
            gives(&p, other.clone(), 17, total)?;
            gives(&p, turn.clone(), number(8), total)?;
            gives(&p, list.clone(), number(0), total)?;
            let node = if matches!(answer, 1 | 2) { 9 } else { 0 };
            assert_eq!(gives(&p, Op::Last(i), number(0), total)?, if fits { (answer, node) } else { (NOTHING, 0) }, "{}", p.what);
        }
    }
    Ok(())
}

// A viewer's turns in a list count as turns done, and make no exchange; its entries are skipped once it has ended; its 6 ends the list.
fn in_lists(width: u32, total: &mut Total) -> Compared<()> {
    let mut p = opened(total, with_viewers(2, settings(3, 4, 4, width)), 0, 7, &format!("viewers in lists, width {width}"))?;
    let none = Exchanges { done: 0, failed: 0 };
    p.run(start(0, 0))?;
    p.run(view(1, 0))?;
    p.run(view(2, pixel(width, "1")))?;
    // worker 2 is absent in its first turn; worker 1 looks before and after worker 0 has put its node
    let q = p.run(Op::Turns(vec![2, 2, 0, 2, 0], 99))?;
    assert_eq!((q.number, q.turns, q.exchanges), (0, 3, none));
    let q = p.run(Op::Turns(vec![0, 1, 2, 1, 1], 99))?;
    assert_eq!((q.number, q.turns, q.exchanges), (0, 3, Exchanges { done: 1, failed: 0 }));
    for (i, wanted) in [(0, (NEW, 0)), (1, (FOUND, 0)), (2, (ABSENT, 0))] {
        let q = p.run(Op::Last(i))?;
        assert_eq!((q.answer, q.node), wanted, "worker {i}");
    }
    // the limit, and a 6: worker 2's level is not taken
    p.run(view(1, pixel(width, "2")))?;
    p.run(view(2, 0))?;
    let mut cut = p.again();
    let q = cut.run(Op::Turns(vec![0, 1, 1, 2, 2], 2))?;
    assert_eq!((q.number, q.turns, cut.run(Op::Last(2))?.answer), (0, 2, OPEN));
    total.add(&cut);
    p.put(Place::Workers(2 * RECORD + LEVEL), 1);
    let q = p.run(Op::Turns(vec![1, 0, 2, 1], 99))?;
    assert_eq!((q.number, q.turns, q.exchanges, p.run(Op::Last(1))?.answer), (6, 1, none, ABSENT));
    total.add(&p);
    Ok(())
}

// Worker 0 places a pixel over a full chain, which moves down to the last depth but one; before each of its turns a viewer, on a copy, finds each pixel of the
// chain with its node, and the new one and a further one are absent.
fn at_each_turn_of_a_move(width: u32, total: &mut Total) -> Compared<()> {
    let what = format!("a viewer at each turn of a Move, width {width}");
    let mut p = opened(total, with_viewers(1, settings(2, 2, 4, width)), 0, 7, &what)?;
    let (new, further) = (model::divisor(width, last_depth(width) - 1), 2);
    whole(&mut p, 0, 0)?;
    whole(&mut p, 0, 1)?;
    p.run(start(0, new))?;
    let mut ended = false;
    while !ended {
        let mut copy = p.again();
        for (pixel, wanted) in [(0, (FOUND, 0)), (1, (FOUND, 1)), (new, (ABSENT, 0)), (further, (ABSENT, 0))] {
            assert_eq!(whole(&mut copy, 1, pixel)?, wanted, "{what}: pixel {pixel}");
        }
        total.add(&copy);
        ended = p.run(Op::Turn(0))?.answer == NEW;
    }
    assert_eq!((whole(&mut p, 1, new)?, whole(&mut p, 1, further)?), ((FOUND, 2), (ABSENT, 0)), "{what}: at its end");
    total.add(&p);
    Ok(())
}

// Viewers' calls that are open while a chain moves, for a pixel of the chain, for the new one and for a further one. One that ends once the new pixel is placed
// finds it, whenever it has started; one for the further pixel is always absent.
fn open_beside_a_move(width: u32, r: &mut Random, total: &mut Total) -> Compared<()> {
    let what = format!("viewers open beside a Move, width {width}");
    let limit = 1 + r.below(3) as u32;
    let mut p = opened(total, with_viewers(15, settings(16, limit, limit + 1, width)), 0, 7, &what)?;
    let (new, further) = (limit, limit + 1);
    for pixel in 0..limit {
        assert_eq!(whole(&mut p, 0, pixel)?, (NEW, pixel), "{what}");
    }
    p.run(start(0, new))?;
    let mut looked_up = [0; 16];
    let mut placed = false;
    // some rounds more, so that each open call ends
    let mut rounds = 0;
    while rounds < 400 {
        let i = if placed { 1 + r.below(15) as u32 } else { r.below(30) as u32 % 16 };
        let q = p.run(Op::Turn(i))?;
        match (i, q.answer) {
            (_, OPEN) => {}
            (0, answer) => {
                assert!(answer == NEW || placed, "{what}: {answer}");
                placed = true;
            }
            (_, NOTHING) => {
                looked_up[i as usize] = r.pick(&[0, limit - 1, new, new, further]);
                p.run(view(i, looked_up[i as usize]))?;
            }
            (_, answer) => {
                let pixel = looked_up[i as usize];
                let wanted = if pixel < limit || pixel == new && placed { (FOUND, pixel) } else { (ABSENT, 0) };
                assert_eq!((answer, q.node), wanted, "{what}: pixel {pixel}, limit {limit}");
            }
        }
        rounds += placed as u32;
    }
    total.add(&p);
    Ok(())
}

// "Striking all viewers' starts and turns from a sequence leaves every other worker's answers, all nodes and all levels the same."
pub fn struck(width: u32, seed: u64, total: &mut Total) -> Compared<()> {
    let r = &mut Random::new(seed);
    let workers = 2 + r.below(15) as u32;
    let s = settings(workers, r.pick(&[1, 1, 2, 3, 8]), 1 + r.below(48) as u32, width);
    let s = with_viewers(1 + r.below(workers as u64 - 1) as u32, s);
    let spread = r.pick(&[2, 3, 4, 6]);
    let mut all = opened(total, s, 0, 7, &format!("struck {seed} {width}, all events"))?;
    let mut left = opened(total, s, 0, 7, &format!("struck {seed} {width}, viewers' events struck"))?;
    let others = RECORD * s.placing() as usize;
    let mut count = 0;
    for _ in 0..1200 {
        let op = some_event(r, &all, spread);
        let got = all.run(op.clone())?;
        let op = match op {
            Op::Turns(list, limit) => Op::Turns(list.into_iter().filter(|&i| !s.views(i as u32)).collect(), limit),
            Op::Start(i, ..) | Op::View(i, ..) | Op::Turn(i) | Op::Last(i) if s.views(i) && i < workers => {
                count += 1;
                continue;
            }
            op => op,
        };
        let mut wanted = left.run(op.clone())?;
        // viewers' turns count among those done by a list
        if let Op::Turns(..) = op {
            assert!(wanted.turns <= got.turns, "{}: {op:?}", left.what);
            wanted.turns = got.turns;
        }
        assert_eq!(got, wanted, "{}: {op:?}", left.what);
        let (a, b) = (&all.table, &left.table);
        let same = a.settings == b.settings && a.areas.nodes == b.areas.nodes && a.areas.levels == b.areas.levels;
        assert!(same && a.areas.workers[..others] == b.areas.workers[..others], "{}: {op:?}: other words", left.what);
    }
    assert!(count > 0, "{}: nothing was struck", left.what);
    total.add(&all);
    total.add(&left);
    Ok(())
}

// any operation but an opening, of any worker; mostly those that are carried out
fn some_event(r: &mut Random, p: &Pair, spread: u64) -> Op {
    let s = p.table.settings;
    let i = r.below(s.workers as u64) as u32;
    let pixel = clustered(r, spread);
    match r.below(24) {
        // a limit could end the two lists at different entries
        0 => Op::Turns((0..r.below(20)).map(|_| r.below(s.workers as u64) as u8).collect(), u32::MAX),
        1 => Op::Last(i),
        2 => call(&s, i, pixel),
        3 => other_call(&s, i, pixel),
        4 => call(&s, i, r.pick(&[(4096, 0), (0, 4096)])),
        5 => Op::Turn(s.workers + i),
        _ if p.table.areas.workers[RECORD * i as usize + KIND] == 0 => call(&s, i, pixel),
        _ => Op::Turn(i),
    }
}
