// Each question's number just inside and just outside its case, for each operation that asks it, at each digit width; their order; lists with every limit.
// That a refusal changes nothing is checked after every operation (pair.rs). Question 6 has its own tests (six.rs).
use crate::coverage::Total;
use crate::model::{self, last_depth, Areas, Settings, FULL, NEW, WIDTHS};
use crate::pair::{Compared, Op, Pair};
use crate::random::Random;
use crate::sequences::{call, of_width, opened, pixel, settings, sized, start, whole};
use crate::table;
use crate::words::{Place, ANSWER, HELD_NODE, KIND, LEVEL, RECORD};

pub fn all(width: u32, seed: u64, total: &mut Total) -> Compared<()> {
    question_1(width, total)?;
    no_width(width, total)?;
    question_2(width, total)?;
    question_3(width, total)?;
    question_4(width, total)?;
    questions_5_7_8(width, total)?;
    question_17(width, total)?;
    question_9(width, total)?;
    order(width, total)?;
    lists(width, seed, total)
}

// One of each operation with its number where nothing else is refused, in an order in which a fresh table carries them out: the first worker's and the last
// worker's call, of which one is refused by 17 where all are viewers or none is, and the rest for a worker with a call open.
fn each(s: &Settings) -> [(Op, u32); 6] {
    let last = s.workers.wrapping_sub(1);
    let i = if s.views(0) { last } else { 0 };
    let wrong = |is_wrong: bool| if is_wrong { 17 } else { 0 };
    [
        (Op::Open, 0),
        (Op::Start(0, 0, 0), wrong(s.views(0))),
        (Op::View(last, 0, 0), wrong(!s.views(last))),
        (Op::Turn(i), 0),
        (Op::Turns(vec![i as u8], 1), 0),
        (Op::Last(i), 0),
    ]
}

// each of them gives this number, or its own where this is 0
fn each_gives(p: &mut Pair, number: u32) -> Compared<()> {
    each(&p.table.settings).into_iter().try_for_each(|(op, own)| gives(p, op, if number == 0 { own } else { number }))
}

fn gives(p: &mut Pair, op: Op, number: u32) -> Compared<()> {
    let got = p.run(op.clone())?.number;
    assert_eq!(got, number, "{}: {op:?}, {:?}", p.what, p.table.settings);
    Ok(())
}

// workers, limit and nodes in range, and out of it
const INSIDE: [(u32, u32, u32); 6] = [(1, 1, 1), (16, 1, 1), (1, 8, 1), (1, 1, 4096), (16, 8, 4096), (16, 1, 4096)];
const OUTSIDE: [(u32, u32, u32); 9] =
    [(0, 1, 1), (17, 1, 1), (u32::MAX, 1, 1), (1, 0, 1), (1, 9, 1), (1, u32::MAX, 1), (1, 1, 0), (1, 1, 4097), (1, 1, u32::MAX)];

fn question_1(width: u32, total: &mut Total) -> Compared<()> {
    for ((workers, limit, nodes), number) in INSIDE.map(|x| (x, 0)).into_iter().chain(OUTSIDE.map(|x| (x, 1))) {
        // of the largest tables a few
        for (viewers, too_many) in viewers_of(workers).into_iter().take(if nodes == 4096 { 3 } else { 8 }) {
            let enough = sized(&settings(workers.clamp(1, 17), limit.clamp(1, 8), nodes.clamp(1, 4097), width), 0, 1);
            let s = Settings { viewers, ..settings(workers, limit, nodes, width) };
            let mut p = total.pair(s, enough, "question 1");
            each_gives(&mut p, number.max(too_many as u32))?;
            total.add(&p);
        }
    }
    Ok(())
}

// numbers of viewers, and whether they are too many: none, all, one more, one, and numbers that are in range where bits above the fifth, eighth, sixteenth or
// last are lost
fn viewers_of(workers: u32) -> [(u32, bool); 8] {
    [0, workers, workers.saturating_add(1), 1, 32, 256, 65_536, 1 << 31].map(|viewers| (viewers, viewers > workers))
}

// other widths: near the four, divisors of 24, and numbers that are one of the four where bits above the fifth, sixth, eighth, sixteenth or last are lost
const NO_WIDTHS: [u32; 16] = [0, 1, 5, 7, 8, 9, 10, 12, 24, 32, 32 + 3, 64 + 4, 256 + 6, 65_536 + 2, (1 << 31) + 3, u32::MAX];

// "another width is refusal 1", before everything that the width is needed for: with all else sound, and with each of the later questions answered no too
pub fn no_width(width: u32, total: &mut Total) -> Compared<()> {
    let edits: &[fn(&mut Areas, &mut Settings)] = &[
        // the level area that width 12 would have is there
        |a, _| a.levels.resize(30_000, 4),
        |_, s| s.workers = 0,
        |_, s| s.workers = 17,
        |_, s| s.limit = 0,
        |_, s| s.limit = 9,
        |_, s| s.nodes = 0,
        |_, s| s.nodes = u32::MAX,
        |_, s| s.viewers = 4,
        |_, s| (s.workers, s.limit, s.nodes) = (0, 0, 0),
        |a, _| a.nodes.truncate(9),
        |a, _| a.levels.truncate(1),
        |a, _| a.workers.truncate(767),
        |a, _| (a.nodes, a.levels, a.workers) = (vec![], vec![], vec![]),
        |a, s| (a.levels, s.limit) = (vec![], 0),
        |_, s| s.nodes_taken = 6,
        |_, s| s.levels_taken = 0,
        |_, s| s.levels_taken = u32::MAX,
        |a, _| a.workers[KIND] = 23,
        |a, _| a.workers[ANSWER] = 4,
    ];
    let s = Settings { viewers: 1, ..settings(3, 2, 5, width) };
    let ops = each(&s).into_iter().map(|x| x.0).chain([
        Op::Start(3, 0, 0),
        Op::Start(0, 4096, 0),
        Op::Start(2, 0, 0),
        Op::View(3, 0, 0),
        Op::View(2, 4096, 0),
        Op::View(0, 0, 0),
        Op::Turn(3),
        Op::Turns(vec![0, 3], 0),
        Op::Turns(vec![], 0),
        Op::Last(3),
    ]);
    let ops: Vec<Op> = ops.collect();
    let before = opened(total, s, 0, 4, "no width")?;
    for none in NO_WIDTHS {
        for edit in edits {
            let mut p = before.again();
            p.edit(|a, s| {
                edit(a, s);
                s.width = none;
            });
            ops.iter().try_for_each(|op| gives(&mut p, op.clone(), 1))?;
            total.add(&p);
        }
    }
    Ok(())
}

// The level count at every width against its formula, in which viewers count as workers; 0 for settings out of range, another width and more viewers than
// workers among them.
pub fn level_counts() {
    let count = |(workers, limit, nodes): (u32, u32, u32), width: u32| table::level_count(&settings(workers, limit, nodes, width));
    for (width, seven) in WIDTHS.into_iter().zip([11, 7, 5, 3]) {
        for workers in 1..=16 {
            for limit in 1..=8 {
                for nodes in 1..=4096 {
                    assert_eq!(count((workers, limit, nodes), width), 1 + seven * (nodes / limit) + workers, "{workers}, {limit}, {nodes}, {width}");
                }
            }
        }
        OUTSIDE.into_iter().for_each(|sizes| assert_eq!(count(sizes, width), 0, "{sizes:?}, {width}"));
    }
    for none in NO_WIDTHS {
        INSIDE.into_iter().chain(OUTSIDE).for_each(|sizes| assert_eq!(count(sizes, none), 0, "{sizes:?}, {none}"));
    }
    for (width, workers) in WIDTHS.into_iter().flat_map(|width| (1..=16).map(move |workers| (width, workers))) {
        let s = settings(workers, 3, 100, width);
        let told = |viewers: u32| table::level_count(&Settings { viewers, ..s });
        assert!((0..=workers).all(|viewers| told(viewers) as u64 == model::level_count(&s)), "{workers} workers, viewers among them");
        let outside = (workers + 1..40).chain(viewers_of(workers).into_iter().filter(|x| x.1).map(|x| x.0));
        outside.for_each(|viewers| assert_eq!(told(viewers), 0, "{viewers} viewers of {workers} workers"));
    }
}

fn area(a: &mut Areas, which: usize) -> &mut Vec<u32> {
    match which {
        0 => &mut a.nodes,
        1 => &mut a.levels,
        _ => &mut a.workers,
    }
}

// each area empty, short by one word, exact, and longer
fn question_2(width: u32, total: &mut Total) -> Compared<()> {
    const EXCESS: u32 = 0xabcd;
    // 26 levels of 6 words, 18 of 10, 14 of 18, 10 of 66; the most nodes with the shortest chains and all workers
    let small = (Settings { viewers: 1, ..settings(3, 2, 5, width) }, [10, of_width(width, [156, 180, 252, 660]), 768]);
    let largest = (Settings { viewers: 15, ..settings(16, 1, 4096, width) }, [8_192, of_width(width, [270_438, 286_890, 368_946, 812_130]), 4_096]);
    for ((s, areas), excesses) in [(small, &[0, 1, 200][..]), (largest, &[0])] {
        for (which, exact) in areas.into_iter().enumerate() {
            let enough = excesses.iter().map(|excess| (exact + excess, 0));
            for (words, number) in [(0, 2), (exact - 1, 2)].into_iter().chain(enough) {
                let mut p = opened(total, s, 0, 4, "question 2")?;
                assert_eq!(area(&mut p.table.areas, which).len(), exact);
                p.edit(|a, _| area(a, which).resize(words, EXCESS));
                each_gives(&mut p, number)?;
                let excess = area(&mut p.table.areas, which).iter().skip(exact);
                assert!(excess.eq(std::iter::repeat_n(&EXCESS, words.saturating_sub(exact))), "the excess is untouched");
                total.add(&p);
            }
        }
    }
    Ok(())
}

fn question_3(width: u32, total: &mut Total) -> Compared<()> {
    // 1 + 7 × floor(5 / 2) + 3 levels, with 11, 7, 5 and 3 for 7
    let all = of_width(width, [26, 18, 14, 10]);
    for (nodes, levels, number) in [(5, 1, 0), (6, 1, 3), (u32::MAX, 1, 3), (0, 0, 3), (0, 1, 0), (0, all, 0), (0, all + 1, 3), (0, u32::MAX, 3)] {
        let mut p = opened(total, Settings { viewers: 1, ..settings(3, 2, 5, width) }, 3, 4, "question 3")?;
        p.edit(|_, s| (s.nodes_taken, s.levels_taken) = (nodes, levels));
        for (op, own) in each(&p.table.settings).into_iter().skip(1) {
            gives(&mut p, op, if number == 0 { own } else { number })?;
        }
        gives(&mut p, Op::Open, 0)?;
        total.add(&p);
    }
    Ok(())
}

fn question_4(width: u32, total: &mut Total) -> Compared<()> {
    for (workers, viewers) in [(1, 0), (1, 1), (3, 0), (3, 2), (16, 0), (16, 16)] {
        let mut p = opened(total, Settings { viewers, ..settings(workers, 2, 5, width) }, 0, 4, "question 4")?;
        for (i, number) in [(workers - 1, 0), (workers, 4), (u32::MAX, 4)] {
            let call = call(&p.table.settings, i, (0, 0));
            gives(&mut p, call, number)?;
            if number == 4 {
                gives(&mut p, Op::Start(i, 4096, 0), 4)?;
                gives(&mut p, Op::View(i, 4096, 0), 4)?;
            }
            gives(&mut p, Op::Turn(i), number)?;
            gives(&mut p, Op::Last(i), number)?;
        }
        let (inside, outside) = (workers as u8 - 1, workers as u8);
        for (list, number) in [
            (vec![inside; 3], 0),
            (vec![outside, inside, inside], 4),
            (vec![inside, 255, inside], 4),
            // entries never reached are asked too
            (vec![inside, inside, outside], 4),
        ] {
            for limit in [0, 1, 3, 9] {
                gives(&mut p, Op::Turns(list.clone(), limit), number)?;
            }
        }
        total.add(&p);
    }
    Ok(())
}

fn questions_5_7_8(width: u32, total: &mut Total) -> Compared<()> {
    let mut p = opened(total, settings(3, 2, 5, width), 0, 4, "questions 5, 7 and 8")?;
    for (row, column) in [(4096, 0), (0, 4096), (4096, 4095), (4095, 4096), (u32::MAX, 0), (0, u32::MAX)] {
        gives(&mut p, Op::Start(0, row, column), 5)?;
    }
    for (i, row, column) in [(0, 4095, 4095), (1, 4095, 0), (2, 0, 4095)] {
        gives(&mut p, Op::Turn(i), 8)?;
        gives(&mut p, Op::Start(i, row, column), 0)?;
        gives(&mut p, Op::Start(i, row, column), 7)?;
        for _ in 0..3 {
            gives(&mut p, Op::Start(i, 0, 0), 7)?;
            gives(&mut p, Op::Turn(i), 0)?;
        }
    }
    // worker 0's call has ended, worker 1 has met its node and goes on
    gives(&mut p, Op::Turn(0), 8)?;
    gives(&mut p, Op::Start(0, 0, 0), 0)?;
    gives(&mut p, Op::Start(1, 0, 0), 7)?;
    total.add(&p);
    Ok(())
}

// 17 with 4, 5 and 7 on either side of it; that it comes before 6 is asked below. Every number of viewers of 1 to 16 workers: the last ones are viewers.
fn question_17(width: u32, total: &mut Total) -> Compared<()> {
    for (workers, viewers) in (1..=16).flat_map(|workers| (0..=workers).map(move |viewers| (workers, viewers))) {
        let mut p = opened(total, Settings { viewers, ..settings(workers, 2, 5, width) }, 0, 4, "question 17")?;
        for i in 0..workers {
            let looks = i + viewers >= workers;
            let call = |looks: bool, i: u32, row: u32| if looks { Op::View(i, row, 0) } else { Op::Start(i, row, 0) };
            let (own, other) = (|i, row| call(looks, i, row), |i, row| call(!looks, i, row));
            gives(&mut p, other(i, 4095), 17)?;
            gives(&mut p, other(i, 4096), 5)?;
            gives(&mut p, other(workers, 0), 4)?;
            gives(&mut p, own(i, 4096), 5)?;
            gives(&mut p, own(i, 4095), 0)?;
            // busy by now
            gives(&mut p, own(i, 4095), 7)?;
            gives(&mut p, other(i, 4095), 17)?;
            gives(&mut p, other(i, 4096), 5)?;
        }
        total.add(&p);
    }
    Ok(())
}

// Take on turn 2 in the root's next entry, TakeTail on turn 4 for (1,1), node 0 having been placed at (0,0): a node left, none left but a spare, none at all.
fn question_9(width: u32, total: &mut Total) -> Compared<()> {
    for (pixel, turn) in [(pixel(width, "1"), 2), (4097, 4)] {
        for (nodes, spare, number) in [(1, false, 9), (2, false, 0), (2, true, 0), (3, true, 0)] {
            let mut p = opened(total, settings(2, 4, nodes, width), 0, 4, "question 9")?;
            gives(&mut p, Op::Start(1, 0, 0), 0)?;
            if spare {
                // worker 1's Put fails
                gives(&mut p, Op::Turns(vec![1, 1], 2), 0)?;
            }
            whole(&mut p, 0, 0)?;
            gives(&mut p, Op::Turns(vec![1; 9], 9), 0)?;
            assert_eq!(p.table.areas.workers[RECORD + HELD_NODE], if spare { 1 } else { 0 });
            gives(&mut p, start(1, pixel), 0)?;
            gives(&mut p, Op::Turns(vec![1; turn - 1], 9), 0)?;
            // 6 is asked before 9: the level is not taken
            p.put(Place::Workers(RECORD + LEVEL), 1);
            gives(&mut p, Op::Turn(1), 6)?;
            p.put(Place::Workers(RECORD + LEVEL), 0);
            gives(&mut p, Op::Turn(1), number)?;
            let (idle, answer) = if number == 9 { (8, FULL) } else { (0, NEW) };
            gives(&mut p, Op::Turn(1), idle)?;
            assert_eq!(p.run(Op::Last(1))?.answer, answer);
            gives(&mut p, Op::Start(1, 0, 0), 0)?;
            total.add(&p);
        }
    }
    Ok(())
}

// All questions answered no at once, then the first `yes` of them yes: the number is that of the first no that the operation asks. Of 3 workers the last is a
// viewer; worker i, who is asked about, is a viewer in one half of the cases.
fn order(width: u32, total: &mut Total) -> Compared<()> {
    for (yes, i) in (0..9).flat_map(|yes| [(yes, 1), (yes, 2)]) {
        let asked = if yes < 4 { 3 } else { i };
        let row = if yes < 5 { 4096 } else { 0 };
        let start = [1, 2, 3, 4, 5, 17, 6, 7, 0][yes];
        let turn = [1, 2, 3, 4, 6, 6, 6, 0, 8][yes];
        let list = [1, 2, 3, 4, 6, 6, 6, 0, 0][yes];
        let open = [1, 2, 0, 0, 0, 0, 0, 0, 0][yes];
        let looks = (i == 2) == (yes >= 6);
        let call = if looks { Op::View(asked, row, 0) } else { Op::Start(asked, row, 0) };
        for (op, number) in
            [(call, start), (Op::Turn(asked), turn), (Op::Turns(vec![0, asked as u8], 9), list), (Op::Last(asked), list), (Op::Open, open)]
        {
            // an idle worker's record that does not fit, and an open one's
            for (word, v) in [(KIND, 23), (ANSWER, 4)] {
                if word == ANSWER && yes >= 7 {
                    continue;
                }
                let mut p = faulty(width, total, yes, i, word, v)?;
                gives(&mut p, op.clone(), number)?;
                total.add(&p);
            }
        }
    }
    Ok(())
}

fn faulty(width: u32, total: &Total, yes: usize, i: u32, word: usize, v: u32) -> Compared<Pair> {
    let s = Settings { viewers: 1, ..settings(3, 2, 5, width) };
    let mut p = opened(total, s, 0, 4, "the order of the questions")?;
    if yes < 8 && word == KIND {
        p.run(call(&s, i, (0, 0)))?;
    }
    if yes < 7 {
        p.put(Place::Workers(RECORD * i as usize + word), v);
    }
    // each of the sizes that question 1 is about, by turns
    p.edit(|a, s| {
        if yes < 3 {
            s.nodes_taken = 6;
        }
        if yes < 2 {
            a.nodes.pop();
        }
        if yes < 1 {
            *(if i == 1 { &mut s.limit } else { &mut s.viewers }) = 9;
        }
    });
    Ok(p)
}

// Lists of turns with every limit beside single turns: the same table, number and turns done.
fn lists(width: u32, seed: u64, total: &mut Total) -> Compared<()> {
    let r = &mut Random::new(seed);
    let list: Vec<u8> = (0..60).map(|_| r.below(4) as u8).collect();
    // nothing spoilt; the same with one node; the root's depth, from the tenth entry on; the record of worker 3, which is idle
    let nothing: &[(Place, u32)] = &[];
    let level: &[(Place, u32)] = &[(Place::Levels(1), last_depth(width) + 1)];
    let record: &[(Place, u32)] = &[(Place::Workers(3 * RECORD + ANSWER), 4)];
    let mut met = [0; 2];
    for (nodes, limit, first, spoilt) in [(6, 1, 0, nothing), (1, 4, 0, nothing), (6, 1, 9, level), (6, 1, 0, record)] {
        let s = settings(4, limit, nodes, width);
        for turns in (0..=62).chain([u32::MAX]) {
            let mut a = opened(total, s, 0, 5, "lists")?;
            let mut b = opened(total, s, 0, 5, "lists, turn by turn")?;
            for p in [&mut a, &mut b] {
                for (i, pixel) in [(0, 0), (1, 7), (2, 7)] {
                    p.run(start(i, pixel))?;
                }
                p.run(Op::Turns(list[..first].to_vec(), 9))?;
                for &(place, v) in spoilt {
                    p.put(place, v);
                }
            }
            let got = a.run(Op::Turns(list.clone(), turns))?;
            let (number, done) = turn_by_turn(&mut b, &list, turns)?;
            assert_eq!((got.number, got.answer, got.turns), (number, model::NOTHING, done), "limit {turns}");
            assert!(a.table.areas == b.table.areas && got.settings == b.table.settings, "limit {turns}");
            met[(number == 6) as usize] += 1;
            total.add(&a);
        }
    }
    assert!(met[0] > 128 && met[1] > 32, "width {width}: lists that did not meet 6 and lists that did: {met:?}");
    Ok(())
}

fn turn_by_turn(p: &mut Pair, list: &[u8], limit: u32) -> Compared<(u32, u32)> {
    let mut done = 0;
    for &i in list {
        if done == limit {
            break;
        }
        match p.run(Op::Turn(i as u32))?.number {
            6 => return Ok((6, done)),
            8 => {}
            _ => done += 1,
        }
    }
    Ok((0, done))
}
