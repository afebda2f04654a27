// Document 01's examples by name, with its numbers as document 02 has changed them: the bench cases on the running table, and every other one, at each width.
use crate::coverage::Total;
use crate::model::{divisor, entries, last_depth, level_words, Kind, FOUND, FULL, KINDS, NEW, NONE, NOTHING, OPEN, WIDTHS};
use crate::pair::{Compared, Op, Pair};
use crate::sequences::{of_width, opened, pixel, settings, sized, start, whole};
use crate::table;
use crate::words::{level_at, Place, KIND, LEVEL, NODE, TOP};

pub fn all(width: u32, total: &mut Total) -> Compared<()> {
    bench_cases(width, total)?;
    printed_race(width, total)?;
    turns_of_p6(width, total)?;
    opening(width, total)?;
    pixels_and_words(width, total)?;
    divisors(width, total)?;
    last_answers(width, total)?;
    lists_of_turns(width, total)?;
    the_whole_way_back(width, total)
}

// What is expected: (worker, row, column, number) of a start; (worker, turns, number, answer, node) of turns whose last one alone ends the call;
// (nodes taken, levels taken).
enum Line {
    Start(u32, u32, u32, u32),
    Runs(u32, u32, u32, u32, u32),
    Taken(u32, u32),
}
use Line::{Runs, Start, Taken};

// workers, chain limit, nodes and width
type Opened = (u32, u32, u32, u32);

fn row(total: &mut Total, name: &str, (workers, limit, nodes, width): Opened, lines: &[Line]) -> Compared<()> {
    let name = &format!("{name}, width {width}");
    let mut p = opened(total, settings(workers, limit, nodes, width), 0, 7, name)?;
    for line in lines {
        match *line {
            Start(i, r, c, number) => assert_eq!(p.run(Op::Start(i, r, c))?.number, number, "{name}"),
            Runs(i, k, number, answer, node) => {
                for turn in 1..=k {
                    let q = p.run(Op::Turn(i))?;
                    let wanted = if turn == k { (number, answer, node) } else { (0, OPEN, 0) };
                    assert_eq!((q.number, q.answer, q.node), wanted, "{name}: turn {turn} of {k}");
                }
            }
            Taken(n, g) => assert_eq!((p.table.settings.nodes_taken, p.table.settings.levels_taken), (n, g), "{name}"),
        }
    }
    total.add(&p);
    Ok(())
}

const FIRST: [Line; 2] = [Start(0, 0, 0, 0), Runs(0, 3, 0, NEW, 0)];

fn after_first(total: &mut Total, name: &str, sizes: Opened, lines: Vec<Line>) -> Compared<()> {
    row(total, name, sizes, &FIRST.into_iter().chain(lines).collect::<Vec<_>>())
}

// turns of P6's second call and levels taken
fn p6(width: u32) -> (u32, u32) {
    of_width(width, [(124, 12), (80, 8), (58, 6), (36, 4)])
}

fn bench_cases(width: u32, total: &mut Total) -> Compared<()> {
    // the row that has the root's next entry: 512 at width 3
    let apart = pixel(width, "1") / 4096;
    assert!(width != 3 || apart == 512);
    after_first(total, "P1", (1, 4, 8, width), vec![Taken(1, 1)])?;
    after_first(total, "P2", (1, 4, 8, width), vec![Start(0, 0, 0, 0), Runs(0, 2, 0, FOUND, 0)])?;
    after_first(total, "P3", (1, 4, 8, width), vec![Start(0, 0, 1, 0), Runs(0, 5, 0, NEW, 1)])?;
    let race = |more: Vec<Line>| {
        let one = |i| Runs(i, 1, 0, OPEN, 0);
        let turns = vec![Start(0, 0, 0, 0), Start(1, 0, 0, 0), one(0), one(1), one(0), one(1), Runs(0, 1, 0, NEW, 0), Runs(1, 1, 0, FOUND, 0)];
        turns.into_iter().chain(more).collect::<Vec<_>>()
    };
    row(total, "P4", (2, 4, 8, width), &race(vec![Taken(2, 1)]))?;
    row(total, "P5", (2, 4, 8, width), &race(vec![Start(1, apart, 0, 0), Runs(1, 3, 0, NEW, 1), Taken(2, 1)]))?;
    let (turns, levels) = p6(width);
    after_first(total, "P6", (1, 1, 2, width), vec![Start(0, 0, 1, 0), Runs(0, turns, 0, NEW, 1), Taken(2, levels)])?;
    after_first(total, "P7", (1, 4, 1, width), vec![Start(0, 1, 1, 0), Runs(0, 4, 9, FULL, 0), Taken(1, 1)])?;
    after_first(total, "P8", (1, 4, 1, width), vec![Start(0, apart, 0, 0), Runs(0, 2, 9, FULL, 0), Taken(1, 1)])?;
    after_first(total, "P9", (1, 4, 1, width), vec![Start(0, 0, 0, 0), Runs(0, 2, 0, FOUND, 0)])?;
    row(total, "P10", (1, 4, 1, width), &[Start(0, 4096, 0, 5), Start(0, 4095, 0, 0)])?;
    after_first(total, "P11", (1, 8, 1, width), vec![])?;
    for limit in [0, 9] {
        let mut p = total.pair(settings(1, limit, 1, width), sized(&settings(1, 1, 1, width), 0, 7), "P11");
        assert_eq!(p.run(Op::Open)?.number, 1, "limit {limit}");
        total.add(&p);
    }
    row(total, "P12", (16, 8, 1, width), &[Start(16, 0, 0, 4), Start(15, 0, 0, 0)])?;
    row(total, "worker 16 of 16 in row 4,096: 4 before 5", (16, 8, 1, width), &[Start(16, 4096, 0, 4)])
}

// The lines of the text program's example on the operations: what it prints between header and end line, and that line. "In the printed race worker 1
// ends a turn earlier and line 10 prints `refused,10,8`." The text program has width 3; the lines give the same at every width.
fn printed_race(width: u32, total: &mut Total) -> Compared<()> {
    let input = "s,2,4,8 c,0,0,0 c,1,0,0 t,0 t,1 t,0 t,1 t,0 t,1 t,1";
    let output = "0,0,0,new,0 1,0,0,found,0 refused,10,8 end,2,1";
    let lines: Vec<Vec<&str>> = input.split(' ').map(|line| line.split(',').collect()).collect();
    let number = |line: usize, field: usize| lines[line][field].parse::<u32>().unwrap();
    let mut p = opened(total, settings(number(0, 1), number(0, 2), number(0, 3), width), 0, 0, "the printed race")?;
    let (mut printed, mut pixel) = (vec![], [(0, 0); 2]);
    for (k, fields) in lines.iter().enumerate().skip(1) {
        let i = number(k, 1);
        if fields[0] == "c" {
            pixel[i as usize] = (number(k, 2), number(k, 3));
            assert_eq!(p.run(Op::Start(i, number(k, 2), number(k, 3)))?.number, 0);
            continue;
        }
        let q = p.run(Op::Turn(i))?;
        if q.number != 0 {
            printed.push(format!("refused,{},{}", k + 1, q.number));
        } else if q.answer != OPEN {
            let (row, column) = pixel[i as usize];
            printed.push(format!("{i},{row},{column},{},{}", ["none", "new", "found", "full"][q.answer as usize], q.node));
        }
    }
    printed.push(format!("end,{},{}", p.table.settings.nodes_taken, p.table.settings.levels_taken));
    assert_eq!(printed.join(" "), output);
    total.add(&p);
    Ok(())
}

// P6 turn by turn: eleven turns for each level but the root, then three.
fn turns_of_p6(width: u32, total: &mut Total) -> Compared<()> {
    use Kind::*;
    let mut p = opened(total, settings(1, 1, 2, width), 0, 7, &format!("the turns of P6, width {width}"))?;
    whole(&mut p, 0, 0)?;
    p.run(Op::Start(0, 0, 1))?;
    let mut kinds = vec![];
    for _ in 0..p6(width).0 {
        kinds.push(KINDS[p.table.areas.workers[KIND] as usize]);
        p.run(Op::Turn(0))?;
    }
    let level = [Look, Read, Tail, Level, Close, ChainHead, ChainNext, SetNext, SetLook, SetPut, MoveEnd];
    assert_eq!(kinds, [level.repeat(last_depth(width) as usize), vec![Look, Take, Put]].concat());
    total.add(&p);
    Ok(())
}

// "Opening sets nodes taken 0, levels taken 1, writes level 0 and zeroes the workers' words. Every other word keeps its content."
fn opening(width: u32, total: &mut Total) -> Compared<()> {
    let mut s = settings(2, 4, 8, width);
    (s.nodes_taken, s.levels_taken) = (77, 0);
    let mut wanted = sized(&s, 5, 9);
    let mut p = total.pair(s, wanted.clone(), &format!("an opening, width {width}"));
    let q = p.run(Op::Open)?;
    assert_eq!((q.number, q.settings), (0, settings(2, 4, 8, width)));
    wanted.levels[0] = 4_294_967_295;
    wanted.levels[1..level_words(width)].fill(0);
    wanted.workers[..2 * 256].fill(0);
    assert_eq!(p.table.areas, wanted);
    total.add(&p);
    Ok(())
}

// "row × 4,096 + column", the words of nodes and levels, "an empty entry refers to its own level", "a chain ends in a reference to its level"
fn pixels_and_words(width: u32, total: &mut Total) -> Compared<()> {
    let mut p = opened(total, settings(1, 1, 4, width), 0, 7, &format!("pixels and words, width {width}"))?;
    for (row, column, pixel) in [(0, 0, 0), (1, 1, 4097), (4095, 4095, TOP)] {
        p.run(Op::Start(0, row, column))?;
        assert_eq!(p.table.areas.workers[1], pixel);
        while p.run(Op::Turn(0))?.answer == OPEN {}
    }
    let (n, l) = (&p.table.areas.nodes, &p.table.areas.levels);
    // 0 and 4,097, octal 00010001, share their first eleven bits of 24, three octal digits, and part at digit 1; TOP stands in the root's last entry
    let parts = 11 / width;
    assert!(width != 3 || parts == 3);
    assert_eq!(n[..6], [0, 2 * parts, 4097, 2 * parts, TOP, 0]);
    for g in 0..=parts {
        let mut wanted = [vec![g.wrapping_sub(1), g], vec![2 * g; entries(width) as usize]].concat();
        wanted[2] = 2 * (g + 1);
        if g == 0 {
            assert_eq!(wanted[0], NONE);
            *wanted.last_mut().unwrap() = 5;
        }
        if g == parts {
            wanted[2..4].copy_from_slice(&[1, 3]);
        }
        assert_eq!(l[level_at(width, g)..level_at(width, g + 1)], wanted, "level {g}");
    }
    total.add(&p);
    Ok(())
}

// "its digit at depth d (0 is leftmost) picks the entry in a level of depth d": e divisors beside pixel 0 part from it at depth d, at entry e.
fn divisors(width: u32, total: &mut Total) -> Compared<()> {
    let of_document_01 = [2_097_152, 262_144, 32_768, 4_096, 512, 64, 8, 1];
    assert!((0..8).map(|d| divisor(3, d)).eq(of_document_01));
    for d in 0..=last_depth(width) {
        for e in 1..entries(width) {
            let mut p = opened(total, settings(1, 1, 2, width), 0, 7, &format!("divisors, width {width}"))?;
            assert_eq!(whole(&mut p, 0, 0)?, (NEW, 0));
            assert_eq!(whole(&mut p, 0, e * divisor(width, d))?, (NEW, 1));
            let mut wanted = [vec![d], vec![2 * d; entries(width) as usize]].concat();
            (wanted[1], wanted[1 + e as usize]) = (1, 3);
            assert_eq!(p.table.settings.levels_taken, d + 1, "depth {d}, entry {e}");
            assert_eq!(p.table.areas.levels[level_at(width, d) + 1..level_at(width, d + 1)], wanted, "depth {d}, entry {e}");
            total.add(&p);
        }
    }
    Ok(())
}

// "Reading a last answer gives "none" before a worker's first end and "open" during a call."
fn last_answers(width: u32, total: &mut Total) -> Compared<()> {
    let mut p = opened(total, settings(2, 4, 2, width), 0, 7, &format!("last answers, width {width}"))?;
    let last = |p: &mut Pair, i: u32, answer: u32, node: u32| -> Compared<()> {
        let q = p.run(Op::Last(i))?;
        assert_eq!((q.number, q.answer, q.node), (0, answer, node));
        Ok(())
    };
    last(&mut p, 0, NOTHING, 0)?;
    for (digits, turns, answer, node) in [("0", 3, NEW, 0), ("1", 3, NEW, 1), ("1", 2, FOUND, 1), ("2", 2, FULL, 0), ("0", 2, FOUND, 0)] {
        p.run(start(0, pixel(width, digits)))?;
        for _ in 0..turns {
            last(&mut p, 0, OPEN, 0)?;
            p.run(Op::Turn(0))?;
        }
        last(&mut p, 0, answer, node)?;
    }
    last(&mut p, 1, NOTHING, 0)?;
    total.add(&p);
    Ok(())
}

// "Entries of idle workers are skipped", "It ends at the list's end, once as many turns are done as the limit, or at a 6", ""full" included",
// "the one that met 6 not", "Limit 0 does none".
fn lists_of_turns(width: u32, total: &mut Total) -> Compared<()> {
    let mut p = opened(total, settings(3, 4, 1, width), 0, 7, &format!("lists of turns, width {width}"))?;
    let list = |p: &mut Pair, l: &[u8], limit: u32, number: u32, turns: u32| -> Compared<()> {
        let q = p.run(Op::Turns(l.to_vec(), limit))?;
        assert_eq!((q.number, q.answer, q.turns), (number, NOTHING, turns), "{l:?}, limit {limit}");
        Ok(())
    };
    list(&mut p, &[], 9, 0, 0)?;
    p.run(Op::Start(1, 0, 0))?;
    list(&mut p, &[1, 1, 1], 0, 0, 0)?;
    list(&mut p, &[0, 1, 2, 1, 0], 9, 0, 2)?;
    list(&mut p, &[2, 1, 1, 1], 9, 0, 1)?;
    assert_eq!(p.run(Op::Last(1))?.answer, NEW);
    // worker 1 is full on its second turn, worker 2 on its fourth; the list goes on after either
    p.run(start(1, pixel(width, "1")))?;
    p.run(Op::Start(2, 1, 1))?;
    list(&mut p, &[1, 1, 1, 2, 2, 2, 2, 2], 9, 0, 6)?;
    assert_eq!((p.run(Op::Last(1))?.answer, p.run(Op::Last(2))?.answer), (FULL, FULL));
    // worker 0 meets 6: its level is not taken
    p.run(Op::Start(0, 0, 0))?;
    p.run(Op::Start(1, 0, 0))?;
    p.put(Place::Workers(LEVEL), 1);
    list(&mut p, &[1, 0, 1], 1, 0, 1)?;
    list(&mut p, &[1, 0, 1], 9, 6, 1)?;
    assert_eq!(p.run(Op::Last(1))?.answer, FOUND);
    total.add(&p);
    Ok(())
}

// "going back .. within 7 moves (previous words read)", or as many as the last depth: worker 0 stands at node 0 with H the root while worker 1 moves that node
// down to that depth.
fn the_whole_way_back(width: u32, total: &mut Total) -> Compared<()> {
    let mut p = opened(total, settings(2, 1, 4, width), 0, 7, &format!("the whole way back, width {width}"))?;
    whole(&mut p, 0, 0)?;
    p.run(Op::Start(0, 0, 1))?;
    p.run(Op::Turns(vec![0, 0], 2))?;
    whole(&mut p, 1, 2)?;
    p.run(Op::Turn(0))?;
    let w = |p: &Pair, k: usize| p.table.areas.workers[k];
    assert_eq!((w(&p, KIND), w(&p, LEVEL), w(&p, NODE), p.table.areas.nodes[1]), (Kind::Follow as u32, 0, 0, 2 * last_depth(width)));
    p.run(Op::Turn(0))?;
    assert_eq!((w(&p, KIND), w(&p, LEVEL)), (Kind::Look as u32, 1));
    total.add(&p);
    Ok(())
}

// "The level area holds 1 + 7 × floor(nodes / chain limit) + workers levels", with 11, 7, 5 and 3 for 7.
pub fn level_counts() {
    for (workers, limit, nodes, counts) in [
        (1, 1, 1, [13, 9, 7, 5]),
        (1, 1, 2, [24, 16, 12, 8]),
        (2, 4, 8, [25, 17, 13, 9]),
        (3, 4, 7, [15, 11, 9, 7]),
        (1, 8, 7, [2, 2, 2, 2]),
        (16, 4, 4096, [11_281, 7_185, 5_137, 3_089]),
        (16, 8, 4096, [5_649, 3_601, 2_577, 1_553]),
        (16, 1, 4096, [45_073, 28_689, 20_497, 12_305]),
    ] {
        for (width, count) in WIDTHS.into_iter().zip(counts) {
            assert_eq!(table::level_count(&settings(workers, limit, nodes, width)), count, "{workers}, {limit}, {nodes}, width {width}");
        }
    }
}
