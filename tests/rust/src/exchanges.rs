// Document 02's failed exchanges in written races: "After a failed Put the call acts on that word as Read does, in the same turn; after a failed
// Append or Close as Follow does; the same inside a Move." Each kind fails on each kind of word that it can meet; what it held stays held.
use crate::coverage::Total;
use crate::model::{Exchanges, Kind, Kind::*, FOUND, NEW};
use crate::pair::{Compared, Op, Pair};
use crate::sequences::{opened, pixel, settings, stand_before, start, whole};
use crate::words::{level_at, ANSWER, ANSWER_NODE, COUNT, HELD_LEVEL, KIND, LEVEL, NODE, RECORD};

// Worker 0 places pixels whole. Worker 1's call comes to stand before each of the kinds named, and worker 0 places further pixels meanwhile; then
// worker 1's exchange fails, and its record is the one before with these words. A pixel is written by its digits, then zeros: the same race at every width.
struct Race {
    name: &'static str,
    limit: u32,
    placed: &'static [&'static str],
    stands: &'static [(Kind, &'static [&'static str])],
    then: Vec<(usize, u32)>,
}

// the pixel of worker 1's call
const K: &str = "12";

fn found(n: u32) -> Vec<(usize, u32)> {
    vec![(KIND, Idle as u32), (ANSWER, FOUND), (ANSWER_NODE, n)]
}
fn look(g: u32) -> Vec<(usize, u32)> {
    vec![(KIND, Look as u32), (LEVEL, g)]
}
fn tail(n: u32, count: u32) -> Vec<(usize, u32)> {
    vec![(KIND, Tail as u32), (NODE, n), (COUNT, count)]
}
fn set_next(g: u32) -> Vec<(usize, u32)> {
    vec![(KIND, SetNext as u32), (LEVEL, g)]
}
fn set_tail(n: u32, count: u32) -> Vec<(usize, u32)> {
    vec![(KIND, SetTail as u32), (NODE, n), (COUNT, count)]
}

fn races() -> Vec<Race> {
    let race = |name, limit, placed, stands, then| Race { name, limit, placed, stands, then };
    // K's chain hangs at entry 1 of the root
    vec![
        race("Put meets K's node", 4, &[], &[(Put, &[K])], found(1)),
        race("Put meets another node", 4, &[], &[(Put, &["11"])], tail(1, 1)),
        race("Put meets a level", 1, &[], &[(Put, &["11", "13"])], look(1)),
        race("Append meets K's node", 2, &["11"], &[(Append, &[K])], found(2)),
        race("Append meets another node", 2, &["11"], &[(Append, &["13"])], tail(2, 2)),
        // R has come to level 2, below the child of H
        race("Append meets a level", 2, &["11"], &[(Append, &["111", "112"])], look(1)),
        // the moved chain is the other way round
        race("Close meets a node, count past the limit", 2, &["11", "111"], &[(Close, &["13"])], tail(0, 3)),
        race("Close meets K's node", 2, &["11", "121"], &[(Close, &["13", K])], found(3)),
        // worker 1 holds level 1; R has come to level 3
        race("Close meets a level", 1, &["11"], &[(Close, &["111"])], look(2)),
        race("SetPut meets a node", 1, &["11"], &[(SetPut, &["111"])], set_tail(1, 1)),
        race("SetPut meets a level", 1, &["11"], &[(SetPut, &["111", "112"])], set_next(2)),
        race("SetAppend meets a node", 2, &["11", "111"], &[(SetAppend, &["112"])], set_tail(2, 2)),
        // R has come to level 3, below the child of level 1
        race("SetAppend meets a level", 2, &["11", "111"], &[(SetAppend, &["1111", "1112"])], set_next(2)),
        race(
            "SetClose meets a node, count past the limit",
            2,
            &["11", "111"],
            &[(SetPut, &[]), (SetLook, &["1111"]), (SetClose, &["112"])],
            set_tail(1, 3),
        ),
        // worker 1 holds level 2; R has come to level 4
        race("SetClose meets a level", 1, &["11"], &[(SetLook, &["111"]), (SetClose, &["1111"])], set_next(3)),
    ]
}

pub fn all(width: u32, total: &mut Total) -> Compared<()> {
    races().iter().try_for_each(|race| run(race, width, total))?;
    spare_level_in_a_move(width, total)
}

fn record(p: &Pair) -> Vec<u32> {
    p.table.areas.workers[RECORD..2 * RECORD].to_vec()
}

fn run(race: &Race, width: u32, total: &mut Total) -> Compared<()> {
    let mut p = opened(total, settings(2, race.limit, 16, width), 0, 7, &format!("{}, width {width}", race.name))?;
    let mut pixels = vec![];
    let mut place = |p: &mut Pair, digits: &'static str| -> Compared<()> {
        pixels.push(digits);
        assert_eq!(whole(p, 0, pixel(width, digits))?.0, NEW, "{}: {digits}", p.what);
        Ok(())
    };
    race.placed.iter().try_for_each(|&digits| place(&mut p, digits))?;
    p.run(start(1, pixel(width, K)))?;
    for &(kind, meanwhile) in race.stands {
        stand_before(&mut p, 1, kind)?;
        meanwhile.iter().try_for_each(|&digits| place(&mut p, digits))?;
    }
    // as a list the turn reports it
    let mut copy = p.again();
    let q = copy.run(Op::Turns(vec![1], 1))?;
    assert_eq!((q.number, q.turns, q.exchanges), (0, 1, Exchanges { done: 0, failed: 1 }), "{}", p.what);
    total.add(&copy);
    let mut wanted = record(&p);
    for &(word, v) in &race.then {
        wanted[word] = v;
    }
    let q = p.run(Op::Turn(1))?;
    assert_eq!((q.number, record(&p)), (0, wanted), "{}", p.what);
    pixels.push(K);
    ends(&mut p, &pixels)?;
    total.add(&p);
    Ok(())
}

// worker 1's call ends, and every pixel is there once
fn ends(p: &mut Pair, pixels: &[&str]) -> Compared<()> {
    while record(p)[KIND] != 0 {
        p.run(Op::Turn(1))?;
    }
    for digits in pixels {
        let pixel = pixel(p.table.settings.width, digits);
        assert_eq!(whole(p, 0, pixel)?.0, FOUND, "{}: {digits}", p.what);
    }
    Ok(())
}

// The level that a failed SetClose leaves spare is the one that the next SetLevel takes, a depth further down. Worker 1 sets the node of "11" into level 1
// and holds level 2 there; "1111" makes levels 3 and 4, and "1101" stands where the node goes in level 3. The Move that then begins is keyed by that node: the
// call's own pixel would lead to "112".
fn spare_level_in_a_move(width: u32, total: &mut Total) -> Compared<()> {
    let mut p = opened(total, settings(2, 1, 16, width), 0, 7, &format!("a spare level in a Move, width {width}"))?;
    let place = |p: &mut Pair, digits: &str| -> Compared<u32> { Ok(whole(p, 0, pixel(width, digits))?.0) };
    let call = "122";
    assert_eq!(place(&mut p, "11")?, NEW);
    p.run(start(1, pixel(width, call)))?;
    for (kind, digits) in [(SetLook, "111"), (SetClose, "1111"), (SetLook, "112"), (SetLook, "1101")] {
        stand_before(&mut p, 1, kind)?;
        assert_eq!(place(&mut p, digits)?, NEW, "{}: {digits}", p.what);
    }
    stand_before(&mut p, 1, SetLevel)?;
    let held = |p: &Pair| (record(p)[LEVEL], record(p)[HELD_LEVEL], p.table.settings.levels_taken);
    assert_eq!(held(&p), (3, 2 + 1, 5));
    p.run(Op::Turn(1))?;
    assert_eq!(held(&p), (3, 2 + 1, 5));
    let level_2 = level_at(width, 2);
    assert_eq!(p.table.areas.levels[level_2..level_2 + 2], [3, 3], "level 2 hangs below level 3, at depth 3");
    ends(&mut p, &["11", "111", "1111", "112", "1101", call])?;
    total.add(&p);
    Ok(())
}
