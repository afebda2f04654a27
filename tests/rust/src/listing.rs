// Listings by document 02's request 01: each "next" on the table and on the model coded apart (next.rs), over memory of any content and amid calls; there each
// listing also against the request's sentences, with what was placed told by the calls' answers. Each memory's flagged count is compared too (counting.rs). What was
// never met fails. Relies on sequences.rs for tables.
use crate::count::Count;
use crate::counting::{self, Counts};
use crate::coverage::{Met, Total};
use crate::model::{self, entries, level_count, level_words, Areas, Ref, Settings, NEW, NONE, WIDTHS};
use crate::next::{self, reached, refused, word, Given, Reached, Rules, Word, AT_END, END, PIXEL, REFUSED, REQUEST, START};
use crate::pair::{Compared, Difference, Op, Pair};
use crate::random::Random;
use crate::sequences::{call, clustered, opened, settings, sized, some_viewers, whole};
use crate::table::Table;
use crate::words::{is_node, level_at, Place, KIND, MOVES, PIXEL as CALLS_PIXEL, RECORD, TOP};
use std::collections::BTreeSet;

// What has to be met at each width.
const MET: [&str; 31] = [
    "pixels given",
    "ends",
    "nexts after the end",
    "refusals by 1",
    "refusals by 2",
    "refusals by 3",
    "refusals by 11",
    "refusals by 6",
    "6 by an entry alone",
    "6 by a next word alone",
    "6 by a previous word alone",
    "6 by the root's previous word alone",
    "6 at the end",
    "6 past the last pixel",
    "memories sound though an unreached reference is not",
    "memories with rings of next words",
    "memories with rings of previous words",
    "memories whose root has a previous level",
    "memories with a level by a previous word alone",
    "pixel words passed over",
    "pixels of two nodes",
    "searches of all that there can be",
    "listings",
    "listings begun amid a Move",
    "listings begun while a level hangs by a previous word alone",
    "listings begun while a pixel hangs by a previous word alone",
    "listings begun beside a viewer's call",
    "pixels placed above the place",
    "pixels placed below the place",
    "pixels placed after the end",
    "nexts amid a Move",
];

// What all listings together met, at each width; the rules of the model, of a wrong version others.
pub struct Listings {
    pub rules: Rules,
    // the rules are in place of the table: for the request's sentences alone
    pub alone: bool,
    pub nexts: u64,
    // the pixels that the "next" before reached
    before: Vec<(u32, u32)>,
    met: Met,
    pub counts: Counts,
}

impl Default for Listings {
    fn default() -> Listings {
        Listings { rules: REQUEST, alone: false, nexts: 0, before: vec![], met: Met::of(&MET), counts: Counts::default() }
    }
}

// A table beside the model of its memory.
pub struct Beside<'a> {
    pub table: &'a mut Table,
    pub model: next::Model<'a>,
    pub what: &'a str,
}

impl Beside<'_> {
    pub fn difference(&self, text: String) -> Difference {
        Difference { text: format!("{}: {text}", self.what), turns: 0 }
    }
}

impl Listings {
    fn count(&mut self, width: u32, what: &'static str, times: u64) {
        self.met.count(width, what, times);
    }

    // The flagged count of a memory on both, where it is asked.
    fn counted(&mut self, m: &mut Beside) -> Compared<Option<Count>> {
        if self.counts.asked {
            self.counts.compare(m, self.alone).map(Some)
        } else {
            Ok(None)
        }
    }

    // and that it is this one
    pub fn counts_as(&mut self, m: &mut Beside, number: u32, count: u32) -> Compared<()> {
        if let Some(got) = self.counted(m)? {
            assert_eq!(got, Count { number, count }, "{}", m.what);
        }
        Ok(())
    }

    // A "next" on both: what is given, the place after it, and the words, which stay.
    pub fn next(&mut self, m: &mut Beside, place: u32) -> Compared<(Given, u32)> {
        self.nexts += 1;
        let want = m.model.next(place, &self.before);
        if self.rules.keeps && !matches!(want.0.number, 1 | 2 | 3 | 11) {
            self.before = m.model.reached().pixels.clone();
        }
        if self.alone {
            return Ok(want);
        }
        let got = m.table.next(place);
        // a refusal gives its number and nothing else
        if got.0.number != 0 && got != (refused(got.0.number), place) || (got.0.number == 0) == (got.0.answer == REFUSED) {
            return Err(m.difference(format!("place {place}: {got:?}")));
        }
        if got != want {
            return Err(m.difference(format!("place {place}: the table gives {got:?}, the model {want:?}, {:?}", m.model.s)));
        }
        if m.table.areas != *m.model.a {
            return Err(m.difference(format!("place {place}: a word has changed")));
        }
        self.met_by(m, place, got.0);
        Ok(got)
    }

    fn met_by(&mut self, m: &mut Beside, place: u32, given: Given) {
        let width = m.model.s.width;
        match (given.number, given.answer) {
            (0, PIXEL) => self.count(width, "pixels given", 1),
            (0, _) => {
                self.count(width, "ends", 1);
                self.count(width, "nexts after the end", (place == END) as u64);
            }
            (1, _) => self.count(width, "refusals by 1", 1),
            (2, _) => self.count(width, "refusals by 2", 1),
            (3, _) => self.count(width, "refusals by 3", 1),
            (11, _) => self.count(width, "refusals by 11", 1),
            _ => {
                let by = |word: Word, x: &Reached| x.dangling.iter().all(|d| d.1 == word) as u64;
                let alone = [Word::Entry, Word::Next, Word::Previous, Word::RootsPrevious].map(|word| by(word, m.model.reached()));
                let names = ["6 by an entry alone", "6 by a next word alone", "6 by a previous word alone", "6 by the root's previous word alone"];
                names.into_iter().zip(alone).for_each(|(name, times)| self.count(width, name, times));
                self.count(width, "refusals by 6", 1);
                self.count(width, "6 at the end", (place == END) as u64);
                let past = m.model.reached().pixels.iter().all(|x| x.1 < place);
                self.count(width, "6 past the last pixel", past as u64);
            }
        }
    }

    // A listing from start to "end" and one "next" more: its pixels, or the number that refuses it.
    fn whole(&mut self, m: &mut Beside) -> Compared<Result<Vec<u32>, u32>> {
        let (mut pixels, mut place) = (vec![], START);
        loop {
            let (given, then) = self.next(m, place)?;
            match given.answer {
                PIXEL => pixels.push(given.pixel),
                AT_END if place == END => return Ok(Ok(pixels)),
                AT_END => {}
                _ => return Ok(Err(given.number)),
            }
            if pixels.len() > m.model.s.nodes as usize {
                return Err(m.difference("a listing does not end".to_string()));
            }
            place = then;
        }
    }

    // prints what was met, and gives what was not
    pub fn report(&self) -> Vec<String> {
        println!("{} nexts compared; at widths {WIDTHS:?}:", self.nexts);
        [self.met.report(), self.counts.report()].concat()
    }
}

pub fn all(width: u32, seed: u64, total: &mut Total) -> Compared<()> {
    over_memory(width, seed, total)?;
    largest(width, total)?;
    amid_calls(width, seed, total)
}

// Memory of any content, without the largest.
pub fn over_memory(width: u32, seed: u64, total: &mut Total) -> Compared<()> {
    places(width, total)?;
    words(width, total)?;
    questions(width, total)?;
    let r = &mut Random::new(seed);
    (0..300).try_for_each(|_| spoiled(width, r.next(), total))?;
    counting::bounds(width, total)
}

pub fn amid_calls(width: u32, seed: u64, total: &mut Total) -> Compared<()> {
    let r = &mut Random::new(seed);
    (0..40).try_for_each(|_| listed(width, r.next(), total))
}

// a table over a copy of these words, beside the model of them
pub fn on<T>(s: &Settings, a: &Areas, what: &str, total: &mut Total, run: impl FnOnce(&mut Listings, &mut Beside) -> Compared<T>) -> Compared<T> {
    let (listings, mut table) = (&mut total.listings, Table::new(*s, a.clone()));
    let mut m = Beside { table: &mut table, model: next::Model::new(listings.rules, s, a), what };
    run(listings, &mut m)
}

// places that are not those of a pixel of the memory: near start, the greatest pixel and "end", and numbers that are good ones where bits are lost
const PLACES: [u32; 16] =
    [START, 1, 2, 4096, TOP - 1, TOP, TOP + 1, END, END + 1, END + 2, 1 << 25, (1 << 25) + 1, (1 << 31) + 1, NONE - 2, NONE - 1, NONE];

// Each place in a table whose pixels are placed by calls.
fn places(width: u32, total: &mut Total) -> Compared<()> {
    let what = format!("places, width {width}");
    let mut p = opened(total, settings(1, 2, 5, width), 0, 7, &what)?;
    for pixel in [5, TOP, 0, TOP - 1, 1] {
        whole(&mut p, 0, pixel)?;
    }
    let given = |pixel| (Given { number: 0, answer: PIXEL, pixel }, pixel + 1);
    let end = (Given { number: 0, answer: AT_END, pixel: 0 }, END);
    let mut wanted = vec![(0, given(0)), (1, given(1)), (2, given(5)), (5, given(5)), (6, given(TOP - 1)), (TOP - 2, given(TOP - 1))];
    wanted.extend([(TOP - 1, given(TOP - 1)), (TOP, given(TOP)), (TOP + 1, end), (END, end)]);
    wanted.extend([END + 1, END + 2, 1 << 25, 1 << 31, (1 << 31) + 1, NONE].map(|place| (place, (refused(11), place))));
    let (s, a) = (p.table.settings, p.table.areas.clone());
    on(&s, &a, &what, total, |listings, m| {
        listings.counts_as(m, 0, 5)?;
        for (place, wanted) in wanted {
            let got = listings.next(m, place)?;
            assert_eq!(got, wanted, "{what}: place {place}");
        }
        Ok(())
    })?;
    total.add(&p);
    Ok(())
}

// Words of a small memory: four nodes and four levels are taken. Node i has pixel 100 + i, levels hang below the root, and nothing is reached but the root.
struct Small {
    s: Settings,
    a: Areas,
}
const TAKEN: u32 = 4;

impl Small {
    // with words behind what is taken, which hold what would be sound
    fn new(width: u32, workers: u32, nodes: u32, more: usize) -> Small {
        let s = Settings { nodes_taken: TAKEN, levels_taken: TAKEN, ..settings(workers, 8, nodes, width) };
        let mut m = Small { a: sized(&s, more * level_words(width), 0), s };
        for i in 0..m.a.nodes.len() as u32 / 2 {
            m.put(m.pixel(i), 100 + i);
        }
        for g in 0..(m.a.levels.len() / level_words(width)) as u32 {
            m.put(m.previous(g), if g == 0 { NONE } else { 0 });
            (0..entries(width)).for_each(|e| m.put(m.entry(g, e), level(g)));
        }
        m
    }
    fn put(&mut self, place: Place, v: u32) {
        *place.of(&mut self.a, &mut self.s) = v;
    }
    fn pixel(&self, i: u32) -> Place {
        Place::Nodes(2 * i as usize)
    }
    fn next(&self, i: u32) -> Place {
        Place::Nodes(2 * i as usize + 1)
    }
    fn previous(&self, g: u32) -> Place {
        Place::Levels(level_at(self.s.width, g))
    }
    fn depth(&self, g: u32) -> Place {
        Place::Levels(level_at(self.s.width, g) + 1)
    }
    fn entry(&self, g: u32, e: u32) -> Place {
        Place::Levels(level_at(self.s.width, g) + 2 + e as usize)
    }
}

fn node(i: u32) -> u32 {
    2 * i + 1
}
fn level(g: u32) -> u32 {
    2 * g
}

type Case = (&'static str, Vec<(Place, u32)>, Result<Vec<u32>, u32>);
// the cases in which one node more is counted than pixels are listed
const UNLISTED: [&str; 4] = ["two nodes with one pixel", "no pixel, and the chain goes on", "no pixel, whose low bits are one", "no pixel, all bits"];

// What is written into the small memory, and the listing there, or its refusal.
fn cases(m: &Small) -> Vec<Case> {
    let last = entries(m.s.width) - 1;
    let (entry, next, previous, depth, pixel) = (|g, e| m.entry(g, e), |i| m.next(i), |g| m.previous(g), |g| m.depth(g), |i| m.pixel(i));
    let mut all: Vec<Case> = vec![
        ("nothing", vec![], Ok(vec![])),
        ("a node in the first entry", vec![(entry(0, 0), node(0))], Ok(vec![100])),
        ("a node in the last entry", vec![(entry(0, last), node(3))], Ok(vec![103])),
        ("nodes in falling order", vec![(entry(0, 0), node(3)), (entry(0, 1), node(2)), (entry(0, last), node(0))], Ok(vec![100, 102, 103])),
        ("a chain", vec![(entry(0, 0), node(2)), (next(2), node(0)), (next(0), node(3))], Ok(vec![100, 102, 103])),
        ("a level in an entry", vec![(entry(0, 1), level(2)), (entry(2, last), node(1))], Ok(vec![101])),
        ("a level behind a chain", vec![(entry(0, 0), node(0)), (next(0), level(3)), (entry(3, 0), node(1))], Ok(vec![100, 101])),
        ("a level by a previous word alone", vec![(entry(0, 0), level(3)), (previous(3), 2), (entry(2, 0), node(3))], Ok(vec![103])),
        (
            "a level by three previous words",
            vec![(entry(0, 1), node(0)), (next(0), level(3)), (previous(3), 2), (previous(2), 1), (entry(1, last), node(1))],
            Ok(vec![100, 101]),
        ),
        ("the root's previous word", vec![(previous(0), 3), (entry(3, 1), node(2))], Ok(vec![102])),
        ("the root is its own previous level", vec![(previous(0), 0), (entry(0, 1), node(2))], Ok(vec![102])),
        ("none below the root", vec![(entry(0, 0), level(1)), (previous(1), NONE), (entry(1, 1), node(2))], Ok(vec![102])),
        ("none in every previous word", (0..4).map(|g| (previous(g), NONE)).chain([(entry(0, 0), level(1))]).collect(), Ok(vec![])),
        (
            "a ring of previous words",
            vec![(entry(0, 0), level(1)), (previous(1), 2), (previous(2), 3), (previous(3), 1), (entry(2, 1), node(0))],
            Ok(vec![100]),
        ),
        ("a level is its own previous one", vec![(entry(0, 0), level(1)), (previous(1), 1), (entry(1, 1), node(0))], Ok(vec![100])),
        ("a ring of nodes", vec![(entry(0, 1), node(1)), (next(1), node(3)), (next(3), node(1))], Ok(vec![101, 103])),
        ("a node leads to itself", vec![(entry(0, 1), node(1)), (next(1), node(1))], Ok(vec![101])),
        ("a ring of entries", vec![(entry(0, 0), level(1)), (entry(1, 0), level(2)), (entry(2, 0), level(0)), (entry(2, 1), node(0))], Ok(vec![100])),
        ("depths of any value", vec![(depth(0), NONE), (entry(0, 0), level(1)), (depth(1), 12), (entry(1, 0), node(0))], Ok(vec![100])),
        ("a depth that would lead to a node", vec![(depth(0), node(1))], Ok(vec![])),
        ("two nodes with one pixel", vec![(entry(0, 0), node(0)), (entry(0, 1), node(1)), (pixel(1), 100)], Ok(vec![100])),
        ("pixel 0", vec![(entry(0, 0), node(0)), (entry(0, 1), node(1)), (pixel(1), 0)], Ok(vec![0, 100])),
        ("the greatest pixel", vec![(entry(0, 0), node(0)), (next(0), node(1)), (pixel(0), TOP)], Ok(vec![101, TOP])),
        ("no pixel, and the chain goes on", vec![(entry(0, 0), node(0)), (next(0), node(1)), (pixel(0), TOP + 1)], Ok(vec![101])),
        ("no pixel, whose low bits are one", vec![(entry(0, 0), node(0)), (pixel(0), (1 << 24) + 9)], Ok(vec![])),
        ("no pixel, all bits", vec![(entry(0, 0), node(0)), (pixel(0), NONE)], Ok(vec![])),
        ("every node and level that is taken", vec![(entry(0, 0), node(3)), (entry(0, 1), level(3))], Ok(vec![103])),
        // what is not reached is not asked
        ("a bad entry that is not reached", vec![(entry(2, 0), node(TAKEN)), (entry(1, last), NONE)], Ok(vec![])),
        ("a bad next word that is not reached", vec![(entry(0, 0), node(0)), (next(1), NONE), (next(2), level(TAKEN))], Ok(vec![100])),
        ("a bad previous word that is not reached", vec![(previous(3), TAKEN), (previous(1), NONE - 1)], Ok(vec![])),
    ];
    // references that name nothing taken, each where it is reached; behind them are words
    let (nodes, levels) = ([node(TAKEN), NONE], [level(TAKEN), NONE - 1]);
    for bad in nodes.into_iter().chain(levels) {
        all.push(("a bad first entry of the root", vec![(entry(0, 0), bad), (entry(0, 1), node(0))], Err(6)));
        all.push(("a bad last entry of the root", vec![(entry(0, last), bad), (entry(0, 0), node(0))], Err(6)));
        all.push(("a bad entry of a deeper level", vec![(entry(0, 0), level(1)), (entry(1, last), bad)], Err(6)));
        all.push(("a bad next word", vec![(entry(0, 0), node(0)), (next(0), bad)], Err(6)));
        all.push((
            "a bad next word at the chain's end",
            vec![(entry(0, 0), node(0)), (next(0), node(1)), (next(1), node(2)), (next(2), bad)],
            Err(6),
        ));
        all.push(("a bad next word of no pixel", vec![(entry(0, 0), node(0)), (pixel(0), NONE), (next(0), bad)], Err(6)));
        all.push(("a bad entry in a level by a previous word", vec![(entry(0, 0), level(1)), (previous(1), 2), (entry(2, 0), bad)], Err(6)));
    }
    // the last but one would be the root if it were doubled in 32 bits
    for bad in [TAKEN, TAKEN + 1, 1 << 31, NONE - 1] {
        all.push(("a bad previous word", vec![(entry(0, 0), level(1)), (previous(1), bad), (entry(0, 1), node(0))], Err(6)));
        all.push(("a bad previous word behind another", vec![(entry(0, 0), level(1)), (previous(1), 3), (previous(3), bad)], Err(6)));
        all.push(("a bad previous word of the root", vec![(previous(0), bad), (entry(0, 1), node(0))], Err(6)));
    }
    all
}

// Each case with nodes and levels left behind what is taken, with none left, and with none left in longer areas.
fn words(width: u32, total: &mut Total) -> Compared<()> {
    for (workers, nodes, more) in [(5, 6, 0), (3, TAKEN, 0), (3, TAKEN, 3)] {
        let small = Small::new(width, workers, nodes, more);
        assert_eq!(level_count(&small.s), workers as u64 + 1);
        for (name, written, wanted) in cases(&small) {
            let mut m = Small { s: small.s, a: small.a.clone() };
            written.iter().for_each(|&(place, v)| m.put(place, v));
            let what = format!("{name}, {nodes} nodes, {more} levels more, width {width}");
            on(&m.s, &m.a, &what, total, |listings, m| {
                let more = UNLISTED.contains(&name) as u32;
                listings.counts_as(m, wanted.as_ref().err().copied().unwrap_or(0), wanted.as_ref().map_or(0, |pixels| pixels.len() as u32 + more))?;
                let got = listings.whole(m)?;
                assert_eq!(got, wanted, "{what}");
                for place in PLACES.into_iter().chain(100..106) {
                    let got = listings.next(m, place)?.0;
                    let number = if place > END { 11 } else { wanted.as_ref().err().copied().unwrap_or(0) };
                    assert_eq!(got.number, number, "{what}: place {place}");
                }
                Ok(())
            })?;
        }
    }
    Ok(())
}

// A fault by the number that it is refused by.
type Fault = (u32, fn(&mut Small, &mut u32));
const FAULTS: &[Fault] = &[
    (1, |m, _| m.s.workers = 0),
    (1, |m, _| m.s.workers = 17),
    (1, |m, _| m.s.limit = 0),
    (1, |m, _| m.s.limit = 9),
    (1, |m, _| m.s.nodes = 0),
    (1, |m, _| m.s.nodes = 4097),
    (1, |m, _| m.s.viewers = m.s.workers.wrapping_add(1)),
    (1, |m, _| m.s.viewers = 1 << 31),
    (2, |m, _| m.a.nodes.truncate(2 * TAKEN as usize - 1)),
    (2, |m, _| m.a.nodes.clear()),
    (2, |m, _| m.a.levels.truncate(level_words(m.s.width) * TAKEN as usize - 1)),
    (2, |m, _| m.a.levels.clear()),
    (3, |m, _| m.s.nodes_taken = TAKEN + 1),
    (3, |m, _| m.s.nodes_taken = NONE),
    (3, |m, _| m.s.levels_taken = 0),
    (3, |m, _| m.s.levels_taken = TAKEN + 1),
    (3, |m, _| m.s.levels_taken = NONE),
    (11, |_, place| *place = END + 1),
    (11, |_, place| *place = 1 << 25),
    (11, |_, place| *place = NONE),
    // an entry of the root, a node's next word, a previous word, the root's previous word
    (6, |m, _| m.a.levels.iter_mut().skip(2).take(1).for_each(|w| *w = NONE)),
    (6, |m, _| m.a.nodes.iter_mut().skip(1).take(1).for_each(|w| *w = level(TAKEN))),
    (6, |m, _| m.a.levels.iter_mut().take(1).for_each(|w| *w = TAKEN)),
];
const NO_WIDTHS: [u32; 10] = [0, 1, 5, 7, 8, 12, 24, 256 + 6, (1 << 31) + 3, NONE];

// Nothing is refused, then each fault alone and every two of them: "It refuses with 11, asked after question 3"; the workers' area is not asked for. A count has no
// place, so no 11.
fn questions(width: u32, total: &mut Total) -> Compared<()> {
    let mut sound = Small::new(width, 3, TAKEN, 0);
    sound.put(sound.entry(0, 1), node(0));
    let order = |number: u32| [1, 2, 3, 11, 6, 0].iter().position(|&n| n == number).expect("a number");
    let none: Fault = (0, |_, _| ());
    for a in [none].iter().chain(FAULTS) {
        for b in [none].iter().chain(FAULTS) {
            for place in [START, END] {
                let (mut m, mut place) = (Small { s: sound.s, a: sound.a.clone() }, place);
                (a.1)(&mut m, &mut place);
                (b.1)(&mut m, &mut place);
                let first = |of: [u32; 2]| of.into_iter().min_by_key(|&number| order(number)).expect("two numbers");
                let counts = first([a.0, b.0].map(|number| if number == 11 { 0 } else { number }));
                gives(&mut m, place, first([a.0, b.0]), counts, total)?;
            }
        }
        // another width, with each of them
        for none in NO_WIDTHS {
            let (mut m, mut place) = (Small { s: sound.s, a: sound.a.clone() }, START);
            (a.1)(&mut m, &mut place);
            m.s.width = none;
            gives(&mut m, place, 1, 1, total)?;
        }
    }
    Ok(())
}

// these numbers of a "next" and of a count, with the workers' area and without; where it is not refused the root's node is counted
fn gives(m: &mut Small, place: u32, wanted: u32, counts: u32, total: &mut Total) -> Compared<()> {
    for _ in 0..2 {
        let what = format!("questions, {:?}", m.s);
        let got = on(&m.s, &m.a, &what, total, |listings, m| {
            listings.counts_as(m, counts, (counts == 0) as u32)?;
            listings.next(m, place)
        })?;
        let got = got.0;
        assert_eq!(got.number, wanted, "{what}: place {place}");
        m.a.workers.clear();
    }
    Ok(())
}

// A memory of any content: sound words in what is taken, anything behind it, then some words near their bounds.
pub fn spoiled(width: u32, seed: u64, total: &mut Total) -> Compared<()> {
    let r = &mut Random::new(seed);
    let what = format!("next {seed} {width}");
    let (s, mut a) = any_memory(r, width);
    let mut good = a.clone();
    // several spoiled versions of one memory, the sound one first
    for bad in [0, 1, 1, 2, 5] {
        a.copy(&good);
        (0..bad).for_each(|_| spoil(r, &s, &mut a));
        on(&s, &a, &what, total, |listings, m| {
            listings.counted(m)?;
            listings.memory(m);
            let mut places = PLACES.to_vec();
            places.extend(m.model.a.nodes.iter().step_by(2).filter(|p| **p <= TOP).take(6).flat_map(|p| [*p, p + 1, p + 2]));
            places.extend([r.next() as u32, below(r, END as u64 + 1)]);
            places.into_iter().try_for_each(|place| listings.next(m, place).map(|_| ()))?;
            listings.whole(m).map(|_| ())
        })?;
        // now and then from the spoiled one on
        if r.below(4) == 0 {
            good.copy(&a);
        }
    }
    Ok(())
}

fn any_memory(r: &mut Random, width: u32) -> (Settings, Areas) {
    let s = settings(1 + r.below(6) as u32, 1 + r.below(8) as u32, 1 + r.below(20) as u32, width);
    let mut s = some_viewers(r, s);
    let count = level_count(&s);
    s.nodes_taken = below(r, s.nodes as u64 + 1);
    s.nodes_taken = r.pick(&[0, s.nodes, s.nodes, s.nodes_taken]);
    s.levels_taken = 1 + if r.below(2) == 0 { below(r, count) } else { below(r, count.min(8)) };
    s.levels_taken = r.pick(&[1, count as u32, s.levels_taken, s.levels_taken]);
    let more = r.pick(&[0, 0, 1, 2, level_words(width), 3 * level_words(width)]);
    let mut a = sized(&s, more, 0);
    for w in a.nodes.iter_mut().chain(&mut a.levels) {
        let behind = [r.next() as u32, some_reference(r, &s), below(r, 4)];
        *w = r.pick(&behind);
    }
    // one entry of so many is used; one node of so many ends its chain
    let (sparse, short) = (r.pick(&[1, 3, entries(width) as u64, 3 * entries(width) as u64]), r.pick(&[1, 2, 8]));
    for i in 0..s.nodes_taken as usize {
        let pixels = [below(r, 8), below(r, 1 << 24), TOP, TOP - 1, TOP + 1, r.next() as u32];
        a.nodes[2 * i] = r.pick(&pixels);
        a.nodes[2 * i + 1] = if r.below(short) == 0 { level(below(r, s.levels_taken as u64)) } else { node(below(r, s.nodes_taken as u64)) };
    }
    for g in 0..s.levels_taken {
        let at = level_at(width, g);
        let (previous, depth) = ([NONE, NONE, g, below(r, s.levels_taken as u64)], [below(r, 14), r.next() as u32]);
        (a.levels[at], a.levels[at + 1]) = (r.pick(&previous), r.pick(&depth));
        for e in 2..level_words(width) {
            a.levels[at + e] = if r.below(sparse) == 0 { some_reference(r, &s) } else { level(g) };
        }
    }
    if r.below(3) > 0 {
        a.levels[0] = NONE;
    }
    (s, a)
}

fn below(r: &mut Random, n: u64) -> u32 {
    r.below(n) as u32
}

// to something taken
fn some_reference(r: &mut Random, s: &Settings) -> u32 {
    if s.nodes_taken > 0 && r.below(3) > 0 {
        node(below(r, s.nodes_taken as u64))
    } else {
        level(below(r, s.levels_taken as u64))
    }
}

// One word of what is taken near its bounds.
fn spoil(r: &mut Random, s: &Settings, a: &mut Areas) {
    let (nt, lt, any) = (s.nodes_taken, s.levels_taken, r.next() as u32);
    let references = [node(nt), node(nt).saturating_sub(2), node(nt + 1), level(lt), level(lt - 1), level(lt + 1), NONE, NONE - 1, any];
    let g = if r.below(2) == 0 { 0 } else { below(r, lt as u64) };
    let at = level_at(s.width, g);
    match r.below(4) {
        0 if nt > 0 => a.nodes[2 * r.below(nt as u64) as usize + 1] = r.pick(&references),
        1 => a.levels[at] = r.pick(&[lt, lt - 1, lt + 1, nt, 1 << 31, NONE, NONE - 1, any]),
        _ => a.levels[at + 2 + r.below(entries(s.width) as u64) as usize] = r.pick(&references),
    }
}

impl Listings {
    // what is in a memory that questions 1 to 3 pass
    fn memory(&mut self, m: &mut Beside) {
        let (s, a) = (m.model.s, m.model.a);
        let x = m.model.reached();
        let nodes = |i: u32| x.nodes[i as usize] > 0;
        let levels = |g: u32| x.levels[g as usize] > 0;
        let counted = [
            ("memories with rings of next words", (0..s.nodes_taken).any(|i| nodes(i) && in_a_ring(s, a, Ref::Node(i)))),
            ("memories with rings of previous words", (0..s.levels_taken).any(|g| levels(g) && in_a_ring(s, a, Ref::Level(g)))),
            ("memories whose root has a previous level", previous_level(s, a, 0).is_some_and(|g| g < s.levels_taken)),
            ("memories with a level by a previous word alone", by_previous(s, a, x).0),
            ("memories sound though an unreached reference is not", x.dangling.is_empty() && dangles_somewhere(s, a)),
        ];
        let words: Vec<u32> = (0..s.nodes_taken).filter(|&i| nodes(i)).map(|i| a.nodes[2 * i as usize]).collect();
        let (passed, pixels): (Vec<u32>, Vec<u32>) = words.into_iter().partition(|&w| w > TOP);
        let twice = pixels.len() - pixels.iter().collect::<BTreeSet<_>>().len();
        counted.into_iter().for_each(|(what, found)| self.count(s.width, what, found as u64));
        self.count(s.width, "pixel words passed over", passed.len() as u64);
        self.count(s.width, "pixels of two nodes", twice as u64);
    }
}

// the ways over next words and over previous words
fn next_node(a: &Areas, i: u32) -> Option<u32> {
    Some(word(&a.nodes, 2 * i as usize + 1)).filter(|&w| is_node(w)).map(|w| w / 2)
}
fn previous_level(s: &Settings, a: &Areas, g: u32) -> Option<u32> {
    Some(word(&a.levels, level_at(s.width, g))).filter(|&w| w != NONE)
}

// the way from k over what is taken comes back to it
fn comes_back(k: u32, taken: u32, way: impl Fn(u32) -> Option<u32>) -> bool {
    let mut at = Some(k);
    (0..taken).any(|_| {
        at = at.filter(|&k| k < taken).and_then(&way);
        at == Some(k)
    })
}
pub fn in_a_ring(s: &Settings, a: &Areas, r: Ref) -> bool {
    match r {
        Ref::Node(i) => comes_back(i, s.nodes_taken, |i| next_node(a, i)),
        Ref::Level(g) => comes_back(g, s.levels_taken, |g| previous_level(s, a, g)),
    }
}

// whether a level, and whether a node with a pixel, is reached by previous words alone
pub fn by_previous(s: &Settings, a: &Areas, x: &Reached) -> (bool, bool) {
    let without = reached(&Rules { previous: |_, _| None, ..REQUEST }, s, a);
    let more = |with: &[u32], without: &[u32]| with.iter().zip(without).any(|(w, o)| (*w > 0) != (*o > 0));
    (more(&x.levels, &without.levels), x.pixels.len() != without.pixels.len())
}

// some reference of what is taken names nothing taken
pub fn dangles_somewhere(s: &Settings, a: &Areas) -> bool {
    let bad = |word: u32| !(REQUEST.taken)(s, model::reference(word));
    let node = |i: u32| bad(a.nodes[2 * i as usize + 1]);
    let level = |g: u32| {
        let words = &a.levels[level_at(s.width, g)..][..level_words(s.width)];
        words[0] != NONE && !(REQUEST.taken)(s, Ref::Level(words[0])) || words[2..].iter().any(|&w| bad(w))
    };
    (0..s.nodes_taken).any(node) || (0..s.levels_taken).any(level)
}

// Every node and level that there can be is taken and reached: the levels by entries and previous words by turns, a node in each of the first of them, the nodes in
// a ring. Then the last word of the last level is bad, and its previous word.
fn largest(width: u32, total: &mut Total) -> Compared<()> {
    let mut s = settings(16, 1, 4096, width);
    (s.nodes_taken, s.levels_taken) = (s.nodes, level_count(&s) as u32);
    let mut a = sized(&s, 0, 5);
    let last = level_at(width, s.levels_taken - 1);
    for g in 0..s.levels_taken {
        let (at, then) = (level_at(width, g), (g + 1) % s.levels_taken);
        a.levels[at + 2..at + level_words(width)].fill(level(g));
        (a.levels[at], a.levels[at + 2]) = if g % 2 == 0 { (NONE, level(then)) } else { (then, level(g)) };
        if g < s.nodes {
            a.levels[at + level_words(width) - 1] = node(g);
        }
    }
    for i in 0..s.nodes {
        a.nodes[2 * i as usize] = TOP - 4095 * i;
        a.nodes[2 * i as usize + 1] = node((i + 1) % s.nodes);
    }
    let smallest = TOP - 4095 * 4095;
    let bad = [None, Some((last + level_words(width) - 1, NONE)), Some((last, s.levels_taken)), Some((last + 2, level(s.levels_taken)))];
    for spoilt in bad {
        let mut a = a.clone();
        if let Some((k, v)) = spoilt {
            a.levels[k] = v;
        }
        on(&s, &a, &format!("the largest table, width {width}, {spoilt:?}"), total, |listings, m| {
            let x = m.model.reached();
            let everything = x.nodes.iter().chain(&x.levels).all(|&sweep| sweep > 0);
            listings.count(width, "searches of all that there can be", everything as u64);
            listings.counts_as(m, if spoilt.is_some() { 6 } else { 0 }, if spoilt.is_some() { 0 } else { s.nodes })?;
            let wanted = [(START, Some(smallest)), (smallest + 1, Some(smallest + 4095)), (TOP, Some(TOP)), (TOP + 1, None), (END, None)];
            for (place, pixel) in wanted {
                let got = listings.next(m, place)?.0;
                let answer = if pixel.is_some() { PIXEL } else { AT_END };
                let wanted = if spoilt.is_some() { refused(6) } else { Given { number: 0, answer, pixel: pixel.unwrap_or(0) } };
                assert_eq!(got, wanted, "{}: place {place}", m.what);
            }
            Ok(())
        })?;
    }
    Ok(())
}

// A listing by the request's sentences: "pixels that could be reached when the listing began come exactly once, rising. A pixel placed meanwhile comes if it lies
// above the place when it is placed, and otherwise doesn't; after "end" nothing comes."
struct Open {
    place: u32,
    last: Option<u32>,
    // the pixels that have to come
    due: BTreeSet<u32>,
    ended: bool,
}

impl Open {
    fn begun(placed: &BTreeSet<u32>) -> Open {
        Open { place: START, last: None, due: placed.clone(), ended: false }
    }
    fn above(&self, pixel: u32) -> bool {
        !self.ended && self.last.is_none_or(|last| pixel > last)
    }
    fn placed(&mut self, pixel: u32) {
        if self.above(pixel) {
            self.due.insert(pixel);
        }
    }
    // what the request says of this "next"
    fn broken(&mut self, given: Given) -> Option<String> {
        match given.answer {
            PIXEL if self.ended => Some(format!("{} comes after the end", given.pixel)),
            PIXEL if !self.above(given.pixel) => Some(format!("{} does not rise above {:?}", given.pixel, self.last)),
            PIXEL if !self.due.remove(&given.pixel) => Some(format!("{} comes, and should not", given.pixel)),
            PIXEL => {
                self.last = Some(given.pixel);
                None
            }
            AT_END if self.due.is_empty() => {
                self.ended = true;
                None
            }
            AT_END => Some(format!("{:?} did not come", self.due)),
            _ => Some(format!("refused by {}", given.number)),
        }
    }
}

// Calls in a random order on a fresh table. Between any two events a listing begins and goes to its end; up to five others go on now and then.
pub fn listed(width: u32, seed: u64, total: &mut Total) -> Compared<()> {
    let r = &mut Random::new(seed);
    let what = format!("listed {seed} {width}");
    let s = settings(2 + r.below(4) as u32, r.pick(&[1, 1, 1, 2, 3]), 6 + r.below(14) as u32, width);
    let s = Settings { viewers: r.pick(&[0, 0, 1]), ..s };
    let spread = r.pick(&[2, 3, 4, 5, 6]);
    let mut p = opened(total, s, 0, 7, &what)?;
    let (mut placed, mut open, mut news): (BTreeSet<u32>, Vec<Open>, u32) = (BTreeSet::new(), vec![], 0);
    for _ in 0..250 {
        let i = r.below(s.workers as u64) as u32;
        let pixel = p.table.areas.workers[RECORD * i as usize + CALLS_PIXEL];
        let q = p.run(Op::Turn(i))?;
        if q.number == 8 {
            p.run(call(&s, i, clustered(r, spread)))?;
        }
        if q.answer == NEW {
            news += 1;
            placed.insert(pixel);
            for x in &mut open {
                let sort = match (x.ended, x.above(pixel)) {
                    (true, _) => "pixels placed after the end",
                    (false, true) => "pixels placed above the place",
                    (false, false) => "pixels placed below the place",
                };
                total.listings.count(width, sort, 1);
                x.placed(pixel);
            }
        }
        if open.len() < 5 && r.below(8) == 0 {
            open.push(Open::begun(&placed));
        }
        let going: Vec<bool> = open.iter().map(|_| r.below(3) == 0).collect();
        open.push(Open::begun(&placed));
        between(&mut p, &mut open, &going, news, &mut total.listings)?;
        open.pop();
        // one that has ended is asked some times more
        open.retain(|x| !x.ended || r.below(16) > 0);
    }
    for x in open {
        between(&mut p, &mut [x], &[], news, &mut total.listings)?;
    }
    total.add(&p);
    Ok(())
}

// Some places of any memory that a sequence has come to, spoiled or not.
pub fn at_some_places(p: &mut Pair, listings: &mut Listings) -> Compared<()> {
    let pixel = p.table.areas.workers[CALLS_PIXEL];
    let mut m = Beside { table: &mut p.table, model: next::Model::new(listings.rules, &p.model.settings, &p.model.areas), what: &p.what };
    listings.counted(&mut m)?;
    [START, pixel, 1 << 23, END, END + 1].into_iter().try_for_each(|place| listings.next(&mut m, place).map(|_| ()))
}

// Between two events: of the listings those that are going make a "next", the last one all of them and one more. The count is that of the calls that have ended "new",
// and that of the pixels of a listing that begins and ends here.
fn between(p: &mut Pair, open: &mut [Open], going: &[bool], news: u32, listings: &mut Listings) -> Compared<()> {
    let (s, a) = (&p.model.settings, &p.model.areas);
    let records = |k: usize| a.workers.chunks(RECORD).take(s.workers as usize).map(move |w| w[k]);
    let moving = records(MOVES).any(|moves| moves > 0);
    let viewed = records(KIND).zip(0..).any(|(kind, i)| kind != 0 && s.views(i));
    let mut m = Beside { table: &mut p.table, model: next::Model::new(listings.rules, s, a), what: &p.what };
    let (level, pixel) = by_previous(s, a, m.model.reached());
    let begins = open.last().is_some_and(|x| x.place == START);
    for (what, holds) in [
        ("listings", true),
        ("listings begun amid a Move", moving),
        ("listings begun while a level hangs by a previous word alone", level),
        ("listings begun while a pixel hangs by a previous word alone", pixel),
        ("listings begun beside a viewer's call", viewed),
    ] {
        listings.count(s.width, what, (begins && holds) as u64);
    }
    if listings.counts.asked {
        listings.counts.amid_calls(&mut m, listings.alone, news, moving)?;
    }
    let (whole, others) = open.split_last_mut().expect("a listing that goes to its end here");
    for x in others.iter_mut().zip(going).filter(|x| *x.1).map(|x| x.0) {
        one_next(x, &mut m, listings)?;
        listings.count(s.width, "nexts amid a Move", moving as u64);
    }
    let mut given = 0;
    while !whole.ended {
        one_next(whole, &mut m, listings)?;
        given += !whole.ended as u32;
    }
    if begins && listings.counts.asked {
        listings.counts.as_listed(&mut m, listings.alone, given)?;
    }
    one_next(whole, &mut m, listings)
}

fn one_next(x: &mut Open, m: &mut Beside, listings: &mut Listings) -> Compared<()> {
    let (given, then) = listings.next(m, x.place)?;
    if let Some(text) = x.broken(given) {
        return Err(m.difference(format!("a listing at place {}: {text}", x.place)));
    }
    x.place = then;
    Ok(())
}
