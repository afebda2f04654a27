// The flagged count on the table and on the model coded apart (count.rs): in each memory in which a "next" is compared (listing.rs), of any content and amid calls;
// there also against the request's words, with what was placed told by the calls' answers. What was never met fails.
use crate::count::{self, flagged, Count, Rules};
use crate::coverage::{Met, Total};
use crate::listing::{by_previous, on, Beside};
use crate::model::{level_count, Areas, Kind, Settings, NONE, WIDTHS};
use crate::next::{self, PIXEL, START};
use crate::pair::Compared;
use crate::sequences::{settings, sized};
use crate::words::{HELD_NODE, KIND, RECORD, TOP};
use std::collections::BTreeSet;

// What has to be met at each width.
const MET: [&str; 16] = [
    "counts refused by 1",
    "counts refused by 2",
    "counts refused by 3",
    "counts refused by 6",
    "counts refused by 6 while nodes are reached",
    "counts of 0 with nothing taken",
    "counts of 0 with nodes taken",
    "counts of every node",
    "counts of two nodes with one pixel",
    "counts of a node without a pixel",
    "counts amid calls",
    "counts beside a viewer's call",
    "counts below nodes taken by spare nodes alone",
    "counts below nodes taken by nodes in hand alone",
    "counts below nodes taken by both",
    "counts while a node hangs by a previous word alone, amid a Move",
];

pub struct Counts {
    // those of a wrong version, with a search of its own; none are the request's
    pub wrong: Option<Rules>,
    // not where wrong versions of "next" are tried, which a count might find in their stead
    pub asked: bool,
    pub counts: u64,
    before: u32,
    met: Met,
}

impl Default for Counts {
    fn default() -> Counts {
        Counts { wrong: None, asked: true, counts: 0, before: 0, met: Met::of(&MET) }
    }
}

impl Counts {
    // A count on both, and the words, which stay; of a wrong version that is run alone its own.
    pub fn compare(&mut self, m: &mut Beside, alone: bool) -> Compared<Count> {
        self.counts += 1;
        let want = match &self.wrong {
            None => flagged(&count::REQUEST, &mut m.model),
            Some(wrong) => self.kept(wrong.keeps, flagged(wrong, &mut next::Model::new(wrong.search, m.model.s, m.model.a))),
        };
        if alone {
            return Ok(want);
        }
        let got = m.table.flagged();
        if got.number != 0 && got.count != 0 {
            return Err(m.difference(format!("a refusal with a count: {got:?}")));
        }
        if got != want {
            return Err(m.difference(format!("the table counts {got:?}, the model {want:?}, {:?}", m.model.s)));
        }
        if m.table.areas != *m.model.a {
            return Err(m.difference("a count has changed a word".to_string()));
        }
        if self.wrong.is_none() {
            self.met_by(m, got);
        }
        Ok(got)
    }

    fn kept(&mut self, keeps: bool, count: Count) -> Count {
        let before = std::mem::replace(&mut self.before, count.count);
        Count { count: if keeps { before } else { count.count }, ..count }
    }

    fn met_by(&mut self, m: &mut Beside, got: Count) {
        let (s, a) = (m.model.s, m.model.a);
        match got.number {
            1 => self.met.count(s.width, "counts refused by 1", 1),
            2 => self.met.count(s.width, "counts refused by 2", 1),
            3 => self.met.count(s.width, "counts refused by 3", 1),
            number => {
                let x = m.model.reached();
                let words: Vec<u32> = (0..x.nodes.len()).filter(|&i| x.nodes[i] > 0).map(|i| a.nodes[2 * i]).collect();
                let pixels: Vec<u32> = words.iter().copied().filter(|&w| w <= TOP).collect();
                let twice = pixels.len() > pixels.iter().collect::<BTreeSet<_>>().len();
                for (what, met) in [
                    ("counts refused by 6", number == 6),
                    ("counts refused by 6 while nodes are reached", number == 6 && !words.is_empty()),
                    ("counts of 0 with nothing taken", number == 0 && s.nodes_taken == 0),
                    ("counts of 0 with nodes taken", number == 0 && got.count == 0 && s.nodes_taken > 0),
                    ("counts of two nodes with one pixel", number == 0 && twice),
                    ("counts of a node without a pixel", number == 0 && pixels.len() < words.len()),
                ] {
                    self.met.count(s.width, what, met as u64);
                }
            }
        }
    }

    // A count amid calls by the request's words: as many nodes can be reached as calls have ended "new".
    pub fn amid_calls(&mut self, m: &mut Beside, alone: bool, placed: u32, moving: bool) -> Compared<()> {
        let got = self.compare(m, alone)?;
        if got != (Count { number: 0, count: placed }) {
            return Err(m.difference(format!("{got:?} is counted, and {placed} calls have ended new")));
        }
        if alone || self.wrong.is_some() {
            return Ok(());
        }
        let (s, a) = (m.model.s, m.model.a);
        let ([spare, in_hand], hangs) = (held(s, a), by_previous(s, a, m.model.reached()).1);
        assert_eq!(s.nodes_taken, placed + spare + in_hand, "{}: nodes taken, placed, spare and in hand", m.what);
        for (what, met) in [
            ("counts amid calls", true),
            ("counts beside a viewer's call", viewing(s, a)),
            ("counts of every node", placed == s.nodes),
            ("counts below nodes taken by spare nodes alone", spare > 0 && in_hand == 0),
            ("counts below nodes taken by nodes in hand alone", spare == 0 && in_hand > 0),
            ("counts below nodes taken by both", spare > 0 && in_hand > 0),
            ("counts while a node hangs by a previous word alone, amid a Move", moving && hangs),
        ] {
            self.met.count(s.width, what, met as u64);
        }
        Ok(())
    }

    // "A panel went to test with a count one higher than its list": a listing that was begun and ended here gave so many pixels
    pub fn as_listed(&mut self, m: &mut Beside, alone: bool, listed: u32) -> Compared<()> {
        let got = self.compare(m, alone)?;
        if got.count != listed {
            return Err(m.difference(format!("{got:?} is counted, and {listed} pixels are listed")));
        }
        Ok(())
    }

    pub fn report(&self) -> Vec<String> {
        println!("{} counts compared; at widths {WIDTHS:?}:", self.counts);
        self.met.report()
    }
}

// a viewer, one of the last workers, has a call open
fn viewing(s: &Settings, a: &Areas) -> bool {
    a.workers.chunks_exact(RECORD).take(s.workers as usize).skip((s.workers - s.viewers) as usize).any(|w| w[KIND] != Kind::Idle as u32)
}

// how many nodes the workers hold, spare and in hand: "of the node in hand (Put, Append) or spare"
pub fn held(s: &Settings, a: &Areas) -> [u32; 2] {
    let mut held = [0; 2];
    for w in a.workers.chunks_exact(RECORD).take(s.workers as usize).filter(|w| w[HELD_NODE] != 0) {
        held[[Kind::Put as u32, Kind::Append as u32].contains(&w[KIND]) as usize] += 1;
    }
    held
}

// Settings at each bound of questions 1 to 3, in areas of exactly their size, with one chain of so many nodes: counts of every length of a number among them.
pub fn bounds(width: u32, total: &mut Total) -> Compared<()> {
    for (workers, limit, nodes, viewers) in [(1, 1, 1, 0), (1, 8, 1, 1), (16, 1, 1, 0), (16, 8, 1, 16), (1, 8, 4096, 0), (16, 8, 4096, 1)] {
        let s = Settings { viewers, ..settings(workers, limit, nodes, width) };
        for count in [0, 1, 127, 128, 129, 255, 256, 257, 4095, 4096].into_iter().filter(|&n| n <= nodes) {
            for levels_taken in [1, level_count(&s) as u32] {
                let s = Settings { nodes_taken: count, levels_taken, ..s };
                let mut a = sized(&s, 0, 0);
                (a.levels[0], a.levels[2]) = (NONE, (count > 0) as u32);
                for i in 0..count {
                    // the last node leads to the root
                    a.nodes[2 * i as usize] = TOP - i;
                    a.nodes[2 * i as usize + 1] = if i + 1 < count { 2 * i + 3 } else { 0 };
                }
                let what = format!("bounds, {s:?}");
                on(&s, &a, &what, total, |listings, m| {
                    listings.counts_as(m, 0, count)?;
                    let given = listings.next(m, START)?.0;
                    assert_eq!((given.answer == PIXEL, given.number), (count > 0, 0), "{what}");
                    Ok(())
                })?;
            }
        }
    }
    Ok(())
}
