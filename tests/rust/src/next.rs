// A model of "next" coded apart, from document 02's request 01: what is reached is found by sweeps over all nodes and levels until nothing changes, and the bad
// references are asked for after that. Relies on model.rs for settings, sizes and references; nothing here is taken from the Rattle code.
use crate::model::{entries, level_count, level_words, reference, Areas, Ref, Settings, NONE, WIDTHS};
use crate::words::{level_at, TOP};
use std::ops::Range;

// "a place that is not start, end or a pixel number": a pixel's place is its number + 1
pub const START: u32 = 0;
pub const END: u32 = TOP + 2;

// answers
pub const REFUSED: u32 = 0;
pub const PIXEL: u32 = 1;
pub const AT_END: u32 = 2;

#[derive(Clone, Copy, Debug, PartialEq, Eq)]
pub struct Given {
    pub number: u32,
    pub answer: u32,
    pub pixel: u32,
}

pub fn refused(number: u32) -> Given {
    Given { number, answer: REFUSED, pixel: 0 }
}

// The words that hold references.
#[derive(Clone, Copy, Debug, PartialEq, Eq)]
pub enum Word {
    Entry,
    Next,
    Previous,
    RootsPrevious,
}

// What is reached from the root: in which sweep each node and level was met, 0 if it never was; the references met that name nothing taken, each with the sweep
// that met what holds it; the pixels of the reached nodes, with the sweep and in the order of the nodes.
#[derive(Clone, Debug, Default)]
pub struct Reached {
    pub nodes: Vec<u32>,
    pub levels: Vec<u32>,
    pub dangling: Vec<(u32, Word)>,
    pub pixels: Vec<(u32, u32)>,
}

// What the model does; a wrong version is one of these changed.
#[derive(Clone, Copy)]
pub struct Rules {
    // the numbers in the order in which their questions are asked, and the questions
    pub order: [u32; 5],
    pub sizes: fn(&Settings) -> bool,
    pub room: fn(&Settings, &Areas) -> bool,
    pub counts: fn(&Settings) -> bool,
    pub places: fn(u32) -> bool,
    pub sound: fn(&Reached, u32) -> bool,
    // the words of a level that are entries, by the width; what a word leads to, of a previous word by its level's number
    pub entries: fn(u32) -> Range<usize>,
    pub entry: fn(u32) -> Option<Ref>,
    pub next: fn(u32) -> Option<Ref>,
    pub previous: fn(u32, u32) -> Option<Ref>,
    pub taken: fn(&Settings, Ref) -> bool,
    // a further 6, for a reached node or level
    pub faulty: fn(&Settings, &Areas, Ref) -> bool,
    // the nodes that are listed, by whether they are reached, and the pixel of a word
    pub listed: fn(&Settings, u32, bool) -> bool,
    pub pixel: fn(u32) -> Option<u32>,
    pub smallest: fn(&[(u32, u32)], u32) -> Option<u32>,
    // the place after it, by the place before it, and what is told
    pub moved: fn(u32, Given) -> u32,
    pub told: fn(Given, Option<u32>) -> Given,
    // what the "next" before reached is reached again
    pub keeps: bool,
}

pub const REQUEST: Rules = Rules {
    order: [1, 2, 3, 11, 6],
    sizes: |s| s.in_range() && WIDTHS.contains(&s.width),
    // the workers' area is not handed in
    room: |s, a| a.nodes.len() as u64 >= 2 * s.nodes as u64 && a.levels.len() as u64 >= level_words(s.width) as u64 * level_count(s),
    counts: |s| s.nodes_taken <= s.nodes && s.levels_taken >= 1 && s.levels_taken as u64 <= level_count(s),
    places: |place| place <= END,
    // "its 6 is given if a reference reached from the root names nothing taken, and only then"
    sound: |x, _| x.dangling.is_empty(),
    entries: |width| 2..2 + entries(width) as usize,
    entry: |word| Some(reference(word)),
    next: |word| Some(reference(word)),
    previous: |_, word| (word != NONE).then_some(Ref::Level(word)),
    taken: |s, r| match r {
        Ref::Level(g) => g < s.levels_taken,
        Ref::Node(i) => i < s.nodes_taken,
    },
    faulty: |_, _, _| false,
    listed: |_, _, reached| reached,
    // "A reached node whose pixel word is above 16,777,215 holds no pixel"
    pixel: |word| (word <= TOP).then_some(word),
    // "the smallest reachable pixel number above the last one given"
    smallest: |pixels, place| pixels.iter().map(|x| x.1).filter(|p| p + 1 > place).min(),
    moved: |place, given| match given.answer {
        PIXEL => given.pixel + 1,
        AT_END => END,
        _ => place,
    },
    told: |given, _| given,
    keeps: false,
};

// a word of an area; past its end, where only wrong versions come, 0
pub fn word(area: &[u32], k: usize) -> u32 {
    area.get(k).copied().unwrap_or(0)
}

// One memory by the rules.
#[derive(Clone, Copy)]
struct Memory<'a> {
    rules: &'a Rules,
    s: &'a Settings,
    a: &'a Areas,
}

impl<'a> Memory<'a> {
    // what the words of a node or level lead to
    fn leads(self, from: Ref) -> impl Iterator<Item = (Word, Ref)> + 'a {
        let Memory { rules, s, a } = self;
        let (entries, at, last) = match from {
            Ref::Node(i) => (0..0, 0, (Word::Next, (rules.next)(word(&a.nodes, 2 * i as usize + 1)))),
            Ref::Level(g) => {
                let at = level_at(s.width, g);
                let which = if g == 0 { Word::RootsPrevious } else { Word::Previous };
                ((rules.entries)(s.width), at, (which, (rules.previous)(g, word(&a.levels, at))))
            }
        };
        let entries = entries.map(move |k| (Word::Entry, (rules.entry)(word(&a.levels, at + k))));
        entries.chain([last]).filter_map(|(word, to)| Some((word, to?)))
    }

    // the mark of what is taken, and has words
    fn mark(self, x: &mut Reached, r: Ref) -> Option<&mut u32> {
        if !(self.rules.taken)(self.s, r) {
            return None;
        }
        match r {
            Ref::Node(i) => x.nodes.get_mut(i as usize),
            Ref::Level(g) => x.levels.get_mut(g as usize),
        }
    }

    // one sweep over all that is reached, what it meets further on included; whether it met something
    fn sweep(self, x: &mut Reached, n: u32) -> bool {
        let mut met = false;
        for from in x.all() {
            if x.sweep_of(from) == 0 {
                continue;
            }
            for (_, to) in self.leads(from) {
                if let Some(mark) = self.mark(x, to).filter(|mark| **mark == 0) {
                    *mark = n;
                    met = true;
                }
            }
        }
        met
    }
}

impl Reached {
    // every level and node, reached or not
    fn all(&self) -> impl Iterator<Item = Ref> {
        (0..self.levels.len() as u32).map(Ref::Level).chain((0..self.nodes.len() as u32).map(Ref::Node))
    }
    fn sweep_of(&self, r: Ref) -> u32 {
        match r {
            Ref::Level(g) => self.levels[g as usize],
            Ref::Node(i) => self.nodes[i as usize],
        }
    }
}

// What the rules reach in a memory that questions 1 to 3 have passed.
pub fn reached(rules: &Rules, s: &Settings, a: &Areas) -> Reached {
    let memory = Memory { rules, s, a };
    let mut x = Reached { nodes: vec![0; a.nodes.len() / 2], levels: vec![0; a.levels.len() / level_words(s.width)], ..Reached::default() };
    x.levels.iter_mut().take(1).for_each(|root| *root = 1);
    let mut n = 2;
    while memory.sweep(&mut x, n) {
        n += 1;
    }
    for from in x.all() {
        let sweep = x.sweep_of(from);
        if sweep == 0 {
            continue;
        }
        for (word, to) in memory.leads(from) {
            if memory.mark(&mut x, to).is_none() {
                x.dangling.push((sweep, word));
            }
        }
        if (rules.faulty)(s, a, from) {
            x.dangling.push((sweep, Word::Entry));
        }
    }
    let listed = x.nodes.iter().zip(0..).filter(|&(&sweep, i)| (rules.listed)(s, i, sweep > 0));
    x.pixels = listed.filter_map(|(&sweep, i)| Some((sweep, (rules.pixel)(word(&a.nodes, 2 * i as usize))?))).collect();
    x
}

// "One "next" is a whole operation between two turns": what it gives, and the place after it. What the memory reaches is found once for all places.
pub struct Model<'a> {
    rules: Rules,
    pub s: &'a Settings,
    pub a: &'a Areas,
    reached: Option<Reached>,
}

impl Model<'_> {
    pub fn new<'a>(rules: Rules, s: &'a Settings, a: &'a Areas) -> Model<'a> {
        Model { rules, s, a, reached: None }
    }

    // once questions 1 to 3 have passed the memory
    pub fn reached(&mut self) -> &Reached {
        self.reached.get_or_insert_with(|| reached(&self.rules, self.s, self.a))
    }

    fn answered_no(&mut self, number: u32, place: u32) -> bool {
        let (rules, s, a) = (self.rules, self.s, self.a);
        !match number {
            1 => (rules.sizes)(s),
            2 => (rules.room)(s, a),
            3 => (rules.counts)(s),
            11 => (rules.places)(place),
            _ => (rules.sound)(self.reached(), place),
        }
    }

    // the first of these questions that is answered no
    pub fn first_no(&mut self, order: impl IntoIterator<Item = u32>, place: u32) -> Option<u32> {
        order.into_iter().find(|&number| self.answered_no(number, place))
    }

    // `before`: what the "next" before this one reached
    pub fn next(&mut self, place: u32, before: &[(u32, u32)]) -> (Given, u32) {
        let rules = self.rules;
        let no = self.first_no(rules.order, place);
        let pixel = match no {
            Some(1 | 2 | 3 | 11) => None,
            _ => {
                let now = &self.reached().pixels;
                (rules.smallest)(&if rules.keeps { [now, before].concat() } else { now.clone() }, place)
            }
        };
        let given = match (no, pixel) {
            (Some(number), _) => refused(number),
            (None, Some(pixel)) => Given { number: 0, answer: PIXEL, pixel },
            (None, None) => Given { number: 0, answer: AT_END, pixel: 0 },
        };
        ((rules.told)(given, pixel), (rules.moved)(place, given))
    }
}
