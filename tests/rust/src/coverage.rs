// What all sequences together reached, at each digit width. What they had to reach and did not fails the test.
use crate::bound::{BoundSeen, EXCHANGES};
use crate::listing::Listings;
use crate::model::{last_depth, Areas, Kind, Kind::*, Seen, Settings, KINDS, LISTS, WIDTHS};
use crate::mutants::Chosen;
use crate::pair::{Numbers, Pair, NUMBER_COUNT, OPERATIONS};
use std::collections::BTreeMap;

// The place of a width among WIDTHS; what is no width has the last one.
pub const PLACES: usize = WIDTHS.len() + 1;
pub fn place(width: u32) -> usize {
    WIDTHS.iter().position(|&w| w == width).unwrap_or(WIDTHS.len())
}

// How often each of some things was met at each width, of which none may be missing.
pub struct Met {
    asked: &'static [&'static str],
    times: BTreeMap<&'static str, [u64; WIDTHS.len()]>,
}

impl Met {
    pub fn of(asked: &'static [&'static str]) -> Met {
        Met { asked, times: BTreeMap::new() }
    }

    pub fn count(&mut self, width: u32, what: &'static str, times: u64) {
        assert!(self.asked.contains(&what), "{what} is not asked for");
        // another width, which is refused, has no place
        if let Some(met) = self.times.entry(what).or_default().get_mut(place(width)) {
            *met += times;
        }
    }

    // prints what was met, and gives what was not
    pub fn report(&self) -> Vec<String> {
        let times = |what: &str| self.times.get(what).copied().unwrap_or_default();
        let text: Vec<String> = self.asked.iter().map(|what| format!("{what} {:?}", times(what))).collect();
        println!("{}", text.join(", "));
        let never = self.asked.iter().filter(|what| times(what).contains(&0));
        never.map(|what| format!("{what}: {:?}", times(what))).collect()
    }
}

#[derive(Default)]
pub struct Total {
    pub turns: u64,
    // the wrong version that the model of every further sequence has
    pub mutant: Option<Chosen>,
    pub listings: Listings,
    reached: [Reached; PLACES],
}

// What was reached at one width.
#[derive(Default)]
struct Reached {
    seen: Seen,
    numbers: Numbers,
    bound: BoundSeen,
}

// the numbers that each operation can give, in the order of OPERATIONS
const NUMBERS: [&[usize]; 6] =
    [&[0, 1, 2], &[0, 1, 2, 3, 4, 5, 17, 6, 7], &[0, 1, 2, 3, 4, 5, 17, 6, 7], &[0, 1, 2, 3, 4, 6, 8, 9], &[0, 1, 2, 3, 4, 6], &[0, 1, 2, 3, 4, 6]];

// the kinds that follow each kind of turn, in the order of KINDS; Idle is the call's end. Turns whose exchange failed are apart, below.
const FOLLOWS: [&[Kind]; 23] = [
    &[],
    &[Take, Read],
    &[Put, Idle],
    &[Idle],
    &[Idle, Tail, Look],
    &[TakeTail, Level, Follow],
    &[Append, Idle],
    &[Idle],
    &[Close],
    &[ChainHead],
    &[Idle, Tail, Look],
    &[ChainNext, MoveEnd],
    &[ChainNext, SetNext],
    &[SetLook],
    &[SetPut, SetRead],
    &[SetNext, MoveEnd],
    &[SetTail, SetNext],
    &[SetAppend, SetLevel, SetFollow],
    &[SetNext, MoveEnd],
    &[SetClose],
    &[ChainHead],
    &[SetTail, SetNext],
    &[Look, SetNext],
];

// the kinds that follow a failed exchange: a pixel is compared in a search alone
fn follows_failed(kind: Kind) -> &'static [Kind] {
    match kind {
        Put | Append | Close => &[Idle, Tail, Look],
        SetPut | SetAppend | SetClose => &[SetTail, SetNext],
        _ => &[],
    }
}

// the same of a viewer's turns: "absent" is an end too
fn follows_viewed(kind: Kind) -> &'static [Kind] {
    match kind {
        Look => &[Read, Idle],
        Read | Follow => &[Idle, Tail, Look],
        Tail => &[Follow, Idle],
        _ => &[],
    }
}

fn kinds(times: &[u64; 23]) -> String {
    let to: Vec<String> = (0..23).filter(|&n| times[n] > 0).map(|n| format!("{:?} {}", KINDS[n], times[n])).collect();
    to.join(", ")
}

// kinds that came although they do not follow, and that did not although they do
fn otherwise(name: &str, times: &[u64; 23], follows: &[Kind]) -> Vec<String> {
    let wrong = (0..23).filter(|&n| follows.contains(&KINDS[n]) != (times[n] > 0));
    wrong.map(|n| format!("{name} then {:?}, {} times", KINDS[n], times[n])).collect()
}

impl Total {
    pub fn pair(&self, s: Settings, a: Areas, what: &str) -> Pair {
        let mut p = Pair::new(s, a, what);
        p.mutant = self.mutant;
        if let Some(m) = self.mutant {
            p.model.sizes = m.sizes();
            p.model.roles = m.roles();
        }
        p
    }

    pub fn add(&mut self, p: &Pair) {
        self.turns += p.turns();
        let here = &mut self.reached[place(p.model.settings.width)];
        here.seen.add(&p.model.seen);
        here.bound.add(&p.bound);
        for (reached, more) in self.reached.iter_mut().zip(&p.numbers) {
            for (x, y) in reached.numbers.iter_mut().flatten().zip(more.iter().flatten()) {
                *x += y;
            }
        }
    }

    // prints the coverage and gives what was never reached, or should not have been
    pub fn report(&self) -> Vec<String> {
        let mut bad = vec![];
        for (width, reached) in WIDTHS.into_iter().zip(&self.reached) {
            println!("width {width}: {} turns compared", reached.seen.turns());
            bad.extend(reached.report(width).into_iter().map(|what| format!("width {width}: {what}")));
        }
        println!("no width, so that every operation is refused by 1:");
        let none = &self.reached[WIDTHS.len()];
        none.report_numbers(&mut bad, &[&[1]; OPERATIONS.len()]);
        if none.seen.turns() > 0 {
            bad.push(format!("{} turns without a width", none.seen.turns()));
        }
        println!("{} turns compared", self.turns);
        bad.extend(self.listings.report());
        bad
    }
}

impl Reached {
    fn report(&self, width: u32) -> Vec<String> {
        let (mut bad, last, s) = (vec![], last_depth(width) as usize, &self.seen);
        self.report_kinds(&mut bad);
        self.report_failed(&mut bad);
        self.report_viewed(&mut bad);
        println!("records that do not fit: {}; Moves open, 1 to {last}: {:?}", s.sixes[23], &s.nested[1..=last]);
        bad.extend((1..=last).filter(|&k| s.nested[k] == 0).map(|k| format!("{k} Moves")));
        bad.extend((last + 1..s.nested.len()).filter(|&k| s.nested[k] > 0).map(|k| format!("{k} Moves, {} times", s.nested[k])));
        if s.sixes[23] == 0 {
            bad.push("a record that does not fit".to_string());
        }
        self.report_numbers(&mut bad, &NUMBERS);
        self.report_exchanges();
        self.report_lists(&mut bad);
        bad.extend(self.bound.report());
        bad
    }

    fn report_kinds(&self, bad: &mut Vec<String>) {
        for k in 1..23 {
            println!("{:?}, then {}; 6 {} times", KINDS[k], kinds(&self.seen.went[k]), self.seen.sixes[k]);
            bad.extend(otherwise(&format!("{:?}", KINDS[k]), &self.seen.went[k], FOLLOWS[k]));
            if self.seen.sixes[k] == 0 {
                bad.push(format!("6 of {:?}", KINDS[k]));
            }
        }
    }

    fn report_failed(&self, bad: &mut Vec<String>) {
        for k in 1..23 {
            let (name, follows) = (format!("failed {:?}", KINDS[k]), follows_failed(KINDS[k]));
            let times: u64 = self.seen.failed[k].iter().sum();
            if !follows.is_empty() {
                println!("{name} {times} times, then {}; 6 by the word met {} times", kinds(&self.seen.failed[k]), self.seen.failed_sixes[k]);
            }
            bad.extend(otherwise(&name, &self.seen.failed[k], follows));
            if follows.is_empty() != (self.seen.failed_sixes[k] == 0) {
                bad.push(format!("6 by the word met of {name}, {} times", self.seen.failed_sixes[k]));
            }
        }
    }

    fn report_viewed(&self, bad: &mut Vec<String>) {
        let s = &self.seen;
        for k in 1..23 {
            let (name, follows) = (format!("a viewer's {:?}", KINDS[k]), follows_viewed(KINDS[k]));
            if !follows.is_empty() {
                println!("{name}, then {}; 6 {} times", kinds(&s.viewed[k]), s.viewed_sixes[k]);
            }
            bad.extend(otherwise(&name, &s.viewed[k], follows));
            if follows.is_empty() != (s.viewed_sixes[k] == 0) {
                bad.push(format!("6 of {name}, {} times", s.viewed_sixes[k]));
            }
        }
        println!("absent, before {}; viewers' records that do not fit: {}", kinds(&s.absent), s.viewed_sixes[23]);
        bad.extend(otherwise("absent", &s.absent, &[Take, TakeTail, Level]));
        if s.viewed_sixes[23] == 0 {
            bad.push("a viewer's record that does not fit".to_string());
        }
    }

    // that each kind was done and has failed is asked of what follows it, above
    fn report_exchanges(&self) {
        let times = |of: &[[u64; 23]; 23], k: Kind| of[k as usize].iter().sum::<u64>();
        let kinds: Vec<String> =
            EXCHANGES.iter().map(|&k| format!("{k:?} {} and {}", times(&self.seen.went, k), times(&self.seen.failed, k))).collect();
        let all = |of| EXCHANGES.iter().map(|&k| times(of, k)).sum::<u64>();
        println!("exchanges done and failed: {} and {}; {}", all(&self.seen.went), all(&self.seen.failed), kinds.join(", "));
    }

    fn report_lists(&self, bad: &mut Vec<String>) {
        for (k, (name, seen)) in LISTS.iter().zip(self.seen.lists).enumerate() {
            println!("lists {name}: {}, with exchanges done {}, with failed ones {}", seen.lists, seen.done, seen.failed);
            // a refused list has none of either
            let told = |n: u64| (n == 0) == (k == 0);
            if seen.lists == 0 || !told(seen.done) || !told(seen.failed) {
                bad.push(format!("lists {name}: {seen:?}"));
            }
        }
    }

    fn report_numbers(&self, bad: &mut Vec<String>, may_give: &[&[usize]; OPERATIONS.len()]) {
        for (op, name) in OPERATIONS.iter().enumerate() {
            let given = &self.numbers[op];
            let text: Vec<String> = (0..NUMBER_COUNT).filter(|&n| given[n] > 0).map(|n| format!("{n} {} times", given[n])).collect();
            println!("{name} gave {}", text.join(", "));
            for n in 0..NUMBER_COUNT {
                if may_give[op].contains(&n) != (given[n] > 0) {
                    bad.push(format!("number {n} of {name}, {} times", given[n]));
                }
            }
        }
    }
}
