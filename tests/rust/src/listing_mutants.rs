// Wrong versions of the model of "next" (next.rs), each of which the comparison must find at every width at which it is wrong; so a table that were wrong in the
// same way would be found. Those that break the request's sentences amid calls are also run alone, in place of the table, and the sentences must find them.
// Those of its search are tried as wrong counts too (count_mutants.rs).
use crate::coverage::Total;
use crate::listing::{self, dangles_somewhere, in_a_ring};
use crate::model::{entries, last_depth, level_count, level_words, reference, Areas, Ref, Settings, NONE, WIDTHS, WORKER_WORDS};
use crate::next::{word, Given, Rules, Word, AT_END, END, PIXEL, REFUSED, REQUEST, START};
use crate::words::{level_at, TOP};

pub struct Mutant {
    pub name: &'static str,
    pub rules: Rules,
    // the widths at which it is wrong
    pub at: &'static [u32],
    // it breaks the request's sentences
    pub breaks: bool,
}

const fn wrong(name: &'static str, rules: Rules) -> Mutant {
    Mutant { name, rules, at: &WIDTHS, breaks: false }
}
const fn breaks(name: &'static str, rules: Rules) -> Mutant {
    Mutant { breaks: true, ..wrong(name, rules) }
}

pub fn to_nodes(word: u32) -> Option<Ref> {
    Some(reference(word)).filter(|r| matches!(r, Ref::Node(_)))
}
fn to_levels(word: u32) -> Option<Ref> {
    Some(reference(word)).filter(|r| matches!(r, Ref::Level(_)))
}
fn but_none(word: u32) -> Option<Ref> {
    Some(word).filter(|&w| w != NONE).map(reference)
}
fn depth(s: &Settings, a: &Areas, g: u32) -> u32 {
    word(&a.levels, level_at(s.width, g) + 1)
}
fn pixel_word(a: &Areas, r: Ref) -> Option<u32> {
    match r {
        Ref::Node(i) => Some(word(&a.nodes, 2 * i as usize)),
        Ref::Level(_) => None,
    }
}
fn above(pixels: &[(u32, u32)], place: u32) -> impl Iterator<Item = (u32, u32)> + '_ {
    pixels.iter().copied().filter(move |x| x.1 + 1 > place)
}
// with some of the settings as they might be
fn sizes(s: &Settings, workers: u32, limit: u32, nodes: u32, viewers: u32, width: u32) -> bool {
    (REQUEST.sizes)(&Settings { workers, limit, nodes, viewers, width, ..*s })
}
// question 2 where question 1 may not have passed the settings
fn room(s: &Settings, a: &Areas) -> bool {
    !((1..=8).contains(&s.limit) && WIDTHS.contains(&s.width)) || (REQUEST.room)(s, a)
}

// what is reached, what is taken, question 6 whatever the place, questions 1 to 3
pub static SEARCHES: &[Mutant] = &[
    // which words are references
    breaks("previous words are not followed", Rules { previous: |_, _| None, ..REQUEST }),
    wrong("the root's previous word is not followed", Rules { previous: |g, w| (REQUEST.previous)(g, w).filter(|_| g != 0), ..REQUEST }),
    breaks("the root's previous word alone is followed", Rules { previous: |g, w| (REQUEST.previous)(g, w).filter(|_| g == 0), ..REQUEST }),
    wrong("none leads nowhere at the root alone", Rules { previous: |g, w| (g != 0 || w != NONE).then_some(Ref::Level(w)), ..REQUEST }),
    breaks("none leads nowhere below the root alone", Rules { previous: |g, w| (g == 0 || w != NONE).then_some(Ref::Level(w)), ..REQUEST }),
    wrong(
        "a previous level that is the level itself is bad",
        Rules { previous: |g, w| (REQUEST.previous)(g, if w == g { NONE - 1 } else { w }), ..REQUEST },
    ),
    breaks("previous words are read as references", Rules { previous: |_, w| but_none(w), ..REQUEST }),
    wrong("previous words are doubled in 32 bits", Rules { previous: |_, w| (w != NONE).then(|| reference(w.wrapping_mul(2))), ..REQUEST }),
    wrong("a bad previous word leads nowhere", Rules { previous: |_, w| (w < 1 << 16).then_some(Ref::Level(w)), ..REQUEST }),
    breaks("the first entry alone is followed", Rules { entries: |_| 2..3, ..REQUEST }),
    breaks("the first entry is left out", Rules { entries: |w| 3..level_words(w), ..REQUEST }),
    breaks("the last entry is left out", Rules { entries: |w| 2..level_words(w) - 1, ..REQUEST }),
    Mutant {
        at: &[4, 6],
        ..breaks("eight entries are followed at every width", Rules { entries: |w| 2..2 + entries(w).min(8) as usize, ..REQUEST })
    },
    breaks("the depth is followed as an entry", Rules { entries: |w| 1..level_words(w), ..REQUEST }),
    breaks("the word behind a level is followed as an entry", Rules { entries: |w| 2..level_words(w) + 1, ..REQUEST }),
    breaks("entries are followed to nodes alone", Rules { entry: to_nodes, ..REQUEST }),
    breaks("entries are followed to levels alone", Rules { entry: to_levels, ..REQUEST }),
    wrong("none in an entry leads nowhere", Rules { entry: but_none, ..REQUEST }),
    breaks("next words are not followed", Rules { next: |_| None, ..REQUEST }),
    breaks("next words are followed to nodes alone", Rules { next: to_nodes, ..REQUEST }),
    breaks("next words are followed to levels alone", Rules { next: to_levels, ..REQUEST }),
    wrong("none in a next word leads nowhere", Rules { next: but_none, ..REQUEST }),
    breaks("nodes and levels are exchanged", Rules { entry: |w| Some(reference(w ^ 1)), next: |w| Some(reference(w ^ 1)), ..REQUEST }),
    // what is taken
    wrong("one node more is taken", Rules { taken: |s, r| matches!(r, Ref::Node(i) if i == s.nodes_taken) || (REQUEST.taken)(s, r), ..REQUEST }),
    wrong("one level more is taken", Rules { taken: |s, r| matches!(r, Ref::Level(g) if g == s.levels_taken) || (REQUEST.taken)(s, r), ..REQUEST }),
    breaks(
        "the last node is not taken",
        Rules { taken: |s, r| !matches!(r, Ref::Node(i) if i + 1 == s.nodes_taken) && (REQUEST.taken)(s, r), ..REQUEST },
    ),
    breaks(
        "the last level is not taken",
        Rules { taken: |s, r| !matches!(r, Ref::Level(g) if g > 0 && g + 1 == s.levels_taken) && (REQUEST.taken)(s, r), ..REQUEST },
    ),
    wrong("every node is taken", Rules { taken: |s, r| matches!(r, Ref::Node(i) if i < s.nodes) || (REQUEST.taken)(s, r), ..REQUEST }),
    wrong(
        "every level is taken",
        Rules { taken: |s, r| matches!(r, Ref::Level(g) if (g as u64) < level_count(s)) || (REQUEST.taken)(s, r), ..REQUEST },
    ),
    wrong("what has words is taken", Rules { taken: |_, _| true, ..REQUEST }),
    breaks(
        "as many levels as nodes are taken",
        Rules { taken: |s, r| matches!(r, Ref::Level(g) if g < s.nodes_taken) || matches!(r, Ref::Node(_)) && (REQUEST.taken)(s, r), ..REQUEST },
    ),
    breaks(
        "as many nodes as levels are taken",
        Rules { taken: |s, r| matches!(r, Ref::Node(i) if i < s.levels_taken) || matches!(r, Ref::Level(_)) && (REQUEST.taken)(s, r), ..REQUEST },
    ),
    // question 6
    wrong("6 is not asked", Rules { sound: |_, _| true, ..REQUEST }),
    wrong("6 is not asked of entries", Rules { sound: |x, _| x.dangling.iter().all(|d| d.1 == Word::Entry), ..REQUEST }),
    wrong("6 is not asked of next words", Rules { sound: |x, _| x.dangling.iter().all(|d| d.1 == Word::Next), ..REQUEST }),
    wrong("6 is not asked of previous words", Rules { sound: |x, _| x.dangling.iter().all(|d| d.1 == Word::Previous), ..REQUEST }),
    wrong("6 is not asked of the root's previous word", Rules { sound: |x, _| x.dangling.iter().all(|d| d.1 == Word::RootsPrevious), ..REQUEST }),
    wrong("6 is asked of what is not reached too", Rules { faulty: |s, a, _| dangles_somewhere(s, a), ..REQUEST }),
    wrong("6 for a ring of nodes", Rules { faulty: |s, a, r| matches!(r, Ref::Node(_)) && in_a_ring(s, a, r), ..REQUEST }),
    wrong("6 for a ring of previous words", Rules { faulty: |s, a, r| matches!(r, Ref::Level(_)) && in_a_ring(s, a, r), ..REQUEST }),
    wrong("6 for a depth out of range", Rules { faulty: |s, a, r| matches!(r, Ref::Level(g) if depth(s, a, g) > last_depth(s.width)), ..REQUEST }),
    wrong("6 for a root's depth that is not 0", Rules { faulty: |s, a, r| r == Ref::Level(0) && depth(s, a, 0) != 0, ..REQUEST }),
    wrong("6 for a root's previous level", Rules { faulty: |_, a, r| r == Ref::Level(0) && word(&a.levels, 0) != NONE, ..REQUEST }),
    wrong("6 for a pixel word above the greatest", Rules { faulty: |_, a, r| pixel_word(a, r).is_some_and(|w| w > TOP), ..REQUEST }),
    breaks(
        "6 for a pixel that another node has",
        Rules { faulty: |_, a, r| pixel_word(a, r).is_some_and(|w| a.nodes.iter().step_by(2).filter(|p| **p == w).count() > 1), ..REQUEST },
    ),
    // the order
    wrong("2 before 1", Rules { order: [2, 1, 3, 11, 6], room, ..REQUEST }),
    wrong("3 before 2", Rules { order: [1, 3, 2, 11, 6], ..REQUEST }),
    wrong("6 before 3", Rules { order: [1, 2, 6, 3, 11], ..REQUEST }),
    // questions 1 to 3
    wrong(
        "17 workers are accepted",
        Rules { sizes: |s| sizes(s, if s.workers == 17 { 16 } else { s.workers }, s.limit, s.nodes, s.viewers, s.width), ..REQUEST },
    ),
    wrong(
        "limit 9 is accepted",
        Rules { sizes: |s| sizes(s, s.workers, if s.limit == 9 { 8 } else { s.limit }, s.nodes, s.viewers, s.width), ..REQUEST },
    ),
    wrong(
        "4097 nodes are accepted",
        Rules { sizes: |s| sizes(s, s.workers, s.limit, if s.nodes == 4097 { 1 } else { s.nodes }, s.viewers, s.width), ..REQUEST },
    ),
    wrong("16 workers are refused", Rules { sizes: |s| s.workers < 16 && (REQUEST.sizes)(s), ..REQUEST }),
    wrong("chain limit 8 is refused", Rules { sizes: |s| s.limit < 8 && (REQUEST.sizes)(s), ..REQUEST }),
    wrong("4096 nodes are refused", Rules { sizes: |s| s.nodes < 4096 && (REQUEST.sizes)(s), ..REQUEST }),
    wrong("any number of viewers is accepted", Rules { sizes: |s| sizes(s, s.workers, s.limit, s.nodes, 0, s.width), ..REQUEST }),
    wrong("one worker has to place", Rules { sizes: |s| s.viewers < s.workers && (REQUEST.sizes)(s), ..REQUEST }),
    wrong(
        "width 5 is accepted",
        Rules { sizes: |s| sizes(s, s.workers, s.limit, s.nodes, s.viewers, if s.width == 5 { 3 } else { s.width }), ..REQUEST },
    ),
    wrong(
        "the workers' area is asked for",
        Rules { room: |s, a| (REQUEST.room)(s, a) && a.workers.len() >= WORKER_WORDS * s.workers as usize, ..REQUEST },
    ),
    wrong(
        "the nodes' area is not asked for",
        Rules { room: |s, a| a.levels.len() as u64 >= level_words(s.width) as u64 * level_count(s), ..REQUEST },
    ),
    wrong("the levels' area is not asked for", Rules { room: |s, a| a.nodes.len() as u64 >= 2 * s.nodes as u64, ..REQUEST }),
    wrong(
        "a word less of nodes is enough",
        Rules {
            room: |s, a| a.nodes.len() as u64 + 1 >= 2 * s.nodes as u64 && a.levels.len() as u64 >= level_words(s.width) as u64 * level_count(s),
            ..REQUEST
        },
    ),
    wrong(
        "a word less of levels is enough",
        Rules {
            room: |s, a| a.nodes.len() as u64 >= 2 * s.nodes as u64 && a.levels.len() as u64 + 1 >= level_words(s.width) as u64 * level_count(s),
            ..REQUEST
        },
    ),
    wrong(
        "longer areas are refused",
        Rules {
            room: |s, a| a.nodes.len() as u64 == 2 * s.nodes as u64 && a.levels.len() as u64 == level_words(s.width) as u64 * level_count(s),
            ..REQUEST
        },
    ),
    wrong("3 is not asked", Rules { counts: |_| true, ..REQUEST }),
    wrong("one node more than all may be taken", Rules { counts: |s| s.nodes_taken == s.nodes + 1 || (REQUEST.counts)(s), ..REQUEST }),
    breaks("not all nodes may be taken", Rules { counts: |s| s.nodes_taken < s.nodes && (REQUEST.counts)(s), ..REQUEST }),
    wrong("no level has to be taken", Rules { counts: |s| s.levels_taken == 0 || (REQUEST.counts)(s), ..REQUEST }),
    wrong(
        "one level more than all may be taken",
        Rules { counts: |s| s.levels_taken as u64 == level_count(s) + 1 || (REQUEST.counts)(s), ..REQUEST },
    ),
    wrong("not all levels may be taken", Rules { counts: |s| (s.levels_taken as u64) < level_count(s) && (REQUEST.counts)(s), ..REQUEST }),
];

static MUTANTS: &[Mutant] = &[
    // question 6, by the place
    wrong("6 is not asked at the end", Rules { sound: |x, place| place == END || (REQUEST.sound)(x, place), ..REQUEST }),
    wrong("6 is asked at the end alone", Rules { sound: |x, place| place != END || (REQUEST.sound)(x, place), ..REQUEST }),
    wrong("6 is asked at the start alone", Rules { sound: |x, place| place != START || (REQUEST.sound)(x, place), ..REQUEST }),
    wrong("6 is asked once a listing has begun", Rules { sound: |x, place| place == START || (REQUEST.sound)(x, place), ..REQUEST }),
    wrong(
        "6 is asked where no pixel is left alone",
        Rules { sound: |x, place| above(&x.pixels, place).next().is_some() || (REQUEST.sound)(x, place), ..REQUEST },
    ),
    wrong(
        "6 is asked up to the first pixel",
        Rules {
            sound: |x, place| {
                let first = above(&x.pixels, place).map(|p| p.0).min().unwrap_or(u32::MAX);
                x.dangling.iter().all(|d| d.0 > first)
            },
            ..REQUEST
        },
    ),
    // which pixel comes
    breaks("the pixel of the first node", Rules { smallest: |x, place| above(x, place).next().map(|x| x.1), ..REQUEST }),
    breaks("the pixel of the last node", Rules { smallest: |x, place| above(x, place).last().map(|x| x.1), ..REQUEST }),
    breaks("the pixel that is met first", Rules { smallest: |x, place| above(x, place).min_by_key(|x| x.0).map(|x| x.1), ..REQUEST }),
    breaks("the greatest pixel", Rules { smallest: |x, place| above(x, place).map(|x| x.1).max(), ..REQUEST }),
    breaks(
        "the pixel above the last one is passed over",
        Rules { smallest: |x, place| (REQUEST.smallest)(x, place.saturating_add((place > 0) as u32)), ..REQUEST },
    ),
    breaks("pixel 0 is passed over", Rules { smallest: |x, place| (REQUEST.smallest)(x, place.max(1)), ..REQUEST }),
    breaks("the last one is given again", Rules { smallest: |x, place| (REQUEST.smallest)(x, place.saturating_sub(1)), ..REQUEST }),
    breaks("the place is not looked at", Rules { smallest: |x, _| (REQUEST.smallest)(x, START), ..REQUEST }),
    wrong(
        "a pixel of two nodes comes twice",
        Rules {
            smallest: |x, place| if x.iter().filter(|x| x.1 + 1 == place).count() > 1 { Some(place - 1) } else { (REQUEST.smallest)(x, place) },
            ..REQUEST
        },
    ),
    breaks("every taken node is listed", Rules { listed: |s, i, _| i < s.nodes_taken, ..REQUEST }),
    breaks("node 0 is not listed", Rules { listed: |_, i, reached| i > 0 && reached, ..REQUEST }),
    breaks("the last taken node is not listed", Rules { listed: |s, i, reached| i + 1 != s.nodes_taken && reached, ..REQUEST }),
    wrong("a word above the greatest pixel is given", Rules { pixel: |w| Some(w.min(NONE - 1)), ..REQUEST }),
    wrong("one above the greatest pixel is given", Rules { pixel: |w| (w <= TOP + 1).then_some(w), ..REQUEST }),
    wrong("the low bits of a pixel word are given", Rules { pixel: |w| Some(w & TOP), ..REQUEST }),
    wrong("the greatest pixel is not given", Rules { pixel: |w| (w < TOP).then_some(w), ..REQUEST }),
    wrong("what was reached before is reached", Rules { keeps: true, ..REQUEST }),
    // question 11
    breaks("11 for end", Rules { places: |place| place < END, ..REQUEST }),
    breaks("11 for start", Rules { places: |place| place != START && place <= END, ..REQUEST }),
    wrong("11 for the greatest pixel", Rules { places: |place| place != TOP + 1 && place <= END, ..REQUEST }),
    wrong("11 above one more than end", Rules { places: |place| place <= END + 1, ..REQUEST }),
    wrong("11 is not asked", Rules { places: |_| true, ..REQUEST }),
    wrong("11 is asked of 25 bits", Rules { places: |place| place % (1 << 25) <= END, ..REQUEST }),
    wrong("11 is asked of 31 bits", Rules { places: |place| place % (1 << 31) <= END, ..REQUEST }),
    // the order with 11
    wrong("11 before 1", Rules { order: [11, 1, 2, 3, 6], ..REQUEST }),
    wrong("11 before 2", Rules { order: [1, 11, 2, 3, 6], ..REQUEST }),
    wrong("11 before 3", Rules { order: [1, 2, 11, 3, 6], ..REQUEST }),
    wrong("6 before 11", Rules { order: [1, 2, 3, 6, 11], ..REQUEST }),
    // the place after it
    wrong("6 ends the listing", Rules { moved: |place, x| if x.number == 6 { END } else { (REQUEST.moved)(place, x) }, ..REQUEST }),
    wrong("6 begins the listing anew", Rules { moved: |place, x| if x.number == 6 { START } else { (REQUEST.moved)(place, x) }, ..REQUEST }),
    wrong("6 moves the place on", Rules { moved: |place, x| if x.number == 6 { place + 1 } else { (REQUEST.moved)(place, x) }, ..REQUEST }),
    wrong("11 ends the listing", Rules { moved: |place, x| if x.number == 11 { END } else { (REQUEST.moved)(place, x) }, ..REQUEST }),
    wrong("11 begins the listing anew", Rules { moved: |place, x| if x.number == 11 { START } else { (REQUEST.moved)(place, x) }, ..REQUEST }),
    wrong("1 to 3 end the listing", Rules { moved: |place, x| if matches!(x.number, 1..=3) { END } else { (REQUEST.moved)(place, x) }, ..REQUEST }),
    wrong(
        "1 to 3 begin the listing anew",
        Rules { moved: |place, x| if matches!(x.number, 1..=3) { START } else { (REQUEST.moved)(place, x) }, ..REQUEST },
    ),
    breaks("the place is not moved", Rules { moved: |place, _| place, ..REQUEST }),
    breaks("the place is the pixel", Rules { moved: |place, x| if x.answer == PIXEL { x.pixel } else { (REQUEST.moved)(place, x) }, ..REQUEST }),
    breaks("the place is moved by one", Rules { moved: |place, x| if x.answer == PIXEL { place + 1 } else { (REQUEST.moved)(place, x) }, ..REQUEST }),
    breaks("the place goes two beyond the pixel", Rules { moved: |place, x| (REQUEST.moved)(place, x) + (x.answer == PIXEL) as u32, ..REQUEST }),
    breaks(
        "the end does not move the place",
        Rules { moved: |place, x| if x.answer == AT_END { place } else { (REQUEST.moved)(place, x) }, ..REQUEST },
    ),
    breaks(
        "the end begins the listing anew",
        Rules { moved: |place, x| if x.answer == AT_END { START } else { (REQUEST.moved)(place, x) }, ..REQUEST },
    ),
    // what is told
    wrong("a refusal is told as the end", Rules { told: |x, _| if x.answer == REFUSED { Given { answer: AT_END, ..x } } else { x }, ..REQUEST }),
    wrong("6 tells the pixel", Rules { told: |x, pixel| Given { pixel: pixel.unwrap_or(0), ..x }, ..REQUEST }),
    wrong("the end is told as a refusal", Rules { told: |x, _| if x.answer == AT_END { Given { answer: REFUSED, ..x } } else { x }, ..REQUEST }),
    breaks("the end is told as pixel 0", Rules { told: |x, _| if x.answer == AT_END { Given { answer: PIXEL, ..x } } else { x }, ..REQUEST }),
];

// Each wrong version until the first difference, at each width at which it is wrong, and alone until a sentence is broken; gives the names of those not found there.
pub fn missed(seed: u64) -> Vec<String> {
    let mut missed = vec![];
    let all = || SEARCHES.iter().chain(MUTANTS);
    for m in all() {
        let mut after = vec![];
        for &width in m.at {
            match found(m, false, width, seed) {
                Some(nexts) => after.push(format!("{nexts} nexts at width {width}")),
                None => missed.push(format!("wrong next never found at width {width}: {}", m.name)),
            }
            if m.breaks {
                match found(m, true, width, seed) {
                    Some(nexts) => after.push(format!("{nexts} by the sentences")),
                    None => missed.push(format!("wrong next never found by the sentences at width {width}: {}", m.name)),
                }
            }
        }
        println!("wrong next found after {}: {}", after.join(", "), m.name);
    }
    let widths: usize = all().map(|m| m.at.len()).sum();
    let breaking = all().filter(|m| m.breaks).count();
    let found = if missed.is_empty() { "all found" } else { "not all found" };
    println!("{} wrong versions of next, {widths} by width, {breaking} of them by the sentences alone too: {found}", all().count());
    missed
}

// the number of nexts until the wrong version was found
fn found(m: &Mutant, alone: bool, width: u32, seed: u64) -> Option<u64> {
    let mut total = Total::default();
    (total.listings.rules, total.listings.alone, total.listings.counts.asked) = (m.rules, alone, false);
    let memory = if alone { Ok(()) } else { listing::over_memory(width, seed, &mut total) };
    memory.and_then(|()| listing::amid_calls(width, seed, &mut total)).err().map(|_| total.listings.nexts)
}
