// Wrong versions of the model of the flagged count (count.rs), each of which the comparison must find at every width at which it is wrong. Those that break the
// request's words amid calls, as nodes taken does, are also run alone, in place of the table: the calls' answers and the list must find them. The others keep them
// in the small sequences that are run here; other settings, refusals or spoiled memory show them. Wrong searches are those of "next" (listing_mutants.rs).
use crate::count::{nodes, Count, Rules, REQUEST};
use crate::counting::held;
use crate::coverage::Total;
use crate::listing::{self, in_a_ring};
use crate::listing_mutants::{to_nodes, SEARCHES};
use crate::model::{Areas, Ref, Settings, NONE, WIDTHS};
use crate::next::{self, word, Reached};
use crate::words::{is_node, level_at, HELD_NODE, KIND, RECORD, TOP};
use std::collections::BTreeSet;

struct Mutant {
    name: &'static str,
    rules: Rules,
    at: &'static [u32],
    // it breaks the request's words
    breaks: bool,
}

const fn wrong(name: &'static str, rules: Rules) -> Mutant {
    Mutant { name, rules, at: &WIDTHS, breaks: false }
}
const fn breaks(name: &'static str, rules: Rules) -> Mutant {
    Mutant { breaks: true, ..wrong(name, rules) }
}

// the reached nodes, with the sweep that met each
fn met(x: &Reached) -> impl Iterator<Item = (u32, u32)> + '_ {
    (0..).zip(&x.nodes).filter(|i| *i.1 > 0).map(|(i, &sweep)| (i, sweep))
}
fn pixels<'a>(a: &'a Areas, x: &'a Reached) -> impl Iterator<Item = u32> + 'a {
    met(x).map(|i| word(&a.nodes, 2 * i.0 as usize))
}
fn many(of: impl Iterator) -> u32 {
    of.count() as u32
}
// references to nodes in the words of these levels and nodes
fn referred(s: &Settings, a: &Areas, levels: impl Iterator<Item = u32>, nodes: impl Iterator<Item = u32>) -> Vec<u32> {
    let entries = levels.flat_map(|g| (next::REQUEST.entries)(s.width).map(move |k| word(&a.levels, level_at(s.width, g) + k)));
    entries.chain(nodes.map(|i| word(&a.nodes, 2 * i as usize + 1))).filter(|&w| is_node(w)).collect()
}
fn reached_levels(x: &Reached) -> impl Iterator<Item = u32> + '_ {
    (0..).zip(&x.levels).filter(|g| *g.1 > 0).map(|g| g.0)
}
// spare nodes of idle workers
fn idle_spares(s: &Settings, a: &Areas) -> u32 {
    many(a.workers.chunks_exact(RECORD).take(s.workers as usize).filter(|w| w[KIND] == 0 && w[HELD_NODE] != 0))
}
// the first sweep that met something in a ring
fn ring(s: &Settings, a: &Areas, x: &Reached) -> u32 {
    let nodes = met(x).filter(|i| in_a_ring(s, a, Ref::Node(i.0))).map(|i| i.1);
    let levels = reached_levels(x).filter(|&g| in_a_ring(s, a, Ref::Level(g))).map(|g| x.levels[g as usize]);
    nodes.chain(levels).min().unwrap_or(u32::MAX)
}

static MUTANTS: &[Mutant] = &[
    // what workers hold, by which nodes taken is higher
    breaks("nodes taken", Rules { counted: |s, _, _| s.nodes_taken, ..REQUEST }),
    breaks(
        "nodes taken less the spare nodes of idle workers",
        Rules { counted: |s, a, _| s.nodes_taken.saturating_sub(idle_spares(s, a)), ..REQUEST },
    ),
    breaks("nodes taken less spare nodes", Rules { counted: |s, a, _| s.nodes_taken.saturating_sub(held(s, a)[0]), ..REQUEST }),
    breaks("nodes taken less nodes in hand", Rules { counted: |s, a, _| s.nodes_taken.saturating_sub(held(s, a)[1]), ..REQUEST }),
    // along every sequence as many as are reached
    wrong(
        "nodes taken less spare nodes and nodes in hand",
        Rules { counted: |s, a, _| s.nodes_taken.saturating_sub(held(s, a).iter().sum()), ..REQUEST },
    ),
    breaks("every node of the table", Rules { counted: |s, _, _| s.nodes, ..REQUEST }),
    breaks("up to the last node that is reached", Rules { counted: |_, _, x| met(x).last().map_or(0, |i| i.0 + 1), ..REQUEST }),
    breaks("the count before", Rules { keeps: true, ..REQUEST }),
    // which of the reached nodes
    breaks("one more", Rules { counted: |_, _, x| nodes(x) + 1, ..REQUEST }),
    breaks("one less", Rules { counted: |_, _, x| nodes(x).saturating_sub(1), ..REQUEST }),
    breaks("node 0 is not counted", Rules { counted: |_, _, x| many(met(x).filter(|i| i.0 > 0)), ..REQUEST }),
    breaks("the last taken node is not counted", Rules { counted: |s, _, x| many(met(x).filter(|i| i.0 + 1 < s.nodes_taken)), ..REQUEST }),
    breaks("pixel 0 is not counted", Rules { counted: |_, a, x| many(pixels(a, x).filter(|&p| p > 0)), ..REQUEST }),
    breaks("the greatest pixel is not counted", Rules { counted: |_, a, x| many(pixels(a, x).filter(|&p| p != TOP)), ..REQUEST }),
    wrong("pixels, each once", Rules { counted: |_, a, x| pixels(a, x).filter(|&p| p <= TOP).collect::<BTreeSet<_>>().len() as u32, ..REQUEST }),
    wrong("pixel words, each once", Rules { counted: |_, a, x| pixels(a, x).collect::<BTreeSet<_>>().len() as u32, ..REQUEST }),
    wrong("nodes with a pixel", Rules { counted: |_, a, x| many(pixels(a, x).filter(|&p| p <= TOP)), ..REQUEST }),
    wrong("nodes whose pixel word is not all bits", Rules { counted: |_, a, x| many(pixels(a, x).filter(|&p| p != NONE)), ..REQUEST }),
    // what else is counted
    breaks("levels too", Rules { counted: |_, _, x| nodes(x) + many(reached_levels(x)), ..REQUEST }),
    breaks("levels below the root too", Rules { counted: |_, _, x| nodes(x) + many(reached_levels(x)).saturating_sub(1), ..REQUEST }),
    breaks("levels in place of nodes", Rules { counted: |_, _, x| many(reached_levels(x)), ..REQUEST }),
    breaks(
        "references to nodes, so that one with two counts twice",
        Rules { counted: |s, a, x| referred(s, a, reached_levels(x), met(x).map(|i| i.0)).len() as u32, ..REQUEST },
    ),
    wrong(
        "nodes that anything taken refers to",
        Rules {
            counted: |s, a, x| {
                let words = referred(s, a, 0..s.levels_taken, 0..s.nodes_taken).into_iter().map(|w| w / 2);
                words.filter(|&i| i < s.nodes_taken).chain(met(x).map(|i| i.0)).collect::<BTreeSet<_>>().len() as u32
            },
            ..REQUEST
        },
    ),
    breaks(
        "the root's own chains",
        Rules { search: next::Rules { entry: to_nodes, next: to_nodes, previous: |_, _| None, ..next::REQUEST }, ..REQUEST },
    ),
    // rings
    wrong("nothing behind a ring", Rules { counted: |s, a, x| many(met(x).filter(|i| i.1 <= ring(s, a, x))), ..REQUEST }),
    wrong("no node of a ring", Rules { counted: |s, a, x| many(met(x).filter(|i| !in_a_ring(s, a, Ref::Node(i.0)))), ..REQUEST }),
    wrong("a node of a ring once more", Rules { counted: |s, a, x| nodes(x) + met(x).any(|i| in_a_ring(s, a, Ref::Node(i.0))) as u32, ..REQUEST }),
    // what is told
    wrong("6 tells what was counted", Rules { told: |_, x, counted| Count { count: counted.unwrap_or(0), ..x }, ..REQUEST }),
    wrong("6 tells nodes taken", Rules { told: |s, x, _| if x.number == 6 { Count { count: s.nodes_taken, ..x } } else { x }, ..REQUEST }),
    wrong(
        "1 to 3 tell nodes taken",
        Rules { told: |s, x, _| if matches!(x.number, 1..=3) { Count { count: s.nodes_taken, ..x } } else { x }, ..REQUEST },
    ),
    wrong("6 is told as a count of 0", Rules { told: |_, x, _| if x.number == 6 { Count { number: 0, count: 0 } } else { x }, ..REQUEST }),
    wrong("3 is told as 6", Rules { told: |_, x, _| if x.number == 3 { Count { number: 6, count: 0 } } else { x }, ..REQUEST }),
    wrong("a count of 8 bits", Rules { counted: |_, _, x| nodes(x) % 256, ..REQUEST }),
    wrong("a count of 12 bits", Rules { counted: |_, _, x| nodes(x) % 4096, ..REQUEST }),
    wrong("128 at most", Rules { counted: |_, _, x| nodes(x).min(128), ..REQUEST }),
];

fn all() -> impl Iterator<Item = Mutant> {
    let own = MUTANTS.iter().map(|m| Mutant { ..*m });
    let searches = SEARCHES.iter().map(|m| Mutant { name: m.name, rules: Rules { search: m.rules, ..REQUEST }, at: m.at, breaks: m.breaks });
    own.chain(searches)
}

// Each wrong version until the first difference, at each width at which it is wrong. One that breaks the words is also run alone until they are broken, another one
// may not break them, which is asked at one width. Gives the names of those of which this does not hold.
pub fn missed(seed: u64) -> Vec<String> {
    let mut missed = vec![];
    for m in all() {
        let mut after = vec![];
        for &width in m.at {
            match found(&m, false, width, seed) {
                Some(counts) => after.push(format!("{counts} counts at width {width}")),
                None => missed.push(format!("wrong count never found at width {width}: {}", m.name)),
            }
            if !m.breaks && width != 3 {
                continue;
            }
            match found(&m, true, width, seed) {
                Some(counts) if m.breaks => after.push(format!("{counts} by the request's words")),
                Some(counts) => missed.push(format!("wrong count found by the request's words after {counts} at width {width}: {}", m.name)),
                None if m.breaks => missed.push(format!("wrong count never found by the request's words at width {width}: {}", m.name)),
                None => {}
            }
        }
        println!("wrong count found after {}: {}", after.join(", "), m.name);
    }
    let (widths, breaking): (usize, usize) = (all().map(|m| m.at.len()).sum(), all().filter(|m| m.breaks).count());
    let found = if missed.is_empty() { "all found" } else { "not all found" };
    println!("{} wrong versions of the count, {widths} by width, {breaking} of them by the request's words alone too: {found}", all().count());
    missed
}

// the number of counts until the wrong version was found
fn found(m: &Mutant, alone: bool, width: u32, seed: u64) -> Option<u64> {
    let mut total = Total::default();
    (total.listings.counts.wrong, total.listings.alone) = (Some(m.rules), alone);
    let memory = if alone { Ok(()) } else { listing::over_memory(width, seed, &mut total) };
    memory.and_then(|()| listing::amid_calls(width, seed, &mut total)).err().map(|_| total.listings.counts.counts)
}
