// A model of the flagged count, from document 02's request 02: "The flagged count becomes the number of nodes that can be reached from the root."
// Relies on next.rs for what is reached, which it finds by sweeps, and for questions 1, 2, 3 and 6; nothing here is taken from the Rattle code.
use crate::model::{Areas, Settings};
use crate::next::{self, Model, Reached, START};

#[derive(Clone, Copy, Debug, PartialEq, Eq)]
pub struct Count {
    pub number: u32,
    pub count: u32,
}

// What the model does; a wrong version is one of these changed.
#[derive(Clone, Copy)]
pub struct Rules {
    // of a "next", whose place and pixels play no part here
    pub search: next::Rules,
    pub counted: fn(&Settings, &Areas, &Reached) -> u32,
    // what is told, with what was counted where questions 1 to 3 passed the memory
    pub told: fn(&Settings, Count, Option<u32>) -> Count,
    // the count before this one is told once more
    pub keeps: bool,
}

pub const REQUEST: Rules = Rules { search: next::REQUEST, counted: |_, _, x| nodes(x), told: |_, count, _| count, keeps: false };

// nodes by their numbers, whatever they hold
pub fn nodes(x: &Reached) -> u32 {
    x.nodes.iter().filter(|&&sweep| sweep > 0).count() as u32
}

// Questions 1, 2, 3 and 6 in the order of a "next", without its question of the place
pub fn flagged(rules: &Rules, m: &mut Model) -> Count {
    let no = m.first_no(rules.search.order.into_iter().filter(|&number| number != 11), START);
    let counted = match no {
        Some(1..=3) => None,
        _ => Some((rules.counted)(m.s, m.a, m.reached())),
    };
    let count = Count { number: no.unwrap_or(0), count: if no.is_some() { 0 } else { counted.unwrap_or(0) } };
    (rules.told)(m.s, count, counted)
}
