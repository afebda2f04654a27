// Wrong versions of the text program coded apart. The comparison must find each of them, among the written texts and among the random ones, so a
// program that were wrong in the same way would be found.
use crate::model::{Roles, ROLES};
use crate::runs::Ran;
use crate::text::{printed, Rules, DOCUMENT};

const WRONG: [(&str, Rules); 32] = [
    ("a leading zero is accepted", Rules { leading_zero: true, ..DOCUMENT }),
    ("five digits are accepted", Rules { most_digits: 5, ..DOCUMENT }),
    ("three digits at most", Rules { most_digits: 3, ..DOCUMENT }),
    ("byte 13 before byte 10 is left out", Rules { return_is_left_out: true, ..DOCUMENT }),
    ("empty lines are left out", Rules { empty_line_is_left_out: true, ..DOCUMENT }),
    ("an unended last line is read", Rules { unended_line_is_read: true, ..DOCUMENT }),
    ("a second s opens again", Rules { second_s_opens: true, ..DOCUMENT }),
    ("65,537 bytes are read", Rules { longest_input: 65_537, ..DOCUMENT }),
    ("65,536 bytes are too long", Rules { longest_input: 65_535, ..DOCUMENT }),
    ("129 nodes are accepted", Rules { most_nodes: 129, ..DOCUMENT }),
    ("digits of 2 bits", Rules { width: 2, ..DOCUMENT }),
    ("digits of 4 bits", Rules { width: 4, ..DOCUMENT }),
    ("digits of 6 bits", Rules { width: 6, ..DOCUMENT }),
    ("lines are counted from 0", Rules { number_of_first_line: 0, ..DOCUMENT }),
    ("5 before 4", Rules { pixel_is_asked_first: true, ..DOCUMENT }),
    ("a row has the pixel of a refused start", Rules { pixel_of_refused_start: true, ..DOCUMENT }),
    ("full is printed as refused", Rules { full_is_refused: true, ..DOCUMENT }),
    ("an end line after a refused first line", Rules { end_after_refused_first_line: true, ..DOCUMENT }),
    ("a fifth field does not read", Rules { first_line: &[4], ..DOCUMENT }),
    ("a first line without a fifth field does not read", Rules { first_line: &[5], ..DOCUMENT }),
    ("a sixth field is left out", Rules { first_line: &[4, 5, 6], ..DOCUMENT }),
    ("without a fifth field there is one viewer", Rules { viewers: 1, ..DOCUMENT }),
    ("any number of viewers opens", Rules { roles: Roles { accepted: |_| true, ..ROLES }, ..DOCUMENT }),
    ("the first workers are viewers", Rules { roles: Roles { views: |s, i| i < s.viewers, ..ROLES }, ..DOCUMENT }),
    ("v is carried out as c", Rules { v_places: true, ..DOCUMENT }),
    ("c on a viewer is carried out as v", Rules { c_views: true, ..DOCUMENT }),
    ("v on another worker is carried out", Rules { roles: Roles { may_start: |looks, viewer| looks || !viewer, ..ROLES }, ..DOCUMENT }),
    ("17 before 5", Rules { roles: Roles { asked_before: 5, ..ROLES }, ..DOCUMENT }),
    ("17 after 7", Rules { roles: Roles { asked_before: 8, ..ROLES }, ..DOCUMENT }),
    ("absent is printed with a node", Rules { absent: Some("absent,0"), ..DOCUMENT }),
    ("absent is printed as full", Rules { absent: Some("full,-"), ..DOCUMENT }),
    ("absent is not printed", Rules { absent: None, ..DOCUMENT }),
];

// how many texts there were up to the first that finds it
fn found(rules: &Rules, all: &[Ran]) -> Option<usize> {
    all.iter().position(|ran| printed(rules, &ran.case.input).output != ran.printed.output).map(|k| k + 1)
}

// gives the names of those never found
pub fn missed(written: &[Ran], random: &[Ran]) -> Vec<String> {
    let mut missed = vec![];
    for (name, rules) in &WRONG {
        match (found(rules, written), found(rules, random)) {
            (Some(w), Some(r)) => println!("wrong version found by written text {w} and random text {r}: {name}"),
            (w, r) => missed.push(format!("wrong version found by written text {w:?} and random text {r:?}: {name}")),
        }
    }
    println!("{} of {} wrong text programs found", WRONG.len() - missed.len(), WRONG.len());
    missed
}
