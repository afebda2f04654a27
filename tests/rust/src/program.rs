// The text program, run as a program: document 01's texts with its output, viewers, each number that a text can meet just inside and just outside its case,
// forms of lines, lengths; then random texts, and wrong versions of the program coded apart.
use crate::model::Kind::{self, Idle, Put};
use crate::pair::Compared;
use crate::random::Random;
use crate::runs::{self, Case};
use crate::text::{self, settings, DOCUMENT, HEADER};
use crate::text_coverage::Lines;
use crate::text_mutants;
use crate::texts::{self, Writer};
use crate::words::KIND;
use std::fs;
use std::process::Stdio;

// Everything about the text program; gives what was never reached.
pub fn all(seed: u64, count: u64) -> Compared<Vec<String>> {
    from_a_file_and_in_pieces()?;
    let written = written();
    let written = runs::compare_all(&written)?;
    println!("{count} random texts from seed {seed}");
    let r = &mut Random::new(seed);
    let random: Vec<Case> = (0..count).map(|_| random(r.next())).collect();
    let random = runs::compare_all(&random)?;
    let mut missing = Lines::of(&written).report("written texts");
    missing.extend(Lines::of(&random).report("random texts"));
    missing.extend(text_mutants::missed(&written, &random));
    Ok(missing)
}

fn random(seed: u64) -> Case {
    Case { name: format!("text {seed}"), input: texts::text(seed), output: None }
}

// One random text again, kept in a file.
pub fn one(seed: u64) -> Compared<Vec<String>> {
    let cases = [random(seed)];
    println!("the text is in {}", runs::kept(&cases[0]).display());
    runs::compare_all(&cases)?;
    Ok(vec![])
}

// "s,2,4,8 c,0,0,0" is two lines, as document 01 writes them
fn lines(text: &str) -> String {
    text.split_whitespace().map(|line| line.to_string() + "\n").collect()
}

fn case(name: &str, input: impl Into<Vec<u8>>, rows: &str) -> Case {
    Case { name: name.to_string(), input: input.into(), output: Some((HEADER.to_string() + &lines(rows)).into_bytes()) }
}

fn compared(name: &str, input: impl Into<Vec<u8>>) -> Case {
    Case { name: name.to_string(), input: input.into(), output: None }
}

fn turns(i: u32, k: usize) -> String {
    format!("t,{i} ").repeat(k)
}

fn example(file: &str) -> Vec<u8> {
    fs::read(runs::root().join("examples").join(file)).unwrap_or_else(|e| panic!("examples/{file}: {e}"))
}

fn written() -> Vec<Case> {
    let parts = [
        bench_cases(),
        examples(),
        a_move_turn_by_turn(),
        sizes(),
        viewers(),
        refused_starts_and_turns(),
        first_lines(),
        bytes_in_the_first_line(),
        ends_of_lines(),
        forms_of_numbers(),
        forms_of_lines(),
        every_byte(),
        every_number(),
        lengths(),
        many_workers(),
        many_nodes(),
        nested_moves(),
    ];
    parts.into_iter().flatten().collect()
}

const RACE: &str = "s,2,4,8 c,0,0,0 c,1,0,0 t,0 t,1 t,0 t,1 t,0 t,1 t,1";
// "In the printed race worker 1 ends a turn earlier and line 10 prints `refused,10,8`."
const RACED: &str = "0,0,0,new,0 1,0,0,found,0 refused,10,8";

// P1 to P12. A call ended after k turns and not before if the turn after them, and none before it, is refused by 8.
fn bench_cases() -> Vec<Case> {
    // a call that places (0,0), then another one
    let then = |name: &str, sizes: &str, start: &str, k: usize, rows: &str| {
        case(name, lines(&format!("{sizes} c,0,0,0 {} {start} {}", turns(0, 3), turns(0, k + 1))), &format!("0,0,0,new,0 {rows}"))
    };
    vec![
        case("P1", lines("s,1,4,8 c,0,0,0 t,0 t,0 t,0 t,0"), "0,0,0,new,0 refused,6,8 end,1,1"),
        then("P2", "s,1,4,8", "c,0,0,0", 2, "0,0,0,found,0 refused,9,8 end,1,1"),
        then("P3", "s,1,4,8", "c,0,0,1", 5, "0,0,1,new,1 refused,12,8 end,2,1"),
        case("P4", lines(RACE), &format!("{RACED} end,2,1")),
        case("P5", lines(&format!("{RACE} c,1,512,0 {}", turns(1, 4))), &format!("{RACED} 1,512,0,new,1 refused,15,8 end,2,1")),
        then("P6", "s,1,1,2", "c,0,0,1", 80, "0,0,1,new,1 refused,87,8 end,2,8"),
        then("P7", "s,1,4,1", "c,0,1,1", 4, "0,1,1,full,- refused,11,8 end,1,1"),
        then("P8", "s,1,4,1", "c,0,512,0", 2, "0,512,0,full,- refused,9,8 end,1,1"),
        then("P9", "s,1,4,1", "c,0,0,0", 2, "0,0,0,found,0 refused,9,8 end,1,1"),
        case("P10", lines("s,1,4,1 c,0,4096,0 c,0,4095,0 t,0 t,0 t,0"), "refused,2,5 0,4095,0,new,0 end,1,1"),
        case("P11, limit 8", lines("s,1,8,1"), "end,0,1"),
        case("P11, limit 0", lines("s,1,0,1"), "refused,1,1"),
        case("P11, limit 9", lines("s,1,9,1"), "refused,1,1"),
        case("P12", lines("s,16,8,1 c,16,0,0 c,15,0,0 t,15 t,15 t,15"), "refused,2,4 15,0,0,new,0 end,1,1"),
    ]
}

// The files in examples/; race.txt is the document's text.
fn examples() -> Vec<Case> {
    assert_eq!(example("race.txt"), lines(RACE).into_bytes(), "examples/race.txt");
    let seen = text::printed(&DOCUMENT, &example("retries.txt")).seen;
    let [done, failed] = [seen.went, seen.failed].map(|of| of[Put as usize][Idle as usize]);
    assert_eq!((done, failed, seen.turns()), (1, 3, 12), "exchanges done and failed of examples/retries.txt");
    let viewer = String::from_utf8(example("viewer.txt")).expect("examples/viewer.txt");
    let struck: String = viewer.lines().filter(|line| !line.starts_with("v,") && *line != "t,1").map(|line| line.to_string() + "\n").collect();
    let refused = "refused,2,8 refused,3,4 refused,4,5 refused,6,7 0,0,0,new,0 refused,10,8 refused,11,10 refused,12,10 refused,13,10 refused,14,10
        refused,15,10 1,0,0,found,0 end,1,1";
    vec![
        Case {
            name: "race.txt".to_string(),
            input: example("race.txt"),
            output: Some(b"worker,row,column,answer,node\n0,0,0,new,0\n1,0,0,found,0\nrefused,10,8\nend,2,1\n".to_vec()),
        },
        case("move.txt", example("move.txt"), "0,0,0,new,0 0,64,0,new,1 1,64,0,found,1 0,128,0,new,2 end,3,2"),
        case("viewer.txt", example("viewer.txt"), "0,0,0,new,0 0,64,0,new,1 1,64,0,found,1 1,128,0,absent,- 0,128,0,new,2 1,128,0,found,2 end,3,2"),
        case("viewer.txt without the viewer's lines", struck, "0,0,0,new,0 0,64,0,new,1 0,128,0,new,2 end,3,2"),
        case("refusals.txt", example("refusals.txt"), refused),
        case("full.txt", example("full.txt"), "0,0,0,new,0 0,1,1,full,- 0,512,0,full,- 0,0,0,found,0 end,1,1"),
        // all four look, take and put; three Puts fail and find node 0, and three nodes are spare
        case("retries.txt", example("retries.txt"), "0,0,0,new,0 1,0,0,found,0 2,0,0,found,0 3,0,0,found,0 end,4,1"),
    ]
}

// move.txt cut after each line: the line that prints each row, that takes each node and the level. Worker 0 moves the chain of (0,0) and (64,0);
// worker 1 stands on its first node meanwhile, meets the new level there and goes on in it.
fn a_move_turn_by_turn() -> Vec<Case> {
    const ROWS: [(usize, &str); 4] = [(5, "0,0,0,new,0"), (11, "0,64,0,new,1"), (37, "1,64,0,found,1"), (39, "0,128,0,new,2")];
    const NODES: [usize; 3] = [4, 10, 38];
    const LEVEL: usize = 18;
    let text = example("move.txt");
    let ends: Vec<usize> = (1..=text.len()).filter(|&k| text[k - 1] == b'\n').collect();
    let after = |line: usize| {
        let rows: String = ROWS.iter().filter(|x| x.0 <= line).map(|x| x.1.to_string() + " ").collect();
        let nodes = NODES.iter().filter(|&&x| x <= line).count();
        case(&format!("move.txt to line {line}"), &text[..ends[line - 1]], &format!("{rows} end,{nodes},{}", 1 + (LEVEL <= line) as u32))
    };
    assert_eq!(ends.len(), 39, "lines of examples/move.txt");
    (1..=39).map(after).collect()
}

// number 1, nodes above 128 among it
fn sizes() -> Vec<Case> {
    let inside = ["1,1,1", "16,1,1", "1,8,1", "1,1,128", "16,8,128", "16,1,128"];
    let outside =
        ["0,1,1", "17,1,1", "9999,1,1", "1,0,1", "1,9,1", "1,9999,1", "1,1,0", "1,1,129", "1,1,4096", "1,1,4097", "1,1,9999", "0,0,0", "2,4,129"];
    let opened = inside.map(|x| case(&format!("sizes {x}"), lines(&format!("s,{x} c,0,7,9 t,0 t,0 t,0")), "0,7,9,new,0 end,1,1"));
    let refused = outside.map(|x| case(&format!("sizes {x}"), lines(&format!("s,{x} c,0,7,9 t,0 t,0 t,0")), "refused,1,1"));
    opened.into_iter().chain(refused).collect()
}

// The fifth field of the first line; `v` lines, their answers and numbers 4, 5, 17 and 7.
fn viewers() -> Vec<Case> {
    let opened = ["1,1,1,0", "2,4,8,0", "2,4,8,1", "16,8,128,1", "16,1,128,15"].map(|x| {
        let (places, looks) = ("c,0,7,9 t,0 t,0 t,0", x.split(',').next().unwrap().parse::<u32>().unwrap() - 1);
        let all = if x.ends_with(",0") {
            (format!("v,{looks},7,9 t,{looks}"), "refused,6,17 refused,7,8".to_string())
        } else {
            (format!("v,{looks},7,9 t,{looks} t,{looks}"), format!("{looks},7,9,found,0"))
        };
        case(&format!("viewers {x}"), lines(&format!("s,{x} {places} {}", all.0)), &format!("0,7,9,new,0 {} end,1,1", all.1))
    });
    let all = ["1,1,1,1", "2,4,8,2", "16,8,128,16"]
        .map(|x| case(&format!("viewers {x}"), lines(&format!("s,{x} c,0,7,9 v,0,7,9 t,0 t,0")), "refused,2,17 0,7,9,absent,- refused,5,8 end,0,1"));
    let refused = ["1,1,1,2", "2,4,8,3", "16,8,128,17", "1,1,1,9999", "0,1,1,0", "17,1,1,1", "1,9,1,1", "1,1,129,1", "0,0,0,0"]
        .map(|x| case(&format!("viewers {x}"), lines(&format!("s,{x} v,0,7,9 c,0,7,9 t,0")), "refused,1,1"));
    let written = vec![
        case(
            "absent, found, absent in a chain",
            lines("s,2,4,8,1 v,1,0,0 t,1 c,0,0,0 t,0 t,0 t,0 v,1,0,0 t,1 t,1 v,1,0,1 t,1 t,1 t,1 t,1"),
            "1,0,0,absent,- 0,0,0,new,0 1,0,0,found,0 1,0,1,absent,- refused,15,8 end,1,1",
        ),
        case(
            "absent with no node left, where another worker is full",
            lines("s,2,1,1,1 c,0,0,0 t,0 t,0 t,0 v,1,512,0 t,1 v,1,0,1 t,1 t,1 t,1 c,0,512,0 t,0 t,0"),
            "0,0,0,new,0 1,512,0,absent,- 1,0,1,absent,- 0,512,0,full,- end,1,1",
        ),
        case(
            "a viewer's call that is open while its pixel is placed",
            lines("s,2,4,8,1 c,0,0,0 t,0 t,0 v,1,0,0 t,0 t,1 t,1 v,1,0,0 t,1 t,1"),
            "0,0,0,new,0 1,0,0,found,0 1,0,0,found,0 end,1,1",
        ),
        case(
            "17 between 5 and 7",
            lines("s,2,4,8,1 c,1,0,0 v,0,0,0 c,1,4096,0 v,0,0,4096 c,2,0,0 v,2,0,0 v,1,0,0 c,1,0,0 c,1,4096,0 v,1,4096,0 v,1,0,0 t,1 c,0,0,0 v,0,0,0 c,0,0,0"),
            "refused,2,17 refused,3,17 refused,4,5 refused,5,5 refused,6,4 refused,7,4 refused,9,17 refused,10,5 refused,11,5 refused,12,7
            1,0,0,absent,- refused,15,17 refused,16,7 end,0,1",
        ),
        case("v without viewers", lines("s,2,4,8 v,0,0,0 v,1,0,0 v,2,0,0 v,1,4096,0"), "refused,2,17 refused,3,17 refused,4,4 refused,5,5 end,0,1"),
        case(
            "10 before 4, 5, 17 and 7",
            lines("s,2,4,8,1 v,2,0,00 v,0,0,00 v,1,04096,0 v,1,0,0 v,1,00,0 s,2,4,8,1"),
            "refused,2,10 refused,3,10 refused,4,10 refused,6,10 refused,7,10 end,0,1",
        ),
        case("10 before 1, in the fifth field", lines("s,1,1,1,02 s,1,1,1"), "refused,1,10"),
        case("unended first line with viewers", "s,1,1,1,1", "refused,1,10"),
        case("unended last line, a viewer's call", "s,1,4,8,1\nv,0,0,0", "refused,2,10 end,0,1"),
        case("unended last line, a viewer's turn", "s,1,4,8,1\nv,0,0,0\nt,0", "refused,3,10 end,0,1"),
    ];
    // 15 viewers beside one that places: each looks before it has put its node, and after
    let each = |line: &dyn Fn(u32) -> String| (1..16).map(line).collect::<String>();
    let looks = each(&|i| format!("v,{i},0,0\nt,{i}\n"));
    let beside = format!("s,16,8,1,15\nc,0,0,0\nt,0\nt,0\n{looks}t,0\n{looks}{}", each(&|i| format!("t,{i}\n")));
    let rows = |answer: &str| each(&|i| format!("{i},0,0,{answer} "));
    let beside = case("15 viewers", beside, &format!("{} 0,0,0,new,0 {} end,1,1", rows("absent,-"), rows("found,0")));
    opened.into_iter().chain(all).chain(refused).chain(written).chain([beside]).collect()
}

// numbers 4, 5, 7 and 8, and the order of the questions
fn refused_starts_and_turns() -> Vec<Case> {
    vec![
        case(
            "worker 15 and 16 of 16",
            lines("s,16,4,8 c,15,0,0 c,16,0,0 t,15 t,16 t,15 t,15 t,9999"),
            "refused,3,4 refused,5,4 15,0,0,new,0 refused,8,4 end,1,1",
        ),
        case("worker 0 and 1 of 1", lines("s,1,4,8 c,0,0,0 c,1,0,0 t,0 t,1 t,0 t,0"), "refused,3,4 refused,5,4 0,0,0,new,0 end,1,1"),
        case("row 4,095 and 4,096", lines("s,2,4,8 c,0,4095,0 c,1,4096,0 t,0 t,0 t,0 t,1"), "refused,3,5 0,4095,0,new,0 refused,7,8 end,1,1"),
        case("column 4,095 and 4,096", lines("s,2,4,8 c,0,0,4095 c,1,0,4096 t,0 t,0 t,0 t,1"), "refused,3,5 0,0,4095,new,0 refused,7,8 end,1,1"),
        case(
            "the last pixel",
            lines("s,1,4,8 c,0,4095,4095 t,0 t,0 t,0 c,0,4096,4096 c,0,9999,9999"),
            "0,4095,4095,new,0 refused,6,5 refused,7,5 end,1,1",
        ),
        case(
            "a start during a call keeps its pixel",
            lines("s,1,4,8 c,0,1,2 c,0,3,4 t,0 c,0,1,2 t,0 t,0 c,0,3,4"),
            "refused,3,7 refused,5,7 0,1,2,new,0 end,1,1",
        ),
        case(
            "turns of idle workers",
            lines("s,2,4,8 t,0 t,1 c,0,0,0 t,1 t,0 t,0 t,0 t,0"),
            "refused,2,8 refused,3,8 refused,5,8 0,0,0,new,0 refused,9,8 end,1,1",
        ),
        case("4 before 5", lines("s,16,4,8 c,16,4096,0"), "refused,2,4 end,0,1"),
        case("5 before 7", lines("s,1,4,8 c,0,0,0 c,0,4096,0 c,0,0,4096"), "refused,3,5 refused,4,5 end,0,1"),
        case(
            "10 before 4, 5, 7 and 8",
            lines("s,1,4,8 c,1,0,00 c,0,04096,0 t,00 t,01 c,0,0,0 c,0,00,0"),
            "refused,2,10 refused,3,10 refused,4,10 refused,5,10 refused,7,10 end,0,1",
        ),
        case("10 before 1", lines("s,0,0,00 s,1,1,1"), "refused,1,10"),
    ]
}

// First lines that are refused by 10: nothing after them is read, and there is no end line.
fn first_lines() -> Vec<Case> {
    let shapes =
        ", s s, s,1 s,1, s,1,1 s,1,1, s,,1,1 s,1,,1 s,,, s,1,1,1, s,1,1,1,, ,s,1,1,1 S,1,1,1 ss,1,1,1 c,1,1,1 c,0,0,0 v,0,0,0 t,0 ,1,1,1 1,1,1
        s,1,1,1,1, s,1,1,1,1,1 s,1,1,1,0,0 s,,1,1,1 s,1,1,,1 s,1,1,1,01 s,1,1,1,00 s,1,1,1,10000 s,1,1,1,-1 s,1,1,1,+1 s,1,1,1,x s,1,1,1,1x S,1,1,1,1
        s1,1,1 s;1;1;1 s,01,1,1 s,1,08,1 s,1,1,0128 s,1,1,10000 s,1,1,-1 s,1,1,+1 \"s\",1,1,1 worker,row,column,answer,node";
    let spaced = ["", " ", "s 1 1 1", " s,1,1,1", "s,1,1,1 ", "s,1,1,1\r", "s,1,1,1,1\r", "s,1,1,1,1 ", "s,1,1,1, 1", "\r", "\0", "\u{feff}s,1,1,1"];
    let refused = |line: &str| {
        let more = "s,1,1,1\nc,0,0,0\nt,0\n";
        let name = format!("first line `{line}`");
        [case(&name, format!("{line}\n"), "refused,1,10"), case(&(name + ", more follows"), format!("{line}\n{more}"), "refused,1,10")]
    };
    shapes.split_whitespace().chain(spaced).flat_map(refused).collect()
}

// `s,1,1,1` and its fifth field with one byte changed or inserted: the bytes beside the digits, the comma and the letter, and far from them
fn bytes_in_the_first_line() -> Vec<Case> {
    let mut cases = vec![];
    for byte in [0, b'\n', b'\r', b' ', b',', b'/', b'0', b':', b'r', b't', 0x80, 0xff] {
        for (text, places) in [("s,1,1,1\nt,0\n", 0..=7), ("s,1,1,1,1\nv,0,0,0\nt,0\n", 7..=9)] {
            for place in places {
                let mut line = text.as_bytes().to_vec();
                line.insert(place, byte);
                cases.push(compared(&format!("byte {byte} before byte {place} of {text:?}"), line.clone()));
                line.remove(place + 1);
                cases.push(compared(&format!("byte {byte} as byte {place} of {text:?}"), line));
            }
        }
    }
    cases
}

// unended lines, empty lines, byte 13
fn ends_of_lines() -> Vec<Case> {
    vec![
        case("empty input", "", "refused,1,10"),
        case("an empty line", "\n", "refused,1,10"),
        case("unended first line", "s,1,1,1", "refused,1,10"),
        case("unended first line that does not read", "x", "refused,1,10"),
        case("unended first line with sizes out of range", "s,0,0,0", "refused,1,10"),
        case("the first line alone", "s,1,1,1\n", "end,0,1"),
        case("unended last line, a start", "s,1,4,8\nc,0,0,0", "refused,2,10 end,0,1"),
        case("unended last line, the turn that would end the call", "s,1,4,8\nc,0,0,0\nt,0\nt,0\nt,0", "refused,5,10 end,1,1"),
        case("unended last line that does not read", "s,1,4,8\nx", "refused,2,10 end,0,1"),
        case("unended last line with worker 1 of 1", "s,1,4,8\nt,1", "refused,2,10 end,0,1"),
        case("unended byte 13", "s,1,4,8\n\r", "refused,2,10 end,0,1"),
        case("empty lines", "s,1,4,8\n\nc,0,0,0\n\n\nt,0\nt,0\nt,0\n\n", "refused,2,10 refused,4,10 refused,5,10 0,0,0,new,0 refused,9,10 end,1,1"),
        case("every line ends in 13, 10", lines(RACE).replace('\n', "\r\n"), "refused,1,10"),
        case("13, 10 after the first line", "s,1,4,8\nc,0,0,0\r\nc,0,0,0\nt,0\r\nt,0\nt,0\nt,0\n", "refused,2,10 refused,4,10 0,0,0,new,0 end,1,1"),
        case("13 alone ends no line", "s,1,4,8\rc,0,0,0\r", "refused,1,10"),
        case("10, 13", "s,1,4,8\n\rc,0,0,0\n\rt,0\n\r", "refused,2,10 refused,3,10 refused,4,10 end,0,1"),
    ]
}

// lines that are all refused by 10, after `s,16,8,128`
fn none_reads(name: &str, further: &[String]) -> Case {
    let rows: String = (2..further.len() + 2).map(|k| format!("refused,{k},10 ")).collect();
    case(name, format!("s,16,8,128\n{}\n", further.join("\n")), &(rows + "end,0,1"))
}

// fields that are no number, in each place of a start of either sort and of a turn; numbers of each length
fn forms_of_numbers() -> Vec<Case> {
    let plain = "00 01 07 010 0000 0001 00000 00001 10000 12345 65536 4294967296 18446744073709551616 +1 -1 -0 1.0 1e1 0x1 a 1a \"1\" ' / : ١";
    let mut further = vec![];
    for form in plain.split_whitespace().chain(["", " ", " 1", "1 ", "\t1", "1\r", "\r", "\0", "1\0", "\u{7f}"]) {
        for letter in ['c', 'v'] {
            further.extend([format!("{letter},{form},0,0"), format!("{letter},0,{form},0"), format!("{letter},0,0,{form}")]);
        }
        further.push(format!("t,{form}"));
    }
    let pixels = [(0, 0), (9, 10), (99, 100), (999, 1000), (4095, 1)];
    let rows = "0,0,0,new,0 0,9,10,new,1 0,99,100,new,2 0,999,1000,new,3 0,4095,1,new,4 end,5,1";
    vec![none_reads("fields that are no number", &further), case("numbers of 1 to 4 digits", alone(8, 8, &pixels), rows)]
}

fn forms_of_lines() -> Vec<Case> {
    let starts = "c c, c,0 c,0,0 c,0,0, c,0,0,0, c,0,0,0,0 c,,0,0 c,0,,0 c,,, c,0,0,,0 ,c,0,0,0 C,0,0,0 cc,0,0,0 c0,0,0 c;0;0;0 c,0,0,0;t,0";
    let views = "v v, v,0 v,0,0 v,0,0, v,0,0,0, v,0,0,0,0 v,,0,0 v,0,,0 v,,, v,0,0,,0 ,v,0,0,0 V,0,0,0 vv,0,0,0 cv,0,0,0 v0,0,0 v;0;0;0 v,0,0,0;t,0";
    let turns = "t t, t,0, t,0,0 t,,0 ,t,0 T,0 tt,0 t0 t;0 t,0t,0 té,0";
    let others = "s s,16,8,128 s,16,8,128,16 s,1,1,1 s,1,1,1,1 S,1,1,1 x,0 ,0 , ,, ,,, 0 0,0 end,0,1 refused,1,1 worker,row,column,answer,node 0,0,0,new,0 # -";
    let spaced = ["", " ", "\t", "t,0 ", " t,0", "t ,0", "t, 0", "t,0\t", "c,0,0,0 ", "c,0,0, 0", "\u{feff}t,0"];
    let all = [starts, views, turns, others].into_iter().flat_map(str::split_whitespace).chain(spaced);
    vec![none_reads("lines of other shapes", &all.map(str::to_string).collect::<Vec<_>>())]
}

// Each byte inserted at each place of a turn and of a start of either sort, and in place of each of their bytes.
fn every_byte() -> Vec<Case> {
    let mut cases = vec![];
    for (line, first) in [("t,0", "s,2,8,128\n"), ("c,1,2,3", "s,2,8,128\n"), ("v,1,2,3", "s,3,8,128,2\n")] {
        for place in 0..=line.len() {
            let mut input = [first, "c,0,0,0\n"].concat().into_bytes();
            let (before, after) = line.as_bytes().split_at(place);
            for byte in 0..=255u8 {
                for rest in [after, after.get(1..).unwrap_or(b"")] {
                    input.extend([before, &[byte], rest, b"\n"].concat());
                }
            }
            cases.push(compared(&format!("every byte at place {place} of {line}"), input));
        }
    }
    cases
}

// Every number of 1 to 4 digits as a worker, a row and a column. Worker 0 has a call open; 0 stands for a line that is carried out.
fn every_number() -> Vec<Case> {
    let worker = |n: usize| if n == 0 { 0 } else { [4, 8][(n < 16) as usize] };
    let pixel = |n: usize| [5, 7][(n < 4096) as usize];
    let mut cases = vec![];
    // two halves, each below 65,536 bytes
    for from in [0, 5000] {
        let numbers = from..from + 5000;
        let text = |line: fn(usize) -> String| "s,16,8,128\nc,0,0,0\n".to_string() + &numbers.clone().map(line).collect::<String>();
        let rows = |number: &dyn Fn(usize) -> u32| {
            let refused = numbers.clone().filter(|&n| number(n) != 0).map(|n| format!("refused,{},{} ", n - from + 3, number(n)));
            refused.collect::<String>() + "end,0,1"
        };
        cases.push(case(&format!("workers from {from}"), text(|n| format!("t,{n}\n")), &rows(&worker)));
        cases.push(case(&format!("rows from {from}"), text(|n| format!("c,0,{n},0\n")), &rows(&pixel)));
        cases.push(case(&format!("columns from {from}"), text(|n| format!("c,0,0,{n}\n")), &rows(&pixel)));
    }
    cases
}

// a piece again and again after the first lines, up to a length
fn filled(first: &str, piece: &str, length: usize) -> String {
    first.chars().chain(piece.chars().cycle()).take(length).collect()
}

fn refused_lines(last: usize, number: u32) -> String {
    (2..=last).map(|k| format!("refused,{k},{number} ")).collect()
}

// 65,536 bytes are read, one more is not
fn lengths() -> Vec<Case> {
    let most = case("65,528 empty lines", filled("s,1,1,1\n", "\n", 65_536), &(refused_lines(65_529, 10) + "end,0,1"));
    assert_eq!(most.output.as_ref().unwrap().len(), 1_102_912, "bytes printed for 65,528 empty lines");
    let call = "\nc,0,0,0\nt,0\nt,0\nt,0\n";
    let too_long = |length, piece| case(&format!("{length} bytes of `{piece}`"), filled("s,1,1,1\n", piece, length), "refused,0,10");
    vec![
        most,
        case("65,536 bytes, turns", filled("s,1,1,1\n", "t,0\n", 65_536), &(refused_lines(16_383, 8) + "end,0,1")),
        case("65,535 bytes, one line", filled("s,1,1,1\n", "0", 65_535), "refused,2,10 end,0,1"),
        case("65,536 bytes, one line", filled("s,1,1,1\n", "0", 65_536), "refused,2,10 end,0,1"),
        case("65,536 bytes, one ended line", filled("s,1,1,1\nt,", "0", 65_535) + "\n", "refused,2,10 end,0,1"),
        case("65,536 bytes, a call at the end", filled("s,1,1,1\n", "c", 65_536 - call.len()) + call, "refused,2,10 0,0,0,new,0 end,1,1"),
        case("65,536 bytes, unended first line", filled("s,1,1,", "1", 65_536), "refused,1,10"),
        case("65,536 empty lines", filled("", "\n", 65_536), "refused,1,10"),
        case("65,537 empty lines", filled("", "\n", 65_537), "refused,0,10"),
        too_long(65_537, "\n"),
        too_long(65_537, "0"),
        too_long(65_537, "c,0,0,0\nt,0\nt,0\nt,0\n"),
        too_long(65_538, "t,0\n"),
        too_long(131_072, "\n"),
        too_long(1_000_000, "t,0\n"),
    ]
}

// Sixteen workers report one pixel, a turn each in four rounds: all look, all take a node, all put it, where all but the first find the node that they
// meet; the fourth comes too late. With 8 nodes the last eight workers find none left in the second round.
fn many_workers() -> Vec<Case> {
    let each = |line: &dyn Fn(u32) -> String| (0..16).map(line).collect::<String>();
    let text = |nodes| format!("s,16,8,{nodes}\n{}{}", each(&|i| format!("c,{i},0,0\n")), each(&|i| format!("t,{i}\n")).repeat(4));
    let answers = |workers: std::ops::Range<u32>, answer: &str| workers.map(|i| format!("{i},0,0,{answer} ")).collect::<String>();
    let refused = |lines: std::ops::Range<u32>| lines.map(|k| format!("refused,{k},8 ")).collect::<String>();
    let (new, found) = (answers(0..1, "new,0"), answers(1..16, "found,0"));
    let (full, some_found) = (answers(8..16, "full,-"), answers(1..8, "found,0"));
    vec![
        case("16 workers", text(16), &format!("{new} {found} {} end,16,1", refused(66..82))),
        case("16 workers, 8 nodes", text(8), &format!("{full} {new} {some_found} {} end,8,1", refused(58..82))),
    ]
}

// one worker's calls, one after the other
fn alone(limit: u32, nodes: u32, pixels: &[(u32, u32)]) -> String {
    let mut w = Writer::new(settings(1, limit, nodes));
    pixels.iter().for_each(|&(row, column)| w.whole(0, row, column));
    w.text
}

// 128 nodes and one pixel too many. Limit 8: each of the root's chains closes at its ninth pixel, which is one level for each. Limit 1: 64 pairs of
// neighbours, eight for each entry of the root, so eight levels of depth 1 and for each pair six below.
fn many_nodes() -> Vec<Case> {
    let wide: Vec<(u32, u32)> = (0..129).map(|k| (k % 8 * 512 + k / 8 % 8 * 64 + k / 64 * 8, 0)).collect();
    let deep: Vec<(u32, u32)> = (0..128).map(|k| (k % 64 * 64, k / 64)).chain([(1, 1)]).collect();
    let placed = |name: &str, limit: u32, pixels: &[(u32, u32)], levels: u32| {
        let rows = |answer: &str| (0..128).map(|k| format!("0,{},{},{answer},{k} ", pixels[k].0, pixels[k].1)).collect::<String>();
        let again = [pixels, &pixels[..128]].concat();
        let full = format!("0,{},{},full,-", pixels[128].0, pixels[128].1);
        case(name, alone(limit, 128, &again), &format!("{} {full} {} end,128,{levels}", rows("new"), rows("found")))
    };
    vec![placed("128 nodes, limit 8", 8, &wide, 1 + 8), placed("128 nodes, limit 1", 1, &deep, 1 + 8 + 64 * 6)]
}

// Moves nested to 7: (0,0) is placed; worker 0 places (0,7); worker 1 places (0,1) to (0,6), each whole just before a SetLook of worker 0.
fn nested_moves() -> Vec<Case> {
    let mut w = Writer::new(settings(2, 1, 16));
    w.whole(0, 0, 0);
    w.start(0, 0, 7);
    let mut columns = 1..7;
    while !w.idle(0) {
        if w.model.areas.workers[KIND] == Kind::SetLook as u32 {
            columns.next().into_iter().for_each(|column| w.whole(1, 0, column));
        }
        w.turn(0);
    }
    assert!(w.model.seen.nested[7] > 0, "Moves nested to 7");
    (0..8).for_each(|column| w.whole(1, 0, column));
    let placed: String = (1..7).map(|k| format!("1,0,{k},new,{k} ")).collect();
    let found: String = (0..8).map(|k| format!("1,0,{k},found,{k} ")).collect();
    vec![case("Moves nested to 7", w.text, &format!("0,0,0,new,0 {placed} 0,0,7,new,7 {found} end,8,8"))]
}

// The input comes from a file, byte by byte, or in pieces around the longest length: what is printed is the same.
fn from_a_file_and_in_pieces() -> Compared<()> {
    let race = compared("race.txt in another way", example("race.txt"));
    let file = fs::File::open(runs::root().join("examples/race.txt")).expect("examples/race.txt");
    runs::compare(&race, runs::output(runs::program().stdin(file).stderr(Stdio::inherit()).output()))?;
    runs::compare(&race, runs::run(&race.input.chunks(1).collect::<Vec<_>>()))?;
    for length in [65_536, 65_537] {
        let text = compared(&format!("{length} bytes in pieces"), filled("s,1,1,1\n", "t,0\n", length));
        runs::compare(&text, runs::run(&text.input.chunks(4095).collect::<Vec<_>>()))?;
        runs::compare(&text, runs::run(&[&text.input[..length - 1], &text.input[length - 1..]]))?;
    }
    Ok(())
}
