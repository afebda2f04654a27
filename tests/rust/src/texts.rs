// Random texts, each from a seed of its own: tables and turn orders in which chains close and Moves happen, half of the texts damaged.
use crate::model::{Model, Reply, Settings, OPEN};
use crate::random::Random;
use crate::sequences::{clustered, sized, some_viewers};
use crate::text::settings;
use crate::words::{KIND, RECORD};

pub fn text(seed: u64) -> Vec<u8> {
    let r = &mut Random::new(seed);
    let mut text = sound(r);
    if r.below(2) == 0 {
        for _ in 0..1 + r.below(6) {
            damage(r, &mut text);
        }
    }
    if r.below(60) == 0 {
        lengthen(r, &mut text);
    }
    text
}

// a number just inside or just outside of what is below `bound`, or far from it
fn near(r: &mut Random, bound: u32) -> u32 {
    r.pick(&[0, 1, bound - 1, bound - 1, bound, bound, bound + 1, 9999])
}

// A text that is written while the model runs it.
pub struct Writer {
    pub model: Model,
    pub text: String,
}

impl Writer {
    pub fn new(s: Settings) -> Writer {
        let mut model = Model::new(s, sized(&s, 0, 0));
        model.open();
        let viewers = if s.viewers > 0 { format!(",{}", s.viewers) } else { String::new() };
        Writer { model, text: format!("s,{},{},{}{viewers}\n", s.workers, s.limit, s.nodes) }
    }
    // a call of worker i of the sort that it has, or of the other one
    pub fn start(&mut self, i: u32, row: u32, column: u32) {
        self.call(self.model.settings.views(i), i, row, column);
    }
    fn other(&mut self, i: u32, row: u32, column: u32) {
        self.call(!self.model.settings.views(i), i, row, column);
    }
    fn call(&mut self, looks: bool, i: u32, row: u32, column: u32) {
        if looks {
            self.model.view(i, row, column);
        } else {
            self.model.start(i, row, column);
        }
        self.text += &format!("{},{i},{row},{column}\n", if looks { 'v' } else { 'c' });
    }
    pub fn turn(&mut self, i: u32) -> Reply {
        self.text += &format!("t,{i}\n");
        self.model.turn(i)
    }
    // a call of worker i alone
    pub fn whole(&mut self, i: u32, row: u32, column: u32) {
        self.start(i, row, column);
        while self.turn(i).answer == OPEN {}
    }
    pub fn idle(&self, i: u32) -> bool {
        self.model.areas.workers[RECORD * i as usize + KIND] == 0
    }
}

// Every line reads, and most lines are carried out.
fn sound(r: &mut Random) -> Vec<u8> {
    let limit = r.pick(&[1, 1, 1, 2, 2, 3, 4, 5, 6, 7, 8]);
    let nodes = r.pick(&[2, 16, 64, 128, 128]);
    let s = settings(1 + r.below(16) as u32, limit, 1 + r.below(nodes) as u32);
    let mut w = Writer::new(some_viewers(r, s));
    let spread = r.pick(&[2, 3, 4, 6, 8, 12, 24]);
    let most = r.pick(&[1, 10, 100, 400, 400, 1500]);
    for _ in 0..r.below(most) {
        line(r, &mut w, spread);
    }
    if r.below(12) == 0 {
        other_sizes(r, &mut w);
    }
    w.text.into_bytes()
}

// one size near its bound, or a field too many
fn other_sizes(r: &mut Random, w: &mut Writer) {
    let s = w.model.settings;
    let first = match r.below(5) {
        0 => format!("s,{},{},{}", near(r, 17), s.limit, s.nodes),
        1 => format!("s,{},{},{}", s.workers, near(r, 9), s.nodes),
        2 => format!("s,{},{},{}", s.workers, s.limit, near(r, 129)),
        3 => format!("s,{},{},{},{}", s.workers, s.limit, s.nodes, near(r, s.workers + 1)),
        _ => format!("s,{},{},{},{},{}", s.workers, s.limit, s.nodes, s.viewers, near(r, 1)),
    };
    let end = w.text.find('\n').unwrap();
    w.text.replace_range(..end, &first);
}

fn line(r: &mut Random, w: &mut Writer, spread: u64) {
    let workers = w.model.settings.workers;
    let i = r.below(workers as u64) as u32;
    let (row, column) = clustered(r, spread);
    match r.below(64) {
        0 => w.start(near(r, workers), row, column),
        1 => w.start(i, near(r, 4096), column),
        2 => w.start(i, row, near(r, 4096)),
        3 => w.start(near(r, workers), near(r, 4096), near(r, 4096)),
        4 => drop(w.turn(near(r, workers))),
        5 => w.start(i, row, column),
        6 => w.other(i, row, column),
        7 => w.other(near(r, workers), near(r, 4096), column),
        _ if w.idle(i) => w.start(i, row, column),
        _ => drop(w.turn(i)),
    }
}

fn some_byte(r: &mut Random) -> u8 {
    match r.below(3) {
        0 => r.next() as u8,
        _ => r.pick(b"0123456789,,,sctv\n\n\r \t\0-+.\"/:SCTV"),
    }
}

// the place of the first byte from `at` on that is one of these
fn next(text: &[u8], at: usize, these: &[u8]) -> Option<usize> {
    (at..text.len()).find(|&k| these.contains(&text[k]))
}

fn insert_before(text: &mut Vec<u8>, at: usize, these: &[u8], byte: u8) {
    if let Some(k) = next(text, at, these) {
        text.insert(k, byte);
    }
}

// One damage at a random place, mostly after the first line, since a refused first line ends the text.
fn damage(r: &mut Random, text: &mut Vec<u8>) {
    let second = next(text, 0, b"\n").map_or(0, |k| k + 1);
    let from = if r.below(16) == 0 { 0 } else { second };
    if from < text.len() {
        let at = from + r.below((text.len() - from) as u64) as usize;
        [damage_byte, damage_field, damage_line][r.below(3) as usize](r, text, at);
    }
}

fn damage_byte(r: &mut Random, text: &mut Vec<u8>, at: usize) {
    match r.below(3) {
        0 => text[at] = some_byte(r),
        1 => drop(text.remove(at)),
        _ => text.insert(at, some_byte(r)),
    }
}

// a comma doubled, a digit added before or after a number, byte 13 before byte 10
fn damage_field(r: &mut Random, text: &mut Vec<u8>, at: usize) {
    match r.below(4) {
        0 => insert_before(text, at, b",", b','),
        1 => insert_before(text, at, b"0123456789", b'0'),
        2 => insert_before(text, at, b",\n", b'0' + r.below(10) as u8),
        _ => insert_before(text, at, b"\n", b'\r'),
    }
}

// a line cut, the text cut, two lines in one, a line that does not read, the rest of a line once more at the end
fn damage_line(r: &mut Random, text: &mut Vec<u8>, at: usize) {
    let end = next(text, at, b"\n").unwrap_or(text.len());
    let after = (end + 1).min(text.len());
    match r.below(5) {
        0 => drop(text.drain(at..end)),
        1 => text.truncate(at),
        2 => drop(text.drain(end..after)),
        3 => drop(text.splice(after..after, r.pick(&["\n", "s,1,1,1\n", "s,1,1,1,1\n", "end,0,1\n", "x\n"]).bytes())),
        _ => text.extend_from_within(at..end),
    }
}

// a few bytes below or above the longest input, filled up with lines or with one line
fn lengthen(r: &mut Random, text: &mut Vec<u8>) {
    let length = 65_534 + r.below(5) as usize;
    let filler = r.pick(&["\n", "t,0\n", "c,0,0,0\n", "v,0,0,0\n", "0", "\r\n"]);
    while text.len() < length {
        text.extend(filler.bytes().take(length - text.len()));
    }
    text.truncate(length);
}
