// The text program coded apart, from document 01, document 02's request 06 and their readings, over the model of the table: input bytes to printed bytes.
// Nothing here is taken from the Rattle code.
use crate::model::{Areas, Model, Reply, Roles, Seen, Settings, ABSENT, FOUND, FULL, NEW, ROLES};
use crate::sequences::{self, sized};

// What the document says of the text, as values: a wrong version is one value changed.
#[derive(Clone, Copy)]
pub struct Rules {
    pub longest_input: usize,
    pub most_digits: usize,
    pub leading_zero: bool,
    pub return_is_left_out: bool,
    pub empty_line_is_left_out: bool,
    pub unended_line_is_read: bool,
    pub second_s_opens: bool,
    pub most_nodes: u32,
    pub width: u32,
    pub number_of_first_line: usize,
    pub pixel_is_asked_first: bool,
    pub pixel_of_refused_start: bool,
    pub full_is_refused: bool,
    pub end_after_refused_first_line: bool,
    // how many fields the first line may have
    pub first_line: &'static [usize],
    // the number of viewers where the first line does not have it
    pub viewers: u32,
    pub roles: Roles,
    // a `v` line is carried out as a `c` line, a `c` line on a viewer as a `v` line
    pub v_places: bool,
    pub c_views: bool,
    // what is printed for an end "absent"
    pub absent: Option<&'static str>,
}

pub const DOCUMENT: Rules = Rules {
    longest_input: 65_536,
    most_digits: 4,
    leading_zero: false,
    return_is_left_out: false,
    empty_line_is_left_out: false,
    unended_line_is_read: false,
    second_s_opens: false,
    most_nodes: 128,
    width: 3,
    number_of_first_line: 1,
    pixel_is_asked_first: false,
    pixel_of_refused_start: false,
    full_is_refused: false,
    end_after_refused_first_line: false,
    first_line: &[4, 5],
    viewers: 0,
    roles: ROLES,
    v_places: false,
    c_views: false,
    absent: Some("absent,-"),
};

// "The text program keeps width 3."
pub fn settings(workers: u32, limit: u32, nodes: u32) -> Settings {
    sequences::settings(workers, limit, nodes, DOCUMENT.width)
}

pub const HEADER: &str = "worker,row,column,answer,node\n";

// What is printed, and what the table's turns went through.
pub struct Printed {
    pub output: Vec<u8>,
    pub seen: Seen,
}

pub fn printed(rules: &Rules, input: &[u8]) -> Printed {
    // the first line opens the table
    let none = Areas { nodes: vec![], levels: vec![], workers: vec![] };
    let closed = Model::new(settings(0, 0, 0), none);
    let mut p = Program { rules, model: closed, calls: [(0, 0); 16], output: HEADER.to_string() };
    p.model.roles = rules.roles;
    p.run(input);
    Printed { output: p.output.into_bytes(), seen: p.model.seen }
}

enum Line {
    Sizes(Settings),
    Start(u32, u32, u32),
    View(u32, u32, u32),
    Turn(u32),
}

// "numbers are decimal, 1 to 4 digits, no leading zero except 0"
fn number(rules: &Rules, field: &[u8]) -> Option<u32> {
    let digits = (1..=rules.most_digits).contains(&field.len()) && field.iter().all(|b| (b'0'..=b'9').contains(b));
    if !digits || field.len() > 1 && field[0] == b'0' && !rules.leading_zero {
        return None;
    }
    Some(field.iter().fold(0, |n, b| 10 * n + (b - b'0') as u32))
}

// "First line `s,workers,limit,nodes`, then `c,worker,row,column` starts and `t,worker` turns"; "The program's first line may end in a fifth field with that
// number; without it there are none. A viewer's call, program line `v,worker,row,column`"
fn read(rules: &Rules, mut line: &[u8]) -> Option<Line> {
    if rules.return_is_left_out {
        line = line.strip_suffix(b"\r").unwrap_or(line);
    }
    let fields: Vec<&[u8]> = line.split(|&b| b == b',').collect();
    let n = |k: usize| number(rules, fields[k]);
    match (fields[0], fields.len()) {
        (b"s", count) if rules.first_line.contains(&count) => {
            let viewers = if count == 4 { rules.viewers } else { n(4)? };
            (5..count).try_for_each(|k| n(k).map(|_| ()))?;
            Some(Line::Sizes(Settings { viewers, ..settings(n(1)?, n(2)?, n(3)?) }))
        }
        (b"c", 4) => Some(Line::Start(n(1)?, n(2)?, n(3)?)),
        (b"v", 4) => Some(Line::View(n(1)?, n(2)?, n(3)?)),
        (b"t", 2) => Some(Line::Turn(n(1)?)),
        _ => None,
    }
}

// "Lines end in byte 10", each with whether it is ended. "An empty input or unended last line is a refused line"
fn lines(input: &[u8]) -> Vec<(&[u8], bool)> {
    let mut lines: Vec<(&[u8], bool)> = input.split(|&b| b == b'\n').map(|line| (line, true)).collect();
    let last = lines.last_mut().unwrap();
    last.1 = false;
    if last.0.is_empty() && !input.is_empty() {
        lines.pop();
    }
    lines
}

struct Program<'a> {
    rules: &'a Rules,
    model: Model,
    // row and column of each worker's call
    calls: [(u32, u32); 16],
    output: String,
}

impl Program<'_> {
    fn run(&mut self, input: &[u8]) {
        if input.len() > self.rules.longest_input {
            self.output += "refused,0,10\n";
            return;
        }
        for (k, (line, ended)) in lines(input).into_iter().enumerate() {
            if line.is_empty() && self.rules.empty_line_is_left_out {
                continue;
            }
            let line = if ended || self.rules.unended_line_is_read { read(self.rules, line) } else { None };
            let refusal = if k == 0 { self.first(line) } else { self.further(line) };
            if let Err(number) = refusal {
                self.output += &format!("refused,{},{number}\n", k + self.rules.number_of_first_line);
                // "refused line 1 ends the program without an end line"
                if k == 0 {
                    if self.rules.end_after_refused_first_line {
                        self.end();
                    }
                    return;
                }
            }
        }
        self.end();
    }

    // "The last line is the flagged count, which is nodes taken, then levels taken"
    fn end(&mut self) {
        let s = &self.model.settings;
        self.output += &format!("end,{},{}\n", s.nodes_taken, s.levels_taken);
    }

    fn first(&mut self, line: Option<Line>) -> Result<(), u32> {
        match line {
            Some(Line::Sizes(s)) => self.open(s),
            _ => Err(10),
        }
    }

    fn further(&mut self, line: Option<Line>) -> Result<(), u32> {
        match line {
            Some(Line::Start(i, row, column)) => self.start(self.rules.c_views && self.model.settings.views(i), i, row, column),
            Some(Line::View(i, row, column)) => self.start(!self.rules.v_places, i, row, column),
            Some(Line::Turn(i)) => self.turn(i),
            Some(Line::Sizes(s)) if self.rules.second_s_opens => self.open(s),
            _ => Err(10),
        }
    }

    fn open(&mut self, s: Settings) -> Result<(), u32> {
        // "here nodes above 128 is refusal 1"
        if s.nodes > self.rules.most_nodes {
            return Err(1);
        }
        // limit 0 has no level count; the opening refuses it
        let s = Settings { width: self.rules.width, ..s };
        let areas = sized(&Settings { limit: s.limit.max(1), ..s }, 0, 0);
        self.model.settings = s;
        self.model.areas = areas;
        done(self.model.open()).map(|_| ())
    }

    fn start(&mut self, looks: bool, i: u32, row: u32, column: u32) -> Result<(), u32> {
        if self.rules.pixel_is_asked_first && (row > 4095 || column > 4095) {
            return Err(5);
        }
        let reply = done(if looks { self.model.view(i, row, column) } else { self.model.start(i, row, column) });
        if reply.is_ok() || self.rules.pixel_of_refused_start && i < 16 {
            self.calls[i as usize] = (row, column);
        }
        reply.map(|_| ())
    }

    // "A call's row is printed by the turn that ends it, with the call's pixel"
    fn turn(&mut self, i: u32) -> Result<(), u32> {
        let reply = self.model.turn(i);
        if reply.number == 9 && !self.rules.full_is_refused {
            self.row(i, "full,-");
            return Ok(());
        }
        let reply = done(reply)?;
        match reply.answer {
            NEW => self.row(i, &format!("new,{}", reply.node)),
            FOUND => self.row(i, &format!("found,{}", reply.node)),
            ABSENT => self.rules.absent.into_iter().for_each(|absent| self.row(i, absent)),
            FULL => unreachable!("full comes with number 9"),
            _ => {}
        }
        Ok(())
    }

    fn row(&mut self, i: u32, answer: &str) {
        let (row, column) = self.calls[i as usize];
        self.output += &format!("{i},{row},{column},{answer}\n");
    }
}

fn done(reply: Reply) -> Result<Reply, u32> {
    if reply.number == 0 {
        Ok(reply)
    } else {
        Err(reply.number)
    }
}
