// Which kinds of lines the texts printed, and what their turns went through. What was never reached fails.
use crate::model::Kind::*;
use crate::runs::Ran;

const KINDS: [&str; 14] = [
    "new",
    "found",
    "full",
    "absent",
    "refused 1",
    "refused 4",
    "refused 5",
    "refused 17",
    "refused 7",
    "refused 8",
    "refused 10",
    "input too long",
    "end",
    "no end",
];

#[derive(Default)]
pub struct Lines {
    texts: u64,
    kinds: [u64; KINDS.len()],
    // lines of no kind
    others: Vec<String>,
    turns: u64,
    moves: u64,
    inner_moves: u64,
    failed_exchanges: u64,
    found_by_viewers: u64,
}

fn kind(line: &str) -> String {
    let fields: Vec<&str> = line.split(',').collect();
    match fields[..] {
        ["refused", "0", "10"] => "input too long".to_string(),
        ["refused", _, number] => format!("refused {number}"),
        ["end", _, _] => "end".to_string(),
        [_, _, _, answer @ ("full" | "absent"), "-"] => answer.to_string(),
        [_, _, _, answer, node] if node != "-" => answer.to_string(),
        _ => line.to_string(),
    }
}

impl Lines {
    pub fn of(all: &[Ran]) -> Lines {
        let mut total = Lines::default();
        all.iter().for_each(|ran| total.add(ran));
        total
    }

    fn count(&mut self, kind: &str) {
        match KINDS.iter().position(|k| *k == kind) {
            Some(k) => self.kinds[k] += 1,
            None => self.others.push(format!("a line `{kind}`")),
        }
    }

    fn add(&mut self, ran: &Ran) {
        let output = String::from_utf8_lossy(&ran.printed.output);
        self.texts += 1;
        output.lines().skip(1).for_each(|line| self.count(&kind(line)));
        if !output.lines().last().unwrap().starts_with("end,") {
            self.count("no end");
        }
        let seen = &ran.printed.seen;
        self.turns += seen.turns();
        self.moves += seen.went[Close as usize][ChainHead as usize];
        self.inner_moves += seen.went[SetClose as usize][ChainHead as usize];
        self.failed_exchanges += seen.failed.iter().flatten().sum::<u64>();
        self.found_by_viewers += [Read, Follow].iter().map(|&k| seen.viewed[k as usize][Idle as usize]).sum::<u64>();
    }

    pub fn report(&self, name: &str) -> Vec<String> {
        let kinds: Vec<String> = KINDS.iter().zip(self.kinds).map(|(kind, n)| format!("{kind} {n}")).collect();
        println!("{} {name} without a difference, with lines: {}", self.texts, kinds.join(", "));
        let turns = [
            ("Moves", self.moves),
            ("Moves inside a Move", self.inner_moves),
            ("failed exchanges", self.failed_exchanges),
            ("found by viewers", self.found_by_viewers),
        ];
        let reached: Vec<String> = turns.iter().map(|(what, n)| format!("{what} {n}")).collect();
        println!("  {} turns, {}", self.turns, reached.join(", "));
        let all = KINDS.into_iter().zip(self.kinds).chain(turns);
        let mut missing: Vec<String> = all.filter(|x| x.1 == 0).map(|x| format!("{} in {name}", x.0)).collect();
        missing.extend(self.others.first().cloned());
        missing
    }
}
