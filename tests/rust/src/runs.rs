// Runs the text program and compares what it prints, byte by byte, with the text program coded apart (text.rs) and with literal output.
use crate::pair::{Compared, Difference};
use crate::text::{self, Printed, DOCUMENT};
use std::fs;
use std::io::{self, Write};
use std::path::{Path, PathBuf};
use std::process::{ChildStdin, Command, Output, Stdio};
use std::sync::atomic::{AtomicUsize, Ordering};
use std::thread;
use std::time::Duration;

const THREADS: usize = 2;

pub struct Case {
    pub name: String,
    pub input: Vec<u8>,
    // literal, where the document's sentences give it
    pub output: Option<Vec<u8>>,
}

// A case without a difference: what both printed.
pub struct Ran<'a> {
    pub case: &'a Case,
    pub printed: Printed,
}

pub fn root() -> PathBuf {
    Path::new(env!("CARGO_MANIFEST_DIR")).join("../..")
}

pub fn program() -> Command {
    let path = std::env::var_os("LEAFDRUM_PROGRAM").map_or(root().join("leafdrum"), PathBuf::from);
    Command::new(path)
}

// The program's output. A thread writes the input, so that neither side waits for the other.
pub fn run(pieces: &[&[u8]]) -> Result<Vec<u8>, String> {
    let mut child = program().stdin(Stdio::piped()).stdout(Stdio::piped()).spawn().map_err(|e| format!("cannot be run: {e}"))?;
    let stdin = child.stdin.take().unwrap();
    thread::scope(|scope| {
        scope.spawn(move || feed(stdin, pieces));
        output(child.wait_with_output())
    })
}

// Between pieces the program comes to read what there is. That it reads no further than the longest input is not a fault.
fn feed(mut stdin: ChildStdin, pieces: &[&[u8]]) {
    for (k, piece) in pieces.iter().enumerate() {
        if k > 0 {
            thread::sleep(Duration::from_millis(2));
        }
        if stdin.write_all(piece).is_err() {
            return;
        }
    }
}

pub fn output(ended: io::Result<Output>) -> Result<Vec<u8>, String> {
    let ended = ended.map_err(|e| format!("cannot be run: {e}"))?;
    if ended.status.success() {
        Ok(ended.stdout)
    } else {
        Err(format!("ends with {}", ended.status))
    }
}

// the first line that differs, with its number
fn first_difference(got: &[u8], want: &[u8]) -> String {
    let (mut a, mut b) = (got.split(|&b| b == b'\n'), want.split(|&b| b == b'\n'));
    for k in 1.. {
        let (x, y) = (a.next(), b.next());
        if x != y || x.is_none() {
            let show = |line: Option<&[u8]>| line.map_or("nothing more".to_string(), |l| format!("`{}`", String::from_utf8_lossy(l)));
            return format!("printed line {k}: {}, not {}", show(x), show(y));
        }
    }
    unreachable!()
}

// What was printed for a case. The one coded apart must print the literal output too.
fn judged(case: &Case, got: Result<Vec<u8>, String>) -> Result<Ran<'_>, String> {
    let printed = text::printed(&DOCUMENT, &case.input);
    if let Some(literal) = &case.output {
        if printed.output != *literal {
            return Err(format!("the one coded apart: {}", first_difference(&printed.output, literal)));
        }
    }
    let got = got?;
    if got != printed.output {
        return Err(first_difference(&got, &printed.output));
    }
    Ok(Ran { case, printed })
}

pub fn compare(case: &Case, got: Result<Vec<u8>, String>) -> Compared<()> {
    judged(case, got).map(|_| ()).map_err(|what| difference(case, &what))
}

// All cases on two threads, each taking the next one; gives them in their order, or the first difference.
pub fn compare_all(cases: &[Case]) -> Compared<Vec<Ran<'_>>> {
    let next = AtomicUsize::new(0);
    let take = || {
        let mut done = vec![];
        while let Some(case) = cases.get(next.fetch_add(1, Ordering::Relaxed)) {
            done.push((case, judged(case, run(&[&case.input]))));
        }
        done
    };
    let mut all = thread::scope(|scope| {
        let threads: Vec<_> = (0..THREADS).map(|_| scope.spawn(take)).collect();
        threads.into_iter().flat_map(|t| t.join().unwrap()).collect::<Vec<_>>()
    });
    all.sort_by_key(|(case, _)| *case as *const Case);
    all.into_iter().map(|(case, ran)| ran.map_err(|what| difference(case, &what))).collect()
}

// The text is kept in a file that the message names.
fn difference(case: &Case, what: &str) -> Difference {
    let file = kept(case);
    Difference { text: format!("{}: the text program: {what}; the text is in {}", case.name, file.display()), turns: 0 }
}

// the text in a file below target/
pub fn kept(case: &Case) -> PathBuf {
    let plain: String = case.name.chars().map(|c| if c.is_ascii_alphanumeric() { c } else { '-' }).collect();
    let file = root().join("target").join(format!("{plain}.txt"));
    fs::create_dir_all(file.parent().unwrap()).and_then(|()| fs::write(&file, &case.input)).expect("the text is written to a file");
    file.canonicalize().unwrap_or(file)
}
