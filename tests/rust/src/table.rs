// The table under test: the static library's functions, as include/leafdrum.h declares them. Nothing checks these declarations against the Rattle
// source.
use crate::count::Count;
use crate::model::{Areas, Exchanges, Reply, Settings};
use crate::next::Given;
use crate::pair::Op;

#[repr(C)]
#[derive(Clone, Copy)]
struct CSettings {
    workers: u32,
    limit: u32,
    nodes: u32,
    nodes_taken: u32,
    levels_taken: u32,
    viewers: u32,
    width: u32,
}

#[repr(C)]
#[derive(Clone, Copy)]
struct CReply {
    number: u32,
    answer: u32,
    node: u32,
    turns: u32,
    exchanges_done: u32,
    exchanges_failed: u32,
    settings: CSettings,
}

#[repr(C)]
struct CListing {
    place: u32,
}

#[repr(C)]
#[derive(Clone, Copy)]
struct CGiven {
    number: u32,
    answer: u32,
    pixel: u32,
}

#[repr(C)]
#[derive(Clone, Copy)]
struct CCount {
    number: u32,
    count: u32,
}

extern "C" {
    fn leafdrum_open(s: CSettings, n: *mut u32, nl: usize, l: *mut u32, ll: usize, w: *mut u32, wl: usize) -> CReply;
    fn leafdrum_start(s: CSettings, i: u32, row: u32, column: u32, n: *mut u32, nl: usize, l: *mut u32, ll: usize, w: *mut u32, wl: usize) -> CReply;
    fn leafdrum_view(s: CSettings, i: u32, row: u32, column: u32, n: *mut u32, nl: usize, l: *mut u32, ll: usize, w: *mut u32, wl: usize) -> CReply;
    fn leafdrum_turn(s: CSettings, i: u32, n: *mut u32, nl: usize, l: *mut u32, ll: usize, w: *mut u32, wl: usize) -> CReply;
    fn leafdrum_turns(
        s: CSettings,
        list: *const u8,
        count: usize,
        limit: u32,
        n: *mut u32,
        nl: usize,
        l: *mut u32,
        ll: usize,
        w: *mut u32,
        wl: usize,
    ) -> CReply;
    fn leafdrum_last(s: CSettings, i: u32, n: *mut u32, nl: usize, l: *mut u32, ll: usize, w: *mut u32, wl: usize) -> CReply;
    fn leafdrum_next(s: CSettings, listing: *mut CListing, n: *const u32, nl: usize, l: *const u32, ll: usize) -> CGiven;
    fn leafdrum_flagged(s: CSettings, n: *const u32, nl: usize, l: *const u32, ll: usize) -> CCount;
    fn leafdrum_level_count(s: CSettings) -> u32;
}

#[derive(Clone)]
pub struct Table {
    pub settings: Settings,
    pub areas: Areas,
}

fn to_c(s: &Settings) -> CSettings {
    let (workers, limit, nodes, viewers, width) = (s.workers, s.limit, s.nodes, s.viewers, s.width);
    CSettings { workers, limit, nodes, nodes_taken: s.nodes_taken, levels_taken: s.levels_taken, viewers, width }
}

fn from_c(r: CReply) -> Reply {
    let s = r.settings;
    let (workers, limit, nodes, viewers, width) = (s.workers, s.limit, s.nodes, s.viewers, s.width);
    let settings = Settings { workers, limit, nodes, nodes_taken: s.nodes_taken, levels_taken: s.levels_taken, viewers, width };
    let exchanges = Exchanges { done: r.exchanges_done, failed: r.exchanges_failed };
    Reply { number: r.number, answer: r.answer, node: r.node, turns: r.turns, exchanges, settings }
}

impl Table {
    pub fn new(settings: Settings, areas: Areas) -> Table {
        Table { settings, areas }
    }

    // hands in the newest settings and keeps those given back
    fn call(&mut self, f: impl FnOnce(CSettings, *mut u32, usize, *mut u32, usize, *mut u32, usize) -> CReply) -> Reply {
        let a = &mut self.areas;
        let (n, l, w) = (a.nodes.as_mut_ptr(), a.levels.as_mut_ptr(), a.workers.as_mut_ptr());
        let r = from_c(f(to_c(&self.settings), n, a.nodes.len(), l, a.levels.len(), w, a.workers.len()));
        self.settings = r.settings;
        r
    }
    pub fn run(&mut self, op: &Op) -> Reply {
        self.call(|s, n, nl, l, ll, w, wl| unsafe {
            match op {
                Op::Open => leafdrum_open(s, n, nl, l, ll, w, wl),
                Op::Start(i, row, column) => leafdrum_start(s, *i, *row, *column, n, nl, l, ll, w, wl),
                Op::View(i, row, column) => leafdrum_view(s, *i, *row, *column, n, nl, l, ll, w, wl),
                Op::Turn(i) => leafdrum_turn(s, *i, n, nl, l, ll, w, wl),
                Op::Turns(list, limit) => leafdrum_turns(s, list.as_ptr(), list.len(), *limit, n, nl, l, ll, w, wl),
                Op::Last(i) => leafdrum_last(s, *i, n, nl, l, ll, w, wl),
            }
        })
    }

    // A "next" of a listing with this place: what it gives, and the place after it. It may not write the areas; they are lent so that it could.
    pub fn next(&mut self, place: u32) -> (Given, u32) {
        let (mut listing, a) = (CListing { place }, &mut self.areas);
        let (n, l) = (a.nodes.as_mut_ptr(), a.levels.as_mut_ptr());
        let g = unsafe { leafdrum_next(to_c(&self.settings), &mut listing, n, a.nodes.len(), l, a.levels.len()) };
        (Given { number: g.number, answer: g.answer, pixel: g.pixel }, listing.place)
    }

    // The flagged count. It may not write the areas either.
    pub fn flagged(&mut self) -> Count {
        let a = &mut self.areas;
        let (n, l) = (a.nodes.as_mut_ptr(), a.levels.as_mut_ptr());
        let c = unsafe { leafdrum_flagged(to_c(&self.settings), n, a.nodes.len(), l, a.levels.len()) };
        Count { number: c.number, count: c.count }
    }
}

pub fn level_count(s: &Settings) -> u32 {
    unsafe { leafdrum_level_count(to_c(s)) }
}
