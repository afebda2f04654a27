// A worker's words by name (docs/LAYOUT.md), and what they say: for the tests that spoil one word and for the wrong versions.
pub use crate::model::WORKER_WORDS as RECORD;
use crate::model::{self, Areas, Kind, Settings, KINDS};

pub const KIND: usize = 0;
pub const PIXEL: usize = 1;
pub const LEVEL: usize = 2;
pub const NODE: usize = 3;
pub const COUNT: usize = 4;
pub const HELD_NODE: usize = 5;
pub const HELD_LEVEL: usize = 6;
pub const ANSWER: usize = 7;
pub const ANSWER_NODE: usize = 8;
pub const MOVES: usize = 9;

pub fn home(j: usize) -> usize {
    16 + 11 * j
}
pub fn child(j: usize) -> usize {
    17 + 11 * j
}
pub fn remembered(j: usize) -> usize {
    18 + 11 * j
}
pub fn node(j: usize, k: usize) -> usize {
    19 + 11 * j + k
}

pub const TOP: u32 = 16_777_215;

// One number of the table's memory, by the index of its word.
#[derive(Clone, Copy, Debug, PartialEq, Eq)]
pub enum Place {
    Nodes(usize),
    Levels(usize),
    Workers(usize),
    LevelsTaken,
    Viewers,
}

impl Place {
    pub fn of<'a>(self, areas: &'a mut Areas, settings: &'a mut Settings) -> &'a mut u32 {
        match self {
            Place::Nodes(k) => &mut areas.nodes[k],
            Place::Levels(k) => &mut areas.levels[k],
            Place::Workers(k) => &mut areas.workers[k],
            Place::LevelsTaken => &mut settings.levels_taken,
            Place::Viewers => &mut settings.viewers,
        }
    }
}

// the first word of level g
pub fn level_at(width: u32, g: u32) -> usize {
    model::level_words(width) * g as usize
}

pub fn is_node(word: u32) -> bool {
    word % 2 == 1
}

// One worker of a table whose memory is sound: what its record and the words around it hold.
pub struct View<'a> {
    pub areas: &'a Areas,
    pub settings: Settings,
    pub worker: u32,
}

impl View<'_> {
    fn index(&self, k: usize) -> usize {
        RECORD * self.worker as usize + k
    }
    pub fn at(&self, k: usize) -> Place {
        Place::Workers(self.index(k))
    }
    pub fn word(&self, k: usize) -> u32 {
        self.areas.workers[self.index(k)]
    }
    pub fn kind(&self) -> Kind {
        KINDS[self.word(KIND) as usize]
    }
    pub fn moves(&self) -> usize {
        self.word(MOVES) as usize
    }
    // the index of the innermost Move
    pub fn inner(&self) -> usize {
        self.moves() - 1
    }
    // the word with the node that Move j remembered last
    pub fn last(&self, j: usize) -> usize {
        node(j, self.word(remembered(j)) as usize - 1)
    }
    // N of the innermost Move
    pub fn n(&self) -> u32 {
        self.word(self.last(self.inner()))
    }

    pub fn pixel_of(&self, i: u32) -> Place {
        Place::Nodes(2 * i as usize)
    }
    pub fn next_of(&self, i: u32) -> Place {
        Place::Nodes(2 * i as usize + 1)
    }
    pub fn width(&self) -> u32 {
        self.settings.width
    }
    pub fn last_depth(&self) -> u32 {
        model::last_depth(self.width())
    }
    pub fn previous_of(&self, g: u32) -> Place {
        Place::Levels(level_at(self.width(), g))
    }
    pub fn depth_of(&self, g: u32) -> Place {
        Place::Levels(level_at(self.width(), g) + 1)
    }
    pub fn entry_of(&self, g: u32, pixel: u32) -> Place {
        let digit = model::digit(self.width(), self.get(self.depth_of(g)), pixel);
        Place::Levels(level_at(self.width(), g) + 2 + digit as usize)
    }
    pub fn get(&self, place: Place) -> u32 {
        match place {
            Place::Nodes(k) => self.areas.nodes[k],
            Place::Levels(k) => self.areas.levels[k],
            Place::Workers(k) => self.areas.workers[k],
            Place::LevelsTaken => self.settings.levels_taken,
            Place::Viewers => self.settings.viewers,
        }
    }

    // the key of the innermost Move: the call's pixel, inside another Move the pixel of that one's N
    pub fn key(&self) -> u32 {
        match self.inner() {
            0 => self.word(PIXEL),
            j => self.get(self.pixel_of(self.word(self.last(j - 1)))),
        }
    }
    // the cell that the next turn reads, exchanges or writes; the turns that fill a node or level have none
    pub fn cell(&self) -> Place {
        use Kind::*;
        match self.kind() {
            Look | Put | Read => self.entry_of(self.word(LEVEL), self.word(PIXEL)),
            Tail | Append | Close | Follow | SetTail | SetAppend | SetClose | SetFollow => self.next_of(self.word(NODE)),
            ChainHead | MoveEnd => self.entry_of(self.word(home(self.inner())), self.key()),
            ChainNext | SetNext => self.next_of(self.n()),
            SetLook | SetPut | SetRead => self.entry_of(self.word(LEVEL), self.get(self.pixel_of(self.n()))),
            Idle | Take | TakeTail | Level | SetLevel => panic!("{:?} has no cell", self.kind()),
        }
    }
    pub fn read(&self) -> u32 {
        self.get(self.cell())
    }
}
