//! The buffers that the library is lent, and how long they are.
use crate::ffi::Answer;
use crate::form::Kept;
use crate::{Counts, Matrix, MAX_ROWS, MAX_SLOTS};

/// The lists of one side: list starts, run starts (none in the plain form) and index store.
#[derive(Debug, Clone, PartialEq)]
pub(crate) struct Lists {
    pub starts: Vec<u32>,
    pub runs: Vec<u32>,
    pub index: Vec<u16>,
}

/// The lists of both sides.
#[derive(Debug, Clone, PartialEq)]
pub(crate) struct Pair {
    pub lower: Lists,
    pub upper: Lists,
}

/// The value stores of both sides and the reciprocal pivots.
#[derive(Debug, Clone, PartialEq)]
pub(crate) struct Values {
    pub lower: Vec<f64>,
    pub upper: Vec<f64>,
    pub d: Vec<f64>,
}

/// The scratch of a call.
pub(crate) struct Scratch {
    pub floats: Vec<f64>,
    pub marks: Vec<u32>,
}

impl Scratch {
    pub fn new(n: usize) -> Scratch {
        Scratch { floats: vec![0.0; 3 * n], marks: vec![0; 8 * n + 8] }
    }
}

/// The bytes of the fill sheet of n places: 49 places a page, each page 50 lines of 40 characters and a line end.
pub(crate) fn sheet_bytes(n: usize) -> usize {
    n.div_ceil(49) * 50 * 41
}

/// The bytes of a factor file of n places: n, lower and upper of 4 bytes, products of 8, two lists of starts, 10 bytes an
/// entry, d and the orders, in blocks that hold 504 of 512 bytes.
pub(crate) fn factor_bytes(n: usize, counts: Counts) -> usize {
    let entries = (counts.lower + counts.upper) as usize;
    (20 + 8 * (n + 1) + 10 * entries + 12 * n).div_ceil(504) * 512
}

/// The rows that buffers are made for: a greater n is refused before any length is asked.
pub(crate) fn rows_lent(matrix: &Matrix) -> usize {
    matrix.rows().min(MAX_ROWS)
}

impl Lists {
    pub fn new(form: Kept, n: usize, slots: usize) -> Lists {
        let runs = match form {
            Kept::Plain => 0,
            Kept::Shared => n,
        };
        Lists { starts: vec![0; n + 1], runs: vec![0; runs], index: vec![0; slots] }
    }

    /// The value slots that the lists use.
    pub fn value_slots(&self) -> usize {
        self.starts.last().map_or(0, |&end| end as usize)
    }

    /// The index slots that the lists use: in the shared form the run start of the last list, which is always empty and
    /// stands behind all others.
    pub fn index_slots(&self) -> usize {
        self.runs.last().map_or_else(|| self.value_slots(), |&run| run as usize)
    }

    /// Cuts the index store to what is used.
    fn trim(&mut self) {
        self.index.truncate(self.index_slots());
        self.index.shrink_to_fit();
    }
}

impl Pair {
    pub fn new(form: Kept, n: usize, room: Room) -> Pair {
        Pair { lower: Lists::new(form, n, room.lower), upper: Lists::new(form, n, room.upper) }
    }

    /// Cuts all stores to what is used.
    pub fn trim(&mut self, values: &mut Values) {
        self.lower.trim();
        self.upper.trim();
        for (store, lists) in [(&mut values.lower, &self.lower), (&mut values.upper, &self.upper)] {
            store.truncate(lists.value_slots());
            store.shrink_to_fit();
        }
    }
}

impl Values {
    pub fn new(n: usize, room: Room) -> Values {
        Values { lower: vec![0.0; room.lower], upper: vec![0.0; room.upper], d: vec![0.0; n] }
    }

    /// Zeros of the same lengths.
    pub fn blank(&self) -> Values {
        let room = Room { lower: self.lower.len(), upper: self.upper.len(), most: 0 };
        Values::new(self.d.len(), room)
    }
}

/// The slots lent to each side, and the most that it is worth to lend.
#[derive(Clone, Copy)]
pub(crate) struct Room {
    pub lower: usize,
    pub upper: usize,
    most: usize,
}

impl Room {
    /// A first guess; no side ever needs more than all the positions beside the diagonal.
    pub fn first(matrix: &Matrix) -> Room {
        let n = rows_lent(matrix);
        let most = (n * n.saturating_sub(1) / 2).min(MAX_SLOTS);
        let slots = matrix.entries().saturating_add(n).saturating_mul(4).min(most);
        Room { lower: slots, upper: slots, most }
    }

    /// Room for the row form, which keeps nothing below the diagonal.
    pub fn upper_only(self) -> Room {
        Room { lower: 0, ..self }
    }

    /// Double the side that the answer says is short, unless it has the most already.
    fn larger(self, answer: &Answer) -> Option<Room> {
        let double = |slots: usize| (slots * 2).min(self.most);
        match answer.number {
            10 if self.lower < self.most => Some(Room { lower: double(self.lower), ..self }),
            11 if self.upper < self.most => Some(Room { upper: double(self.upper), ..self }),
            _ => None,
        }
    }
}

/// Runs a call with more and more slots until it has enough, and gives its last answer and what it wrote.
pub(crate) fn grow<T>(matrix: &Matrix, mut call: impl FnMut(Room) -> (Answer, T)) -> (Answer, T) {
    let mut room = Room::first(matrix);
    loop {
        let (answer, written) = call(room);
        match room.larger(&answer) {
            Some(next) => room = next,
            None => return (answer, written),
        }
    }
}
