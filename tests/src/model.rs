//! What the calls are lent and what they answer.

/// The greatest n.
pub const MAX_ROWS: usize = 4_096;
/// The greatest e.
pub const MAX_ENTRIES: usize = 65_536;
/// The greatest number of slots of a store.
pub const MAX_SLOTS: usize = 1_048_576;

/// The three storage forms.
#[derive(Clone, Copy, PartialEq, Eq, Debug)]
pub enum Form {
    Plain,
    Shared,
    Row,
}

/// The two sides of the diagonal.
#[derive(Clone, Copy, PartialEq, Eq, Debug)]
pub enum Side {
    Lower,
    Upper,
}

/// The calls that take lists and factors. `Resolve` is another right side.
#[derive(Clone, Copy, PartialEq, Eq, Debug)]
pub enum Call {
    Structure(Form),
    Solve(Form),
    Refactor(Form),
    Resolve(Form),
}

impl Call {
    /// The call's storage form.
    pub fn form(self) -> Form {
        match self {
            Call::Structure(f) | Call::Solve(f) | Call::Refactor(f) | Call::Resolve(f) => f,
        }
    }
}

/// Every call with its form.
pub const CALLS: [Call; 9] = [
    Call::Structure(Form::Plain),
    Call::Structure(Form::Shared),
    Call::Solve(Form::Plain),
    Call::Solve(Form::Shared),
    Call::Solve(Form::Row),
    Call::Refactor(Form::Plain),
    Call::Refactor(Form::Shared),
    Call::Resolve(Form::Plain),
    Call::Resolve(Form::Shared),
];

/// The calls that factor: those that take a floor.
pub const FACTORING: [Call; 5] = [
    Call::Solve(Form::Plain),
    Call::Solve(Form::Shared),
    Call::Solve(Form::Row),
    Call::Refactor(Form::Plain),
    Call::Refactor(Form::Shared),
];

/// A matrix, its orders, a right side and a floor under pivots. A call reads only the parts it is lent.
#[derive(Clone, Debug, Default)]
pub struct Input {
    pub n: usize,
    pub starts: Vec<u32>,
    pub columns: Vec<u16>,
    pub values: Vec<f64>,
    pub r: Vec<u16>,
    pub c: Vec<u16>,
    pub b: Vec<f64>,
    pub floor: f64,
}

/// One side's buffers. What a call is not lent stays empty.
#[derive(Clone, Debug, Default)]
pub struct Store {
    pub starts: Vec<u32>,
    pub runs: Vec<u32>,
    pub index: Vec<u16>,
    pub values: Vec<f64>,
}

/// All that a call may write.
#[derive(Clone, Debug, Default)]
pub struct Buffers {
    pub lower: Store,
    pub upper: Store,
    pub d: Vec<f64>,
    pub x: Vec<f64>,
    pub scratch_f64: Vec<f64>,
    pub scratch_u32: Vec<u32>,
}

impl Buffers {
    /// The buffers of a side, to be read.
    pub fn side(&self, side: Side) -> &Store {
        match side {
            Side::Lower => &self.lower,
            Side::Upper => &self.upper,
        }
    }

    /// The buffers of a side, to be written.
    pub fn side_mut(&mut self, side: Side) -> &mut Store {
        match side {
            Side::Lower => &mut self.lower,
            Side::Upper => &mut self.upper,
        }
    }
}

/// What the call of the fill sheet is lent: all that the shared structure call is, and a sheet. The report is a buffer
/// like the others here.
#[derive(Clone, Debug, Default)]
pub struct Printing {
    pub input: Input,
    pub buffers: Buffers,
    pub sheet: Vec<u8>,
    pub report: Vec<u64>,
}

/// What the calls of the factor file are lent besides the file: orders, lists with their values and d of the plain form;
/// run starts stay empty. n and the counts are the writer's, the reader is not given them.
#[derive(Clone, Debug, Default)]
pub struct Keeping {
    pub n: usize,
    pub counts: Counts,
    pub r: Vec<u16>,
    pub c: Vec<u16>,
    pub lower: Store,
    pub upper: Store,
    pub d: Vec<f64>,
}

/// What the call on a row's residual is lent: a matrix and b, x, an own row, and the pair. The report is a buffer like
/// the others here.
#[derive(Clone, Debug, Default)]
pub struct Checking {
    pub input: Input,
    pub x: Vec<f64>,
    pub row: u32,
    pub pair: Vec<f64>,
    pub report: Vec<u64>,
}

/// The filled positions below and above the diagonal, and the products.
#[derive(Clone, Copy, PartialEq, Eq, Debug, Default)]
pub struct Counts {
    pub lower: u64,
    pub upper: u64,
    pub products: u64,
}

/// A question answered with no: its number, and a place (0 where none is named).
#[derive(Clone, Copy, PartialEq, Eq, Debug)]
pub struct Refusal {
    pub number: u32,
    pub place: u64,
}

/// Ends with a refusal.
pub fn refuse<T>(number: u32, place: usize) -> Result<T, Refusal> {
    Err(Refusal { number, place: place as u64 })
}

/// Number 0 is done; a refusal's counts are 0.
#[derive(Clone, Copy, PartialEq, Eq, Debug, Default)]
pub struct Answer {
    pub number: u32,
    pub place: u64,
    pub counts: Counts,
}

impl From<Refusal> for Answer {
    fn from(q: Refusal) -> Answer {
        Answer { number: q.number, place: q.place, counts: Counts::default() }
    }
}

impl From<Counts> for Answer {
    fn from(counts: Counts) -> Answer {
        Answer { number: 0, place: 0, counts }
    }
}

/// How many slots each store has.
#[derive(Clone, Copy, Debug, Default, PartialEq, Eq)]
pub struct Slots {
    pub lower_index: usize,
    pub lower_values: usize,
    pub upper_index: usize,
    pub upper_values: usize,
}

impl Keeping {
    /// Zeroed buffers of n places, with stores of these lengths.
    pub fn blank(n: usize, slots: Slots) -> Keeping {
        let Buffers { lower, upper, d, .. } = Buffers::for_call(Call::Solve(Form::Plain), n, slots);
        Keeping { n, counts: Counts::default(), r: vec![0; n], c: vec![0; n], lower, upper, d }
    }
}

impl Slots {
    /// The same number of slots for each store.
    pub fn all(count: usize) -> Slots {
        Slots { lower_index: count, lower_values: count, upper_index: count, upper_values: count }
    }

    /// The same number of slots for the index and the value store of each side.
    pub fn sides(lower: usize, upper: usize) -> Slots {
        Slots { lower_index: lower, lower_values: lower, upper_index: upper, upper_values: upper }
    }
}

impl Buffers {
    /// Zeroed buffers of the lengths that the call asks for.
    pub fn for_call(call: Call, n: usize, slots: Slots) -> Buffers {
        let form = call.form();
        let runs = if form == Form::Plain { 0 } else { n };
        let side = |index: usize, values: usize| Store {
            starts: vec![0; n + 1],
            runs: vec![0; runs],
            index: vec![0; index],
            values: vec![0.0; values],
        };
        let lower = match form {
            Form::Row => Store::default(),
            _ => side(slots.lower_index, slots.lower_values),
        };
        let whole = !matches!(call, Call::Structure(_));
        let rows = if whole { n } else { 0 };
        Buffers {
            lower,
            upper: side(slots.upper_index, slots.upper_values),
            d: vec![0.0; rows],
            x: vec![0.0; rows],
            scratch_f64: vec![0.0; 3 * n],
            scratch_u32: vec![0; 8 * n + 8],
        }
    }
}
