//! The reference behind the C interface, with a fault planted that the comparison must find.
use crate::load;
use crate::model::*;
use crate::reference::{self, factor_file, matrix_file, questions, residual, test_load, Lists};
use std::cell::Cell;

/// The faults that can be planted, each small and met by some inputs only.
#[derive(Clone, Copy, PartialEq, Eq, Debug)]
pub enum Fault {
    /// After 13 a scratch slot is not zero.
    Scratch,
    /// 12 names the place behind the pivot's.
    Place,
    /// One of more than three products is not counted.
    Products,
    /// The last bit of the shared form's first number of x is wrong.
    LastBit,
    /// The last slot of the upper index store has its last bit set.
    UnusedSlot,
    /// After 13 d begins with -0.
    NegativeZero,
    /// A list of two entries is handed back one slot too late.
    Lookup,
    /// 17 names block 0.
    Block,
    /// Refactor overwrites the first list start after 12.
    Presented,
    /// Another right side names the place before the factors' fault.
    FactorsPlace,
    /// The test load begins each row with the first seed.
    LoadSeed,
    /// The test load draws again where a column is skipped.
    LoadAgain,
    /// The test load takes a draw's column before the seed moves on.
    LoadColumn,
    /// The test load leaves its unused slots as they were.
    LoadUnused,
    /// The test load ends its values with -0.
    LoadZero,
    /// The test load writes b before it asks the last length.
    LoadRefusal,
    /// The test load asks the lengths first.
    LoadLengths,
    /// The test load writes a third slot of the report.
    LoadReport,
    /// The first page of a fill sheet has number 0.
    SheetPage,
    /// The own row stands one column too far left.
    SheetShift,
    /// The length of lower column k stands for that of lower row k.
    SheetLower,
    /// The place stands for the own row.
    SheetRow,
    /// The list start stands for the run start.
    SheetRun,
    /// A run start is printed modulo 10,000.
    SheetDigits,
    /// Lines behind the last place are left as they were.
    SheetBlank,
    /// Lines behind the last place are zero bytes.
    SheetZeros,
    /// After 11 the sheet is blank.
    SheetRefusal,
    /// A sheet one page too long is taken.
    SheetLength,
    /// Whole pages ask for a blank one behind them.
    SheetPages,
    /// The sheet's length is asked before n.
    SheetFirst,
    /// The sheet's length is asked last.
    SheetLate,
    /// The lengths of the lower rows stay in scratch.
    SheetScratch,
    /// A sheet refused for its length leaves the counts of the report as they were.
    SheetReport,
    /// A pivot of just the floor's magnitude passes.
    FloorStrict,
    /// A negative pivot passes.
    FloorMagnitude,
    /// Every negative pivot is refused.
    FloorSign,
    /// The floor is not compared.
    FloorIgnored,
    /// The row form compares with 0.
    FloorRow,
    /// Refactor compares with 0.
    FloorRefactor,
    /// The reciprocal is tested before the pivot.
    FloorReciprocal,
    /// 19 is asked before 6.
    FloorEarly,
    /// 19 is asked after 7.
    FloorLate,
    /// 19 is asked after the structure is found.
    FloorLast,
    /// A floor of -0 is refused.
    FloorZero,
    /// A floor of the subnormal range is refused.
    FloorSubnormal,
    /// A negative floor is taken.
    FloorNegative,
    /// An infinite floor is taken.
    FloorInfinite,
    /// A floor that is not a number is taken.
    FloorNan,
    /// After 19 a scratch slot is not zero.
    FloorScratch,
    /// After 19 all that the call writes is zero.
    FloorClears,
    /// A column that stands several times in a row is refused with 8.
    RepeatRefused,
    /// The structure calls alone refuse it with 8.
    RepeatStructure,
    /// Of a column's values the last is taken.
    RepeatLast,
    /// Of a column's values the first is taken.
    RepeatFirst,
    /// The row form takes the last.
    RepeatRow,
    /// Refactor takes the last.
    RepeatRefactor,
    /// Of a row's entries only the first n are read.
    RepeatLong,
    /// The sum of several values begins from +0.
    SumZero,
    /// A single value is added to +0.
    SumSingle,
    /// The values are added from the last to the first.
    SumReverse,
    /// A position where several values come to zero is dropped.
    SumDropped,
    /// A partial sum that overflows is forgiven where the last one does not.
    SumWide,
    /// The 13 of a sum comes before 12 and 13 of an earlier place.
    SumEarly,
    /// The 13 of a sum comes before 9 to 11 and 14.
    SumFirst,
    /// The 13 of a sum comes after the 12 of its place.
    SumLate,
    /// The 13 of a sum names the own row.
    SumPlace,
    /// The shape gives lower for upper and upper for lower.
    KeptSizes,
    /// A read tells no products.
    KeptCounts,
    /// A refused read leaves the counts of the report as they were.
    KeptReport,
    /// A read leaves unused slots as they were.
    KeptUnused,
    /// A read refuses stores longer than the lists.
    KeptExact,
    /// A read refuses a store that is too short with 15.
    KeptShort,
    /// 20 is asked after 2.
    KeptLate,
    /// The closing zeros of a factor file are not asked.
    KeptTail,
    /// A read asks 15 before 5.
    KeptOrders,
    /// A read does not ask 21.
    KeptSum,
    /// A read asks 21 before 15.
    KeptEarly,
    /// 21 names the last place.
    KeptPlace,
    /// 15 of the last place names n.
    KeptEnd,
    /// A read takes a d that is no number.
    KeptNan,
    /// A read refuses a d of zero with 15.
    KeptZero,
    /// A read loses the sign of a zero in d.
    KeptSign,
    /// A read refused with 21 has written the orders.
    KeptRefusal,
    /// The writer asks the lengths before n.
    KeptLengths,
    /// The writer takes a file of one block more.
    KeptLong,
    /// The writer judges the slots behind the lists.
    KeptBehind,
    /// The writer does not ask 21.
    KeptWritten,
    /// The writer lays c before r.
    KeptSwap,
    /// A write refused with 15 clears the file.
    KeptCleared,
    /// A write fills four slots of the report.
    KeptSlots,
    /// A product and its difference are rounded once together.
    ResidualFused,
    /// The products are subtracted from the last to the first.
    ResidualReverse,
    /// A column's values are added before they are multiplied.
    ResidualMerged,
    /// T starts from 0.
    ResidualRight,
    /// The width has q for q + 2.
    ResidualCount,
    /// The width has no q * 2^-1074.
    ResidualLeast,
    /// The width's factor (q + 2) * 2^-52 is multiplied in two steps.
    ResidualSteps,
    /// T over the greatest number is forgiven where the residual is finite.
    ResidualWide,
    /// After 22 the pair is zero.
    ResidualRefusal,
    /// 6 of x names its index plus e.
    ResidualPlace,
    /// 6 asks the row's own numbers only.
    ResidualOwn,
    /// A row not below n is asked after 6.
    ResidualLate,
    /// 7 is asked of every row.
    ResidualEmpty,
    /// 22 names no place.
    ResidualRow,
    /// The report gets a second slot.
    ResidualReport,
}

/// Every fault.
pub const FAULTS: [Fault; 105] = [
    Fault::Scratch,
    Fault::Place,
    Fault::Products,
    Fault::LastBit,
    Fault::UnusedSlot,
    Fault::NegativeZero,
    Fault::Lookup,
    Fault::Block,
    Fault::Presented,
    Fault::FactorsPlace,
    Fault::LoadSeed,
    Fault::LoadAgain,
    Fault::LoadColumn,
    Fault::LoadUnused,
    Fault::LoadZero,
    Fault::LoadRefusal,
    Fault::LoadLengths,
    Fault::LoadReport,
    Fault::SheetPage,
    Fault::SheetShift,
    Fault::SheetLower,
    Fault::SheetRow,
    Fault::SheetRun,
    Fault::SheetDigits,
    Fault::SheetBlank,
    Fault::SheetZeros,
    Fault::SheetRefusal,
    Fault::SheetLength,
    Fault::SheetPages,
    Fault::SheetFirst,
    Fault::SheetLate,
    Fault::SheetScratch,
    Fault::SheetReport,
    Fault::FloorStrict,
    Fault::FloorMagnitude,
    Fault::FloorSign,
    Fault::FloorIgnored,
    Fault::FloorRow,
    Fault::FloorRefactor,
    Fault::FloorReciprocal,
    Fault::FloorEarly,
    Fault::FloorLate,
    Fault::FloorLast,
    Fault::FloorZero,
    Fault::FloorSubnormal,
    Fault::FloorNegative,
    Fault::FloorInfinite,
    Fault::FloorNan,
    Fault::FloorScratch,
    Fault::FloorClears,
    Fault::RepeatRefused,
    Fault::RepeatStructure,
    Fault::RepeatLast,
    Fault::RepeatFirst,
    Fault::RepeatRow,
    Fault::RepeatRefactor,
    Fault::RepeatLong,
    Fault::SumZero,
    Fault::SumSingle,
    Fault::SumReverse,
    Fault::SumDropped,
    Fault::SumWide,
    Fault::SumEarly,
    Fault::SumFirst,
    Fault::SumLate,
    Fault::SumPlace,
    Fault::KeptSizes,
    Fault::KeptCounts,
    Fault::KeptReport,
    Fault::KeptUnused,
    Fault::KeptExact,
    Fault::KeptShort,
    Fault::KeptLate,
    Fault::KeptTail,
    Fault::KeptOrders,
    Fault::KeptSum,
    Fault::KeptEarly,
    Fault::KeptPlace,
    Fault::KeptEnd,
    Fault::KeptNan,
    Fault::KeptZero,
    Fault::KeptSign,
    Fault::KeptRefusal,
    Fault::KeptLengths,
    Fault::KeptLong,
    Fault::KeptBehind,
    Fault::KeptWritten,
    Fault::KeptSwap,
    Fault::KeptCleared,
    Fault::KeptSlots,
    Fault::ResidualFused,
    Fault::ResidualReverse,
    Fault::ResidualMerged,
    Fault::ResidualRight,
    Fault::ResidualCount,
    Fault::ResidualLeast,
    Fault::ResidualSteps,
    Fault::ResidualWide,
    Fault::ResidualRefusal,
    Fault::ResidualPlace,
    Fault::ResidualOwn,
    Fault::ResidualLate,
    Fault::ResidualEmpty,
    Fault::ResidualRow,
    Fault::ResidualReport,
];

thread_local! {
    static PLANTED: Cell<Option<Fault>> = const { Cell::new(None) };
}

/// From now on the stand-in has this fault, or none.
pub fn plant(fault: Option<Fault>) {
    PLANTED.set(fault);
}

fn has(fault: Fault) -> bool {
    PLANTED.get() == Some(fault)
}

fn put_report(report: &mut [u64], slots: &[u64]) {
    for (to, from) in report.iter_mut().zip(slots) {
        *to = *from;
    }
}

/// A lent buffer; it may be NULL where its length is 0.
unsafe fn lent<'a, T>(pointer: *const T, length: usize) -> &'a [T] {
    if length == 0 {
        return &[];
    }
    std::slice::from_raw_parts(pointer, length)
}

/// A written buffer; it may be NULL where its length is 0.
unsafe fn out<'a, T>(pointer: *mut T, length: usize) -> &'a mut [T] {
    if length == 0 {
        return &mut [];
    }
    std::slice::from_raw_parts_mut(pointer, length)
}

/// Defines an exported function: `lent` and `out` are slices made of a pointer and a length.
macro_rules! export {
    (@ $name:ident [$($param:tt)*] [$($make:stmt;)*] => $body:block) => {
        /// # Safety
        /// Every pointer leads to as many slots as its length says.
        #[no_mangle]
        pub unsafe extern "C" fn $name($($param)*) -> u32 { $($make)* $body }
    };
    (@ $name:ident [$($param:tt)*] [$($make:stmt;)*] $arg:ident: size, $($rest:tt)*) => {
        export! { @ $name [$($param)* $arg: usize,] [$($make;)*] $($rest)* }
    };
    (@ $name:ident [$($param:tt)*] [$($make:stmt;)*] $arg:ident: number, $($rest:tt)*) => {
        export! { @ $name [$($param)* $arg: u32,] [$($make;)*] $($rest)* }
    };
    (@ $name:ident [$($param:tt)*] [$($make:stmt;)*] $arg:ident: count, $($rest:tt)*) => {
        export! { @ $name [$($param)* $arg: u64,] [$($make;)*] $($rest)* }
    };
    (@ $name:ident [$($param:tt)*] [$($make:stmt;)*] $arg:ident: short, $($rest:tt)*) => {
        export! { @ $name [$($param)* $arg: u16,] [$($make;)*] $($rest)* }
    };
    (@ $name:ident [$($param:tt)*] [$($make:stmt;)*] $arg:ident: real, $($rest:tt)*) => {
        export! { @ $name [$($param)* $arg: f64,] [$($make;)*] $($rest)* }
    };
    (@ $name:ident [$($param:tt)*] [$($make:stmt;)*] $arg:ident: lent $kind:ty, $($rest:tt)*) => {
        export! { @ $name [$($param)* $arg: *const $kind, length: usize,]
            [$($make;)* let $arg = lent($arg, length);] $($rest)* }
    };
    (@ $name:ident [$($param:tt)*] [$($make:stmt;)*] $arg:ident: out $kind:ty, $($rest:tt)*) => {
        export! { @ $name [$($param)* $arg: *mut $kind, length: usize,]
            [$($make;)* let $arg = out($arg, length);] $($rest)* }
    };
    ($name:ident: $($rest:tt)*) => { export! { @ $name [] [] $($rest)* } };
}

/// One side as lent.
struct Lent<'a> {
    starts: &'a mut [u32],
    runs: &'a mut [u32],
    index: &'a mut [u16],
    values: &'a mut [f64],
}

impl Lent<'_> {
    fn copy(&self) -> Store {
        Store {
            starts: self.starts.to_vec(),
            runs: self.runs.to_vec(),
            index: self.index.to_vec(),
            values: self.values.to_vec(),
        }
    }

    fn put(&mut self, store: &Store) {
        self.starts.copy_from_slice(&store.starts);
        self.runs.copy_from_slice(&store.runs);
        self.index.copy_from_slice(&store.index);
        self.values.copy_from_slice(&store.values);
    }
}

/// The rest as lent: d, x, scratch, report.
struct Rest<'a> {
    d: &'a mut [f64],
    x: &'a mut [f64],
    sf: &'a mut [f64],
    su: &'a mut [u32],
    report: &'a mut [u64],
}

fn run(call: Call, input: Input, mut lower: Lent, mut upper: Lent, rest: Rest) -> u32 {
    let mut buffers = Buffers {
        lower: lower.copy(),
        upper: upper.copy(),
        d: rest.d.to_vec(),
        x: rest.x.to_vec(),
        scratch_f64: rest.sf.to_vec(),
        scratch_u32: rest.su.to_vec(),
    };
    let before = buffers.clone();
    let answer = if FACTORING.contains(&call) {
        factor(call, &input, &mut buffers)
    } else {
        reference::run(call, &input, &mut buffers)
    };
    let answer = repeat(call, &input, before, answer, &mut buffers);
    let answer = spoil(call, answer, &mut buffers);
    lower.put(&buffers.lower);
    upper.put(&buffers.upper);
    rest.d.copy_from_slice(&buffers.d);
    rest.x.copy_from_slice(&buffers.x);
    rest.sf.copy_from_slice(&buffers.scratch_f64);
    rest.su.copy_from_slice(&buffers.scratch_u32);
    let counts = answer.counts;
    put_report(rest.report, &[answer.place, counts.lower, counts.upper, counts.products]);
    answer.number
}

/// Whether question 19 refuses the floor.
fn floor_refused(floor: f64) -> bool {
    if (has(Fault::FloorZero) && floor.to_bits() == 1 << 63) || (has(Fault::FloorSubnormal) && floor.is_subnormal()) {
        return true;
    }
    let taken = (has(Fault::FloorNegative) && floor < 0.0)
        || (has(Fault::FloorInfinite) && floor == f64::INFINITY)
        || (has(Fault::FloorNan) && floor.is_nan());
    !taken && (floor < 0.0 || !floor.is_finite())
}

/// Whether a number refused before 19 is answered where both are to be refused.
fn comes_first(number: u32) -> bool {
    match number {
        6 => !has(Fault::FloorEarly),
        7 => has(Fault::FloorLate) || has(Fault::FloorLast),
        9..=11 | 14 => has(Fault::FloorLast),
        _ => (1..6).contains(&number),
    }
}

/// The floor as the call takes it.
fn taken_floor(call: Call, floor: f64) -> f64 {
    let none = has(Fault::FloorIgnored)
        || (has(Fault::FloorRow) && call.form() == Form::Row)
        || (has(Fault::FloorRefactor) && matches!(call, Call::Refactor(_)));
    if none {
        0.0
    } else {
        floor
    }
}

/// Whether the floor refuses the pivot.
fn low(pivot: f64, floor: f64) -> bool {
    if has(Fault::FloorStrict) {
        return pivot == 0.0 || pivot.abs() < floor;
    }
    if has(Fault::FloorMagnitude) {
        return pivot == 0.0 || (pivot > 0.0 && pivot <= floor);
    }
    if has(Fault::FloorReciprocal) && pivot != 0.0 && !(1.0 / pivot).is_finite() {
        return false;
    }
    let magnitude = if has(Fault::FloorSign) { pivot } else { pivot.abs() };
    pivot == 0.0 || magnitude <= floor
}

/// A call that factors. The reference asks all but 19 under the floor 0; a 12 is taken from the greatest floor, under
/// which it stops at the first pivot and leaves what a stop at another one leaves.
fn factor(call: Call, input: &Input, buffers: &mut Buffers) -> Answer {
    let before = buffers.clone();
    let answer = reference::run(call, &Input { floor: 0.0, ..input.clone() }, buffers);
    if floor_refused(input.floor) && !comes_first(answer.number) {
        return refuse_floor(call, input, buffers, before);
    }
    let floor = taken_floor(call, input.floor);
    let pivots = if matches!(answer.number, 0 | 12 | 13) { reference::pivots(input) } else { Vec::new() };
    match pivots.iter().position(|&pivot| low(pivot, floor)) {
        Some(place) => {
            *buffers = before;
            let stopped = reference::run(call, &Input { floor: f64::MAX, ..input.clone() }, buffers);
            Answer { place: place as u64, ..stopped }
        }
        None => answer,
    }
}

/// 19, with a fault in what it leaves where one is planted.
fn refuse_floor(call: Call, input: &Input, buffers: &mut Buffers, before: Buffers) -> Answer {
    *buffers = before;
    if has(Fault::FloorClears) {
        reference::run(call, &Input { floor: f64::MAX, ..input.clone() }, buffers);
    }
    buffers.scratch_f64.fill(0.0);
    buffers.scratch_u32.fill(0);
    if has(Fault::FloorScratch) {
        buffers.scratch_f64[0] = 1.0;
    }
    Refusal { number: 19, place: 0 }.into()
}

/// The first place whose row has such a column.
fn first_place(input: &Input, is: impl Fn(&[f64]) -> bool) -> Option<usize> {
    input.r.iter().position(|&row| load::columns_of(input, row as usize).iter().any(|(_, values)| is(values)))
}

/// The matrix with other values in the place of each column's.
fn with_columns(input: &Input, change: impl Fn(&[f64]) -> Vec<f64>) -> Input {
    let entries = |(column, values): (usize, Vec<f64>)| change(&values).into_iter().map(move |value| (column, value));
    let row = |row: usize| load::columns_of(input, row).into_iter().flat_map(entries).collect();
    let rows: Vec<Vec<(usize, f64)>> = (0..input.n).map(row).collect();
    load::with_rows(input, &rows)
}

/// The matrix with the first n entries of each row.
fn cut_rows(input: &Input) -> Input {
    let mut cut = Input { starts: vec![0], columns: Vec::new(), values: Vec::new(), ..input.clone() };
    for pair in input.starts.windows(2) {
        let entries = pair[0] as usize..(pair[1] as usize).min(pair[0] as usize + input.n);
        cut.columns.extend_from_slice(&input.columns[entries.clone()]);
        cut.values.extend_from_slice(input.values.get(entries).unwrap_or_default());
        cut.starts.push(cut.columns.len() as u32);
    }
    cut
}

/// The sum with partial sums that do not overflow.
fn wide_sum(values: &[f64]) -> f64 {
    let scale = 2f64.powi(-60);
    values.iter().map(|value| value * scale).sum::<f64>() / scale
}

/// The matrix that the call solves in the place of its own, where a fault is planted that can be told so.
fn taken_matrix(call: Call, input: &Input) -> Option<Input> {
    let last = has(Fault::RepeatLast)
        || (has(Fault::RepeatRow) && call.form() == Form::Row)
        || (has(Fault::RepeatRefactor) && matches!(call, Call::Refactor(_)));
    if last {
        return Some(with_columns(input, |values| values[values.len() - 1..].to_vec()));
    }
    let from_zero = |values: &[f64]| [&[0.0 + values[0]], &values[1..]].concat();
    match PLANTED.get()? {
        Fault::RepeatFirst => Some(with_columns(input, |values| values[..1].to_vec())),
        Fault::RepeatLong => Some(cut_rows(input)),
        Fault::SumZero => {
            Some(with_columns(input, |values| if values.len() > 1 { from_zero(values) } else { values.to_vec() }))
        }
        Fault::SumSingle => {
            Some(with_columns(input, |values| if values.len() == 1 { from_zero(values) } else { values.to_vec() }))
        }
        Fault::SumReverse => Some(with_columns(input, |values| values.iter().rev().copied().collect())),
        Fault::SumDropped => {
            let zero = |values: &[f64]| values.len() > 1 && load::sum(values) == 0.0;
            Some(with_columns(input, |values| if zero(values) { Vec::new() } else { values.to_vec() }))
        }
        Fault::SumWide => {
            let forgiven = |values: &[f64]| !load::sum(values).is_finite() && wide_sum(values).is_finite();
            Some(with_columns(input, |values| if forgiven(values) { vec![wide_sum(values)] } else { values.to_vec() }))
        }
        _ => None,
    }
}

/// The planted faults of columns that stand several times in a row, where the questions up to 7 are passed.
fn repeat(call: Call, input: &Input, before: Buffers, answer: Answer, buffers: &mut Buffers) -> Answer {
    if matches!(call, Call::Resolve(_)) || matches!(answer.number, 1..=7 | 19) {
        return answer;
    }
    let refuses = has(Fault::RepeatRefused) || (has(Fault::RepeatStructure) && matches!(call, Call::Structure(_)));
    if let Some(place) = first_place(input, |values| values.len() > 1).filter(|_| refuses) {
        *buffers = before;
        buffers.scratch_f64.fill(0.0);
        buffers.scratch_u32.fill(0);
        return Refusal { number: 8, place: input.r[place] as u64 }.into();
    }
    if let Some(other) = taken_matrix(call, input).filter(|_| FACTORING.contains(&call) || has(Fault::RepeatLong)) {
        *buffers = before;
        return reference::run(call, &other, buffers);
    }
    spoil_sum(call, input, before, answer)
}

/// The planted faults of the answer where a sum is not finite.
fn spoil_sum(call: Call, input: &Input, mut before: Buffers, answer: Answer) -> Answer {
    let Some(place) = first_place(input, |values| !load::sum(values).is_finite()) else { return answer };
    let told = Refusal { number: 13, place: place as u64 }.into();
    match PLANTED.get() {
        Some(Fault::SumEarly) if matches!(answer.number, 12 | 13) => told,
        Some(Fault::SumFirst) if matches!(answer.number, 9..=11 | 14) => told,
        Some(Fault::SumPlace) if answer == told => Answer { place: input.r[place] as u64, ..told },
        Some(Fault::SumLate) if answer == told => {
            let finite = |values: &[f64]| if load::sum(values).is_finite() { values.to_vec() } else { vec![0.0] };
            let other = reference::run(call, &with_columns(input, finite), &mut before);
            if other.number == 12 && other.place == told.place {
                other
            } else {
                told
            }
        }
        _ => answer,
    }
}

/// The planted faults of the calls.
fn spoil(call: Call, mut answer: Answer, buffers: &mut Buffers) -> Answer {
    if has(Fault::Scratch) && answer.number == 13 {
        buffers.scratch_f64[0] = 1.0;
    }
    if has(Fault::Place) && answer.number == 12 {
        answer.place += 1;
    }
    if has(Fault::Products) && answer.number == 0 && answer.counts.products > 3 {
        answer.counts.products -= 1;
    }
    if has(Fault::LastBit) && answer.number == 0 && call.form() == Form::Shared {
        if let Some(x) = buffers.x.first_mut() {
            *x = f64::from_bits(x.to_bits() ^ 1);
        }
    }
    if has(Fault::UnusedSlot) && answer.number == 0 {
        if let Some(slot) = buffers.upper.index.last_mut() {
            *slot |= 1;
        }
    }
    if has(Fault::NegativeZero) && answer.number == 13 {
        buffers.d.iter_mut().take(1).for_each(|d| *d = -0.0);
    }
    if has(Fault::Presented) && matches!(call, Call::Refactor(_)) && answer.number == 12 {
        buffers.upper.starts[0] = 1;
    }
    if has(Fault::FactorsPlace) && answer.number == 15 {
        answer.place = answer.place.saturating_sub(1);
    }
    answer
}

// The calls that only read lists take them as writable here: one reading of the arguments serves all calls.
macro_rules! side {
    ($starts:expr, $runs:expr, $index:expr, $values:expr) => {
        Lent { starts: $starts, runs: $runs, index: $index, values: $values }
    };
}

macro_rules! none {
    () => {
        Lent { starts: &mut [], runs: &mut [], index: &mut [], values: &mut [] }
    };
}

macro_rules! matrix {
    ($n:expr, $starts:expr, $columns:expr, $values:expr, $r:expr, $c:expr, $b:expr) => {
        Input {
            n: $n,
            starts: $starts.to_vec(),
            columns: $columns.to_vec(),
            values: $values.to_vec(),
            r: $r.to_vec(),
            c: $c.to_vec(),
            b: $b.to_vec(),
            floor: 0.0,
        }
    };
}

const NO_U32: [u32; 0] = [];
const NO_U16: [u16; 0] = [];
const NO_F64: [f64; 0] = [];

export! { lp_structure_plain: n: size, starts: lent u32, columns: lent u16, r: lent u16, c: lent u16,
ls: out u32, li: out u16, lv: out f64, us: out u32, ui: out u16, uv: out f64, sf: out f64, su: out u32, report: out u64,
=> {
    let input = matrix!(n, starts, columns, NO_F64, r, c, NO_F64);
    let rest = Rest { d: &mut [], x: &mut [], sf, su, report };
    run(Call::Structure(Form::Plain), input, side!(ls, &mut [], li, lv), side!(us, &mut [], ui, uv), rest)
} }

export! { lp_structure_shared: n: size, starts: lent u32, columns: lent u16, r: lent u16, c: lent u16,
ls: out u32, lr: out u32, li: out u16, lv: out f64, us: out u32, ur: out u32, ui: out u16, uv: out f64,
sf: out f64, su: out u32, report: out u64,
=> {
    let input = matrix!(n, starts, columns, NO_F64, r, c, NO_F64);
    let rest = Rest { d: &mut [], x: &mut [], sf, su, report };
    run(Call::Structure(Form::Shared), input, side!(ls, lr, li, lv), side!(us, ur, ui, uv), rest)
} }

export! { lp_solve_plain: n: size, starts: lent u32, columns: lent u16, values: lent f64,
r: lent u16, c: lent u16, b: lent f64, floor: real,
ls: out u32, li: out u16, lv: out f64, us: out u32, ui: out u16, uv: out f64,
d: out f64, x: out f64, sf: out f64, su: out u32, report: out u64,
=> {
    let input = Input { floor, ..matrix!(n, starts, columns, values, r, c, b) };
    run(Call::Solve(Form::Plain), input, side!(ls, &mut [], li, lv), side!(us, &mut [], ui, uv), Rest { d, x, sf, su, report })
} }

export! { lp_solve_shared: n: size, starts: lent u32, columns: lent u16, values: lent f64,
r: lent u16, c: lent u16, b: lent f64, floor: real,
ls: out u32, lr: out u32, li: out u16, lv: out f64, us: out u32, ur: out u32, ui: out u16, uv: out f64,
d: out f64, x: out f64, sf: out f64, su: out u32, report: out u64,
=> {
    let input = Input { floor, ..matrix!(n, starts, columns, values, r, c, b) };
    run(Call::Solve(Form::Shared), input, side!(ls, lr, li, lv), side!(us, ur, ui, uv), Rest { d, x, sf, su, report })
} }

export! { lp_solve_row: n: size, starts: lent u32, columns: lent u16, values: lent f64,
r: lent u16, c: lent u16, b: lent f64, floor: real,
us: out u32, ur: out u32, ui: out u16, uv: out f64, d: out f64, x: out f64, sf: out f64, su: out u32, report: out u64,
=> {
    let input = Input { floor, ..matrix!(n, starts, columns, values, r, c, b) };
    run(Call::Solve(Form::Row), input, none!(), side!(us, ur, ui, uv), Rest { d, x, sf, su, report })
} }

export! { lp_refactor_plain: n: size, starts: lent u32, columns: lent u16, values: lent f64,
r: lent u16, c: lent u16, b: lent f64, floor: real,
ls: out u32, li: out u16, lv: out f64, us: out u32, ui: out u16, uv: out f64,
d: out f64, x: out f64, sf: out f64, su: out u32, report: out u64,
=> {
    let input = Input { floor, ..matrix!(n, starts, columns, values, r, c, b) };
    run(Call::Refactor(Form::Plain), input, side!(ls, &mut [], li, lv), side!(us, &mut [], ui, uv), Rest { d, x, sf, su, report })
} }

export! { lp_refactor_shared: n: size, starts: lent u32, columns: lent u16, values: lent f64,
r: lent u16, c: lent u16, b: lent f64, floor: real,
ls: out u32, lr: out u32, li: out u16, lv: out f64, us: out u32, ur: out u32, ui: out u16, uv: out f64,
d: out f64, x: out f64, sf: out f64, su: out u32, report: out u64,
=> {
    let input = Input { floor, ..matrix!(n, starts, columns, values, r, c, b) };
    let (lower, upper) = (side!(ls, lr, li, lv), side!(us, ur, ui, uv));
    run(Call::Refactor(Form::Shared), input, lower, upper, Rest { d, x, sf, su, report })
} }

export! { lp_resolve_plain: n: size, r: lent u16, c: lent u16, b: lent f64,
ls: out u32, li: out u16, lv: out f64, us: out u32, ui: out u16, uv: out f64,
d: out f64, x: out f64, sf: out f64, su: out u32, report: out u64,
=> {
    let input = matrix!(n, NO_U32, NO_U16, NO_F64, r, c, b);
    let rest = Rest { d, x, sf, su, report };
    run(Call::Resolve(Form::Plain), input, side!(ls, &mut [], li, lv), side!(us, &mut [], ui, uv), rest)
} }

export! { lp_resolve_shared: n: size, r: lent u16, c: lent u16, b: lent f64,
ls: out u32, lr: out u32, li: out u16, lv: out f64, us: out u32, ur: out u32, ui: out u16, uv: out f64,
d: out f64, x: out f64, sf: out f64, su: out u32, report: out u64,
=> {
    let input = matrix!(n, NO_U32, NO_U16, NO_F64, r, c, b);
    let rest = Rest { d, x, sf, su, report };
    run(Call::Resolve(Form::Shared), input, side!(ls, lr, li, lv), side!(us, ur, ui, uv), rest)
} }

fn find(form: Form, side: u32, place: usize, n: usize, lower: Store, upper: Store, report: &mut [u64]) -> u32 {
    let side = if side == 0 { Side::Lower } else { Side::Upper };
    let (mut offset, length) = reference::lookup(&Lists { form, n, lower, upper }, side, place);
    if has(Fault::Lookup) && length == 2 {
        offset += 1;
    }
    put_report(report, &[offset as u64, length as u64]);
    0
}

fn list_store(starts: &[u32], runs: &[u32], index: &[u16]) -> Store {
    Store { starts: starts.to_vec(), runs: runs.to_vec(), index: index.to_vec(), values: Vec::new() }
}

export! { lp_list_plain: side: number, place: size, n: size,
ls: lent u32, li: lent u16, us: lent u32, ui: lent u16, report: out u64,
=> { find(Form::Plain, side, place, n, list_store(ls, &NO_U32, li), list_store(us, &NO_U32, ui), report) } }

export! { lp_list_shared: side: number, place: size, n: size,
ls: lent u32, lr: lent u32, li: lent u16, us: lent u32, ur: lent u32, ui: lent u16, report: out u64,
=> { find(Form::Shared, side, place, n, list_store(ls, lr, li), list_store(us, ur, ui), report) } }

export! { lp_file_shape: file: lent u8, report: out u64,
=> {
    match matrix_file::shape(file) {
        Ok((n, e)) => {
            put_report(report, &[0, n as u64, e as u64]);
            0
        }
        Err(q) if has(Fault::Block) && q.number == 17 => {
            put_report(report, &[0, 0, 0]);
            17
        }
        Err(q) => {
            put_report(report, &[q.place, 0, 0]);
            q.number
        }
    }
} }

fn put_matrix(
    m: &Input,
    starts: &mut [u32],
    columns: &mut [u16],
    values: &mut [f64],
    r: &mut [u16],
    c: &mut [u16],
    b: &mut [f64],
) {
    starts.copy_from_slice(&m.starts);
    columns.copy_from_slice(&m.columns);
    values.copy_from_slice(&m.values);
    r.copy_from_slice(&m.r);
    c.copy_from_slice(&m.c);
    b.copy_from_slice(&m.b);
}

export! { lp_read_matrix: file: lent u8, starts: out u32, columns: out u16, values: out f64,
r: out u16, c: out u16, b: out f64, report: out u64,
=> {
    let mut matrix = matrix!(0, starts, columns, values, r, c, b);
    let answer = matrix_file::read(file, &mut matrix);
    put_matrix(&matrix, starts, columns, values, r, c, b);
    put_report(report, &[answer.place]);
    answer.number
} }

export! { lp_write_matrix: n: size, starts: lent u32, columns: lent u16, values: lent f64,
r: lent u16, c: lent u16, b: lent f64, file: out u8, report: out u64,
=> {
    let matrix = matrix!(n, starts, columns, values, r, c, b);
    let answer = matrix_file::write(&matrix, file);
    put_report(report, &[answer.place]);
    answer.number
} }

/// One row of the load, with a fault in its draws where one is planted.
fn drawn_row(n: usize, k: usize, s: &mut u16) -> Vec<(usize, f64)> {
    let mut row = vec![(k, 4.0)];
    let mut draws = 0;
    while draws < 3 {
        let before = *s;
        *s = s.wrapping_mul(25_173).wrapping_add(13_849);
        let from = if has(Fault::LoadColumn) { before } else { *s };
        let column = (from / 16) as usize % n;
        let skipped = row.iter().any(|&(j, _)| j == column);
        if !skipped {
            row.push((column, -1.0));
        }
        // A full row has no other column to draw.
        let again = has(Fault::LoadAgain) && skipped && row.len() < n;
        draws += if again { 0 } else { 1 };
    }
    row
}

/// The load by another generator than the reference's.
fn drawn(n: usize, seed: u16) -> Input {
    let mut s = seed;
    let mut rows = Vec::with_capacity(n);
    for k in 0..n {
        if has(Fault::LoadSeed) {
            s = seed;
        }
        rows.push(drawn_row(n, k, &mut s));
    }
    load::from_rows(&rows, &vec![1.0; n])
}

/// The planted faults of a load that is made, and its entry count; `before` is what the buffers held.
fn spoil_made(seed: u16, before: &Input, matrix: &mut Input) -> u64 {
    let made = drawn(matrix.n, seed);
    let e = made.columns.len();
    matrix.starts = made.starts;
    matrix.columns[..e].copy_from_slice(&made.columns);
    matrix.values[..e].copy_from_slice(&made.values);
    matrix.columns[e..].fill(0);
    matrix.values[e..].fill(if has(Fault::LoadZero) { -0.0 } else { 0.0 });
    if has(Fault::LoadUnused) {
        matrix.columns[e..].copy_from_slice(&before.columns[e..]);
        matrix.values[e..].copy_from_slice(&before.values[e..]);
    }
    e as u64
}

/// The planted faults of a refused load.
fn spoil_refused(number: u32, matrix: &mut Input) -> u32 {
    if has(Fault::LoadRefusal) && number == 2 {
        matrix.b.fill(1.0);
    }
    if has(Fault::LoadLengths) && number == 1 && matrix.starts.len() != matrix.n.saturating_add(1) {
        return 2;
    }
    number
}

export! { lp_test_load: n: size, seed: short, starts: out u32, columns: out u16, values: out f64,
r: out u16, c: out u16, b: out f64, report: out u64,
=> {
    let mut matrix = matrix!(n, starts, columns, values, r, c, b);
    let before = matrix.clone();
    let mut number = test_load::make(seed, &mut matrix, report);
    if number == 0 {
        put_report(report, &[0, spoil_made(seed, &before, &mut matrix)]);
    } else {
        number = spoil_refused(number, &mut matrix);
    }
    if has(Fault::LoadReport) {
        report.iter_mut().skip(2).take(1).for_each(|slot| *slot = 0);
    }
    put_matrix(&matrix, starts, columns, values, r, c, b);
    number
} }

/// The number that the sheet's length is refused with, or 0.
fn length_refused(n: usize, length: usize) -> u32 {
    let pages = if has(Fault::SheetPages) { n / 49 + 1 } else { n.div_ceil(49) };
    let whole = pages.saturating_mul(2_050);
    if !(1..=MAX_ROWS).contains(&n) && !has(Fault::SheetFirst) {
        return 1;
    }
    let longer = has(Fault::SheetLength) && length == whole + 2_050;
    if length == whole || longer {
        0
    } else {
        2
    }
}

/// The lengths of the lower rows, counted along the lower columns.
fn row_lengths(n: usize, lower: &Store) -> Vec<u32> {
    let mut rows = vec![0; n];
    for j in 0..n {
        let length = lower.starts[j + 1] - lower.starts[j];
        let run = lower.runs[j] as usize;
        lower.index[run..run + length as usize].iter().for_each(|&k| rows[k as usize] += 1);
    }
    if has(Fault::SheetLower) {
        return lower.starts.windows(2).map(|pair| pair[1] - pair[0]).collect();
    }
    rows
}

/// The five numbers of place k.
fn five(k: usize, r: &[u16], rows: &[u32], upper: &Store) -> [u32; 5] {
    let row = if has(Fault::SheetRow) { k as u32 } else { r[k] as u32 };
    let run = if has(Fault::SheetRun) { upper.starts[k] } else { upper.runs[k] };
    let run = if has(Fault::SheetDigits) { run % 10_000 } else { run };
    [k as u32, row, rows[k], upper.starts[k + 1] - upper.starts[k], run]
}

/// Puts the digits of a number, from the last, to the left of a column.
fn put_digits(line: &mut [u8], end: usize, mut number: u32) {
    for at in (0..end).rev() {
        line[at] = b'0' + (number % 10) as u8;
        number /= 10;
        if number == 0 {
            return;
        }
    }
}

/// Puts the lines of the places in turn into a sheet of pages.
fn put_lines(places: &[[u32; 5]], sheet: &mut [u8]) {
    let ends = if has(Fault::SheetShift) { [6, 13, 22, 30, 40] } else { [6, 14, 22, 30, 40] };
    let mut places = places.iter();
    for (at, line) in sheet.chunks_mut(41).enumerate() {
        let before = line.to_vec();
        line.fill(b' ');
        line[40] = b'\n';
        if at % 50 == 0 {
            line[..4].copy_from_slice(b"FILL");
            put_digits(line, 40, if has(Fault::SheetPage) { at / 50 } else { at / 50 + 1 } as u32);
        } else if let Some(numbers) = places.next() {
            ends.iter().zip(numbers).for_each(|(&end, &number)| put_digits(line, end, number));
        } else if has(Fault::SheetBlank) {
            line.copy_from_slice(&before);
        } else if has(Fault::SheetZeros) {
            line.fill(0);
        }
    }
}

/// What the sheet's call does behind the structure call, which answered with the number.
fn print(number: u32, r: &[u16], lower: &Store, upper: &Store, su: &mut [u32], sheet: &mut [u8]) {
    if number == 0 {
        let rows = row_lengths(r.len(), lower);
        let places: Vec<[u32; 5]> = (0..r.len()).map(|k| five(k, r, &rows, upper)).collect();
        put_lines(&places, sheet);
        if has(Fault::SheetScratch) {
            su[..rows.len()].copy_from_slice(&rows);
        }
    }
    if number == 11 && has(Fault::SheetRefusal) {
        put_lines(&[], sheet);
    }
}

export! { lp_fill_sheet: n: size, starts: lent u32, columns: lent u16, r: lent u16, c: lent u16,
ls: out u32, lr: out u32, li: out u16, lv: out f64, us: out u32, ur: out u32, ui: out u16, uv: out f64,
sf: out f64, su: out u32, sheet: out u8, report: out u64,
=> {
    let refused = length_refused(n, sheet.len());
    if refused != 0 && !has(Fault::SheetLate) {
        put_report(report, if has(Fault::SheetReport) && refused == 2 { &[0] } else { &[0; 4] });
        return refused;
    }
    let input = matrix!(n, starts, columns, NO_F64, r, c, NO_F64);
    let rest = Rest { d: &mut [], x: &mut [], sf, su: &mut *su, report: &mut *report };
    let (lower, upper) = (side!(&mut *ls, &mut *lr, &mut *li, lv), side!(&mut *us, &mut *ur, &mut *ui, uv));
    let number = run(Call::Structure(Form::Shared), input, lower, upper, rest);
    if number == 0 && refused != 0 {
        put_report(report, &[0; 4]);
        return refused;
    }
    print(number, r, &list_store(ls, lr, li), &list_store(us, ur, ui), su, sheet);
    number
} }

export! { lp_factor_shape: file: lent u8, report: out u64,
=> {
    let number = factor_file::shape(file, report);
    if has(Fault::KeptSizes) && report.len() > 3 {
        report.swap(2, 3);
    }
    number
} }

/// The file with other factors in it, where its blocks and sizes are right.
fn with_factors(file: &[u8], change: impl Fn(&mut Keeping)) -> Vec<u8> {
    let Ok((sizes, payload)) = factor_file::open(file) else { return file.to_vec() };
    let mut kept = factor_file::held(sizes, &payload);
    change(&mut kept);
    factor_file::file_of(&kept)
}

/// The file with zeros behind its lists, where its blocks are right.
fn with_zeros(file: &[u8]) -> Vec<u8> {
    let Ok(payload) = matrix_file::payloads(file) else { return file.to_vec() };
    let length = factor_file::payload_length(factor_file::sizes(&payload)).min(payload.len());
    let mut other = vec![0; file.len()];
    matrix_file::fill(&mut other, &payload[..length]);
    other
}

/// The sum over the lists, whatever their shape.
fn any_products(kept: &Keeping) -> u64 {
    let length = |&j: &u16| match kept.upper.starts.get(j as usize..=j as usize + 1) {
        Some(&[from, to]) => u64::from(to.saturating_sub(from)),
        _ => 0,
    };
    kept.lower.index.iter().map(length).sum()
}

/// The file that a reader with the planted fault judges in the place of its own, by the number that its own is refused
/// with.
fn taken_file(number: u32, file: &[u8]) -> Option<Vec<u8>> {
    match (PLANTED.get()?, number) {
        (Fault::KeptTail, 20) => Some(with_zeros(file)),
        (Fault::KeptNan, 15) => {
            let finite = |v: &mut f64| *v = if v.is_nan() { 1.0 } else { *v };
            Some(with_factors(file, |kept| kept.d.iter_mut().for_each(finite)))
        }
        (Fault::KeptSum, 21) => Some(with_factors(file, |kept| kept.counts.products = any_products(kept))),
        _ => None,
    }
}

/// The answer that comes before a refusal where the planted fault asks its question first.
fn asked_first(number: u32, file: &[u8], lent: &Keeping) -> Option<u32> {
    match (PLANTED.get()?, number) {
        (Fault::KeptLate, 20) => {
            let payload = matrix_file::payloads(file).ok()?;
            factor_file::lengths(factor_file::sizes(&payload), lent).err().map(|q| q.number)
        }
        (Fault::KeptOrders, 5) => {
            let natural = |kept: &mut Keeping| {
                kept.r = (0..kept.n as u16).collect();
                kept.c = kept.r.clone();
            };
            let other = factor_file::read(&with_factors(file, natural), &mut lent.clone(), &mut []);
            (other == 15).then_some(15)
        }
        (Fault::KeptEarly, 15) => {
            let (sizes, payload) = factor_file::open(file).ok()?;
            let kept = factor_file::held(sizes, &payload);
            (kept.counts.products != any_products(&kept)).then_some(21)
        }
        (Fault::KeptShort, 2) => Some(15),
        _ => None,
    }
}

/// The planted faults of a refused read.
fn spoil_unread(number: u32, file: &[u8], kept: &mut Keeping, report: &mut [u64]) -> u32 {
    if let Some(other) = taken_file(number, file) {
        return factor_file::read(&other, kept, report);
    }
    if has(Fault::KeptRefusal) && number == 21 {
        kept.r.fill(0);
    }
    let last = kept.d.len() as u64;
    match report.first_mut() {
        Some(place) if has(Fault::KeptPlace) && number == 21 => *place = last - 1,
        Some(place) if has(Fault::KeptEnd) && number == 15 && *place + 1 == last => *place = last,
        _ => {}
    }
    asked_first(number, file, kept).unwrap_or(number)
}

fn restore_unused(to: &mut Store, before: &Store) {
    let used = to.starts.last().map_or(0, |&end| end as usize);
    to.index[used..].copy_from_slice(&before.index[used..]);
    to.values[used..].copy_from_slice(&before.values[used..]);
}

/// The planted faults of a read that ends well.
fn spoil_read(before: &Keeping, kept: &mut Keeping, report: &mut [u64]) -> u32 {
    let ends = |store: &Store| store.starts.last().is_some_and(|&end| end as usize == store.index.len());
    let longer = !ends(&kept.lower) || !ends(&kept.upper);
    if (has(Fault::KeptExact) && longer) || (has(Fault::KeptZero) && kept.d.contains(&0.0)) {
        *kept = before.clone();
        return if has(Fault::KeptExact) { 2 } else { 15 };
    }
    if has(Fault::KeptUnused) {
        restore_unused(&mut kept.lower, &before.lower);
        restore_unused(&mut kept.upper, &before.upper);
    }
    if has(Fault::KeptSign) {
        kept.d.iter_mut().for_each(|v| *v += 0.0);
    }
    if has(Fault::KeptCounts) {
        report.iter_mut().skip(3).take(1).for_each(|slot| *slot = 0);
    }
    0
}

export! { lp_read_factors: file: lent u8, r: out u16, c: out u16,
ls: out u32, li: out u16, lv: out f64, us: out u32, ui: out u16, uv: out f64, d: out f64, report: out u64,
=> {
    let (mut lower, mut upper) = (side!(ls, &mut [], li, lv), side!(us, &mut [], ui, uv));
    let mut kept = Keeping { r: r.to_vec(), c: c.to_vec(), lower: lower.copy(), upper: upper.copy(), d: d.to_vec(),
        ..Keeping::default() };
    let (before, told) = (kept.clone(), report.to_vec());
    let number = factor_file::read(file, &mut kept, report);
    if has(Fault::KeptReport) && number != 0 {
        report.iter_mut().zip(&told).skip(1).for_each(|(slot, value)| *slot = *value);
    }
    let number = match number {
        0 => spoil_read(&before, &mut kept, report),
        _ => spoil_unread(number, file, &mut kept, report),
    };
    lower.put(&kept.lower);
    upper.put(&kept.upper);
    r.copy_from_slice(&kept.r);
    c.copy_from_slice(&kept.c);
    d.copy_from_slice(&kept.d);
    number
} }

/// Whether something stands behind the lists that could not stand in them.
fn behind(kept: &Keeping) -> bool {
    let bad = |store: &Store, entries: u64| store.values[entries as usize..].iter().any(|v| !v.is_finite());
    bad(&kept.lower, kept.counts.lower) || bad(&kept.upper, kept.counts.upper)
}

/// The planted faults of a refused write.
fn spoil_unwritten(number: u32, kept: &Keeping, file: &mut [u8]) -> u32 {
    if has(Fault::KeptLengths) && number == 1 && kept.r.len() != kept.n {
        return 2;
    }
    if has(Fault::KeptWritten) && number == 21 {
        file.copy_from_slice(&factor_file::file_of(&factor_file::cut(kept)));
        return 0;
    }
    if has(Fault::KeptCleared) && number == 15 {
        file.fill(0);
    }
    if let Some(end) = file.len().checked_sub(512).filter(|_| has(Fault::KeptLong) && number == 2) {
        return factor_file::write(kept, &mut file[..end], &mut []);
    }
    number
}

export! { lp_write_factors: n: size, low: count, up: count, products: count, r: lent u16, c: lent u16,
ls: lent u32, li: lent u16, lv: lent f64, us: lent u32, ui: lent u16, uv: lent f64,
d: lent f64, file: out u8, report: out u64,
=> {
    let side = |starts, index, values: &[f64]| Store { values: values.to_vec(), ..list_store(starts, &NO_U32, index) };
    let (r, c) = if has(Fault::KeptSwap) { (c, r) } else { (r, c) };
    let counts = Counts { lower: low, upper: up, products };
    let kept = Keeping { n, counts, r: r.to_vec(), c: c.to_vec(), lower: side(ls, li, lv), upper: side(us, ui, uv),
        d: d.to_vec() };
    let before = file.to_vec();
    let number = factor_file::write(&kept, file, report);
    if has(Fault::KeptSlots) {
        put_report(report, &[0; 4]);
    }
    if number != 0 {
        return spoil_unwritten(number, &kept, file);
    }
    if has(Fault::KeptBehind) && behind(&kept) {
        file.copy_from_slice(&before);
        return 15;
    }
    0
} }

/// The entries of a row as the planted faults take them: value and column.
fn taken(m: &Input, row: usize) -> Vec<(f64, usize)> {
    let mut entries: Vec<(f64, usize)> =
        questions::row_range(m, row).map(|p| (m.values[p], m.columns[p] as usize)).collect();
    if has(Fault::ResidualReverse) {
        entries.reverse();
    }
    if has(Fault::ResidualMerged) {
        return load::columns_of(m, row).iter().map(|(j, values)| (load::sum(values), *j)).collect();
    }
    entries
}

/// Residual and T, by another loop than the reference's.
fn summed(m: &Input, x: &[f64], row: usize) -> (f64, f64) {
    let start = if has(Fault::ResidualRight) { 0.0 } else { m.b[row].abs() };
    taken(m, row).iter().fold((m.b[row], start), |(left, total), &(value, j)| {
        let product = value * x[j];
        let fused = has(Fault::ResidualFused);
        (if fused { (-value).mul_add(x[j], left) } else { left - product }, total + product.abs())
    })
}

fn width_of(total: f64, q: f64) -> f64 {
    let count = if has(Fault::ResidualCount) { q } else { q + 2.0 };
    let least = if has(Fault::ResidualLeast) { 0.0 } else { q * f64::from_bits(1) };
    if has(Fault::ResidualSteps) {
        return total * f64::EPSILON * count + least;
    }
    total * (count * f64::EPSILON) + least
}

/// Residual and width with the planted faults, or 22.
fn spoilt_row(m: &Input, x: &[f64], row: usize) -> Result<(f64, f64), Refusal> {
    let (left, total) = summed(m, x, row);
    let width = width_of(total, questions::row_range(m, row).len() as f64);
    if left.is_finite() && (width.is_finite() || has(Fault::ResidualWide)) {
        return Ok((left, width));
    }
    Err(Refusal { number: 22, place: if has(Fault::ResidualRow) { 0 } else { row as u64 } })
}

/// Numbers that the row does not read are made 0.
fn own_numbers(m: &Input, x: &[f64], row: usize) -> (Input, Vec<f64>) {
    let (mut own, mut scores) = (m.clone(), vec![0.0; x.len()]);
    let read = questions::row_range(m, row);
    own.values.iter_mut().enumerate().filter(|(p, _)| !read.contains(p)).for_each(|(_, value)| *value = 0.0);
    own.b.iter_mut().enumerate().filter(|(i, _)| *i != row).for_each(|(_, value)| *value = 0.0);
    m.columns[read].iter().for_each(|&j| scores[j as usize] = x[j as usize]);
    (own, scores)
}

/// The refusals 5 to 7 with the planted faults.
fn spoil_questions(m: &Input, x: &[f64], row: usize, found: Refusal) -> Option<Refusal> {
    let (e, n) = (m.columns.len() as u64, m.n);
    match found.number {
        5 if has(Fault::ResidualLate) => residual::checked(m, x, 0).err().filter(|q| q.number == 6).or(Some(found)),
        6 if has(Fault::ResidualPlace) && found.place >= e + n as u64 => {
            Some(Refusal { place: found.place - n as u64, ..found })
        }
        6 if has(Fault::ResidualOwn) => {
            let (own, scores) = own_numbers(m, x, row);
            residual::checked(&own, &scores, row).err()
        }
        _ => Some(found),
    }
}

/// The answer with the planted faults.
fn spoilt(m: &Input, x: &[f64], row: usize) -> Result<(f64, f64), Refusal> {
    if let Err(found) = residual::checked(m, x, row) {
        if found.number != 22 {
            return spoil_questions(m, x, row, found).map_or_else(|| spoilt_row(m, x, row), Err);
        }
    }
    let empty = (0..m.n).find(|&i| questions::row_range(m, i).is_empty());
    if let Some(i) = empty.filter(|_| has(Fault::ResidualEmpty)) {
        return refuse(7, i);
    }
    spoilt_row(m, x, row)
}

export! { lp_residual: n: size, starts: lent u32, columns: lent u16, values: lent f64, b: lent f64, x: lent f64,
row: number, pair: out f64, report: out u64,
=> {
    let m = matrix!(n, starts, columns, values, NO_U16, NO_U16, b);
    let (number, place) = match spoilt(&m, x, row as usize) {
        Ok((left, width)) => {
            pair.iter_mut().zip([left, width]).for_each(|(slot, value)| *slot = value);
            (0, 0)
        }
        Err(q) => (q.number, q.place),
    };
    if number == 22 && has(Fault::ResidualRefusal) {
        pair.fill(0.0);
    }
    put_report(report, &[place, 0][..if has(Fault::ResidualReport) { 2 } else { 1 }]);
    number
} }
