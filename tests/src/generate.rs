//! Random cases of all shapes. A case depends on its seed and number only.
use crate::load;
use crate::model::*;
use crate::random::Random;
use crate::reference;
use crate::reference::Lists;

/// One call on lent buffers.
#[derive(Clone, Debug)]
pub struct Case {
    pub call: Call,
    pub input: Input,
    pub buffers: Buffers,
    /// Slots of the report; the calls fill up to four.
    pub report: usize,
}

// ---- numbers

/// A binary64 number of any bits: often a NaN with a payload, an infinity or a zero of either sign.
pub fn dirty_float(random: &mut Random) -> f64 {
    let bits = random.bits();
    f64::from_bits(match random.below(6) {
        0 => 0x7FF0_0000_0000_0001 | (bits >> 13) | (bits << 63),
        1 => 0x7FF0_0000_0000_0000 | (bits << 63),
        2 => bits << 63,
        _ => bits,
    })
}

fn dirty_floats(random: &mut Random, count: usize) -> Vec<f64> {
    (0..count).map(|_| dirty_float(random)).collect()
}

fn dirty_u32(random: &mut Random, count: usize) -> Vec<u32> {
    (0..count).map(|_| random.bits() as u32).collect()
}

fn dirty_u16(random: &mut Random, count: usize) -> Vec<u16> {
    (0..count).map(|_| random.bits() as u16).collect()
}

/// Bytes of anything but zero: a zero byte is always a written one.
fn dirty_bytes(random: &mut Random, count: usize) -> Vec<u8> {
    (0..count).map(|_| random.between(1, 255) as u8).collect()
}

/// How the values of a matrix are drawn.
#[derive(Clone, Copy)]
enum Values {
    Small,
    Unit,
    Dominant,
    Wide,
    Extreme,
    Ones,
}

const VALUES: [Values; 10] = [
    Values::Small,
    Values::Small,
    Values::Unit,
    Values::Dominant,
    Values::Dominant,
    Values::Dominant,
    Values::Wide,
    Values::Extreme,
    Values::Extreme,
    Values::Ones,
];

fn extreme(random: &mut Random) -> f64 {
    let top = 2f64.powi(1023);
    let v = random.pick(&[
        top,
        f64::MAX,
        2f64.powi(1000),
        2f64.powi(512),
        f64::MIN_POSITIVE,
        f64::from_bits(1 << 51),
        f64::from_bits(1 << 50),
        f64::from_bits(1),
        2f64.powi(-600),
        0.0,
        1.0,
        1.0,
        1.0,
        3.0,
    ]);
    signed(random, v)
}

fn signed(random: &mut Random, v: f64) -> f64 {
    if random.per_mille(500) {
        -v
    } else {
        v
    }
}

fn value(random: &mut Random, kind: Values, diagonal: bool, n: usize) -> f64 {
    match kind {
        Values::Small => {
            let v = random.below(4) as f64;
            signed(random, v)
        }
        Values::Unit => {
            let v = random.unit();
            signed(random, v)
        }
        Values::Dominant if diagonal => n as f64 + 1.0 + random.unit(),
        Values::Dominant => 2.0 * random.unit() - 1.0,
        Values::Wide => {
            let v = (1.0 + random.unit()) * 2f64.powi(random.below(240) as i32 - 120);
            signed(random, v)
        }
        Values::Extreme => extreme(random),
        Values::Ones if random.per_mille(900) => 1.0,
        Values::Ones => random.pick(&[-1.0, 2.0, 0.0, -0.0]),
    }
}

// ---- matrices

fn size(random: &mut Random) -> usize {
    match random.below(1000) {
        0..=59 => 1,
        60..=119 => 2,
        120..=899 => random.between(3, 12),
        900..=979 => random.between(13, 30),
        _ => random.between(31, 60),
    }
}

/// Whether M' has (k, p), by kind of pattern.
fn has_entry(random: &mut Random, kind: usize, n: usize, k: usize, p: usize) -> bool {
    let width = (n as f64).sqrt().ceil() as usize;
    let near = k.abs_diff(p);
    match kind {
        0 => near <= 1,
        1 => k == p || k == 0 || p == 0,
        2 => k == p || k + 1 == n || p + 1 == n,
        3 => near == 0 || near == width || (near == 1 && k / width == p / width),
        4 => k == p || random.per_mille(80),
        5 => k == p || random.per_mille(250),
        6 => random.per_mille(300),
        7 => random.per_mille(600),
        8 => k == p || (k / 3 == p / 3) || random.per_mille(60),
        9 => (k + 1) % n == p || k == p || random.per_mille(50),
        10 => true,
        _ => k == p || (p > k && random.per_mille(300)) || (p < k && random.per_mille(60)),
    }
}

/// Whether M' has each position. Some patterns are made of windows after the diagonal, of rows or of columns, whose
/// lists overlap without being each other's tails.
fn positions(random: &mut Random, n: usize) -> Vec<Vec<bool>> {
    let kind = random.below(15);
    let mut table = vec![vec![false; n]; n];
    for k in 0..n {
        let from = k + 1 + random.below(3);
        let window = from..from + random.below(5);
        for p in 0..n {
            let windowed = p == k || window.contains(&p) || random.per_mille(15);
            match kind {
                12 => table[k][p] = windowed,
                13 => table[p][k] = windowed,
                14 if p == k => table[k][k] = true,
                14 if windowed => (table[k][p], table[p][k]) = (true, random.per_mille(500)),
                14 => {}
                _ => table[k][p] = has_entry(random, kind, n, k, p),
            }
        }
    }
    table
}

/// The places of the entries of each row of M', in a random order within the row.
fn pattern(random: &mut Random, n: usize) -> Vec<Vec<usize>> {
    let table = positions(random, n);
    let drop_diagonal = random.pick(&[0, 0, 0, 100, 300]);
    let mut rows = Vec::with_capacity(n);
    for (k, has) in table.iter().enumerate() {
        let mut row: Vec<usize> = (0..n).filter(|&p| has[p]).collect();
        if random.per_mille(drop_diagonal) && row.len() > 1 {
            row.retain(|&p| p != k);
        }
        if row.is_empty() {
            row.push(random.below(n));
        }
        if random.per_mille(700) {
            random.shuffle(&mut row);
        }
        rows.push(row);
    }
    rows
}

/// Row order and column order.
fn orders(random: &mut Random, n: usize) -> (Vec<usize>, Vec<usize>) {
    let natural: Vec<usize> = (0..n).collect();
    match random.below(4) {
        0 => (natural.clone(), natural),
        1 => {
            let same = random.permutation(n);
            (same.clone(), same)
        }
        2 => (random.permutation(n), random.permutation(n)),
        _ => (random.permutation(n), natural),
    }
}

/// The entries of a row in stored order: column and value.
type Row = Vec<(usize, f64)>;

/// A matrix that passes the questions before 9, made from M' and the orders. In some a column stands several times in
/// a row.
pub fn sound_input(random: &mut Random, n: usize) -> Input {
    let repeats = random.per_mille(300);
    made_input(random, n, repeats)
}

/// The same, nearly always with such a column.
pub fn repeated_input(random: &mut Random, n: usize) -> Input {
    made_input(random, n, true)
}

fn made_input(random: &mut Random, n: usize, repeats: bool) -> Input {
    let places = pattern(random, n);
    let (r, c) = orders(random, n);
    let kind = random.pick(&VALUES);
    let mut rows: Vec<Row> = vec![Vec::new(); n];
    for (k, &own) in r.iter().enumerate() {
        rows[own] = places[k].iter().map(|&p| (c[p], value(random, kind, p == k, n))).collect();
    }
    if repeats {
        repeat(random, kind, &mut rows);
    }
    let right = random.pick(&VALUES);
    let b: Vec<f64> = (0..n).map(|_| value(random, right, false, n)).collect();
    let [r, c] = [r, c].map(|order| order.iter().map(|&k| k as u16).collect());
    Input { r, c, ..load::from_rows(&rows, &b) }
}

// ---- columns that stand several times in a row

/// Values to be added up in one column.
fn addends(random: &mut Random, kind: Values, n: usize) -> Vec<f64> {
    let v = value(random, kind, false, n);
    let large = signed(random, 2f64.powi(53));
    match random.below(12) {
        0..=2 => vec![v, -v],
        3 | 4 => vec![-0.0; random.between(1, 3)],
        5 => vec![0.0, -0.0],
        // their sum depends on the order
        6..=8 => vec![large, v, -large],
        _ => (0..random.between(1, 4)).map(|_| value(random, kind, false, n)).collect(),
    }
}

/// Puts the values, in any order, among the entries of the row.
fn put_among(random: &mut Random, row: &mut Row, column: usize, mut values: Vec<f64>) {
    random.shuffle(&mut values);
    for value in values {
        row.insert(random.below(row.len() + 1), (column, value));
    }
}

/// More values in a column of the row, or in any other.
fn repeat_in(random: &mut Random, kind: Values, n: usize, row: &mut Row) {
    let column = if random.per_mille(700) { random.pick(row).0 } else { random.below(n) };
    let values = addends(random, kind, n);
    put_among(random, row, column, values);
}

/// Two entries for each, whose sum is the value again but for rounding.
fn split(random: &mut Random, row: &mut Row) {
    for (column, value) in std::mem::take(row) {
        let part = value * random.pick(&[0.5, 0.25, 0.75, 0.1, 1.0, 0.0]);
        put_among(random, row, column, vec![part, value - part]);
    }
}

/// Lets columns stand several times: in one row, in many, in all with more entries than columns, one column in all
/// rows, or every entry in two parts. In some a sum overflows.
fn repeat(random: &mut Random, kind: Values, rows: &mut [Row]) {
    let n = rows.len();
    let any = random.below(n);
    let most = random.pick(&[n + 1, n + 2, 2 * n, 40]).max(n + 1);
    match random.below(5) {
        0 => repeat_in(random, kind, n, &mut rows[any]),
        1 => rows.iter_mut().for_each(|row| (0..random.below(3)).for_each(|_| repeat_in(random, kind, n, row))),
        2 => {
            for row in rows.iter_mut() {
                while row.len() < most {
                    repeat_in(random, kind, n, row);
                }
            }
        }
        3 => {
            for row in rows.iter_mut() {
                let values = addends(random, kind, n);
                put_among(random, row, any, [values, vec![0.5, 0.25]].concat());
            }
        }
        _ => rows.iter_mut().for_each(|row| split(random, row)),
    }
    if random.per_mille(120) {
        // exact arithmetic would end at the first value
        let (row, column, most) = (random.below(n), random.below(n), signed(random, f64::MAX));
        rows[row].extend([most, most, -most].map(|value| (column, value)));
    }
}

/// The same matrix with its places in a random order; the diagonal stays where it was.
pub fn reordered(random: &mut Random, input: &Input) -> Input {
    let order = random.permutation(input.n);
    let along = |list: &[u16]| order.iter().map(|&k| list[k]).collect();
    Input { r: along(&input.r), c: along(&input.c), ..input.clone() }
}

/// The same M' from a matrix whose rows and columns have other numbers, so that r and c differ.
pub fn renamed(random: &mut Random, input: &Input) -> Input {
    let (rows, columns) = (random.permutation(input.n), random.permutation(input.n));
    let mut place = vec![0; input.n];
    rows.iter().enumerate().for_each(|(new, &old)| place[old] = new as u16);
    let mut other = Input { n: input.n, starts: vec![0], floor: input.floor, ..Input::default() };
    for &row in &rows {
        let entries = input.starts[row] as usize..input.starts[row + 1] as usize;
        other.columns.extend(input.columns[entries.clone()].iter().map(|&j| columns[j as usize] as u16));
        other.values.extend_from_slice(&input.values[entries]);
        other.starts.push(other.columns.len() as u32);
        other.b.push(input.b[row]);
    }
    other.r = input.r.iter().map(|&row| place[row as usize]).collect();
    other.c = input.c.iter().map(|&column| columns[column as usize] as u16).collect();
    other
}

fn not_finite(random: &mut Random) -> f64 {
    let payload = f64::from_bits(0x7FF0_0000_0000_0001 | (random.bits() >> 12));
    random.pick(&[f64::NAN, f64::INFINITY, f64::NEG_INFINITY, payload])
}

fn break_starts(random: &mut Random, input: &mut Input) {
    let slot = random.below(input.starts.len());
    let old = input.starts[slot];
    let far = random.bits() as u32;
    input.starts[slot] =
        random.pick(&[old.wrapping_add(1), old.wrapping_sub(1), 0, u32::MAX, far, input.columns.len() as u32]);
}

fn break_order(random: &mut Random, n: usize, order: &mut [u16]) {
    let slot = random.below(n);
    let other = order[random.below(n)];
    let far = random.bits() as u16;
    order[slot] = random.pick(&[n as u16, u16::MAX, other, other, far]);
}

/// Gives an entry the column of another one of its row.
fn repeat_column(random: &mut Random, input: &mut Input) {
    let row = random.below(input.n);
    let from = input.starts[row] as usize;
    let to = input.starts[row + 1] as usize;
    if to - from >= 2 {
        let (a, b) = (random.between(from, to - 1), random.between(from, to - 1));
        input.columns[a] = input.columns[b];
    }
}

/// Takes the entries of a row out.
fn empty_row(random: &mut Random, input: &mut Input) {
    let row = random.below(input.n);
    let from = input.starts[row] as usize;
    let to = input.starts[row + 1] as usize;
    input.columns.drain(from..to);
    input.values.drain(from..to);
    for start in &mut input.starts[row + 1..] {
        *start -= (to - from) as u32;
    }
}

/// Makes one fault that a question before 9 may meet. A second one may make the first moot.
fn break_input(random: &mut Random, input: &mut Input) {
    let e = input.columns.len();
    let n = input.n;
    match random.below(7) {
        0 => empty_row(random, input),
        1 if e > 0 => {
            let far = random.bits() as u16;
            input.columns[random.below(e)] = random.pick(&[n as u16, n as u16 + 1, u16::MAX, far]);
        }
        2 if !input.values.is_empty() => {
            let p = random.below(input.values.len());
            input.values[p] = not_finite(random);
        }
        3 => input.b[random.below(n)] = not_finite(random),
        4 => (0..random.between(1, 3)).for_each(|_| break_order(random, n, &mut input.r)),
        5 => (0..random.between(1, 3)).for_each(|_| break_order(random, n, &mut input.c)),
        _ => break_starts(random, input),
    }
}

/// A matrix of any kind. Rows are taken out before starts are changed, so that `empty_row` finds sound starts.
pub fn any_input(random: &mut Random) -> Input {
    let n = size(random);
    let mut input = sound_input(random, n);
    if random.per_mille(50) {
        (0..random.between(1, 3)).for_each(|_| empty_row(random, &mut input));
    }
    if random.per_mille(60) {
        (0..random.between(1, 3)).for_each(|_| repeat_column(random, &mut input));
    }
    if random.per_mille(200) {
        break_input(random, &mut input);
    }
    input
}

// ---- floors

/// The numbers on both sides of a floor that is not negative, and itself; below 0 there is none.
pub fn beside(floor: f64) -> [f64; 3] {
    let bits = floor.to_bits();
    [bits.saturating_sub(1), bits, (bits + 1).min(f64::MAX.to_bits())].map(f64::from_bits)
}

/// Floors that question 19 lets pass, the smallest and the greatest among them.
pub const FLOORS: [f64; 9] = [
    0.0,
    -0.0,
    f64::from_bits(1),
    f64::from_bits(1 << 51),
    f64::from_bits((1 << 52) - 1),
    f64::MIN_POSITIVE,
    1.0,
    1e300,
    f64::MAX,
];

/// Floors that question 19 refuses: NaNs of both signs, quiet and signaling, infinities, negative numbers.
pub const BAD_FLOORS: [f64; 11] = [
    f64::from_bits(0x7FF8_0000_0000_0000),
    f64::from_bits(0xFFF8_0000_0000_0000),
    f64::from_bits(0x7FF0_0000_0000_0001),
    f64::from_bits(0xFFF0_0000_0000_0001),
    f64::from_bits(0x7FFF_FFFF_FFFF_FFFF),
    f64::INFINITY,
    f64::NEG_INFINITY,
    f64::from_bits(1 << 63 | 1),
    -f64::MIN_POSITIVE,
    -1.0,
    f64::MIN,
];

/// A floor that question 19 lets pass, mostly the magnitude of a pivot of the input or a number beside it.
pub fn sound_floor(random: &mut Random, input: &Input) -> f64 {
    let pivots = reference::pivots(input);
    if pivots.is_empty() || random.per_mille(150) {
        return random.pick(&FLOORS);
    }
    let pivot = random.pick(&pivots).abs();
    random.pick(&beside(pivot))
}

/// A floor of any kind, half of the time 0.
pub fn any_floor(random: &mut Random, input: &Input) -> f64 {
    match random.below(20) {
        0..=9 => 0.0,
        10..=18 => sound_floor(random, input),
        _ => random.pick(&BAD_FLOORS),
    }
}

// ---- buffers

fn spread(random: &mut Random, need: usize, mode: usize) -> usize {
    match mode {
        0 => need,
        1 => need + random.below(9),
        2 => (need + random.below(5)).saturating_sub(2),
        3 => need + random.between(100, 600),
        _ => random.below(need + 2),
    }
}

/// Store lengths: as needed, one slot short on one store, larger, or unequal.
fn slots(random: &mut Random, need: Slots) -> Slots {
    let mode = random.pick(&[0, 0, 0, 0, 1, 1, 1, 2, 3, 3, 4]);
    let mut slots = Slots {
        lower_index: spread(random, need.lower_index, mode),
        lower_values: spread(random, need.lower_values, mode),
        upper_index: spread(random, need.upper_index, mode),
        upper_values: spread(random, need.upper_values, mode),
    };
    if mode == 0 && random.per_mille(400) {
        let store = match random.below(4) {
            0 => &mut slots.lower_index,
            1 => &mut slots.lower_values,
            2 => &mut slots.upper_index,
            _ => &mut slots.upper_values,
        };
        *store = store.saturating_sub(1);
    }
    slots
}

fn dirty_store(random: &mut Random, store: &mut Store) {
    store.starts = dirty_u32(random, store.starts.len());
    store.runs = dirty_u32(random, store.runs.len());
    store.index = dirty_u16(random, store.index.len());
    store.values = dirty_floats(random, store.values.len());
}

/// Buffers of the stated lengths that hold anything.
fn dirty_buffers(random: &mut Random, call: Call, n: usize, slots: Slots) -> Buffers {
    let mut buffers = Buffers::for_call(call, n, slots);
    dirty_store(random, &mut buffers.lower);
    dirty_store(random, &mut buffers.upper);
    buffers.d = dirty_floats(random, buffers.d.len());
    buffers.x = dirty_floats(random, buffers.x.len());
    buffers.scratch_f64 = dirty_floats(random, buffers.scratch_f64.len());
    buffers.scratch_u32 = dirty_u32(random, buffers.scratch_u32.len());
    buffers
}

/// Dirty buffers for the call, with stores about as long as the input needs.
pub fn buffers_for(random: &mut Random, call: Call, input: &Input) -> Buffers {
    let need = reference::needs(call.form(), input).unwrap_or(Slots::all(random.below(20)));
    let slots = slots(random, need);
    dirty_buffers(random, call, input.n, slots)
}

// ---- presented lists and factors

/// Puts the structure of the input into the buffers, if stores that long take it; values, d, x and scratch stay dirty.
fn present_structure(call: Call, input: &Input, buffers: &mut Buffers) {
    let structure = Call::Structure(call.form());
    let mut made = buffers.clone();
    made.d.clear();
    made.x.clear();
    if reference::run(structure, input, &mut made).number != 0 {
        return;
    }
    for side in [Side::Lower, Side::Upper] {
        let from = made.side(side);
        // the last list is empty: its run start, or list start, is the number of slots used
        let used = from.runs.last().copied().unwrap_or(from.starts[input.n]) as usize;
        let store = buffers.side_mut(side);
        store.starts.copy_from_slice(&from.starts);
        store.runs.copy_from_slice(&from.runs);
        store.index[..used].copy_from_slice(&from.index[..used]);
    }
}

/// Puts the factors of the input into the buffers, if a solve with stores that long ends well.
fn present_factors(call: Call, input: &Input, buffers: &mut Buffers) -> bool {
    let mut made = buffers.clone();
    if reference::run(Call::Solve(call.form()), input, &mut made).number != 0 {
        return false;
    }
    for side in [Side::Lower, Side::Upper] {
        let (from, store) = (made.side(side).clone(), buffers.side_mut(side));
        let values = from.starts[input.n] as usize;
        store.values[..values].copy_from_slice(&from.values[..values]);
        store.starts = from.starts;
        store.runs = from.runs;
        store.index = from.index;
    }
    buffers.d = made.d;
    true
}

/// Lists of no fill in particular, well shaped, with values that are mostly small.
fn present_any_lists(random: &mut Random, call: Call, n: usize, buffers: &mut Buffers) {
    let shared = call.form() == Form::Shared;
    let density = random.pick(&[100, 300, 700]);
    for side in [Side::Lower, Side::Upper] {
        let above = shared || side == Side::Upper;
        let mut store = Store { starts: vec![0], ..Store::default() };
        for k in 0..n {
            let range = if above { k + 1..n } else { 0..k };
            let list: Vec<u16> = range.filter(|_| random.per_mille(density)).map(|j| j as u16).collect();
            place_anywhere(random, shared, &mut store, &list);
            store.starts.push(store.values.len() as u32);
        }
        let spare = random.below(4);
        store.index.extend(dirty_u16(random, spare));
        store.values.extend(dirty_floats(random, spare));
        *buffers.side_mut(side) = store;
    }
    buffers.d = (0..n).map(|_| 2.0 * random.unit() - 1.0).collect();
}

/// Puts a list behind the others; a shared run may also be one that stands somewhere already.
fn place_anywhere(random: &mut Random, shared: bool, store: &mut Store, list: &[u16]) {
    let standing = store.index.windows(list.len().max(1)).position(|part| part == list);
    let run = match standing {
        Some(at) if shared && random.per_mille(600) => at,
        _ => {
            store.index.extend_from_slice(list);
            store.index.len() - list.len()
        }
    };
    if shared {
        store.runs.push(run as u32);
    }
    store.values.extend(list.iter().map(|_| 4.0 * random.unit() - 2.0));
}

fn change_number(random: &mut Random, old: u32, near: u32) -> u32 {
    let far = random.bits() as u32;
    random.pick(&[old.wrapping_add(1), old.wrapping_sub(1), 0, near, near.wrapping_add(1), u32::MAX, far])
}

fn change_u32(random: &mut Random, list: &mut [u32], near: u32) {
    if let Some(slot) = list.len().checked_sub(1).map(|last| random.between(0, last)) {
        list[slot] = change_number(random, list[slot], near);
    }
}

fn change_u16(random: &mut Random, list: &mut [u16], near: u16) {
    if let Some(slot) = list.len().checked_sub(1).map(|last| random.between(0, last)) {
        list[slot] = change_number(random, list[slot] as u32, near as u32) as u16;
    }
}

fn change_float(random: &mut Random, list: &mut [f64]) {
    if let Some(slot) = list.len().checked_sub(1).map(|last| random.between(0, last)) {
        let huge = signed(random, 2f64.powi(1023));
        let bad = not_finite(random);
        list[slot] = random.pick(&[bad, bad, 0.0, -0.0, huge, f64::MAX]);
    }
}

/// Changes one slot of what is presented.
fn change_presented(random: &mut Random, n: usize, buffers: &mut Buffers) {
    let side = random.pick(&[Side::Lower, Side::Upper]);
    let which = random.below(6);
    if which == 5 {
        return change_float(random, &mut buffers.d);
    }
    let store = buffers.side_mut(side);
    let length = store.index.len() as u32;
    match which {
        0 if random.per_mille(250) => {
            let end = store.starts.len().min(1);
            change_u32(random, &mut store.starts[..end], length);
        }
        0 => change_u32(random, &mut store.starts, length),
        1 => change_u32(random, &mut store.runs, length),
        2 | 3 => change_u16(random, &mut store.index, n as u16),
        _ => change_float(random, &mut store.values),
    }
}

/// Makes one of the presented stores shorter or longer.
fn resize_presented(random: &mut Random, buffers: &mut Buffers) {
    let store = buffers.side_mut(random.pick(&[Side::Lower, Side::Upper]));
    let longer = random.per_mille(300);
    if random.per_mille(500) {
        let length = if longer { store.index.len() + 1 } else { store.index.len().saturating_sub(1) };
        store.index.resize(length, 7);
    } else {
        let length = if longer { store.values.len() + 1 } else { store.values.len().saturating_sub(1) };
        store.values.resize(length, f64::NAN);
    }
}

fn disturb(random: &mut Random, n: usize, buffers: &mut Buffers) {
    if random.per_mille(400) {
        change_presented(random, n, buffers);
    }
    if random.per_mille(100) {
        resize_presented(random, buffers);
    }
}

/// Draws new values over the same pattern.
fn new_values(random: &mut Random, input: &mut Input) {
    let kind = random.pick(&VALUES);
    let n = input.n;
    for p in 0..input.values.len() {
        let heavy = random.per_mille(400);
        input.values[p] = value(random, kind, heavy, n);
    }
}

// ---- wrong lengths

fn resize<T: Clone + Default>(random: &mut Random, list: &mut Vec<T>) {
    let length = list.len();
    let length = random.pick(&[length + 1, length.saturating_sub(1), 0, 2 * length + 1]);
    list.resize(length, T::default());
}

/// Gives one lent buffer another length.
fn wrong_length(random: &mut Random, case: &mut Case) {
    let (input, buffers) = (&mut case.input, &mut case.buffers);
    match random.below(15) {
        0 => resize(random, &mut input.starts),
        1 => resize(random, &mut input.columns),
        2 => resize(random, &mut input.values),
        3 => resize(random, &mut input.r),
        4 => resize(random, &mut input.c),
        5 => resize(random, &mut input.b),
        6 => resize(random, &mut buffers.lower.starts),
        7 => resize(random, &mut buffers.upper.starts),
        8 => resize(random, &mut buffers.lower.runs),
        9 => resize(random, &mut buffers.upper.runs),
        10 => resize(random, &mut buffers.d),
        11 => resize(random, &mut buffers.x),
        12 => resize(random, &mut buffers.scratch_f64),
        13 => resize(random, &mut buffers.scratch_u32),
        _ => over_limit(random, case),
    }
}

/// Makes a store, or the columns, one slot too long. It is large, so seldom done.
fn over_limit(random: &mut Random, case: &mut Case) {
    if !random.per_mille(100) {
        return;
    }
    let (input, buffers) = (&mut case.input, &mut case.buffers);
    match random.below(5) {
        0 => {
            input.columns.resize(MAX_ENTRIES + 1, 0);
            input.values.resize(MAX_ENTRIES + 1, 1.0);
        }
        1 => buffers.lower.index.resize(MAX_SLOTS + 1, 3),
        2 => buffers.lower.values.resize(MAX_SLOTS + 1, 3.0),
        3 => buffers.upper.index.resize(MAX_SLOTS + 1, 3),
        _ => buffers.upper.values.resize(MAX_SLOTS + 1, 3.0),
    }
}

/// Takes away what the call is not lent.
pub fn only_lent(case: &mut Case) {
    let (input, buffers) = (&mut case.input, &mut case.buffers);
    match case.call {
        Call::Structure(_) => {
            input.values.clear();
            input.b.clear();
            input.floor = 0.0;
            buffers.d.clear();
            buffers.x.clear();
        }
        Call::Resolve(_) => {
            input.starts.clear();
            input.columns.clear();
            input.values.clear();
            input.floor = 0.0;
        }
        _ => {}
    }
    match case.call.form() {
        Form::Plain => {
            buffers.lower.runs.clear();
            buffers.upper.runs.clear();
        }
        Form::Row => buffers.lower = Store::default(),
        Form::Shared => {}
    }
}

// ---- cases

/// A case of the call.
pub fn case_of(random: &mut Random, call: Call) -> Case {
    let input = any_input(random);
    let buffers = buffers_for(random, call, &input);
    let report = random.pick(&[4, 4, 4, 4, 4, 4, 5, 7, 3, 2, 1, 0]);
    let mut case = Case { call, input, buffers, report };
    match call {
        Call::Refactor(_) => present_for_refactor(random, &mut case),
        Call::Resolve(_) => present_for_resolve(random, &mut case),
        _ => {}
    }
    if FACTORING.contains(&call) {
        case.input.floor = any_floor(random, &case.input);
    }
    if random.per_mille(50) {
        wrong_length(random, &mut case);
    }
    if random.per_mille(15) {
        case.input.n = random.pick(&[0, 4_097, 65_536, usize::MAX, case.input.n + 1]);
    }
    only_lent(&mut case);
    case
}

fn present_for_refactor(random: &mut Random, case: &mut Case) {
    present_structure(case.call, &case.input, &mut case.buffers);
    if random.per_mille(500) {
        new_values(random, &mut case.input);
    }
    disturb(random, case.input.n, &mut case.buffers);
}

fn present_for_resolve(random: &mut Random, case: &mut Case) {
    let n = case.input.n;
    let invented = random.per_mille(250) || !present_factors(case.call, &case.input, &mut case.buffers);
    if invented && random.per_mille(900) {
        present_any_lists(random, case.call, n, &mut case.buffers);
    }
    if random.per_mille(500) {
        let kind = random.pick(&VALUES);
        case.input.b = (0..n).map(|_| value(random, kind, false, n)).collect();
    }
    disturb(random, n, &mut case.buffers);
}

/// A case of any call.
pub fn case(random: &mut Random, calls: &[Call]) -> Case {
    let call = random.pick(calls);
    case_of(random, call)
}

/// A call on the matrix over noise, with stores of these lengths; refactor is lent the lists of the input.
pub fn over_noise(random: &mut Random, call: Call, input: &Input, slots: Slots) -> Case {
    let mut buffers = dirty_buffers(random, call, input.n, slots);
    if let Call::Refactor(_) = call {
        present_structure(call, input, &mut buffers);
    }
    Case { call, input: input.clone(), buffers, report: 5 }
}

/// One input with the buffers of the three solves.
pub fn three_forms(random: &mut Random) -> (Input, [Case; 3]) {
    let mut input = any_input(random);
    input.floor = any_floor(random, &input);
    let cases = [Form::Plain, Form::Shared, Form::Row].map(|form| {
        let call = Call::Solve(form);
        let buffers = buffers_for(random, call, &input);
        Case { call, input: input.clone(), buffers, report: 4 }
    });
    (input, cases)
}

/// Changes the list start or the run start of a place, where it has one.
fn change_at(random: &mut Random, store: &mut Store, place: usize) {
    let list = if random.per_mille(500) { &mut store.starts } else { &mut store.runs };
    let near = store.index.len() as u32;
    if let Some(slot) = list.get_mut(place) {
        let far = u32::MAX - random.below(4) as u32;
        *slot = if random.per_mille(400) { far } else { change_number(random, *slot, near) };
    }
}

/// Lists to look up, with the side and the place.
pub fn lookup_case(random: &mut Random) -> (Lists, Side, usize) {
    let form = random.pick(&[Form::Plain, Form::Shared]);
    let mut case = case_of(random, Call::Refactor(form));
    if random.per_mille(300) {
        change_presented(random, case.input.n, &mut case.buffers);
    }
    let n = case.input.n;
    let place =
        if random.per_mille(900) { random.below(n.min(5_000)) } else { random.pick(&[n, usize::MAX, 4_096, 70_000]) };
    let side = random.pick(&[Side::Lower, Side::Upper]);
    if random.per_mille(300) {
        change_at(random, case.buffers.side_mut(side), place);
    }
    let lists = Lists { form, n, lower: case.buffers.lower, upper: case.buffers.upper };
    (lists, side, place)
}

/// A matrix to be written: contents of any kind, lengths mostly right.
pub fn matrix_to_write(random: &mut Random) -> (Input, usize) {
    let mut input = any_input(random);
    if random.per_mille(200) {
        input.starts = dirty_u32(random, input.starts.len());
        input.r = dirty_u16(random, input.r.len());
        input.values = dirty_floats(random, input.values.len());
        input.b = dirty_floats(random, input.b.len());
    }
    let length = reference::matrix_file::file_length(input.n, input.columns.len());
    let length = if random.per_mille(60) {
        random.pick(&[0, length + 512, length - 512, length + 1, length - 1])
    } else {
        length
    };
    if random.per_mille(60) {
        let call = Call::Solve(Form::Plain);
        let mut case = Case { call, input, buffers: Buffers::default(), report: 4 };
        wrong_length(random, &mut case);
        input = case.input;
    }
    if random.per_mille(20) {
        input.n = random.pick(&[0, 4_097, usize::MAX, input.n + 1]);
    }
    (input, length)
}

/// A matrix of anything; starts, columns, values, r, c and b have these lengths.
pub fn dirty_matrix(random: &mut Random, n: usize, lengths: [usize; 6]) -> Input {
    let [starts, columns, values, r, c, b] = lengths;
    Input {
        n,
        starts: dirty_u32(random, starts),
        columns: dirty_u16(random, columns),
        values: dirty_floats(random, values),
        r: dirty_u16(random, r),
        c: dirty_u16(random, c),
        b: dirty_floats(random, b),
        floor: 0.0,
    }
}

/// A report of so many slots, holding anything.
pub fn dirty_report(random: &mut Random, length: usize) -> Vec<u64> {
    (0..length).map(|_| random.bits()).collect()
}

/// Buffers of anything for factors: r, c, lower starts, index and values, upper ones, and d have these lengths.
pub fn dirty_keeping(random: &mut Random, lengths: [usize; 9]) -> Keeping {
    let [r, c, ls, li, lv, us, ui, uv, d] = lengths;
    let mut side = |starts: usize, index: usize, values: usize| Store {
        starts: dirty_u32(random, starts),
        runs: Vec::new(),
        index: dirty_u16(random, index),
        values: dirty_floats(random, values),
    };
    let (lower, upper) = (side(ls, li, lv), side(us, ui, uv));
    let (r, c) = (dirty_u16(random, r), dirty_u16(random, c));
    let d = dirty_floats(random, d);
    Keeping { n: 0, counts: Counts::default(), r, c, lower, upper, d }
}

/// Factors of the plain form with their counts: those of a solve, or lists of no fill in particular. The stores may be
/// longer than the lists.
pub fn sound_keeping(random: &mut Random) -> Keeping {
    let n = random.pick(&[1, 2, 3, 5, 8, 13, 21]);
    let call = Call::Resolve(Form::Plain);
    let input = sound_input(random, n);
    let mut buffers = buffers_for(random, call, &input);
    if random.per_mille(300) || !present_factors(call, &input, &mut buffers) {
        present_any_lists(random, call, n, &mut buffers);
    }
    let Buffers { lower, upper, d, .. } = buffers;
    let [r, c] = [(); 2].map(|()| random.permutation(n).iter().map(|&k| k as u16).collect());
    Keeping { n, counts: reference::factor_file::counts(&lower, &upper), r, c, lower, upper, d }
}

/// Changes one slot of orders, lists, values or counts.
pub fn change_keeping(random: &mut Random, kept: &mut Keeping) {
    let n = kept.n;
    match random.below(10) {
        0 => break_order(random, n, &mut kept.r),
        1 => break_order(random, n, &mut kept.c),
        2 => kept.counts.products = random.pick(&[0, kept.counts.products + 1, 1 << 32, u64::MAX]),
        3 => {
            let starts = if random.per_mille(500) { &mut kept.lower.starts } else { &mut kept.upper.starts };
            if let Some(end) = starts.last_mut() {
                *end = change_number(random, *end, *end);
            }
        }
        _ => {
            let (lower, upper, d) = (kept.lower.clone(), kept.upper.clone(), kept.d.clone());
            let mut buffers = Buffers { lower, upper, d, ..Buffers::default() };
            change_presented(random, n, &mut buffers);
            (kept.lower, kept.upper, kept.d) = (buffers.lower, buffers.upper, buffers.d);
        }
    }
}

/// Gives one buffer of factors another length.
pub fn resize_keeping(random: &mut Random, kept: &mut Keeping) {
    match random.below(9) {
        0 => resize(random, &mut kept.r),
        1 => resize(random, &mut kept.c),
        2 => resize(random, &mut kept.d),
        3 => resize(random, &mut kept.lower.starts),
        4 => resize(random, &mut kept.upper.starts),
        5 => resize(random, &mut kept.lower.index),
        6 => resize(random, &mut kept.lower.values),
        7 => resize(random, &mut kept.upper.index),
        _ => resize(random, &mut kept.upper.values),
    }
}

/// The fill sheet's call over noise, with stores, sheet and report of these lengths.
pub fn printing(random: &mut Random, input: &Input, slots: Slots, sheet: usize, report: usize) -> Printing {
    let input = Input { values: Vec::new(), b: Vec::new(), ..input.clone() };
    let buffers = dirty_buffers(random, Call::Structure(Form::Shared), input.n, slots);
    Printing { input, buffers, sheet: dirty_bytes(random, sheet), report: dirty_report(random, report) }
}

/// A case of the fill sheet's call: one of the shared structure call, with a sheet mostly of its length.
pub fn printing_case(random: &mut Random) -> Printing {
    let Case { input, buffers, report, .. } = case_of(random, Call::Structure(Form::Shared));
    let mut sheet = reference::fill_sheet::bytes(input.n.min(MAX_ROWS));
    if random.per_mille(60) {
        sheet = random.pick(&[0, sheet + 1, sheet + 2_050, sheet.saturating_sub(1), sheet.saturating_sub(2_050)]);
    }
    Printing { input, buffers, sheet: dirty_bytes(random, sheet), report: dirty_report(random, report) }
}

/// Buffers to read n rows and e entries into, mostly of matching length, holding anything.
pub fn matrix_to_read(random: &mut Random, n: usize, e: usize) -> Input {
    let mut input = dirty_matrix(random, n, [n + 1, e, e, n, n, n]);
    if random.per_mille(60) {
        let mut case = Case { call: Call::Solve(Form::Plain), input, buffers: Buffers::default(), report: 4 };
        wrong_length(random, &mut case);
        input = case.input;
    }
    input
}
