//! The factor file of the plain form: its shape, read and write, with the report and every slot that they leave behind.
use super::calls::put;
use super::factors::Factors;
use super::matrix_file::{fill, float_bytes, payloads, Fields, BLOCK, PAYLOAD};
use super::questions::{self, Asked};
use crate::model::*;

/// n, lower and upper.
pub type Sizes = (usize, usize, usize);

/// Bytes of the joined payloads before the closing zeros.
pub fn payload_length((n, lower, upper): Sizes) -> usize {
    let starts = 2 * 4 * (n + 1);
    let entries = (2 + 8) * (lower + upper);
    3 * 4 + 8 + starts + entries + 8 * n + 2 * 2 * n
}

/// The file's length.
pub fn file_length(sizes: Sizes) -> usize {
    payload_length(sizes).div_ceil(PAYLOAD) * BLOCK
}

/// The first three numbers.
pub fn sizes(payload: &[u8]) -> Sizes {
    let mut fields = Fields { bytes: payload };
    (fields.take(4) as usize, fields.take(4) as usize, fields.take(4) as usize)
}

/// Puts questions 16, 17, 1 and 20, and finds the sizes and the joined payloads.
pub fn open(file: &[u8]) -> Result<(Sizes, Vec<u8>), Refusal> {
    let payload = payloads(file)?;
    let sizes = sizes(&payload);
    questions::rows(sizes.0)?;
    if file.len() != file_length(sizes) || payload[payload_length(sizes)..].iter().any(|&byte| byte != 0) {
        return refuse(20, 0);
    }
    Ok((sizes, payload))
}

/// Question 2: is each buffer of its length, and each store long enough and within its limit?
pub fn lengths((n, lower, upper): Sizes, lent: &Keeping) -> Asked {
    let side = |store: &Store, entries: usize| {
        let slots = |length: usize| (entries..=MAX_SLOTS).contains(&length);
        store.starts.len() == n + 1 && slots(store.index.len()) && slots(store.values.len())
    };
    let rows = lent.r.len() == n && lent.c.len() == n && lent.d.len() == n;
    if rows && side(&lent.lower, lower) && side(&lent.upper, upper) {
        return Ok(());
    }
    refuse(2, 0)
}

/// The counts of well-shaped lists: the products are the sum over k of the rows below k in column k times the length of
/// T(k).
pub fn counts(lower: &Store, upper: &Store) -> Counts {
    let end = |store: &Store| store.starts.last().map_or(0, |&end| end as usize);
    let mut below = vec![0; upper.starts.len() - 1];
    lower.index[..end(lower)].iter().for_each(|&k| below[k as usize] += 1);
    let products = |(rows, pair): (&u64, &[u32])| rows * u64::from(pair[1] - pair[0]);
    let products = below.iter().zip(upper.starts.windows(2)).map(products).sum();
    Counts { lower: end(lower) as u64, upper: end(upper) as u64, products }
}

/// Questions 5, 15 and 21 of stores that end at lower and upper.
fn contents(kept: &Keeping) -> Asked {
    let Keeping { n, counts, lower, upper, d, .. } = kept;
    questions::orders(*n, &kept.r, &kept.c)?;
    let buffers = Buffers { lower: lower.clone(), upper: upper.clone(), d: d.clone(), ..Buffers::default() };
    Factors::new(Form::Plain, *n, &buffers).ask()?;
    if lower.starts[*n] as usize != lower.index.len() || upper.starts[*n] as usize != upper.index.len() {
        return refuse(15, n - 1);
    }
    if counts.products != self::counts(lower, upper).products {
        return refuse(21, 0);
    }
    Ok(())
}

/// What the payloads hold.
pub fn held(sizes: Sizes, payload: &[u8]) -> Keeping {
    let (n, lower, upper) = sizes;
    let mut kept = Keeping::blank(n, Slots::sides(lower, upper));
    let mut fields = Fields { bytes: &payload[12..] };
    kept.counts = Counts { lower: lower as u64, upper: upper as u64, products: fields.take(8) };
    fields.starts(&mut kept.lower.starts);
    fields.starts(&mut kept.upper.starts);
    fields.numbers(&mut kept.lower.index);
    fields.numbers(&mut kept.upper.index);
    fields.floats(&mut kept.lower.values);
    fields.floats(&mut kept.d);
    fields.floats(&mut kept.upper.values);
    fields.numbers(&mut kept.r);
    fields.numbers(&mut kept.c);
    kept
}

fn put_report(report: &mut [u64], slots: &[u64]) {
    report.iter_mut().zip(slots).for_each(|(slot, value)| *slot = *value);
}

/// The shape: the report gets the place, n, lower and upper.
pub fn shape(file: &[u8], report: &mut [u64]) -> u32 {
    match open(file) {
        Ok(((n, lower, upper), _)) => {
            put_report(report, &[0, n as u64, lower as u64, upper as u64]);
            0
        }
        Err(q) => {
            put_report(report, &[q.place, 0, 0, 0]);
            q.number
        }
    }
}

/// Puts questions 16, 17, 1, 20, 2, 5, 15 and 21, and finds what the file holds.
fn judge(file: &[u8], lent: &Keeping) -> Result<Keeping, Refusal> {
    let (sizes, payload) = open(file)?;
    lengths(sizes, lent)?;
    let kept = held(sizes, &payload);
    contents(&kept)?;
    Ok(kept)
}

fn put_store(to: &mut Store, from: &Store) {
    put(&mut to.starts, &from.starts);
    put(&mut to.index, &from.index);
    put(&mut to.values, &from.values);
}

/// Reads into the lent buffers, unused slots zero; a refusal leaves them as they were. The report gets the place and the
/// counts.
pub fn read(file: &[u8], lent: &mut Keeping, report: &mut [u64]) -> u32 {
    match judge(file, lent) {
        Ok(kept) => {
            put(&mut lent.r, &kept.r);
            put(&mut lent.c, &kept.c);
            put_store(&mut lent.lower, &kept.lower);
            put_store(&mut lent.upper, &kept.upper);
            put(&mut lent.d, &kept.d);
            put_report(report, &[0, kept.counts.lower, kept.counts.upper, kept.counts.products]);
            0
        }
        Err(q) => {
            put_report(report, &[q.place, 0, 0, 0]);
            q.number
        }
    }
}

fn payload_of(kept: &Keeping) -> Vec<u8> {
    let Keeping { counts, lower, upper, d, .. } = kept;
    let mut bytes = Vec::new();
    [kept.n as u64, counts.lower, counts.upper].iter().for_each(|size| bytes.extend((*size as u32).to_le_bytes()));
    bytes.extend(counts.products.to_le_bytes());
    lower.starts.iter().chain(&upper.starts).for_each(|start| bytes.extend(start.to_le_bytes()));
    lower.index.iter().chain(&upper.index).for_each(|j| bytes.extend(j.to_le_bytes()));
    lower.values.iter().chain(d).chain(&upper.values).for_each(|&v| bytes.extend(float_bytes(v)));
    kept.r.iter().chain(&kept.c).for_each(|j| bytes.extend(j.to_le_bytes()));
    bytes
}

/// The factors without unused slots.
pub fn cut(kept: &Keeping) -> Keeping {
    let store = |store: &Store, entries: u64| {
        let entries = entries as usize;
        Store { index: store.index[..entries].to_vec(), values: store.values[..entries].to_vec(), ..store.clone() }
    };
    let (lower, upper) = (store(&kept.lower, kept.counts.lower), store(&kept.upper, kept.counts.upper));
    Keeping { lower, upper, ..kept.clone() }
}

/// Puts questions 1, 2, 5, 15 and 21, and finds the payload.
fn ask_write(kept: &Keeping, file: usize) -> Result<Vec<u8>, Refusal> {
    questions::rows(kept.n)?;
    let sizes = (kept.n, kept.counts.lower as usize, kept.counts.upper as usize);
    lengths(sizes, kept)?;
    if file != file_length(sizes) {
        return refuse(2, 0);
    }
    let kept = cut(kept);
    contents(&kept)?;
    Ok(payload_of(&kept))
}

/// Writes a file of the exact length; a refusal leaves it as it was. The report gets the place.
pub fn write(kept: &Keeping, file: &mut [u8], report: &mut [u64]) -> u32 {
    let asked = ask_write(kept, file.len());
    let (number, place) = asked.as_ref().map_or_else(|q| (q.number, q.place), |_| (0, 0));
    if let Ok(payload) = asked {
        fill(file, &payload);
    }
    put_report(report, &[place]);
    number
}

/// The file of factors, judged or not: of any orders, lists and counts whose stores are as long as the counts say.
pub fn file_of(kept: &Keeping) -> Vec<u8> {
    let payload = payload_of(kept);
    let mut file = vec![0; payload.len().div_ceil(PAYLOAD) * BLOCK];
    fill(&mut file, &payload);
    file
}
