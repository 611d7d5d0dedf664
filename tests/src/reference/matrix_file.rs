//! The matrix file: blocks of 512 bytes with a number and two checks, which the factor file shares.
use crate::model::*;

/// Bytes of a block.
pub const BLOCK: usize = 512;
/// Bytes of the payload of a block.
pub const PAYLOAD: usize = 504;
const MODULUS: u64 = 65_521;
/// What stands for every NaN in a file that is written.
const NAN_BITS: u64 = 0x7FF8_0000_0000_0000;

/// Bytes of the joined payloads before the closing zeros.
fn payload_length(n: usize, e: usize) -> usize {
    12 + 16 * n + 10 * e
}

/// The file's length for n rows and e entries.
pub fn file_length(n: usize, e: usize) -> usize {
    payload_length(n, e).div_ceil(PAYLOAD) * BLOCK
}

/// Checks A and B of a block.
fn checks(block: &[u8]) -> (u16, u16) {
    let mut a = 0u64;
    let mut b = 0u64;
    for (i, &byte) in block[..508].iter().enumerate() {
        a += byte as u64;
        b += (508 - i as u64) * byte as u64;
    }
    ((a % MODULUS) as u16, (b % MODULUS) as u16)
}

/// Writes number and checks of every block anew.
pub fn seal(file: &mut [u8]) {
    for (number, block) in file.chunks_exact_mut(BLOCK).enumerate() {
        block[504..508].copy_from_slice(&(number as u32).to_le_bytes());
        let (a, b) = checks(block);
        block[508..510].copy_from_slice(&a.to_le_bytes());
        block[510..512].copy_from_slice(&b.to_le_bytes());
    }
}

fn block_right(number: usize, block: &[u8]) -> bool {
    let mut end = (number as u32).to_le_bytes().to_vec();
    let (a, b) = checks(block);
    end.extend(a.to_le_bytes());
    end.extend(b.to_le_bytes());
    block[504..] == end[..]
}

fn joined(file: &[u8]) -> Vec<u8> {
    file.chunks(BLOCK).flat_map(|block| block[..PAYLOAD].to_vec()).collect()
}

/// Puts questions 16 and 17, and finds the joined payloads.
pub fn payloads(file: &[u8]) -> Result<Vec<u8>, Refusal> {
    if file.is_empty() || !file.len().is_multiple_of(BLOCK) || file.len() as u64 > 1 << 41 {
        return refuse(16, 0);
    }
    for (number, block) in file.chunks(BLOCK).enumerate() {
        if !block_right(number, block) {
            return refuse(17, number);
        }
    }
    Ok(joined(file))
}

/// Writes the payload, then zeros, and seals the blocks.
pub fn fill(file: &mut [u8], payload: &[u8]) {
    file.fill(0);
    for (part, block) in payload.chunks(PAYLOAD).zip(file.chunks_mut(BLOCK)) {
        block[..part.len()].copy_from_slice(part);
    }
    seal(file);
}

/// Little-endian fields of a payload, one after another.
pub struct Fields<'a> {
    pub bytes: &'a [u8],
}

impl Fields<'_> {
    /// The next field of so many bytes.
    pub fn take(&mut self, width: usize) -> u64 {
        let (field, rest) = self.bytes.split_at(width);
        self.bytes = rest;
        field.iter().rev().fold(0, |sum, &byte| sum * 256 + byte as u64)
    }

    /// Fills the list with the next fields of 4 bytes.
    pub fn starts(&mut self, to: &mut [u32]) {
        to.iter_mut().for_each(|slot| *slot = self.take(4) as u32);
    }

    /// Fills the list with the next fields of 2 bytes.
    pub fn numbers(&mut self, to: &mut [u16]) {
        to.iter_mut().for_each(|slot| *slot = self.take(2) as u16);
    }

    /// Fills the list with the next fields of 8 bytes.
    pub fn floats(&mut self, to: &mut [f64]) {
        to.iter_mut().for_each(|slot| *slot = f64::from_bits(self.take(8)));
    }
}

/// Puts questions 16, 17, 1 and 18, and finds n and e.
pub fn shape(file: &[u8]) -> Result<(usize, usize), Refusal> {
    let payload = payloads(file)?;
    let mut fields = Fields { bytes: &payload };
    let n = fields.take(4) as usize;
    let e = fields.take(4) as usize;
    super::questions::rows(n)?;
    if e > MAX_ENTRIES || file.len() != file_length(n, e) {
        return refuse(18, 0);
    }
    if payload[payload_length(n, e)..].iter().any(|&byte| byte != 0) {
        return refuse(18, 0);
    }
    Ok((n, e))
}

fn lengths_match(n: usize, e: usize, m: &Input) -> bool {
    let entries = m.columns.len() == e && m.values.len() == e;
    m.starts.len() == n + 1 && entries && m.r.len() == n && m.c.len() == n && m.b.len() == n
}

/// Reads into buffers of matching length; `matrix.n` is not looked at and not written.
pub fn read(file: &[u8], matrix: &mut Input) -> Answer {
    let (n, e) = match shape(file) {
        Ok(found) => found,
        Err(q) => return q.into(),
    };
    if !lengths_match(n, e, matrix) {
        return Refusal { number: 2, place: 0 }.into();
    }
    let payload = joined(file);
    let mut fields = Fields { bytes: &payload[8..] };
    fields.starts(&mut matrix.starts);
    fields.numbers(&mut matrix.columns);
    fields.floats(&mut matrix.values);
    fields.numbers(&mut matrix.r);
    fields.numbers(&mut matrix.c);
    fields.floats(&mut matrix.b);
    Answer::default()
}

/// A number as a file holds it.
pub fn float_bytes(v: f64) -> [u8; 8] {
    let bits = if v.is_nan() { NAN_BITS } else { v.to_bits() };
    bits.to_le_bytes()
}

fn payload_of(m: &Input) -> Vec<u8> {
    let mut bytes = Vec::new();
    bytes.extend((m.n as u32).to_le_bytes());
    bytes.extend((m.columns.len() as u32).to_le_bytes());
    m.starts.iter().for_each(|s| bytes.extend(s.to_le_bytes()));
    m.columns.iter().for_each(|j| bytes.extend(j.to_le_bytes()));
    m.values.iter().for_each(|&v| bytes.extend(float_bytes(v)));
    m.r.iter().chain(&m.c).for_each(|j| bytes.extend(j.to_le_bytes()));
    m.b.iter().for_each(|&v| bytes.extend(float_bytes(v)));
    bytes
}

/// Puts questions 1, 18 (for e) and 2, and writes a file of the exact length.
pub fn write(matrix: &Input, file: &mut [u8]) -> Answer {
    let (n, e) = (matrix.n, matrix.columns.len());
    if let Err(q) = super::questions::rows(n) {
        return q.into();
    }
    if e > MAX_ENTRIES {
        return Refusal { number: 18, place: 0 }.into();
    }
    if !lengths_match(n, e, matrix) || file.len() != file_length(n, e) {
        return Refusal { number: 2, place: 0 }.into();
    }
    fill(file, &payload_of(matrix));
    Answer::default()
}

/// The file of a matrix within its limits and of matching lengths.
pub fn file_of(matrix: &Input) -> Vec<u8> {
    let mut file = vec![0; file_length(matrix.n, matrix.columns.len())];
    let answer = write(matrix, &mut file);
    assert_eq!(answer.number, 0, "the matrix cannot be written");
    file
}

/// Buffers for n rows and e entries.
pub fn blank(n: usize, e: usize) -> Input {
    Input {
        n,
        starts: vec![0; n + 1],
        columns: vec![0; e],
        values: vec![0.0; e],
        r: vec![0; n],
        c: vec![0; n],
        b: vec![0.0; n],
        floor: 0.0,
    }
}
