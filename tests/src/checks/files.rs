//! Matrix files: written and read, and damaged byte by byte.
use super::cases::Range;
use super::header::repository;
use super::{known, Solver, Tally};
use crate::compare::{self, Compared, Difference};
use crate::generate;
use crate::load;
use crate::model::*;
use crate::random::Random;
use crate::reference::matrix_file;

/// Compares shape and read of a file, into the buffers of `into`, with the reference.
pub fn compare_file(solver: &dyn Solver, file: &[u8], into: &Input) -> Compared {
    compare::same("shape", &solver.shape(file)?, &matrix_file::shape(file))?;
    let mut expected = into.clone();
    let answer = matrix_file::read(file, &mut expected);
    let mut found = into.clone();
    compare::same("answer of read", &solver.read(file, &mut found)?, &answer)?;
    let read = answer.number == 0;
    compare::matrices(&found, &expected, read)
}

/// A file of two blocks with something in every part.
fn two_blocks(random: &mut Random) -> Input {
    loop {
        let input = generate::sound_input(random, 9);
        if matrix_file::file_length(9, input.columns.len()) == 1_024 {
            return input;
        }
    }
}

/// Changes each byte of a two-block file; in the second pass the checks are made right again.
pub fn damaged(solver: &dyn Solver, seed: u64, tally: &mut Tally) {
    let mut random = Random::new(seed);
    let input = two_blocks(&mut random);
    let whole = matrix_file::file_of(&input);
    let into = matrix_file::blank(input.n, input.columns.len());
    for sealed in [false, true] {
        for at in 0..whole.len() {
            for change in [1, 0x80, random.between(1, 255) as u8] {
                let mut file = whole.clone();
                file[at] ^= change;
                if sealed {
                    matrix_file::seal(&mut file);
                }
                let result = compare_file(solver, &file, &into);
                tally.add(|| format!("damaged seed {seed} byte {at} xor {change:#x} sealed {sealed}"), result);
            }
        }
    }
}

/// Tries files of every length near whole blocks, of more blocks than needed, and with other block numbers.
pub fn lengths(solver: &dyn Solver, seed: u64, tally: &mut Tally) {
    let mut random = Random::new(seed);
    let input = two_blocks(&mut random);
    let whole = matrix_file::file_of(&input);
    let into = matrix_file::blank(input.n, input.columns.len());
    for length in [0, 1, 511, 512, 513, 1_023, 1_024, 1_025, 1_535, 1_536, 2_048] {
        for sealed in [false, true] {
            let mut file = whole.clone();
            file.resize(length, 0);
            if sealed {
                matrix_file::seal(&mut file);
            }
            let result = compare_file(solver, &file, &into);
            tally.add(|| format!("file length {length} sealed {sealed}"), result);
        }
    }
    let mut swapped = whole[512..].to_vec();
    swapped.extend(&whole[..512]);
    tally.add(|| "blocks exchanged".to_string(), compare_file(solver, &swapped, &into));
}

/// Tries files whose n and e are any numbers, the checks right.
pub fn heads(solver: &dyn Solver, tally: &mut Tally) {
    let near = [0u32, 1, 2, 9, 4_096, 4_097, 65_536, 65_537, 1 << 31, u32::MAX];
    for n in near {
        for e in near {
            for blocks in [1usize, 2, 131] {
                let mut file = vec![0u8; 512 * blocks];
                file[..4].copy_from_slice(&n.to_le_bytes());
                file[4..8].copy_from_slice(&e.to_le_bytes());
                matrix_file::seal(&mut file);
                let result = compare_file(solver, &file, &matrix_file::blank(1, 0));
                tally.add(|| format!("file head n {n} e {e} blocks {blocks}"), result);
            }
        }
    }
}

/// Compares writing the matrix over the bytes of `before` with the reference: the answer and the file.
pub fn compare_written(solver: &dyn Solver, input: &Input, before: &[u8]) -> Result<(Answer, Vec<u8>), Difference> {
    let mut expected = before.to_vec();
    let answer = matrix_file::write(input, &mut expected);
    let mut file = before.to_vec();
    compare::same("answer of write", &solver.write(input, &mut file)?, &answer)?;
    compare::numbers("file", &file, &expected)?;
    Ok((answer, file))
}

fn written_and_read(solver: &dyn Solver, random: &mut Random) -> Compared {
    let (input, length) = generate::matrix_to_write(random);
    let before: Vec<u8> = (0..length).map(|_| random.bits() as u8).collect();
    let (answer, file) = compare_written(solver, &input, &before)?;
    if answer.number != 0 {
        return Ok(());
    }
    let into = generate::matrix_to_read(random, input.n, input.columns.len());
    compare_file(solver, &file, &into)?;
    let mut back = matrix_file::blank(input.n, input.columns.len());
    compare::same("answer of reading back", &solver.read(&file, &mut back)?.number, &0)?;
    compare::matrices(&back, &input, true)
}

/// Random matrices are written and read back.
pub fn round_trips(solver: &dyn Solver, range: Range, tally: &mut Tally) {
    for number in range.numbers() {
        let result = written_and_read(solver, &mut range.random(number));
        tally.add(|| range.label("round-trips", number), result);
    }
}

/// e one over its limit is 18 for the writer, before any length.
pub fn too_many_entries(solver: &dyn Solver, tally: &mut Tally) {
    let mut input = matrix_file::blank(1, MAX_ENTRIES + 1);
    let mut file = vec![7u8; 512];
    let mut ask = |input: &Input, number: u32| {
        let answer = solver.write(input, &mut file)?;
        compare::same("number", &answer.number, &number)?;
        compare::same("file untouched", &file.iter().all(|&byte| byte == 7), &true)
    };
    tally.add(|| "writer, e 65,537".to_string(), ask(&input, 18));
    input.values.clear();
    tally.add(|| "writer, e 65,537, other lengths wrong".to_string(), ask(&input, 18));
    input.n = 0;
    tally.add(|| "writer, n 0 first".to_string(), ask(&input, 1));
}

/// The files under examples/ are the paper's matrix and Report 114's grid.
pub fn examples(tally: &mut Tally) {
    for (name, matrix) in [("two_by_two.lp", known::paper_matrix()), ("grid_3_by_3.lp", load::grid(3))] {
        let result = match std::fs::read(repository().join("examples").join(name)) {
            Ok(bytes) => compare::numbers(name, &bytes, &matrix_file::file_of(&matrix)),
            Err(error) => compare::differ(name, error.to_string(), "a file"),
        };
        tally.add(|| format!("examples/{name}"), result);
    }
}
