//! The fill sheet: the answer, every byte of the sheet and every slot of the other buffers against the reference, the
//! numbers read back from their columns, and the shared structure call beside it.
use super::cases::Range;
use super::{Solver, Tally};
use crate::compare::{self, Compared, Difference};
use crate::generate;
use crate::load;
use crate::model::*;
use crate::random::Random;
use crate::reference::fill::Fill;
use crate::reference::{self, fill_sheet};

/// The bytes of a page.
const PAGE: usize = 2_050;
/// The lines of a page.
const LINES: usize = 50;
/// The columns of a place's five numbers: the first, and the one behind the last.
const COLUMNS: [(usize, usize); 5] = [(0, 6), (6, 14), (14, 22), (22, 30), (30, 40)];
/// The columns of a page's number.
const PAGE_NUMBER: (usize, usize) = (34, 40);

/// The number in some columns: blanks, then digits, the first of several not 0.
fn number_in(line: &[u8], (from, to): (usize, usize)) -> Option<u64> {
    let field = &line[from..to];
    let blanks = field.iter().take_while(|&&byte| byte == b' ').count();
    let digits = &field[blanks..];
    if !digits.iter().all(u8::is_ascii_digit) || (digits.len() > 1 && digits[0] == b'0') {
        return None;
    }
    std::str::from_utf8(digits).ok()?.parse().ok()
}

fn is_head(line: &[u8], page: usize) -> bool {
    let blanks = line[4..PAGE_NUMBER.0].iter().all(|&byte| byte == b' ');
    line.starts_with(b"FILL") && blanks && number_in(line, PAGE_NUMBER) == Some(page as u64)
}

/// The five numbers of each place. Every line must have 40 characters, a page's first line its head, and every line
/// behind the last place blanks.
fn read_back(sheet: &[u8], n: usize) -> Result<Vec<[u64; 5]>, Difference> {
    let mut places = Vec::new();
    compare::same("bytes", &sheet.len(), &(PAGE * n.div_ceil(LINES - 1)))?;
    for (at, whole) in sheet.split_inclusive(|&byte| byte == b'\n').enumerate() {
        let Some(line) = whole.strip_suffix(b"\n").filter(|line| line.len() == 40) else {
            return compare::differ(format!("line {at}"), whole, "40 characters and a newline");
        };
        if at % LINES == 0 {
            compare::same(&format!("head in line {at}"), &is_head(line, at / LINES + 1), &true)?;
        } else if places.len() < n {
            let five = COLUMNS.map(|columns| number_in(line, columns));
            let [Some(k), Some(row), Some(lower), Some(upper), Some(run)] = five else {
                return compare::differ(format!("line {at}"), String::from_utf8_lossy(line), "five numbers");
            };
            places.push([k, row, lower, upper, run]);
        } else {
            compare::same(&format!("blanks in line {at}"), &line.iter().all(|&byte| byte == b' '), &true)?;
        }
    }
    compare::same("places", &places.len(), &n)?;
    Ok(places)
}

/// The five numbers of each place by the fill, given the run starts of the upper lists.
fn numbers_of(input: &Input, runs: &[u32]) -> Vec<[u64; 5]> {
    let fill = Fill::of(input);
    let five = |k: usize| {
        let (row, run) = (input.r[k] as u64, runs[k] as u64);
        [k as u64, row, fill.lower_rows[k].len() as u64, fill.upper[k].len() as u64, run]
    };
    (0..input.n).map(five).collect()
}

/// The sheet has these numbers in their columns, and nothing else besides the heads.
fn check_columns(sheet: &[u8], numbers: &[[u64; 5]]) -> Compared {
    compare::numbers("numbers of place", &read_back(sheet, numbers.len())?, numbers)
}

/// The shared structure call answers and leaves the same, unless the sheet's length is what was refused.
fn check_structure(solver: &dyn Solver, lent: &Printing, number: u32, found: &Printing) -> Compared {
    let n = lent.input.n;
    if (1..=MAX_ROWS).contains(&n) && lent.sheet.len() != fill_sheet::bytes(n) {
        return Ok(());
    }
    let mut buffers = lent.buffers.clone();
    let report = lent.report.len();
    let answer = solver.run(Call::Structure(Form::Shared), &lent.input, &mut buffers, report)?;
    compare::same("number beside the structure call's", &number, &answer.number)?;
    let Counts { lower, upper, products } = answer.counts;
    let filled = report.min(4);
    let slots = [answer.place, lower, upper, products];
    compare::numbers("report beside the structure call's", &found.report[..filled], &slots[..filled])?;
    compare::buffers(&found.buffers, &buffers)
}

/// Makes the call and compares all that it leaves with the reference. Returns the number of its answer.
pub fn compare_sheet(solver: &dyn Solver, lent: &Printing) -> Result<u32, Difference> {
    let mut expected = lent.clone();
    let number = fill_sheet::make(&mut expected);
    let mut found = lent.clone();
    compare::same("number", &solver.sheet(&mut found)?, &number)?;
    compare::numbers("sheet", &found.sheet, &expected.sheet)?;
    compare::numbers("report", &found.report, &expected.report)?;
    compare::buffers(&found.buffers, &expected.buffers)?;
    if number == 0 {
        check_columns(&found.sheet, &numbers_of(&found.input, &found.buffers.upper.runs))?;
    }
    check_structure(solver, lent, number, &found)?;
    Ok(number)
}

/// One call, and the number that it must answer with.
struct Asked {
    name: String,
    lent: Printing,
    number: u32,
}

/// A fault of what is lent: its name, the number that it is refused with, and what makes it.
type Fault = (&'static str, u32, fn(&mut Printing));

impl Asked {
    /// The call on a matrix over noise, with the stores that it needs, a whole sheet and a report of four slots.
    fn done(random: &mut Random, name: &str, input: &Input) -> Asked {
        let slots = reference::needs(Form::Shared, input).unwrap_or_default();
        let lent = generate::printing(random, input, slots, fill_sheet::bytes(input.n), 4);
        Asked { name: format!("{name} n {}", input.n), lent, number: 0 }
    }

    fn with_fault(&self, (name, number, make): Fault) -> Asked {
        let mut lent = self.lent.clone();
        make(&mut lent);
        Asked { name: format!("{} with {name}", self.name), lent, number }
    }

    fn with_sheet(&self, length: usize, number: u32) -> Asked {
        let mut lent = self.lent.clone();
        lent.sheet.resize(length, 7);
        Asked { name: format!("{} sheet {length}", self.name), lent, number }
    }

    /// A sheet one byte or one page too short or too long, or of no byte, is 2.
    fn with_wrong_sheets(&self) -> Vec<Asked> {
        let right = self.lent.sheet.len();
        [right - 1, right + 1, 0, right + PAGE, right - PAGE].map(|length| self.with_sheet(length, 2)).into()
    }

    /// The same with reports of no slot to six.
    fn with_reports(&self, random: &mut Random) -> Vec<Asked> {
        let one = |length: usize| {
            let lent = Printing { report: generate::dirty_report(random, length), ..self.lent.clone() };
            Asked { name: format!("{} report {length}", self.name), lent, number: self.number }
        };
        (0..=6).map(one).collect()
    }

    fn add(&self, solver: &dyn Solver, tally: &mut Tally) {
        let result = compare_sheet(solver, &self.lent).and_then(|found| compare::same("number", &found, &self.number));
        tally.add(|| format!("sheet of {} ({})", self.name, solver.name()), result);
    }
}

/// One slot short.
fn cut<T>(list: &mut Vec<T>) {
    list.pop();
}

/// Faults that a grid with the stores it needs meets: a buffer of each fixed length one slot short, each later question
/// answered with no, each store one slot short.
const FAULTS: [Fault; 19] = [
    ("starts short", 2, |lent| cut(&mut lent.input.starts)),
    ("r short", 2, |lent| cut(&mut lent.input.r)),
    ("c short", 2, |lent| cut(&mut lent.input.c)),
    ("lower list starts short", 2, |lent| cut(&mut lent.buffers.lower.starts)),
    ("lower run starts short", 2, |lent| cut(&mut lent.buffers.lower.runs)),
    ("upper list starts short", 2, |lent| cut(&mut lent.buffers.upper.starts)),
    ("upper run starts short", 2, |lent| cut(&mut lent.buffers.upper.runs)),
    ("scratch f64 short", 2, |lent| cut(&mut lent.buffers.scratch_f64)),
    ("scratch u32 short", 2, |lent| cut(&mut lent.buffers.scratch_u32)),
    ("starts that fall", 3, |lent| lent.input.starts[1] = u32::MAX),
    ("a column that is n", 4, |lent| lent.input.columns[0] = lent.input.n as u16),
    ("a row twice in r", 5, |lent| lent.input.r[1] = lent.input.r[0]),
    ("a column twice in c", 5, |lent| lent.input.c[1] = lent.input.c[0]),
    ("an empty row", 7, |lent| lent.input.starts[1] = 0),
    ("no pivot", 9, |lent| lent.input.r.reverse()),
    ("lower index store short", 10, |lent| cut(&mut lent.buffers.lower.index)),
    ("lower value store short", 10, |lent| cut(&mut lent.buffers.lower.values)),
    ("upper index store short", 11, |lent| cut(&mut lent.buffers.upper.index)),
    ("upper value store short", 11, |lent| cut(&mut lent.buffers.upper.values)),
];

/// Lengths over their limits.
const OVER: [Fault; 5] = [
    ("columns over their limit", 2, |lent| lent.input.columns.resize(MAX_ENTRIES + 1, 0)),
    ("lower index store over its limit", 2, |lent| lent.buffers.lower.index.resize(MAX_SLOTS + 1, 7)),
    ("lower value store over its limit", 2, |lent| lent.buffers.lower.values.resize(MAX_SLOTS + 1, 7.0)),
    ("upper index store over its limit", 2, |lent| lent.buffers.upper.index.resize(MAX_SLOTS + 1, 7)),
    ("upper value store over its limit", 2, |lent| lent.buffers.upper.values.resize(MAX_SLOTS + 1, 7.0)),
];

/// Test loads around whole pages, in their own order and in others.
fn sizes(random: &mut Random) -> Vec<Asked> {
    let mut found = Vec::new();
    for n in [1, 2, 48, 49, 50, 97, 98, 99, 147, 148, 500] {
        let natural = load::test_load(n, 1);
        let asked = Asked::done(random, "load", &natural);
        found.extend(asked.with_wrong_sheets());
        found.push(asked);
        for _ in 0..3 {
            let other = generate::reordered(random, &natural);
            let other = generate::renamed(random, &other);
            found.push(Asked::done(random, "load in another order", &other));
        }
    }
    found
}

/// Each fault of a grid with a whole sheet is refused with its number, and with a wrong one with 2.
fn refused(random: &mut Random, side: usize, faults: &[Fault]) -> Vec<Asked> {
    let whole = Asked::done(random, "grid", &load::grid(side));
    let mut found = Vec::new();
    for &fault in faults {
        let asked = whole.with_fault(fault);
        found.extend(asked.with_wrong_sheets());
        found.push(asked);
    }
    found
}

/// An n out of its limits is 1, whatever the lengths.
fn out_of_limits(random: &mut Random) -> Vec<Asked> {
    let mut found = Vec::new();
    let any = Asked::done(random, "grid", &load::grid(3));
    let none = Asked::done(random, "nothing", &Input { n: 0, starts: vec![0], ..Input::default() });
    let over = Asked::done(random, "tridiagonal", &load::tridiagonal(MAX_ROWS + 1));
    let numbers = [0, MAX_ROWS + 1, 1 << 16, 1 << 32, (1 << 32) + 9, 1 << 63, usize::MAX];
    for n in numbers {
        let mut asked = any.with_fault(FAULTS[random.below(FAULTS.len())]);
        asked.lent.input.n = n;
        asked.name = format!("{} lent as n {n}", asked.name);
        found.extend([0, 1, PAGE - 1, PAGE, PAGE + 1, 84 * PAGE].map(|length| asked.with_sheet(length, 1)));
    }
    for asked in [none, over] {
        found.extend([0, 1, PAGE, 84 * PAGE].map(|length| asked.with_sheet(length, 1)));
    }
    found
}

/// Reports of every length, with each kind of answer.
fn reports(random: &mut Random) -> Vec<Asked> {
    let whole = Asked::done(random, "grid", &load::grid(3));
    let mut kinds = vec![whole.with_sheet(PAGE + 1, 2)];
    kinds.push(whole.with_fault(("n of 0", 1, |lent| lent.input.n = 0)));
    kinds.extend(FAULTS.map(|fault| whole.with_fault(fault)));
    kinds.push(whole);
    kinds.iter().flat_map(|asked| asked.with_reports(random)).collect()
}

/// Tries known sizes, lengths and refusals over noise.
pub fn limits(solver: &dyn Solver, seed: u64, tally: &mut Tally) {
    let random = &mut Random::new(seed);
    let mut asked = sizes(random);
    asked.extend(refused(random, 7, &FAULTS));
    asked.extend(refused(random, 8, &FAULTS));
    asked.extend(out_of_limits(random));
    asked.extend(reports(random));
    asked.iter().for_each(|asked| asked.add(solver, tally));
}

/// A tridiagonal system whose row 0 has the last `ends` columns too: every list before them has all of them and its
/// own next place, so that hardly any two share slots. Its last row is full.
fn unshared(n: usize, ends: usize) -> Input {
    let row = |k: usize| match k {
        0 => [0, 1].into_iter().chain(n - ends..n).collect(),
        k if k + 1 == n => (0..n).collect(),
        k => vec![k - 1, k, k + 1],
    };
    of_pattern(n, row)
}

/// Row 0, the last row and the diagonal: nothing is filled besides.
fn two_rows(n: usize) -> Input {
    of_pattern(n, |k: usize| if k == 0 || k + 1 == n { (0..n).collect() } else { vec![k] })
}

fn of_pattern(n: usize, row: impl Fn(usize) -> Vec<usize>) -> Input {
    let rows: Vec<Vec<(usize, f64)>> = (0..n).map(|k| row(k).into_iter().map(|j| (j, 1.0)).collect()).collect();
    load::from_rows(&rows, &vec![1.0; n])
}

/// Tries the widest numbers: four digits of place, own row and both lengths, seven of the run start. Also lengths over
/// their limits.
pub fn large(solver: &dyn Solver, seed: u64, tally: &mut Tally) {
    let random = &mut Random::new(seed);
    let wide = unshared(MAX_ROWS, 263);
    // The last list is empty and stands behind all others.
    let last_run = reference::needs(Form::Shared, &wide).map_or(0, |slots| slots.upper_index as u64);
    tally.add(|| "run start of seven digits".to_string(), compare::at_least("last run start", last_run, 1_000_000));
    let systems = [
        ("load", load::test_load(1_024, 1)),
        ("load", load::test_load(2_048, 1)),
        ("grid", load::grid(64)),
        ("tridiagonal", load::tridiagonal(MAX_ROWS)),
        ("two full rows", two_rows(MAX_ROWS)),
        ("lists that share no slots", wide),
    ];
    for (name, input) in systems {
        let input = generate::renamed(random, &input);
        Asked::done(random, name, &input).add(solver, tally);
    }
    refused(random, 7, &OVER).iter().for_each(|asked| asked.add(solver, tally));
}

/// Tries any matrix and lengths over noise; some sheets have another length.
pub fn run(solver: &dyn Solver, range: Range, tally: &mut Tally) {
    for number in range.numbers() {
        let lent = generate::printing_case(&mut range.random(number));
        let result = compare_sheet(solver, &lent).map(|_| ());
        tally.add(|| format!("{} {} n {}", range.label("sheets", number), solver.name(), lent.input.n), result);
    }
}

/// Every change of one byte of a sheet is found by reading it back.
fn changes(sheet: &[u8], numbers: &[[u64; 5]]) -> Compared {
    for at in 0..sheet.len() {
        for byte in [b' ', b'0', b'1', b'9', b'+', b'\n', 0, sheet[at] ^ 0x80] {
            let mut changed = sheet.to_vec();
            changed[at] = byte;
            let found = check_columns(&changed, numbers).is_err();
            compare::same(&format!("byte {at} made {byte} is found"), &found, &(byte != sheet[at]))?;
        }
    }
    Ok(())
}

/// Reading back is not trusted blindly: the reference's sheet of two pages is read, changed sheets are not.
pub fn reading(tally: &mut Tally) {
    let mut lent = Asked::done(&mut Random::new(1), "grid", &load::grid(8)).lent;
    let number = fill_sheet::make(&mut lent);
    let numbers = numbers_of(&lent.input, &lent.buffers.upper.runs);
    let read = compare::same("number", &number, &0).and_then(|()| check_columns(&lent.sheet, &numbers));
    tally.add(|| "a sheet read back".to_string(), read);
    tally.add(|| "changed sheets read back".to_string(), changes(&lent.sheet, &numbers));
    for length in [0, PAGE, 2 * PAGE - 41, 2 * PAGE - 1] {
        let found = check_columns(&lent.sheet[..length], &numbers).is_err();
        tally.add(|| format!("{length} bytes of a sheet read back"), compare::same("found", &found, &true));
    }
}
