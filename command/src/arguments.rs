//! What the command line asks for. Names of files may be any bytes, so words stay `OsString`.
use std::ffi::{OsStr, OsString};
use std::path::{Path, PathBuf};
use std::str::FromStr;

/// What to do.
#[derive(Debug, PartialEq)]
pub enum Task {
    Help(Topic),
    Version,
    Solve(Solve),
    Factor(Factor),
    Structure { file: PathBuf, orders: OrderFiles, numbers: bool },
    Convert(Convert),
    Picture { file: PathBuf, orders: OrderFiles, out: Option<PathBuf>, numbers: bool },
    Sheet { file: PathBuf, orders: OrderFiles, out: Option<PathBuf>, numbers: bool },
    Load(Load),
    Check(Check),
}

#[derive(Debug, PartialEq)]
pub struct Solve {
    pub file: PathBuf,
    pub form: FormName,
    pub right: Option<PathBuf>,
    pub orders: OrderFiles,
    pub floor: f64,
    pub hex: bool,
    pub numbers: bool,
    pub out: Option<PathBuf>,
}

/// Factors to be kept in a file.
#[derive(Debug, PartialEq)]
pub struct Factor {
    pub file: PathBuf,
    pub orders: OrderFiles,
    pub floor: f64,
    pub numbers: bool,
    pub out: Option<PathBuf>,
}

#[derive(Debug, PartialEq)]
pub struct Convert {
    pub from: PathBuf,
    pub to: PathBuf,
    pub right: Option<PathBuf>,
    pub orders: OrderFiles,
    pub numbers: bool,
}

/// A test load: its number of rows, which the library judges, and its seed.
#[derive(Debug, PartialEq)]
pub struct Load {
    pub rows: usize,
    pub seed: u16,
    pub numbers: bool,
    pub out: Option<PathBuf>,
}

/// A system, and scores for it.
#[derive(Debug, PartialEq)]
pub struct Check {
    pub file: PathBuf,
    pub scores: PathBuf,
    pub right: Option<PathBuf>,
    pub hex: bool,
    pub numbers: bool,
    pub out: Option<PathBuf>,
}

/// The files of the orders: one for rows and columns both, or one for either.
#[derive(Debug, Default, PartialEq)]
pub struct OrderFiles {
    pub both: Option<PathBuf>,
    pub rows: Option<PathBuf>,
    pub columns: Option<PathBuf>,
}

impl OrderFiles {
    pub fn paths(&self) -> [Option<&Path>; 3] {
        [self.both.as_deref(), self.rows.as_deref(), self.columns.as_deref()]
    }
}

#[derive(Clone, Copy, Debug, PartialEq)]
pub enum FormName {
    Plain,
    Shared,
    Row,
}

/// What help is asked for.
#[derive(Clone, Copy, Debug, PartialEq)]
pub enum Topic {
    All,
    Solve,
    Factor,
    Structure,
    Convert,
    Picture,
    Sheet,
    Load,
    Check,
}

const COMMANDS: &str = "solve, factor, structure, convert, check, picture, sheet or load (lilac --help tells more)";
const HELP: [&str; 2] = ["--help", "-h"];

/// The options of a command that take a word behind them.
fn valued(topic: Topic) -> &'static [&'static str] {
    match topic {
        Topic::All => &[],
        Topic::Solve => &["--form", "--right", "--order", "--rows", "--columns", "--floor", "--refusals", "--output"],
        Topic::Factor => &["--order", "--rows", "--columns", "--floor", "--refusals", "--output"],
        Topic::Structure => &["--order", "--rows", "--columns", "--refusals"],
        Topic::Convert => &["--right", "--order", "--rows", "--columns", "--refusals"],
        Topic::Picture | Topic::Sheet => &["--order", "--rows", "--columns", "--refusals", "--output"],
        Topic::Load => &["--refusals", "--output"],
        Topic::Check => &["--right", "--refusals", "--output"],
    }
}

/// The options that stand alone.
fn switches(topic: Topic) -> &'static [&'static str] {
    match topic {
        Topic::Solve | Topic::Check => &["--hex"],
        _ => &[],
    }
}

pub fn parse(words: Vec<OsString>) -> Result<Task, String> {
    let mut words = words.into_iter();
    let Some(first) = words.next() else {
        return Err(format!("say what to do: {COMMANDS}"));
    };
    let rest: Vec<OsString> = words.collect();
    match first.to_str() {
        Some("--help" | "-h") => nothing_behind(&rest, Task::Help(Topic::All)),
        Some("--version") => nothing_behind(&rest, Task::Version),
        Some("help") => help_on(&rest),
        Some(name) => match topic_of(name) {
            Some(topic) => command(topic, rest),
            None => Err(format!("{name:?} is no command: {COMMANDS}")),
        },
        None => Err(format!("{first:?} is no command (lilac --help tells more)")),
    }
}

fn topic_of(name: &str) -> Option<Topic> {
    match name {
        "solve" => Some(Topic::Solve),
        "factor" => Some(Topic::Factor),
        "structure" => Some(Topic::Structure),
        "convert" => Some(Topic::Convert),
        "picture" => Some(Topic::Picture),
        "sheet" => Some(Topic::Sheet),
        "load" => Some(Topic::Load),
        "check" => Some(Topic::Check),
        _ => None,
    }
}

fn name_of(topic: Topic) -> &'static str {
    match topic {
        Topic::All => "",
        Topic::Solve => "solve",
        Topic::Factor => "factor",
        Topic::Structure => "structure",
        Topic::Convert => "convert",
        Topic::Picture => "picture",
        Topic::Sheet => "sheet",
        Topic::Load => "load",
        Topic::Check => "check",
    }
}

fn nothing_behind(rest: &[OsString], task: Task) -> Result<Task, String> {
    match rest.first() {
        None => Ok(task),
        Some(word) => Err(format!("{word:?} is one word too many")),
    }
}

fn help_on(rest: &[OsString]) -> Result<Task, String> {
    match rest {
        [] => Ok(Task::Help(Topic::All)),
        [name] => match name.to_str().and_then(topic_of) {
            Some(topic) => Ok(Task::Help(topic)),
            None => Err(format!("there is no help on {name:?}")),
        },
        [_, more, ..] => Err(format!("{more:?} is one word too many")),
    }
}

/// The words behind a command, sorted into files, or the numbers of a load, and options.
struct Sorted {
    topic: Topic,
    files: Vec<OsString>,
    options: Vec<(&'static str, OsString)>,
    help: bool,
}

fn command(topic: Topic, words: Vec<OsString>) -> Result<Task, String> {
    let mut sorted = sort(topic, words)?;
    if sorted.help {
        return Ok(Task::Help(topic));
    }
    let numbers = sorted.numbers()?;
    let orders = sorted.orders()?;
    match topic {
        Topic::All => Ok(Task::Help(Topic::All)),
        Topic::Solve => solve(sorted, orders, numbers),
        Topic::Factor => {
            let (file, floor) = (sorted.only_file()?, sorted.floor()?);
            Ok(Task::Factor(Factor { file, orders, floor, numbers, out: sorted.path("--output") }))
        }
        Topic::Structure => Ok(Task::Structure { file: sorted.only_file()?, orders, numbers }),
        Topic::Picture => {
            Ok(Task::Picture { file: sorted.only_file()?, orders, out: sorted.path("--output"), numbers })
        }
        Topic::Sheet => Ok(Task::Sheet { file: sorted.only_file()?, orders, out: sorted.path("--output"), numbers }),
        Topic::Convert => {
            let (from, to) = sorted.two_files()?;
            Ok(Task::Convert(Convert { from, to, right: sorted.path("--right"), orders, numbers }))
        }
        Topic::Load => {
            let (rows, seed) = sorted.rows_and_seed()?;
            Ok(Task::Load(Load { rows, seed, numbers, out: sorted.path("--output") }))
        }
        Topic::Check => {
            let (file, scores) = sorted.two_files()?;
            let (right, hex) = (sorted.path("--right"), sorted.take("--hex").is_some());
            Ok(Task::Check(Check { file, scores, right, hex, numbers, out: sorted.path("--output") }))
        }
    }
}

fn solve(mut sorted: Sorted, orders: OrderFiles, numbers: bool) -> Result<Task, String> {
    let form = match sorted.take("--form") {
        None => FormName::Plain,
        Some(word) => match word.to_str() {
            Some("plain") => FormName::Plain,
            Some("shared") => FormName::Shared,
            Some("row") => FormName::Row,
            _ => return Err(format!("--form is plain, shared or row, not {word:?}")),
        },
    };
    Ok(Task::Solve(Solve {
        file: sorted.only_file()?,
        form,
        right: sorted.path("--right"),
        orders,
        floor: sorted.floor()?,
        hex: sorted.take("--hex").is_some(),
        numbers,
        out: sorted.path("--output"),
    }))
}

fn sort(topic: Topic, words: Vec<OsString>) -> Result<Sorted, String> {
    let mut sorted = Sorted { topic, files: Vec::new(), options: Vec::new(), help: false };
    let mut words = words.into_iter();
    while let Some(word) = words.next() {
        if word == "--" {
            sorted.files.extend(words);
            break;
        }
        if !is_option(topic, &word) {
            sorted.files.push(word);
        } else if HELP.iter().any(|&help| word == help) {
            sorted.help = true;
        } else {
            sorted.option(&word, &mut words)?;
        }
    }
    Ok(sorted)
}

/// A lone `-` is the name of standard input, not an option; a negative number is a wrong number of a load.
fn is_option(topic: Topic, word: &OsStr) -> bool {
    match word.as_encoded_bytes().strip_prefix(b"-") {
        None | Some(b"") => false,
        Some(rest) => topic != Topic::Load || !rest.iter().all(u8::is_ascii_digit),
    }
}

impl Sorted {
    fn option(&mut self, word: &OsStr, rest: &mut impl Iterator<Item = OsString>) -> Result<(), String> {
        let Some(text) = word.to_str() else { return Err(self.unknown(word)) };
        let (name, joined) = match text.split_once('=') {
            Some((name, value)) => (name, Some(OsString::from(value))),
            None => (text, None),
        };
        let name = if name == "-o" { "--output" } else { name };
        if let Some(&known) = switches(self.topic).iter().find(|&&known| known == name) {
            return match joined {
                None => self.put(known, OsString::new()),
                Some(_) => Err(format!("{known} takes no value")),
            };
        }
        let Some(&known) = valued(self.topic).iter().find(|&&known| known == name) else {
            return Err(self.unknown(word));
        };
        match joined.or_else(|| rest.next()) {
            Some(value) if !value.is_empty() => self.put(known, value),
            _ => Err(format!("{known} needs a word behind it")),
        }
    }

    fn unknown(&self, word: &OsStr) -> String {
        let name = name_of(self.topic);
        format!("{word:?} is no option of {name} (lilac {name} --help tells more)")
    }

    fn put(&mut self, name: &'static str, value: OsString) -> Result<(), String> {
        if self.options.iter().any(|&(given, _)| given == name) {
            return Err(format!("{name} is given twice"));
        }
        self.options.push((name, value));
        Ok(())
    }

    fn take(&mut self, name: &str) -> Option<OsString> {
        let at = self.options.iter().position(|&(given, _)| given == name)?;
        Some(self.options.remove(at).1)
    }

    fn path(&mut self, name: &str) -> Option<PathBuf> {
        self.take(name).map(PathBuf::from)
    }

    fn orders(&mut self) -> Result<OrderFiles, String> {
        let files =
            OrderFiles { both: self.path("--order"), rows: self.path("--rows"), columns: self.path("--columns") };
        match files.paths() {
            [Some(_), rows, columns] if rows.or(columns).is_some() => {
                Err("--order is for rows and columns both, so it goes with neither --rows nor --columns".to_string())
            }
            _ => Ok(files),
        }
    }

    fn numbers(&mut self) -> Result<bool, String> {
        match self.take("--refusals") {
            None => Ok(false),
            Some(word) if word == "words" => Ok(false),
            Some(word) if word == "numbers" => Ok(true),
            Some(word) => Err(format!("--refusals is words or numbers, not {word:?}")),
        }
    }

    /// Any number is for the library to judge, also NaN and those below zero.
    fn floor(&mut self) -> Result<f64, String> {
        let Some(word) = self.take("--floor") else { return Ok(0.0) };
        let floor = word.to_str().and_then(|text| text.parse().ok());
        floor.ok_or_else(|| format!("--floor is a decimal number, zero or greater, not {word:?}"))
    }

    fn only_file(&mut self) -> Result<PathBuf, String> {
        match &self.files[..] {
            [file] => Ok(PathBuf::from(file)),
            [] => Err(format!("{} needs a file", name_of(self.topic))),
            [_, more, ..] => Err(format!("{} takes one file; {more:?} is one too many", name_of(self.topic))),
        }
    }

    fn two_files(&mut self) -> Result<(PathBuf, PathBuf), String> {
        match &self.files[..] {
            [from, to] => Ok((PathBuf::from(from), PathBuf::from(to))),
            _ => Err(format!("{} needs two files, not {}", name_of(self.topic), self.files.len())),
        }
    }

    fn rows_and_seed(&self) -> Result<(usize, u16), String> {
        match &self.files[..] {
            [rows, seed] => Ok((number("N", "1 to 4096", rows)?, number("SEED", "0 to 65535", seed)?)),
            [] => Err("load needs two numbers, N and SEED".to_string()),
            [rows] => Err(format!("load needs two numbers, N and SEED; there is only {rows:?}")),
            [_, _, more, ..] => Err(format!("load takes N and SEED; {more:?} is one word too many")),
        }
    }
}

/// A number in decimal digits alone. An N that fits 64 bits but not its limits is for the library to refuse.
fn number<T: FromStr>(name: &str, limits: &str, word: &OsStr) -> Result<T, String> {
    let digits = word.to_str().filter(|text| text.bytes().all(|byte| byte.is_ascii_digit()));
    let number = digits.and_then(|text| text.parse().ok());
    number.ok_or_else(|| format!("{name} is a decimal number, {limits}, not {word:?}"))
}

#[cfg(test)]
mod tests {
    use super::*;

    fn parsed(line: &str) -> Result<Task, String> {
        parse(line.split_whitespace().map(OsString::from).collect())
    }

    #[test]
    fn options_may_stand_anywhere() {
        let expected = Task::Solve(Solve {
            file: "a.lp".into(),
            form: FormName::Row,
            right: None,
            orders: OrderFiles { both: Some("r.txt".into()), ..OrderFiles::default() },
            floor: 0.0,
            hex: true,
            numbers: true,
            out: Some("x.txt".into()),
        });
        assert_eq!(
            parsed("solve --hex a.lp --form row -o x.txt --order=r.txt --refusals numbers").as_ref(),
            Ok(&expected)
        );
        assert_eq!(
            parsed("solve --form=row --order r.txt --refusals=numbers --hex --output x.txt -- a.lp"),
            Ok(expected)
        );
    }

    #[test]
    fn a_floor_is_any_number() {
        let bits = |line: &str| match parsed(line) {
            Ok(Task::Solve(solve)) => solve.floor.to_bits(),
            other => panic!("{line}: {other:?}"),
        };
        let floors = [
            ("1e-8", 1e-8),
            ("0", 0.0),
            ("-0", -0.0),
            ("+2.5", 2.5),
            ("5e-324", f64::from_bits(1)),
            // The library judges these.
            ("-1", -1.0),
            ("inf", f64::INFINITY),
            ("1e999", f64::INFINITY),
            ("-infinity", f64::NEG_INFINITY),
        ];
        for (word, floor) in floors {
            assert_eq!(bits(&format!("solve a --floor {word}")), floor.to_bits(), "{word}");
            assert_eq!(bits(&format!("solve --floor={word} a")), floor.to_bits(), "{word}");
        }
        assert!(f64::from_bits(bits("solve a --floor NaN")).is_nan());
        assert_eq!(bits("solve a"), 0);
        for word in ["x", "1,5", "0x1", "--hex", "1e"] {
            let due = format!("--floor is a decimal number, zero or greater, not {word:?}");
            assert_eq!(parsed(&format!("solve a --floor {word}")), Err(due));
        }
    }

    #[test]
    fn a_sheet_has_the_options_of_a_picture() {
        let orders = || OrderFiles { rows: Some("r.txt".into()), columns: Some("c.txt".into()), both: None };
        let options = "--rows r.txt -o out --refusals=numbers a.lp --columns c.txt";
        let (file, out) = ("a.lp".into(), Some("out".into()));
        let sheet = Task::Sheet { file, orders: orders(), out, numbers: true };
        assert_eq!(parsed(&format!("sheet {options}")), Ok(sheet));
        let (file, out) = ("a.lp".into(), Some("out".into()));
        let picture = Task::Picture { file, orders: orders(), out, numbers: true };
        assert_eq!(parsed(&format!("picture {options}")), Ok(picture));
        let bare = Task::Sheet { file: "-".into(), orders: OrderFiles::default(), out: None, numbers: false };
        assert_eq!(parsed("sheet -"), Ok(bare));
    }

    #[test]
    fn a_load_has_two_numbers() {
        let load = |rows, seed| Task::Load(Load { rows, seed, numbers: false, out: None });
        assert_eq!(parsed("load 5 1"), Ok(load(5, 1)));
        assert_eq!(parsed("load 0004096 065535"), Ok(load(4096, 65535)));
        // The library judges the rows.
        assert_eq!(parsed("load 0 0"), Ok(load(0, 0)));
        assert_eq!(parsed("load 18446744073709551615 1"), Ok(load(usize::MAX, 1)));
        let options = Task::Load(Load { rows: 5, seed: 1, numbers: true, out: Some("a.lp".into()) });
        assert_eq!(parsed("load -o a.lp 5 --refusals=numbers 1"), Ok(options));
    }

    #[test]
    fn a_bad_word_of_a_load_is_named() {
        let bad = [
            ("load", "N and SEED"),
            ("load 5", "\"5\""),
            ("load 5 1 2", "\"2\""),
            ("load five 1", "\"five\""),
            ("load 5 +1", "\"+1\""),
            ("load -- -5 1", "\"-5\""),
            ("load 5 -1", "SEED is a decimal number, 0 to 65535, not \"-1\""),
            ("load 5 65536", "\"65536\""),
            ("load 18446744073709551616 1", "\"18446744073709551616\""),
            ("load 5 1 --order r.txt", "\"--order\""),
        ];
        for (line, word) in bad {
            assert!(parsed(line).is_err_and(|said| said.contains(word)), "{line}: {:?}", parsed(line));
        }
    }

    #[test]
    fn a_check_has_two_files() {
        let check = |hex, right: Option<&str>, numbers, out: Option<&str>| {
            let (file, scores) = ("a.lp".into(), "x.txt".into());
            Task::Check(Check { file, scores, right: right.map(Into::into), hex, numbers, out: out.map(Into::into) })
        };
        assert_eq!(parsed("check a.lp x.txt"), Ok(check(false, None, false, None)));
        let line = "check --hex a.lp --right b.txt x.txt --refusals numbers -o out";
        assert_eq!(parsed(line), Ok(check(true, Some("b.txt"), true, Some("out"))));
        assert_eq!(parsed("check a.lp"), Err("check needs two files, not 1".to_string()));
    }

    #[test]
    fn help_is_found_everywhere() {
        assert_eq!(parsed("--help"), Ok(Task::Help(Topic::All)));
        assert_eq!(parsed("help picture"), Ok(Task::Help(Topic::Picture)));
        assert_eq!(parsed("help sheet"), Ok(Task::Help(Topic::Sheet)));
        assert_eq!(parsed("help load"), Ok(Task::Help(Topic::Load)));
        assert_eq!(parsed("help check"), Ok(Task::Help(Topic::Check)));
        assert_eq!(parsed("convert --help"), Ok(Task::Help(Topic::Convert)));
    }

    #[test]
    fn bad_usage_is_said() {
        let bad = [
            "",
            "sovle a",
            "solve",
            "solve a b",
            "solve a --form",
            "solve a --form wide",
            "solve a --hex=1",
            "solve a --hex --hex",
            "structure a --hex",
            "convert a",
            "convert a b c",
            "convert a b --order r --rows r",
            "solve a --columns c --order r",
            "picture a --form row",
            "sheet",
            "sheet a b",
            "sheet a --right b",
            "sheet a --order r --columns c",
            "solve a --refusals x",
            "solve a --floor",
            "solve a --floor=",
            "solve a --floor 1 --floor 1",
            "structure a --floor 1",
            "sheet a --floor 1",
            "load 5 1 --floor 1",
            "check",
            "check a x y",
            "check a x --order r",
            "check a x --floor 1",
            "--help x",
        ];
        for line in bad {
            assert!(parsed(line).is_err(), "{line}");
        }
    }
}
