//! Times the library beside an ordinary solver with the same lists and order of operations, in one run.
//!
//! Options: --quick (fewer repeats), --small (n up to 512).
use lilacpliers_bench::ordinary;
#[cfg(any(feature = "library", feature = "standin"))]
use lilacpliers_tests::checks::{loads, Library};
#[cfg(any(feature = "library", feature = "standin"))]
use lilacpliers_tests::ffi::Loan;
use lilacpliers_tests::load;
use lilacpliers_tests::model::*;
use std::time::{Duration, Instant};

struct System {
    name: String,
    input: Input,
}

/// The test load of seed 1, made by the library's own call.
#[cfg(any(feature = "library", feature = "standin"))]
fn test_load(n: usize) -> Input {
    loads::made(&Library { nulls: false }, n, 1).unwrap_or_else(|fault| panic!("test load {n}: {fault}"))
}

/// Without the library there is no call: the ordinary solver is timed alone.
#[cfg(not(any(feature = "library", feature = "standin")))]
fn test_load(n: usize) -> Input {
    load::test_load(n, 1)
}

fn systems(small: bool) -> Vec<System> {
    let mut list: Vec<System> = [256, 512, 1_024, 2_048, 4_096]
        .iter()
        .map(|&n| System { name: format!("test load {n}"), input: test_load(n) })
        .collect();
    list.push(System { name: "tridiagonal 4096".to_string(), input: load::tridiagonal(4_096) });
    list.push(System { name: "grid 64 by 64".to_string(), input: load::grid(64) });
    list.retain(|system| !small || system.input.n <= 512);
    list
}

/// Both solvers of one call, ready to run again and again.
struct Pair<'a> {
    call: Call,
    input: &'a Input,
    ordinary: Buffers,
    #[cfg(any(feature = "library", feature = "standin"))]
    library: Loan,
}

fn ordinary_run(call: Call, input: &Input, buffers: &mut Buffers) -> Answer {
    let result = match call {
        Call::Structure(form) => ordinary::structure(form, input, buffers),
        _ => ordinary::solve(call.form(), input, buffers),
    };
    match result {
        Ok(counts) => counts.into(),
        Err(q) => q.into(),
    }
}

impl<'a> Pair<'a> {
    fn new(call: Call, input: &'a Input, slots: Slots) -> Pair<'a> {
        let buffers = Buffers::for_call(call, input.n, slots);
        Pair {
            call,
            input,
            #[cfg(any(feature = "library", feature = "standin"))]
            library: Loan::new(call, input, &buffers, 4),
            ordinary: buffers,
        }
    }

    fn time_ordinary(&mut self) -> (Duration, Answer) {
        let begin = Instant::now();
        let answer = ordinary_run(self.call, self.input, &mut self.ordinary);
        (begin.elapsed(), answer)
    }

    #[cfg(any(feature = "library", feature = "standin"))]
    fn time_library(&mut self) -> Option<Duration> {
        let begin = Instant::now();
        self.library.run();
        Some(begin.elapsed())
    }

    #[cfg(not(any(feature = "library", feature = "standin")))]
    fn time_library(&mut self) -> Option<Duration> {
        None
    }

    /// The same answer and, where both end well, the same slots in every buffer.
    #[cfg(any(feature = "library", feature = "standin"))]
    fn compare(&mut self, answer: Answer) -> Result<(), String> {
        let number = self.library.run();
        let given = self.library.answer(number).map_err(|fault| fault.to_string())?;
        if given != answer {
            return Err(format!("the library answers {given:?}, the ordinary solver {answer:?}"));
        }
        if number != 0 {
            return Ok(());
        }
        let found = self.library.buffers().map_err(|fault| fault.to_string())?;
        lilacpliers_tests::compare::buffers(&found, &self.ordinary).map_err(|fault| fault.to_string())
    }

    #[cfg(not(any(feature = "library", feature = "standin")))]
    fn compare(&mut self, _answer: Answer) -> Result<(), String> {
        Ok(())
    }
}

/// The fastest of runs that take turns: least disturbed by whatever else the machine does.
struct Times {
    ordinary: Duration,
    library: Option<Duration>,
}

/// Times one call, or says why it cannot.
fn measure(call: Call, input: &Input, slots: Slots, budget: Duration) -> Result<Times, String> {
    let mut pair = Pair::new(call, input, slots);
    let (_, answer) = pair.time_ordinary();
    if let Err(difference) = pair.compare(answer) {
        println!("{call:?} n {}: {difference}", input.n);
        return Err("differs from the ordinary one".to_string());
    }
    if answer.number != 0 {
        return Err(format!("does not fit: {} at {}", answer.number, answer.place));
    }
    let (mut ordinary, mut library) = (Vec::new(), Vec::new());
    let begin = Instant::now();
    while ordinary.len() < 5 || (begin.elapsed() < budget && ordinary.len() < 200) {
        ordinary.push(pair.time_ordinary().0);
        library.extend(pair.time_library());
    }
    let ordinary = ordinary.into_iter().min().ok_or("no run was timed")?;
    Ok(Times { ordinary, library: library.into_iter().min() })
}

fn milliseconds(time: Duration) -> String {
    format!("{:.3}", time.as_secs_f64() * 1e3)
}

/// Ordinary, library and ratio as three columns.
fn columns(times: &Result<Times, String>) -> String {
    match times {
        Err(why) => format!("{why:>32}"),
        Ok(Times { ordinary, library: None }) => format!("{:>12}{:>12}{:>8}", milliseconds(*ordinary), "-", "-"),
        Ok(Times { ordinary, library: Some(library) }) => {
            // The rest of a solve can be too short to be told from its structure.
            let ratio = match ordinary.is_zero() || library.is_zero() {
                true => "-".to_string(),
                false => format!("{:.2}", library.as_secs_f64() / ordinary.as_secs_f64()),
            };
            format!("{:>12}{:>12}{ratio:>8}", milliseconds(*ordinary), milliseconds(*library))
        }
    }
}

/// What a solve takes besides its structure.
fn rest(symbolic: &Result<Times, String>, total: &Result<Times, String>) -> Result<Times, String> {
    match (symbolic, total) {
        (Ok(symbolic), Ok(total)) => Ok(Times {
            ordinary: total.ordinary.saturating_sub(symbolic.ordinary),
            library: total.library.zip(symbolic.library).map(|(whole, part)| whole.saturating_sub(part)),
        }),
        _ => Err("-".to_string()),
    }
}

/// Index and value slots that the lists of the form need, None where they are over the limit.
fn exact_slots(form: Form, input: &Input) -> Option<Slots> {
    // The row form has no structure call; its upper side is the shared form's.
    let form = if form == Form::Row { Form::Shared } else { form };
    let mut buffers = Buffers::for_call(Call::Structure(form), input.n, Slots::all(MAX_SLOTS));
    let counts = ordinary::structure(form, input, &mut buffers).ok()?;
    let used = |store: &Store, values: u64| store.runs.last().map_or(values as usize, |&run| run as usize);
    Some(Slots {
        lower_index: used(&buffers.lower, counts.lower),
        lower_values: counts.lower as usize,
        upper_index: used(&buffers.upper, counts.upper),
        upper_values: counts.upper as usize,
    })
}

fn table(title: &str, systems: &[System], budget: Duration, slots: impl Fn(Form, &Input) -> Option<Slots>) {
    println!("{title}");
    println!("{:<18}{:<8}{:^32}{:^32}{:^32}", "", "", "symbolic (structure)", "numeric (the rest)", "total (solve)");
    let heads = format!("{:>12}{:>12}{:>8}", "ordinary ms", "library ms", "ratio");
    println!("{:<18}{:<8}{heads}{heads}{heads}", "system", "form");
    for system in systems {
        for form in [Form::Plain, Form::Shared] {
            let Some(slots) = slots(form, &system.input) else {
                continue;
            };
            let symbolic = measure(Call::Structure(form), &system.input, slots, budget);
            let total = measure(Call::Solve(form), &system.input, slots, budget);
            let numeric = rest(&symbolic, &total);
            let parts = [columns(&symbolic), columns(&numeric), columns(&total)].concat();
            println!("{:<18}{:<8}{parts}", system.name, format!("{form:?}"));
        }
    }
    println!();
}

/// The three solves of the library and the ordinary plain one, each the fastest of runs that take turns.
#[cfg(any(feature = "library", feature = "standin"))]
fn solves(input: &Input, slots: [Slots; 3], budget: Duration) -> Result<([Duration; 3], Duration), String> {
    let loan = |(form, slots): (Form, Slots)| {
        let call = Call::Solve(form);
        Loan::new(call, input, &Buffers::for_call(call, input.n, slots), 4)
    };
    let mut loans = [(Form::Plain, slots[0]), (Form::Shared, slots[1]), (Form::Row, slots[2])].map(loan);
    let mut ordinary = Buffers::for_call(Call::Solve(Form::Plain), input.n, slots[0]);
    let (mut fastest, mut beside) = ([Duration::MAX; 3], Duration::MAX);
    let begin = Instant::now();
    let mut turns = 0;
    while turns < 5 || (begin.elapsed() < budget && turns < 200) {
        for (loan, time) in loans.iter_mut().zip(&mut fastest) {
            let start = Instant::now();
            let number = loan.run();
            *time = start.elapsed().min(*time);
            if number != 0 {
                return Err(format!("refused with {number}"));
            }
        }
        let start = Instant::now();
        ordinary_run(Call::Solve(Form::Plain), input, &mut ordinary);
        beside = start.elapsed().min(beside);
        turns += 1;
    }
    Ok((fastest, beside))
}

/// Shared and row as ratios to the library's own plain solve and to the ordinary plain one; growth from size to size.
#[cfg(any(feature = "library", feature = "standin"))]
fn forms_table(title: &str, systems: &[System], budget: Duration, slots: impl Fn(Form, &Input) -> Option<Slots>) {
    println!("The three solves, {title}");
    let heads = ["plain ms", "shared ms", "row ms", "shared/plain", "row/plain", "shared/ord.", "row/ord.", "growth"];
    let line: String = heads.iter().map(|head| format!("{head:>13}")).collect();
    println!("{:<18}{line}", "system");
    let mut before: Option<f64> = None;
    let mut found: Vec<(String, f64)> = Vec::new();
    for system in systems {
        let fitting = [Form::Plain, Form::Shared, Form::Row].map(|form| slots(form, &system.input));
        let [Some(plain), Some(shared), Some(row)] = fitting else {
            println!("{:<18}does not fit", system.name);
            continue;
        };
        match solves(&system.input, [plain, shared, row], budget) {
            Err(why) => println!("{:<18}{why}", system.name),
            Ok((times, ordinary)) => {
                let [plain, shared, row] = times.map(|time| time.as_secs_f64() * 1e3);
                let ordinary = ordinary.as_secs_f64() * 1e3;
                let load = system.name.starts_with("test load");
                let growth = before.filter(|_| load).map_or("-".to_string(), |old| format!("{:.2}", plain / old));
                before = load.then_some(plain);
                let ratios = [shared / plain, row / plain, shared / ordinary, row / ordinary];
                let numbers: String = [plain, shared, row].iter().map(|ms| format!("{ms:>13.3}")).collect();
                let ratios: String = ratios.iter().map(|ratio| format!("{ratio:>13.2}")).collect();
                println!("{:<18}{numbers}{ratios}{growth:>13}", system.name);
                found.push((system.name.clone(), plain));
            }
        }
    }
    let time = |name: &str| found.iter().find(|(other, _)| other == name).map(|(_, ms)| *ms);
    if let (Some(tridiagonal), Some(load)) = (time("tridiagonal 4096"), time("test load 1024")) {
        println!("tridiagonal 4096 takes {:.3} of test load 1024", tridiagonal / load);
    }
    println!();
}

/// A library's call on what a solve left: its own run is timed in turns with others.
#[cfg(any(feature = "library", feature = "standin"))]
fn over(call: Call, input: &Input, left: &Buffers) -> Loan {
    let mut lent = input.clone();
    if let Call::Resolve(_) = call {
        (lent.starts, lent.columns, lent.values) = (Vec::new(), Vec::new(), Vec::new());
    }
    Loan::new(call, &lent, left, 4)
}

/// Solve, refactor over its lists and another right side over its factors, each the fastest of runs that take turns.
#[cfg(any(feature = "library", feature = "standin"))]
fn reuse(form: Form, input: &Input, slots: Slots, budget: Duration) -> Result<[Duration; 3], String> {
    let call = Call::Solve(form);
    let mut solve = Loan::new(call, input, &Buffers::for_call(call, input.n, slots), 4);
    if solve.run() != 0 {
        return Err("refused".to_string());
    }
    let left = solve.buffers().map_err(|fault| fault.to_string())?;
    let mut loans = [solve, over(Call::Refactor(form), input, &left), over(Call::Resolve(form), input, &left)];
    let mut fastest = [Duration::MAX; 3];
    let begin = Instant::now();
    let mut turns = 0;
    while turns < 5 || (begin.elapsed() < budget && turns < 200) {
        for (loan, time) in loans.iter_mut().zip(&mut fastest) {
            let start = Instant::now();
            let number = loan.run();
            *time = start.elapsed().min(*time);
            if number != 0 {
                return Err(format!("refused with {number}"));
            }
        }
        turns += 1;
    }
    for loan in &loans {
        let found = loan.buffers().map_err(|fault| fault.to_string())?;
        lilacpliers_tests::compare::buffers(&found, &left).map_err(|fault| fault.to_string())?;
    }
    Ok(fastest)
}

/// Refactor as a ratio to solve, another right side as ratios to refactor and to the numbers that it reads.
#[cfg(any(feature = "library", feature = "standin"))]
fn reuse_table(systems: &[System], budget: Duration) {
    println!("Over what a solve left, stores just long enough");
    let heads = ["solve ms", "refactor ms", "resolve ms", "refact./solve", "resolve/ref.", "ns a factor"];
    let line: String = heads.iter().map(|head| format!("{head:>14}")).collect();
    println!("{:<18}{:<8}{line}", "system", "form");
    for system in systems {
        for form in [Form::Plain, Form::Shared] {
            let Some(slots) = exact_slots(form, &system.input) else { continue };
            match reuse(form, &system.input, slots, budget) {
                Err(why) => println!("{:<18}{:<8}{why}", system.name, format!("{form:?}")),
                Ok(times) => {
                    let [solve, refactor, resolve] = times.map(|time| time.as_secs_f64() * 1e3);
                    let factors = (slots.lower_values + slots.upper_values + system.input.n) as f64;
                    let figures = [refactor / solve, resolve / refactor, resolve * 1e6 / factors];
                    let times: String = [solve, refactor, resolve].iter().map(|ms| format!("{ms:>14.3}")).collect();
                    let figures: String = figures.iter().map(|figure| format!("{figure:>14.3}")).collect();
                    println!("{:<18}{:<8}{times}{figures}", system.name, format!("{form:?}"));
                }
            }
        }
    }
    println!();
}

fn main() {
    let words: Vec<String> = std::env::args().skip(1).collect();
    let has = |word: &str| words.iter().any(|given| given == word);
    let budget = Duration::from_millis(if has("--quick") { 100 } else { 1_500 });
    let systems = systems(has("--small"));
    println!(
        "The fastest of runs that take turns. Both solvers clear the unused slots of every store within the time."
    );
    println!("Ratio: the library's time over the ordinary solver's.\n");
    let largest = Slots::all(MAX_SLOTS);
    table("Stores of 1,048,576 slots", &systems, budget, |_, _| Some(largest));
    table("Stores just long enough", &systems, budget, exact_slots);
    #[cfg(any(feature = "library", feature = "standin"))]
    {
        forms_table("stores of 1,048,576 slots", &systems, budget, |_, _| Some(largest));
        forms_table("stores just long enough", &systems, budget, exact_slots);
        reuse_table(&systems, budget);
    }
}
