// Whether two tables miss a state, by the library and by SAT solvers: whole processes, each of which reads a file.

use crate::compare::fill;
use crate::make::cases::{Kind, Rows};
use crate::make::families::System;
use crate::make::measured;
use crate::report;
use crate::rules::sets::Bits;
use crate::rules::text::{Sheet, Tables, LONGEST};
use crate::sheet;
use std::fs::{self, File};
use std::io::{self, Read};
use std::path::PathBuf;
use std::process::{Command, ExitStatus, Stdio};
use std::sync::mpsc;
use std::time::{Duration, Instant};
use std::{env, process, thread};

/// The solvers that are looked for if none is named: each reads a DIMACS file, and ends with one of two statuses.
const SOLVERS: [&str; 6] = ["minisat", "cadical", "kissat", "glucose", "picosat", "cryptominisat5"];
const SATISFIABLE: i32 = 10;
const UNSATISFIABLE: i32 = 20;

/// The best of so many runs is shown, or of fewer where they take too long together.
const RUNS: usize = 9;
const TOGETHER: Duration = Duration::from_secs(5);
/// A run that takes longer is ended.
const LIMIT: Duration = Duration::from_secs(60);

/// Measures the solver of this name, or all that are installed; whether every answer was right.
pub fn run(name: Option<&str>) -> io::Result<bool> {
    let names = name.map_or(SOLVERS.to_vec(), |name| vec![name]);
    let solvers: Vec<PathBuf> = names.iter().filter_map(|name| installed(name)).collect();
    if solvers.is_empty() {
        println!("no solver is installed of {}", names.join(", "));
        return Ok(true);
    }
    println!("whole processes, the best of {RUNS} runs, in milliseconds:");
    print!("{:<28} {:>5} {:>5} {:>5} verdict {:>14}", "family", "items", "paths", "cuts", "library");
    for solver in &solvers {
        print!(" {:>14}", solver.file_name().unwrap_or_default().to_string_lossy());
    }
    println!();
    let folder = Folder::new()?;
    let program = env::current_exe()?;
    let mut right = true;
    for system in measured::all() {
        let Some(question) = Question::of(&system) else {
            continue;
        };
        let text = folder.file("sheet", &question.text)?;
        let clauses = folder.file("cnf", clauses(&system).as_bytes())?;
        let (paths, cuts) = (system.paths.len(), system.cuts.len());
        let verdict = if question.missed { "MISS" } else { "SAME" };
        print!("{:<28} {:>5} {paths:>5} {cuts:>5} {verdict:<7}", system.name, system.items);
        let library = || timed(Command::new(&program).arg("library").stdin(File::open(&text)?), by_report);
        right &= show(&best(library)?, question.missed);
        for solver in &solvers {
            right &= show(&best(|| timed(Command::new(solver).arg(&clauses), by_status))?, question.missed);
        }
        println!();
    }
    println!("{}", if right { "every answer was right" } else { "the answers marked ! are wrong" });
    Ok(right)
}

// A sheet text, and whether its tables miss a state.
struct Question {
    text: Vec<u8>,
    missed: bool,
}

impl Question {
    // None for tables of which both cover a state, for rows that their kind cannot hold, and for a text that is too long.
    fn of(system: &System) -> Option<Question> {
        let labels: Vec<Vec<u8>> = (0..system.items).map(label).collect();
        let tables = if system.items <= Kind::Word.ceiling() {
            let (paths, cuts) = fill(&Rows::of(system, Kind::Word)).ok()?;
            Tables::Words(paths, cuts)
        } else {
            let (paths, cuts) = fill(&Rows::of(system, Kind::List)).ok()?;
            Tables::Lists(paths, cuts)
        };
        let sheet = Sheet { labels: labels.iter().map(Vec::as_slice).collect(), tables };
        let text = sheet::write(&sheet);
        let missed = missed(&report::answer(Ok(&sheet)))?;
        (text.len() <= LONGEST).then_some(Question { text, missed })
    }
}

// A short label: one digit to the base 94, or two.
fn label(item: usize) -> Vec<u8> {
    let digit = |number: usize| 33 + (number % 94) as u8;
    if item < 94 {
        vec![digit(item)]
    } else {
        vec![digit(item / 94), digit(item)]
    }
}

// Each path has an item that is down, and each cut one that is up: such a state is missed.
fn clauses(system: &System) -> String {
    let mut text = format!("p cnf {} {}\n", system.items, system.paths.len() + system.cuts.len());
    let mut clause = |row: &Bits, sign: &str| {
        for item in row.members() {
            text += &format!("{sign}{} ", item + 1);
        }
        text += "0\n";
    };
    system.paths.iter().for_each(|path| clause(path, "-"));
    system.cuts.iter().for_each(|cut| clause(cut, ""));
    text
}

// What a report says; none if it says BOTH, or is no report.
fn missed(report: &[u8]) -> Option<bool> {
    match report::verdict(report) {
        b"MISS" => Some(true),
        b"SAME" => Some(false),
        _ => None,
    }
}

fn by_report(_: ExitStatus, output: &[u8]) -> Option<bool> {
    missed(output)
}

fn by_status(status: ExitStatus, _: &[u8]) -> Option<bool> {
    match status.code() {
        Some(SATISFIABLE) => Some(true),
        Some(UNSATISFIABLE) => Some(false),
        _ => None,
    }
}

// What a process answered, and when; no time if it was ended at the limit.
struct Run {
    missed: Option<bool>,
    time: Option<Duration>,
}

fn timed(command: &mut Command, answer: fn(ExitStatus, &[u8]) -> Option<bool>) -> io::Result<Run> {
    let begun = Instant::now();
    let mut child = command.stdout(Stdio::piped()).stderr(Stdio::null()).spawn()?;
    let (sender, receiver) = mpsc::channel();
    if let Some(mut output) = child.stdout.take() {
        thread::spawn(move || {
            let mut bytes = Vec::new();
            // what cannot be read is no answer
            let _ = output.read_to_end(&mut bytes);
            let _ = sender.send(bytes);
        });
    }
    let Ok(output) = receiver.recv_timeout(LIMIT) else {
        child.kill()?;
        child.wait()?;
        return Ok(Run { missed: None, time: None });
    };
    let status = child.wait()?;
    Ok(Run { time: Some(begun.elapsed()), missed: answer(status, &output) })
}

// The run of the shortest time; one that was ended or has no answer decides at once.
fn best(mut run: impl FnMut() -> io::Result<Run>) -> io::Result<Run> {
    let begun = Instant::now();
    let mut best = run()?;
    for _ in 1..RUNS {
        if best.missed.is_none() || begun.elapsed() > TOGETHER {
            break;
        }
        let next = run()?;
        if next.missed != best.missed || next.time < best.time {
            best = next;
        }
    }
    Ok(best)
}

// Whether the answer is right, or there was no time for one.
fn show(run: &Run, missed: bool) -> bool {
    let Some(time) = run.time else {
        print!(" {:>14}", format!("over {}", LIMIT.as_millis()));
        return true;
    };
    let right = run.missed == Some(missed);
    let mark = if right { "" } else { "!" };
    print!(" {:>14}", format!("{:.2}{mark}", time.as_secs_f64() * 1e3));
    right
}

fn installed(name: &str) -> Option<PathBuf> {
    let folders = env::var_os("PATH")?;
    let mut paths = env::split_paths(&folders).map(|folder| folder.join(name));
    paths.find(|path| path.is_file())
}

// A folder for files, gone at the end.
struct Folder(PathBuf);

impl Folder {
    fn new() -> io::Result<Folder> {
        let path = env::temp_dir().join(format!("gomzietis-bench-{}", process::id()));
        fs::create_dir(&path)?;
        Ok(Folder(path))
    }

    fn file(&self, name: &str, bytes: &[u8]) -> io::Result<PathBuf> {
        let path = self.0.join(name);
        fs::write(&path, bytes)?;
        Ok(path)
    }
}

impl Drop for Folder {
    fn drop(&mut self) {
        let _ = fs::remove_dir_all(&self.0);
    }
}

#[cfg(test)]
mod tests {
    use super::*;
    use crate::make::families;
    use crate::make::Rng;
    use crate::rules::text::read;

    #[test]
    fn one_system_as_a_text_and_as_clauses() {
        let system = families::threshold(2, 3);
        let text =
            b"ITEM   0 !\nITEM   1 \"\nITEM   2 #\nPATH ! \"\nPATH ! #\nPATH \" #\nCUTS ! \"\nCUTS ! #\nCUTS \" #\n";
        let question = Question::of(&system).unwrap();
        assert_eq!((&question.text[..], question.missed), (&text[..], false));
        assert_eq!(clauses(&system), "p cnf 3 6\n-1 -2 0\n-1 -3 0\n-2 -3 0\n1 2 0\n1 3 0\n2 3 0\n");
        let mut rng = Rng::new(1);
        assert!(Question::of(&system.clone().struck(&mut rng)).unwrap().missed);
        assert!(Question::of(&system.shrunk(&mut rng)).is_none());
    }

    #[test]
    fn labels_differ() {
        let system = families::switch_tree(256, &System::item());
        let question = Question::of(&system).unwrap();
        assert_eq!(read(&question.text).ok().unwrap().labels.len(), system.items);
    }
}
