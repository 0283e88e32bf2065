// An independent twin of the rules, and its comparison with the library: by answers and by speed.

mod brute;
mod compare;
mod lib_link;
mod make;
mod report;
mod rules;
mod search;
mod sheet;
mod solver;
mod speed;
#[cfg(test)]
mod stand_ins;
mod wide;

use std::io::{self, Read, Write};
use std::process::ExitCode;

const SEED: u64 = 1;
const COUNT: u64 = 60_000;

const USAGE: &str = "bench compare [SEED [COUNT [FROM]]]   compare library and twin, in cases made from a seed
bench speed [PART]                    measure one audit by both, in families whose name has this part
bench solver [SOLVER]                 measure whole processes: the library, and SAT solvers
bench text SEED NUMBER                the bytes of one case
bench library                         what the library prints for the text on standard input
bench report                          what the twin prints for it
bench sheet                           the text on standard input, read and written again by the twin";

fn main() -> ExitCode {
    let arguments: Vec<String> = std::env::args().skip(1).collect();
    let words: Vec<&str> = arguments.iter().map(String::as_str).collect();
    let Some(command) = Command::of(&words) else {
        eprintln!("{USAGE}");
        return ExitCode::from(2);
    };
    match command.run() {
        Ok(true) => ExitCode::SUCCESS,
        Ok(false) => ExitCode::FAILURE,
        Err(error) => {
            eprintln!("bench: {error}");
            ExitCode::FAILURE
        }
    }
}

enum Command<'a> {
    Compare { seed: u64, count: u64, from: u64 },
    Speed { part: &'a str },
    Solver { name: Option<&'a str> },
    Text { seed: u64, number: u64 },
    Library,
    Report,
    Sheet,
}

impl<'a> Command<'a> {
    fn of(words: &[&'a str]) -> Option<Command<'a>> {
        let (name, rest) = words.split_first()?;
        let number = |place: usize, otherwise: u64| rest.get(place).map_or(Some(otherwise), |word| word.parse().ok());
        Some(match (*name, rest.len()) {
            ("compare", ..=3) => {
                Command::Compare { seed: number(0, SEED)?, count: number(1, COUNT)?, from: number(2, 0)? }
            }
            ("speed", ..=1) => Command::Speed { part: rest.first().unwrap_or(&"") },
            ("solver", ..=1) => Command::Solver { name: rest.first().copied() },
            ("text", 2) => Command::Text { seed: number(0, SEED)?, number: number(1, 0)? },
            ("library", 0) => Command::Library,
            ("report", 0) => Command::Report,
            ("sheet", 0) => Command::Sheet,
            _ => return None,
        })
    }

    // Whether all went as it should.
    fn run(self) -> io::Result<bool> {
        match self {
            Command::Compare { seed, count, from } => return Ok(compare::run(seed, count, from)),
            Command::Speed { part } => speed::run(part),
            Command::Solver { name } => return solver::run(name),
            Command::Text { seed, number } => print(&compare::raw(seed, number))?,
            Command::Library => {
                let mut out = [0; rules::text::LONGEST];
                match lib_link::report_into(&input()?, &mut out) {
                    Some(bytes) => print(bytes)?,
                    None => return Ok(false),
                }
            }
            Command::Report => print(&report::print(&input()?))?,
            Command::Sheet => match rules::text::read(&input()?) {
                Ok(sheet) => print(&sheet::write(&sheet))?,
                Err(refusal) => print(&report::stop(refusal.number, refusal.line))?,
            },
        }
        Ok(true)
    }
}

// At most one byte more than the longest text.
fn input() -> io::Result<Vec<u8>> {
    let mut text = Vec::new();
    io::stdin().take(rules::text::LONGEST as u64 + 1).read_to_end(&mut text)?;
    Ok(text)
}

fn print(bytes: &[u8]) -> io::Result<()> {
    io::stdout().write_all(bytes)
}
