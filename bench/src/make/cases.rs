// The cases of a comparison: texts and tables, each made from a seed and its own number.

use super::families::{self, System};
use super::{texts, Rng};
use crate::rules::sets::Bits;

/// The kinds of sets, by the numbers that the library gives them.
#[derive(Clone, Copy, Debug, PartialEq, Eq)]
pub enum Kind {
    Word = 0,
    List = 1,
}

impl Kind {
    pub fn ceiling(self) -> usize {
        match self {
            Kind::Word => 64,
            Kind::List => 256,
        }
    }

    pub fn name(self) -> &'static str {
        match self {
            Kind::Word => "word",
            Kind::List => "list",
        }
    }
}

/// Two tables to be filled row by row.
#[derive(Clone, Debug)]
pub struct Rows {
    pub kind: Kind,
    pub items: usize,
    pub paths: Vec<Vec<usize>>,
    pub cuts: Vec<Vec<usize>>,
}

impl Rows {
    /// The rows of a system, in their order.
    pub fn of(system: &System, kind: Kind) -> Rows {
        let rows = |table: &[Bits]| table.iter().map(Bits::members).collect();
        Rows { kind, items: system.items, paths: rows(&system.paths), cuts: rows(&system.cuts) }
    }
}

pub enum Input {
    Text(Vec<u8>),
    Rows(Rows),
}

pub struct Case {
    pub name: String,
    pub input: Input,
}

/// The case with this number.
pub fn case(seed: u64, number: u64) -> Case {
    let mut rng = Rng::of_case(seed, number);
    let rng = &mut rng;
    match rng.below(100) {
        0..=34 => {
            let system = families::small(rng);
            text(system.name.clone(), texts::sheet(&system, rng))
        }
        35..=39 => {
            let system = large(rng);
            text(system.name.clone(), texts::sheet(&system, rng))
        }
        40..=61 => {
            let system = if rng.chance(1, 8) { large(rng) } else { families::small(rng) };
            let (name, damaged) = texts::damaged(&texts::sheet(&system, rng), rng);
            text(format!("{}: {name}", system.name), damaged)
        }
        62..=79 => {
            let (name, special) = texts::special(rng);
            text(name, special)
        }
        _ => rows(rng),
    }
}

fn text(name: String, text: Vec<u8>) -> Case {
    Case { name, input: Input::Text(text) }
}

// A system that a text of its own kind can hold: words for at most 64 items, else lists.
fn large(rng: &mut Rng) -> System {
    if rng.chance(1, 2) {
        return families::large(64, false, rng);
    }
    let system = families::large(256, true, rng);
    if system.items <= 64 && rng.chance(3, 4) {
        let items = rng.within(65, 256);
        return system.permuted(items, rng);
    }
    system
}

fn rows(rng: &mut Rng) -> Case {
    let kind = if rng.chance(1, 2) { Kind::Word } else { Kind::List };
    let system = match kind {
        _ if rng.chance(4, 5) => families::small(rng),
        Kind::Word => families::large(64, false, rng),
        Kind::List => families::large(256, true, rng),
    };
    let mut rows = Rows::of(&system, kind);
    for row in rows.paths.iter_mut().chain(&mut rows.cuts) {
        rng.shuffle(row);
    }
    let mut name = format!("{} in the {} kind", system.name, kind.name());
    if rng.chance(1, 4) {
        name = format!("{name}: {}", damage(&mut rows, rng));
    }
    Case { name, input: Input::Rows(rows) }
}

// Damage to one table only, so that it does not matter which of the two is filled first.
fn damage(rows: &mut Rows, rng: &mut Rng) -> &'static str {
    let (items, ceiling) = (rows.items, rows.kind.ceiling());
    let table = if rng.chance(1, 2) { &mut rows.paths } else { &mut rows.cuts };
    let place = rng.below(table.len() + 1);
    match rng.below(7) {
        0 => {
            rows.items = *rng.pick(&[0, ceiling + 1, ceiling + 1000, usize::MAX]);
            "another item count"
        }
        1 => {
            let wrong = *rng.pick(&[items, items + 1, 255, 256, 511, 65_536, usize::MAX]);
            let mut row: Vec<usize> = (0..rng.below(items)).collect();
            row.insert(rng.below(row.len() + 1), wrong.max(items));
            table.insert(place, row);
            "an item out of range"
        }
        2 => {
            let twice = rng.below(items);
            table.insert(place, vec![twice, twice]);
            "an item a second time"
        }
        3 => {
            let mut row: Vec<usize> = (0..items.min(rng.within(15, 20))).collect();
            if rng.chance(1, 2) {
                row.push(rng.below(items));
            }
            table.insert(0, row);
            "a long row"
        }
        4 => {
            if let Some(row) = table.first().cloned() {
                table.insert(place.max(1), row);
            }
            "a row once more"
        }
        5 => {
            table.insert(place, vec![]);
            "a row without items"
        }
        _ => {
            let count = rng.below(30);
            for _ in 0..count {
                let size = rng.below(5);
                let mut row: Vec<usize> = (0..size).map(|_| rng.below(items)).collect();
                row.sort_unstable();
                row.dedup();
                table.insert(rng.below(table.len() + 1), row);
            }
            "random rows"
        }
    }
}
