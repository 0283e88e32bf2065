// The time of one audit, by the library and by the twin's searches, measured in turns in one run.

use crate::compare::fill;
use crate::lib_link::Flat;
use crate::make::cases::{Kind, Rows};
use crate::make::measured::{all, growing};
use crate::rules::sets::{List, Set, Word};
use crate::rules::table::Table;
use crate::search::{Search, Work};
use crate::wide::Wide;
use std::hint::black_box;
use std::time::Instant;

/// Audits are repeated until they take so long together, and each measurement is made so often.
const SECONDS: f64 = 0.1;
const ROUNDS: usize = 11;
/// The largest ratio is that of audits which take the library at least so many seconds.
const SHORTEST: f64 = 1e-6;

const HEAD: &str =
    "family                       items paths  cuts kind verdict   splits   library us      twin us  ratio      \
                    wide us  ratio";

/// One row of the table: what was audited, and the seconds that one audit took.
struct Line {
    work: Work,
    library: f64,
    twin: f64,
    wide: f64,
}

/// Measures the families whose name has this part.
pub fn run(part: &str) {
    println!("{HEAD}");
    let mut largest: [(f64, String); 2] = Default::default();
    for system in all().iter().filter(|system| system.name.contains(part)) {
        for kind in [Kind::Word, Kind::List] {
            if system.items > kind.ceiling() || (kind == Kind::List && system.longest() > 16) {
                continue;
            }
            let rows = Rows::of(system, kind);
            let (verdict, line) = measured_in(&rows);
            let shape = format!("{:>5} {:>5} {:>5}", rows.items, rows.paths.len(), rows.cuts.len());
            let ratios = [line.library / line.twin, line.library / line.wide];
            println!(
                "{:<28} {shape} {} {:<7} {:>8} {:>12} {:>12} {:>6.2} {:>12} {:>6.2}",
                system.name,
                kind.name(),
                verdict,
                line.work.splits,
                micros(line.library),
                micros(line.twin),
                ratios[0],
                micros(line.wide),
                ratios[1],
            );
            for (largest, ratio) in largest.iter_mut().zip(ratios) {
                if ratio > largest.0 && line.library >= SHORTEST {
                    *largest = (ratio, format!("{}, {}, {}", system.name, kind.name(), verdict));
                }
            }
        }
    }
    println!();
    proportion(part);
    let [twin, wide] = largest;
    println!("of audits that take the library {} us or more:", SHORTEST * 1e6);
    println!("largest ratio of library to wide: {:.2} ({})", wide.0, wide.1);
    println!("largest ratio of library to twin: {:.2} ({})", twin.0, twin.1);
}

fn micros(seconds: f64) -> String {
    let micros = seconds * 1e6;
    let digits = if micros < 100.0 { 2 } else { 0 };
    format!("{micros:.digits$}")
}

// What the searches cost for each row left in a half, for growing sizes of a family.
fn proportion(part: &str) {
    let grow = growing();
    let grow: Vec<_> = grow.iter().filter(|(name, ..)| name.contains(part)).collect();
    if grow.is_empty() {
        return;
    }
    println!("The cost of a half for each row left in it, against all rows of the tables, in nanoseconds:");
    println!(
        "{:<28} kind items  rows    splits rows/split | library twin wide, a row left | library twin wide, a row of all",
        "family"
    );
    for (name, kind, systems) in grow {
        for system in systems {
            let rows = Rows::of(system, *kind);
            let (_, line) = measured_in(&rows);
            let all = rows.paths.len() + rows.cuts.len();
            let times = [line.library, line.twin, line.wide].map(|seconds| seconds * 1e9);
            let left = times.map(|time| format!("{:>8.2}", time / line.work.rows as f64)).concat();
            let whole = times.map(|time| format!("{:>8.3}", time / (line.work.splits * all as u64) as f64)).concat();
            println!(
                "{name:<28} {} {:>5} {all:>5} {:>9} {:>10.1} | {left}     | {whole}",
                kind.name(),
                rows.items,
                line.work.splits,
                line.work.rows as f64 / line.work.splits as f64,
            );
        }
    }
    println!();
}

fn measured_in(rows: &Rows) -> (String, Line) {
    match rows.kind {
        Kind::Word => measured::<Word>(rows),
        Kind::List => measured::<List>(rows),
    }
}

fn measured<S: Set>(rows: &Rows) -> (String, Line) {
    let (paths, cuts) = fill::<S>(rows).expect("the families' rows are accepted");
    let mut metered = Search::<S, Work>::metered();
    let verdict = metered.audit(&paths, &cuts).expect("the families' tables are accepted");
    let flat = Flat::of(rows);
    let mut state = [0; 256];
    let code = flat.audit(rows, 1, &mut state);
    let agreed = if code == verdict.code() { "" } else { "!" };
    let name = format!("{}{agreed}", verdict.name());

    let mut library = |times: usize| {
        black_box(flat.audit(rows, times, &mut state));
    };
    let mut twin = |times: usize| {
        with_tables::<S>(rows, |paths, cuts| {
            let mut search: Search<S> = Search::new();
            for _ in 0..times {
                let _ = black_box(search.audit(black_box(paths), black_box(cuts)));
            }
        })
    };
    let mut wide = |times: usize| {
        with_tables::<S>(rows, |paths, cuts| {
            let mut search = Wide::<()>::new();
            for _ in 0..times {
                let _ = black_box(search.audit(black_box(paths), black_box(cuts)));
            }
        })
    };
    let mut sides: [&mut dyn FnMut(usize); 3] = [&mut library, &mut twin, &mut wide];
    let [library, twin, wide] = seconds_each(&mut sides);
    (name, Line { work: *metered.meter(), library, twin, wide })
}

fn with_tables<S: Set>(rows: &Rows, act: impl FnOnce(&Table<S>, &Table<S>)) {
    if let Ok((paths, cuts)) = fill::<S>(rows) {
        act(&paths, &cuts);
    }
}

// The seconds of one audit of each side: the best of many audits less the best of one, filled alike, divided by how many more.
fn seconds_each<const N: usize>(sides: &mut [&mut dyn FnMut(usize); N]) -> [f64; N] {
    let mut more = [0; N];
    for (more, side) in more.iter_mut().zip(sides.iter_mut()) {
        *more = repetitions(side);
    }
    let mut one = [f64::MAX; N];
    let mut many = [f64::MAX; N];
    for _ in 0..ROUNDS {
        for k in 0..N {
            one[k] = one[k].min(seconds(sides[k], 1));
            many[k] = many[k].min(seconds(sides[k], more[k] + 1));
        }
    }
    std::array::from_fn(|k| (many[k] - one[k]).max(1e-12) / more[k] as f64)
}

fn seconds(side: &mut dyn FnMut(usize), times: usize) -> f64 {
    let begun = Instant::now();
    side(times);
    begun.elapsed().as_secs_f64()
}

// How many audits more than one take long enough.
fn repetitions(side: &mut dyn FnMut(usize)) -> usize {
    let one = seconds(side, 1);
    let mut more = 1;
    loop {
        let taken = seconds(side, more + 1) - one;
        if taken >= SECONDS || more >= 1 << 28 {
            return more;
        }
        let wanted = 1.1 * SECONDS / taken.max(1e-9);
        more = ((more as f64 * wanted) as usize).clamp(more + 1, 16 * more);
    }
}
