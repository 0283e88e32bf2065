// The comparison of library and twin over cases made from a seed.

use crate::brute;
use crate::lib_link::{self, Written};
use crate::make::cases::{case, Input, Kind, Rows};
use crate::make::Rng;
use crate::report;
use crate::rules::sets::{Bits, List, Set, Word};
use crate::rules::table::Table;
use crate::rules::text::{read, Sheet, Tables, LONGEST, ROW_PLACES};
use crate::rules::Refusal;
use crate::search::{Search, Verdict, Work};
use crate::sheet;
use crate::wide::Wide;
use std::collections::BTreeMap;

/// So many differences are shown at most, and so many bytes of each text.
const SHOWN: usize = 5;
const SHOWN_BYTES: usize = 3000;

// What differs, with the twin's and the library's side of it.
struct Difference {
    what: String,
    twin: String,
    library: String,
}

fn differ(what: impl Into<String>, twin: impl Into<String>, library: impl Into<String>) -> Difference {
    Difference { what: what.into(), twin: twin.into(), library: library.into() }
}

type Checked = Result<(), Difference>;

/// What the cases were, to see that all verdicts and refusals came.
#[derive(Default)]
struct Counts {
    answers: BTreeMap<String, usize>,
    other_states: usize,
}

/// Compares so many cases, from the one with a number on; whether all passed.
pub fn run(seed: u64, count: u64, from: u64) -> bool {
    let mut counts = Counts::default();
    let (mut passed, mut failed) = (0, 0);
    for number in from..from.saturating_add(count) {
        if (passed + failed) % 10_000 == 9_999 {
            eprintln!("at case {number}");
        }
        let case = case(seed, number);
        let mut rng = Rng::of_case(!seed, number);
        let checked = match &case.input {
            Input::Text(text) => compare_text(text, &mut rng, &mut counts),
            Input::Rows(rows) => compare_rows(rows, &mut rng, &mut counts),
        };
        match checked {
            Ok(()) => passed += 1,
            Err(difference) => {
                failed += 1;
                if failed <= SHOWN {
                    show(seed, number, &case.name, &case.input, &difference);
                }
            }
        }
    }
    println!("seed {seed}, cases {count}");
    for (answer, count) in &counts.answers {
        println!("  {answer}: {count}");
    }
    println!("  states shown by the library that the twin does not show: {}", counts.other_states);
    println!("{passed} passed, {failed} failed");
    failed == 0
}

/// The bytes of a case that is a text, or its rows in words.
pub fn raw(seed: u64, number: u64) -> Vec<u8> {
    match case(seed, number).input {
        Input::Text(text) => text,
        Input::Rows(rows) => format!("{rows:?}\n").into_bytes(),
    }
}

fn show(seed: u64, number: u64, name: &str, input: &Input, difference: &Difference) {
    println!("difference in case {number} of seed {seed} ({name}): {}", difference.what);
    match input {
        Input::Text(text) => println!("text of {} bytes:\n{}", text.len(), shown(text)),
        Input::Rows(rows) => println!("rows:\n{}", shown(format!("{rows:?}").as_bytes())),
    }
    println!("twin:\n{}\nlibrary:\n{}\n", difference.twin, difference.library);
}

fn shown(bytes: &[u8]) -> String {
    let front = &bytes[..bytes.len().min(SHOWN_BYTES)];
    let text = front.escape_ascii().to_string().replace("\\n", "\\n\n");
    let more = bytes.len() - front.len();
    if more == 0 {
        text
    } else {
        format!("{text}.. and {more} bytes more")
    }
}

fn written(answer: &Written) -> String {
    format!("answer {}\n{}", answer.length, shown(&answer.bytes))
}

// No guard or input byte may have changed, nor output behind the answered length.
fn unharmed(what: &str, faults: &[String]) -> Checked {
    if faults.is_empty() {
        Ok(())
    } else {
        Err(differ(what, "", faults.join("; ")))
    }
}

fn compare_text(text: &[u8], rng: &mut Rng, counts: &mut Counts) -> Checked {
    let read = read(text);
    let own = report::answer(read.as_ref());
    let answer = match &read {
        Ok(sheet) => {
            let verdict = report::verdict(&own);
            let kind = match sheet.tables {
                Tables::Words(..) => Kind::Word,
                Tables::Lists(..) => Kind::List,
            };
            format!("{} of a text, {} kind", String::from_utf8_lossy(verdict), kind.name())
        }
        Err(refusal) => format!("refusal {:>2} of a text", refusal.number),
    };
    *counts.answers.entry(answer).or_default() += 1;
    if let Ok(sheet) = &read {
        own_report_holds(sheet, &own)?;
    }

    let room = room(own.len(), rng);
    let theirs = lib_link::report(text, room, rng);
    unharmed("report", &theirs.faults)?;
    if theirs.length < 0 || theirs.bytes != own {
        let fitting = theirs.length >= 0 && read.as_ref().is_ok_and(|sheet| same_but_state(sheet, &own, &theirs.bytes));
        if !fitting {
            return Err(differ(format!("report, with room for {room} bytes"), shown(&own), written(&theirs)));
        }
        counts.other_states += 1;
    }
    if rng.chance(1, 8) {
        let room = rng.below(own.len());
        let theirs = lib_link::report(text, room, rng);
        unharmed("report without room", &theirs.faults)?;
        // a report that has no room gives way to the STOP line of refusal 12; nothing is written where that has none either
        let stop = b"STOP  12     0\n";
        let wanted: &[u8] = if room >= stop.len() && room < own.len() { stop } else { b"" };
        if (theirs.length >= 0) == wanted.is_empty() || theirs.bytes != wanted {
            let wanted = format!("{:?}, with room for {room} bytes of {}", String::from_utf8_lossy(wanted), own.len());
            return Err(differ("report without room", wanted, written(&theirs)));
        }
    }
    compare_sheet(text, &read, rng)
}

fn compare_sheet(text: &[u8], read: &Result<Sheet, Refusal>, rng: &mut Rng) -> Checked {
    let (wanted, own) = match read {
        Ok(sheet) => {
            let own = sheet::write(sheet);
            (own.len() as isize, own)
        }
        Err(refusal) => (-isize::from(refusal.number), Vec::new()),
    };
    let room = room(own.len(), rng);
    let theirs = lib_link::sheet(text, room, rng);
    unharmed("sheet", &theirs.faults)?;
    if theirs.length != wanted || theirs.bytes != own {
        let twin = format!("answer {wanted}\n{}", shown(&own));
        return Err(differ(format!("sheet, with room for {room} bytes"), twin, written(&theirs)));
    }
    if !own.is_empty() && rng.chance(1, 8) {
        let room = rng.below(own.len());
        let theirs = lib_link::sheet(text, room, rng);
        unharmed("sheet without room", &theirs.faults)?;
        if theirs.length != -12 {
            let wanted = format!("-12, with room for {room} bytes of {}", own.len());
            return Err(differ("sheet without room", wanted, written(&theirs)));
        }
    }
    if !own.is_empty() && rng.chance(1, 4) {
        let again = lib_link::sheet(&theirs.bytes, theirs.bytes.len(), rng);
        unharmed("sheet once more", &again.faults)?;
        if again.bytes != own {
            return Err(differ("sheet once more", shown(&own), written(&again)));
        }
    }
    Ok(())
}

// Exactly enough, a few bytes more, or as much as the program lends.
fn room(length: usize, rng: &mut Rng) -> usize {
    match rng.below(4) {
        0 => length,
        1 => length + rng.within(1, 40),
        _ => LONGEST.max(length),
    }
}

fn rows_of(sheet: &Sheet) -> (Vec<Bits>, Vec<Bits>) {
    match &sheet.tables {
        Tables::Words(paths, cuts) => (paths.bits(), cuts.bits()),
        Tables::Lists(paths, cuts) => (paths.bits(), cuts.bits()),
    }
}

// The twin's own report against brute force and the other search.
fn own_report_holds(sheet: &Sheet, own: &[u8]) -> Checked {
    let (paths, cuts) = rows_of(sheet);
    let wide = match &sheet.tables {
        Tables::Words(paths, cuts) => agree(paths, cuts),
        Tables::Lists(paths, cuts) => agree(paths, cuts),
    };
    let verdict = wide?;
    hold(sheet.labels.len(), &paths, &cuts, &verdict)?;
    if report::verdict(own) == verdict.name().as_bytes() && same_but_state(sheet, own, own) {
        Ok(())
    } else {
        Err(differ("the twin's own report", shown(own), "(not asked)"))
    }
}

// Both searches of the twin give one verdict and one state, with the same halves.
fn agree<S: Set>(paths: &Table<S>, cuts: &Table<S>) -> Result<Verdict, Difference> {
    let mut plain = Search::<S, Work>::metered();
    let mut wide = Wide::<Work>::new();
    let answers = [plain.audit(paths, cuts), wide.audit(paths, cuts)];
    match answers {
        [Ok(verdict), Ok(other)] if verdict == other && plain.meter() == wide.meter() => Ok(verdict),
        _ => {
            let twin = format!("{answers:?}\n{:?}\n{:?}", plain.meter(), wide.meter());
            Err(differ("the two searches of the twin", twin, "(not asked)"))
        }
    }
}

// A verdict against brute force, where there are few items, and its state against the rows.
fn hold(items: usize, paths: &[Bits], cuts: &[Bits], verdict: &Verdict) -> Checked {
    if items <= brute::MOST_ITEMS {
        let truth = brute::truth(items, paths, cuts);
        if truth.name() != verdict.name() {
            return Err(differ("brute force", truth.name(), verdict.name()));
        }
    }
    let (name, state) = match verdict {
        Verdict::Same => return Ok(()),
        Verdict::Miss(state) => ("MISS", state),
        Verdict::Both(state) => ("BOTH", state),
    };
    if state.within(&Bits::below(items)) && bears_out(name.as_bytes(), state, paths, cuts) {
        Ok(())
    } else {
        Err(differ("the state shown", "", format!("{name} {:?}", state.members())))
    }
}

fn bears_out(verdict: &[u8], state: &Bits, paths: &[Bits], cuts: &[Bits]) -> bool {
    match verdict {
        b"MISS" => brute::is_missed(state, paths, cuts),
        b"BOTH" => brute::is_doubled(state, paths, cuts),
        _ => false,
    }
}

// Whether a report equals the twin's but for the state, and the state is what the verdict says.
fn same_but_state(sheet: &Sheet, own: &[u8], theirs: &[u8]) -> bool {
    if own.len() != theirs.len() {
        return false;
    }
    let split = |report: &[u8]| report.split(|&byte| byte == b'\n').map(<[u8]>::to_vec).collect::<Vec<_>>();
    let (own, theirs) = (split(own), split(theirs));
    let (items, paths_and_cuts) = (sheet.labels.len(), rows_of(sheet));
    if own.len() != theirs.len() || own.len() < 3 || own[..2] != theirs[..2] {
        return false;
    }
    if own[1] == b"SAME" {
        return own == theirs;
    }
    // a line for each item, and nothing behind the last feed
    if own.len() != items + 3 || own.last() != theirs.last() {
        return false;
    }
    let mut state = Bits::default();
    for (k, (own, theirs)) in own[2..].iter().zip(&theirs[2..]).take(items).enumerate() {
        if own.len() < 4 || own.get(4..) != theirs.get(4..) {
            return false;
        }
        match &theirs[..4] {
            b"  UP" => state.insert(k),
            b"DOWN" => {}
            _ => return false,
        }
    }
    bears_out(&own[1], &state, &paths_and_cuts.0, &paths_and_cuts.1)
}

fn compare_rows(rows: &Rows, rng: &mut Rng, counts: &mut Counts) -> Checked {
    match rows.kind {
        Kind::Word => compare_tables::<Word>(rows, rng, counts),
        Kind::List => compare_tables::<List>(rows, rng, counts),
    }
}

/// The tables of rows, filled paths first.
pub fn fill<S: Set>(rows: &Rows) -> Result<(Table<S>, Table<S>), Refusal> {
    let fill = |table: &[Vec<usize>]| {
        let mut filled = Table::open(rows.items, ROW_PLACES);
        table.iter().try_for_each(|row| filled.put(row).map(|_| ()))?;
        Ok(filled)
    };
    Ok((fill(&rows.paths)?, fill(&rows.cuts)?))
}

fn compare_tables<S: Set>(rows: &Rows, rng: &mut Rng, counts: &mut Counts) -> Checked {
    let tables = fill::<S>(rows).and_then(|tables| {
        crate::search::judge(&tables.0, &tables.1)?;
        Ok(tables)
    });
    let room = rows.items.min(256) + if rng.chance(1, 4) { rng.below(300) } else { 0 };
    let theirs = lib_link::audit(rows, rng.within(1, 3), room, rng);
    unharmed("audit of rows", &theirs.faults)?;
    let (code, answer) = match &tables {
        Err(refusal) => {
            (-i32::from(refusal.number), format!("refusal {:>2} of rows, {} kind", refusal.number, rows.kind.name()))
        }
        Ok((paths, cuts)) => {
            let verdict = agree(paths, cuts)?;
            hold(rows.items, &paths.bits(), &cuts.bits(), &verdict)?;
            let code = verdict.code();
            if code == theirs.code && code > 0 {
                compare_marks(rows.items, &paths.bits(), &cuts.bits(), &verdict, &theirs.marks, counts)?;
            }
            (code, format!("{} of rows, {} kind", verdict.name(), rows.kind.name()))
        }
    };
    *counts.answers.entry(answer).or_default() += 1;
    if code == theirs.code {
        Ok(())
    } else {
        Err(differ("audit of rows", format!("answer {code}"), format!("answer {}", theirs.code)))
    }
}

fn compare_marks(
    items: usize,
    paths: &[Bits],
    cuts: &[Bits],
    verdict: &Verdict,
    marks: &[u8],
    counts: &mut Counts,
) -> Checked {
    let (state, behind) = marks.split_at(items);
    let formed = state.iter().all(|&mark| mark <= 1) && behind.iter().all(|&mark| mark == 0);
    let state = Bits::of(&(0..items).filter(|&k| state[k] == 1).collect::<Vec<_>>());
    if !formed || !bears_out(verdict.name().as_bytes(), &state, paths, cuts) {
        return Err(differ("the state of an audit of rows", format!("{verdict:?}"), format!("marks {marks:?}")));
    }
    if !matches!(verdict, Verdict::Miss(own) | Verdict::Both(own) if *own == state) {
        counts.other_states += 1;
    }
    Ok(())
}

#[cfg(test)]
mod tests {
    use super::*;

    const TEXT: &[u8] = b"ITEM   0 a\nITEM   1 b\nPATH a b\nCUTS a\n";

    #[test]
    fn the_twin_agrees_with_itself() {
        assert!(run(3, 3_000, 0));
    }

    fn accepted(theirs: &str) -> bool {
        let sheet = read(TEXT).ok().unwrap();
        let own = report::print(TEXT);
        assert_eq!(own, b"ROWS     1     1\nMISS\n  UP   0 a\nDOWN   1 b\n");
        same_but_state(&sheet, &own, theirs.as_bytes())
    }

    #[test]
    fn only_another_missed_state_is_accepted() {
        assert!(accepted("ROWS     1     1\nMISS\n  UP   0 a\nDOWN   1 b\n"));
        assert!(!accepted("ROWS     1     1\nMISS\n  UP   0 a\n  UP   1 b\n"));
        assert!(!accepted("ROWS     1     1\nMISS\nDOWN   0 a\n  UP   1 b\n"));
        assert!(!accepted("ROWS     1     1\nMISS\n UP    0 a\nDOWN   1 b\n"));
        assert!(!accepted("ROWS     1     1\nMISS\n  UP   0 a\nDOWN   1 c\n"));
        assert!(!accepted("ROWS     1     1\nBOTH\n  UP   0 a\nDOWN   1 b\n"));
        assert!(!accepted("ROWS     1     1\nMISS\n  UP   0 a\nDOWN   1 b\n\n"));
        assert!(!accepted("ROWS     1     1\nSAME\n"));
        let text = b"ITEM   0 a\nITEM   1 b\nPATH a\n";
        let (sheet, own) = (read(text).ok().unwrap(), b"ROWS     0     1\nMISS\nDOWN   0 a\nDOWN   1 b\n");
        assert_eq!(report::print(text), own);
        assert!(same_but_state(&sheet, own, b"ROWS     0     1\nMISS\nDOWN   0 a\n  UP   1 b\n"));
    }
}
