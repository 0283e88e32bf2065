// All that is printed for a text: the report, or the STOP line.

use crate::rules::sets::{Bits, Set};
use crate::rules::table::Table;
use crate::rules::text::{read, Sheet, Tables};
use crate::rules::Refusal;
use crate::search::{Search, Verdict};

/// What the program `audit` prints for a text.
pub fn print(text: &[u8]) -> Vec<u8> {
    answer(read(text).as_ref())
}

/// The same for a text that was read, or refused.
pub fn answer(sheet: Result<&Sheet, &Refusal>) -> Vec<u8> {
    let written = sheet.map_err(|refusal| *refusal).and_then(|sheet| match &sheet.tables {
        Tables::Words(paths, cuts) => report(&sheet.labels, paths, cuts),
        Tables::Lists(paths, cuts) => report(&sheet.labels, paths, cuts),
    });
    written.unwrap_or_else(|refusal| stop(refusal.number, refusal.line))
}

/// The STOP line; a number that is too wide is shown as nines.
pub fn stop(number: u8, line: usize) -> Vec<u8> {
    format!("STOP {} {}\n", columns(3, number.into()), columns(5, line)).into_bytes()
}

fn report<S: Set>(labels: &[&[u8]], paths: &Table<S>, cuts: &Table<S>) -> Result<Vec<u8>, Refusal> {
    let verdict = Search::new().audit(paths, cuts)?;
    let counts = (columns(5, cuts.rows().len()), columns(5, paths.rows().len()));
    let mut out = format!("ROWS {} {}\n{}\n", counts.0, counts.1, verdict.name()).into_bytes();
    if let Verdict::Miss(state) | Verdict::Both(state) = verdict {
        for (k, label) in labels.iter().enumerate() {
            out.extend(format!("{} {} ", way(&state, k), columns(3, k)).bytes());
            out.extend_from_slice(label);
            out.push(b'\n');
        }
    }
    Ok(out)
}

/// The line of the verdict.
pub fn verdict(report: &[u8]) -> &[u8] {
    report.split(|&byte| byte == b'\n').nth(1).unwrap_or(b"")
}

// How an item of a state is shown.
fn way(state: &Bits, item: usize) -> &'static str {
    if state.has(item) {
        "  UP"
    } else {
        "DOWN"
    }
}

fn columns(width: usize, number: usize) -> String {
    let shown = format!("{number:>width$}");
    if shown.len() > width {
        "9".repeat(width)
    } else {
        shown
    }
}

#[cfg(test)]
mod tests {
    use super::*;

    #[test]
    fn the_example() {
        let text = b"ITEM   0 P1\nITEM   1 P2\nPATH P1 P2\nCUTS P1\n";
        assert_eq!(print(text), b"ROWS     1     1\nMISS\n  UP   0 P1\nDOWN   1 P2\n");
    }

    #[test]
    fn cuts_stand_before_paths() {
        let text = b"ITEM   0 a\nITEM   1 b\nPATH a b\nCUTS a\nCUTS b\n";
        assert_eq!(print(text), b"ROWS     2     1\nSAME\n");
        let text = b"ITEM   0 a\nITEM   1 b\nPATH b\nPATH a\nCUTS b\n";
        assert_eq!(print(text), b"ROWS     1     2\nBOTH\n  UP   0 a\nDOWN   1 b\n");
    }

    #[test]
    fn tables_without_rows() {
        assert_eq!(print(b"ITEM   0 a\n"), b"ROWS     0     0\nMISS\n  UP   0 a\n");
        assert_eq!(print(b"ITEM   0 a\nPATH\n"), b"ROWS     0     1\nSAME\n");
        assert_eq!(print(b"ITEM   0 a\nCUTS\n"), b"ROWS     1     0\nSAME\n");
        assert_eq!(print(b"ITEM   0 a\nCUTS\nPATH\n"), b"ROWS     1     1\nBOTH\nDOWN   0 a\n");
    }

    #[test]
    fn stop_lines() {
        assert_eq!(print(b""), b"STOP   1     0\n");
        assert_eq!(print(b"ITEM   0 a\nx"), b"STOP  14     2\n");
        assert_eq!(print(&[b'x'; 70_000]), b"STOP  13     0\n");
        assert_eq!(stop(255, 99_999), b"STOP 255 99999\n");
        assert_eq!(stop(9, 100_000), b"STOP   9 99999\n");
        assert_eq!(columns(3, 1000), "999");
    }
}
