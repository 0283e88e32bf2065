// Sheet texts: the item lines read into labels, the path and cut lines put into two tables.

use super::sets::{List, Set, Word};
use super::table::Table;
use super::Refusal;
use std::collections::HashMap;

/// A text has at most this many bytes.
pub const LONGEST: usize = 65_535;
/// A sheet has at most this many items.
pub const MOST_ITEMS: usize = 256;
/// What the program `audit` lends: label places, and row places for each table.
pub const LABEL_PLACES: usize = 256;
pub const ROW_PLACES: usize = 1000;

const PATH: &[u8] = b"PATH";
const CUTS: &[u8] = b"CUTS";
const ITEM: &[u8] = b"ITEM";

/// The two tables of a sheet, in words for at most 64 items and else in lists.
pub enum Tables {
    Words(Table<Word>, Table<Word>),
    Lists(Table<List>, Table<List>),
}

/// A text that was read without refusal.
pub struct Sheet<'t> {
    pub labels: Vec<&'t [u8]>,
    pub tables: Tables,
}

/// Reads a whole text, with the places that the program `audit` lends.
pub fn read(text: &[u8]) -> Result<Sheet<'_>, Refusal> {
    let labels = read_items(text, LABEL_PLACES)?;
    let items = labels.len();
    let tables = if items <= Word::CEILING {
        let (mut paths, mut cuts) = (Table::open(items, ROW_PLACES), Table::open(items, ROW_PLACES));
        read_rows(text, &labels, &mut paths, &mut cuts)?;
        Tables::Words(paths, cuts)
    } else {
        let (mut paths, mut cuts) = (Table::open(items, ROW_PLACES), Table::open(items, ROW_PLACES));
        read_rows(text, &labels, &mut paths, &mut cuts)?;
        Tables::Lists(paths, cuts)
    };
    Ok(Sheet { labels, tables })
}

/// The labels of the item lines, up to the first line that begins with `PATH` or `CUTS`.
pub fn read_items(text: &[u8], places: usize) -> Result<Vec<&[u8]>, Refusal> {
    if text.len() > LONGEST {
        return Err(Refusal::new(13, text.len()));
    }
    let mut labels = Vec::new();
    let mut known = HashMap::new();
    for (line, chunk) in (1..).zip(chunks(text)) {
        if is_row(chunk) {
            break;
        }
        let next = labels.len();
        let label = item_label(chunk, next).ok_or(Refusal::new(14, line).at(line))?;
        if next == MOST_ITEMS {
            return Err(Refusal::new(1, next + 1).at(line));
        }
        if next == places {
            return Err(Refusal::new(6, places).at(line));
        }
        if let Some(earlier) = known.insert(label, next) {
            return Err(Refusal::new(15, earlier).at(line));
        }
        labels.push(label);
    }
    if labels.is_empty() {
        return Err(Refusal::new(1, 0));
    }
    Ok(labels)
}

/// Puts the rows of the lines behind the item lines; rows put before a refusal stay.
pub fn read_rows<S: Set>(
    text: &[u8],
    labels: &[&[u8]],
    paths: &mut Table<S>,
    cuts: &mut Table<S>,
) -> Result<(), Refusal> {
    if paths.items() == 0 || cuts.items() == 0 {
        return Err(Refusal::new(1, 0));
    }
    if paths.items() != cuts.items() || paths.items() != labels.len() {
        return Err(Refusal::new(8, paths.items()));
    }
    if text.len() > LONGEST {
        return Err(Refusal::new(13, text.len()));
    }
    let mut lowest = HashMap::new();
    for (k, label) in labels.iter().enumerate() {
        lowest.entry(*label).or_insert(k);
    }
    let rows = (1..).zip(chunks(text)).skip_while(|(_, chunk)| chunk.starts_with(ITEM));
    for (line, chunk) in rows {
        let names = row_labels(chunk).ok_or(Refusal::new(14, line).at(line))?;
        let row: Option<Vec<usize>> = names.iter().map(|name| lowest.get(name).copied()).collect();
        let row = row.ok_or(Refusal::new(16, line).at(line))?;
        let table = if chunk.starts_with(PATH) { &mut *paths } else { &mut *cuts };
        table.put(&row).map_err(|refusal| refusal.at(line))?;
    }
    Ok(())
}

// The lines, each with its line feed; a last one may lack it.
fn chunks(text: &[u8]) -> impl Iterator<Item = &[u8]> {
    text.split_inclusive(|&byte| byte == b'\n')
}

fn is_row(chunk: &[u8]) -> bool {
    chunk.starts_with(PATH) || chunk.starts_with(CUTS)
}

fn is_label(bytes: &[u8]) -> bool {
    (1..=12).contains(&bytes.len()) && bytes.iter().all(|byte| (33..=126).contains(byte))
}

// The label of a formed item line with this number.
fn item_label(chunk: &[u8], number: usize) -> Option<&[u8]> {
    let front = format!("ITEM {number:>3} ");
    let label = chunk.strip_suffix(b"\n")?.strip_prefix(front.as_bytes())?;
    is_label(label).then_some(label)
}

// The labels of a formed path or cut line.
fn row_labels(chunk: &[u8]) -> Option<Vec<&[u8]>> {
    if !is_row(chunk) {
        return None;
    }
    let rest = &chunk.strip_suffix(b"\n")?[PATH.len()..];
    if rest.is_empty() {
        return Some(Vec::new());
    }
    let names: Vec<&[u8]> = rest.strip_prefix(b" ")?.split(|&byte| byte == b' ').collect();
    names.iter().all(|name| is_label(name)).then_some(names)
}

#[cfg(test)]
mod tests {
    use super::*;
    use crate::rules::sets::Bits;

    fn stop(text: &[u8]) -> (u8, usize) {
        match read(text) {
            Ok(_) => (0, 0),
            Err(refusal) => (refusal.number, refusal.line),
        }
    }

    fn items(count: usize) -> Vec<u8> {
        (0..count).flat_map(|k| format!("ITEM {k:>3} i{k}\n").into_bytes()).collect()
    }

    fn with(front: &[u8], behind: &[u8]) -> Vec<u8> {
        [front, behind].concat()
    }

    #[test]
    fn item_lines() {
        assert_eq!(stop(b""), (1, 0));
        assert_eq!(stop(b"\n"), (14, 1));
        assert_eq!(stop(b"PATH\n"), (1, 0));
        assert_eq!(stop(b"PATHOLOGY"), (1, 0));
        assert_eq!(stop(b"CUTS"), (1, 0));
        assert_eq!(stop(b"PAT"), (14, 1));
        assert_eq!(stop(b"PAT\nH"), (14, 1));
        assert_eq!(stop(b"ITEM   0 a\n"), (0, 0));
        assert_eq!(stop(b"ITEM   0 a"), (14, 1));
        assert_eq!(stop(b"ITEM   0 a\r\n"), (14, 1));
        assert_eq!(stop(b"ITEM   0 \n"), (14, 1));
        assert_eq!(stop(b"ITEM   0\n"), (14, 1));
        assert_eq!(stop(b"ITEM   0 a \n"), (14, 1));
        assert_eq!(stop(b"ITEM   0  a\n"), (14, 1));
        assert_eq!(stop(b"ITEM 000 a\n"), (14, 1));
        assert_eq!(stop(b"ITEM 0   a\n"), (14, 1));
        assert_eq!(stop(b"ITEM   1 a\n"), (14, 1));
        assert_eq!(stop(b"item   0 a\n"), (14, 1));
        assert_eq!(stop(b" ITEM   0 a\n"), (14, 1));
        assert_eq!(stop(b"ITEM   0 123456789012\n"), (0, 0));
        assert_eq!(stop(b"ITEM   0 1234567890123\n"), (14, 1));
        assert_eq!(stop(b"ITEM   0 !~\n"), (0, 0));
        assert_eq!(stop(b"ITEM   0 \x7f\n"), (14, 1));
        assert_eq!(stop(b"ITEM   0 a\xff\n"), (14, 1));
        assert_eq!(stop(b"ITEM   0 a\nITEM   1 a\n"), (15, 2));
        assert_eq!(stop(b"ITEM   0 a\nITEM   1 A\nITEM   2 a\n"), (15, 3));
        assert_eq!(stop(b"ITEM   0 P1\nITEM   1 Pl\nPATH P1 Pl\n"), (0, 0));
        assert_eq!(stop(b"ITEM   0 a\n\nPATH a\n"), (14, 2));
    }

    #[test]
    fn many_items() {
        assert_eq!(stop(&items(256)), (0, 0));
        assert_eq!(stop(&items(257)), (1, 257));
        assert_eq!(stop(&with(&items(256), b"ITEM 256 i0\n")), (1, 257));
        assert_eq!(stop(&with(&items(256), b"ITEM 256 \n")), (14, 257));
        assert_eq!(stop(&with(&items(256), b"ITEM 257 x\n")), (14, 257));
        assert_eq!(read_items(&items(9), 8).unwrap_err(), Refusal { number: 6, value: 8, line: 9 });
        assert_eq!(read_items(&with(&items(8), b"ITEM   8 i3\n"), 8).unwrap_err().number, 6);
        let read = |count: usize| read(&items(count)).is_ok_and(|s| matches!(s.tables, Tables::Lists(..)));
        assert!(!read(64) && read(65));
    }

    #[test]
    fn row_lines() {
        let text = |behind: &str| with(b"ITEM   0 a\nITEM   1 b\n", behind.as_bytes());
        assert_eq!(stop(&text("PATH\nCUTS\n")), (0, 0));
        assert_eq!(stop(&text("PATH")), (14, 3));
        assert_eq!(stop(&text("PATH a")), (14, 3));
        assert_eq!(stop(&text("PATH \n")), (14, 3));
        assert_eq!(stop(&text("PATH a \n")), (14, 3));
        assert_eq!(stop(&text("PATH  a\n")), (14, 3));
        assert_eq!(stop(&text("PATHa\n")), (14, 3));
        assert_eq!(stop(&text("PATHS a\n")), (14, 3));
        assert_eq!(stop(&text("PATH a\n\n")), (14, 4));
        assert_eq!(stop(&text("PATH a\nITEM   2 c\n")), (14, 4));
        assert_eq!(stop(&text("PATH c\n")), (16, 3));
        assert_eq!(stop(&text("PATH c 1234567890123\n")), (14, 3));
        assert_eq!(stop(&text("PATH a a c\n")), (16, 3));
        assert_eq!(stop(&text("PATH a a\n")), (3, 3));
        assert_eq!(stop(&text("CUTS b a b\n")), (3, 3));
        assert_eq!(stop(&text("PATH a\nPATH b a\n")), (5, 4));
        assert_eq!(stop(&text("PATH a\nCUTS b a\nPATH b\nCUTS b\n")), (0, 0));
        assert_eq!(stop(&text("PATH a\nCUTS a\nPATH a\n")), (5, 5));
        assert_eq!(stop(&text("CUTS a\r\n")), (14, 3));
    }

    #[test]
    fn rows_that_a_list_cannot_hold() {
        let row: String = (0..17).map(|k| format!(" i{k}")).collect();
        assert_eq!(stop(&with(&items(64), format!("PATH{row}\n").as_bytes())), (0, 0));
        assert_eq!(stop(&with(&items(65), format!("PATH{row}\n").as_bytes())), (4, 66));
        let row: String = (0..16).map(|k| format!(" i{k}")).collect();
        assert_eq!(stop(&with(&items(65), format!("PATH{row}\n").as_bytes())), (0, 0));
        assert_eq!(stop(&with(&items(65), format!("PATH{row} i3 i20\n").as_bytes())), (3, 66));
    }

    #[test]
    fn a_thousand_places() {
        let mut text = items(64);
        let pairs: Vec<(usize, usize)> = (0..64).flat_map(|a| (a + 1..64).map(move |b| (a, b))).collect();
        for &(a, b) in &pairs[..1000] {
            text.extend(format!("CUTS i{b} i{a}\n").bytes());
        }
        assert_eq!(stop(&text), (0, 0));
        let (a, b) = pairs[1000];
        assert_eq!(stop(&with(&text, format!("CUTS i{a} i{b}\n").as_bytes())), (6, 1065));
        assert_eq!(stop(&with(&text, b"CUTS i0 i1 i63\n")), (5, 1065));
        assert_eq!(stop(&with(&text, b"CUTS i0\n")), (0, 0));
        assert_eq!(stop(&with(&text, format!("CUTS i0\nCUTS i{a} i{b}\n").as_bytes())), (0, 0));
    }

    #[test]
    fn long_texts() {
        let mut text = b"ITEM   0 a\nPATH".to_vec();
        text.resize(65_534, b'x');
        text.push(b'\n');
        assert_eq!(stop(&text), (14, 2));
        text.push(b'\n');
        assert_eq!(stop(&text), (13, 0));
        assert_eq!(read_items(&text, 256).unwrap_err().value, 65_536);
    }

    #[test]
    fn rows_read_alone() {
        let labels: [&[u8]; 3] = [b"a", b"", b"a"];
        let (mut paths, mut cuts) = (Table::<Word>::open(3, 4), Table::<Word>::open(3, 4));
        let text = b"ITEM no matter what\nITEM\nPATH a\nCUTS a\n";
        assert_eq!(read_rows(text, &labels, &mut paths, &mut cuts), Ok(()));
        assert_eq!(paths.bits(), [Bits::of(&[0])]);
        let mut short = Table::<Word>::open(2, 4);
        assert_eq!(read_rows(text, &labels, &mut short, &mut cuts).unwrap_err().number, 8);
        let mut none = Table::<Word>::open(0, 4);
        assert_eq!(read_rows(text, &labels, &mut none, &mut cuts).unwrap_err().number, 1);
        assert_eq!(read_rows(b"ITEM", &labels, &mut paths, &mut cuts), Ok(()));
    }
}
