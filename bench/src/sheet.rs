// The sheet text of two tables: the items, then the paths, then the cuts.

use crate::rules::sets::{Bits, Set};
use crate::rules::table::Table;
use crate::rules::text::{Sheet, Tables};

/// Writes the sheet text of a text that was read.
pub fn write(sheet: &Sheet) -> Vec<u8> {
    let mut out = Vec::new();
    for (k, label) in sheet.labels.iter().enumerate() {
        out.extend(format!("ITEM {k:>3} ").bytes());
        out.extend_from_slice(label);
        out.push(b'\n');
    }
    match &sheet.tables {
        Tables::Words(paths, cuts) => rows(&mut out, sheet, paths, cuts),
        Tables::Lists(paths, cuts) => rows(&mut out, sheet, paths, cuts),
    }
    out
}

fn rows<S: Set>(out: &mut Vec<u8>, sheet: &Sheet, paths: &Table<S>, cuts: &Table<S>) {
    for (word, table) in [(b"PATH", paths), (b"CUTS", cuts)] {
        for row in table.rows() {
            out.extend_from_slice(word);
            row.each(&Bits::below(table.items()), |k| {
                out.push(b' ');
                out.extend_from_slice(sheet.labels[k]);
            });
            out.push(b'\n');
        }
    }
}

#[cfg(test)]
mod tests {
    use super::*;
    use crate::rules::text::read;

    #[test]
    fn rows_in_the_tables_order_with_items_ascending() {
        let text = b"ITEM   0 x\nITEM   1 b\nITEM   2 PATH\nCUTS PATH b\nPATH b x\nCUTS\nPATH PATH x\nPATH b\n";
        let wanted = b"ITEM   0 x\nITEM   1 b\nITEM   2 PATH\nPATH x PATH\nPATH b\nCUTS\n";
        let sheet = write(&read(text).ok().unwrap());
        assert_eq!(sheet, wanted);
        assert_eq!(write(&read(&sheet).ok().unwrap()), sheet);
    }

    #[test]
    fn lists_are_written_likewise() {
        let mut text: Vec<u8> = (0..100).flat_map(|k| format!("ITEM {k:>3} n{k}\n").into_bytes()).collect();
        let items = text.len();
        text.extend(b"CUTS n99 n3 n70\nPATH n65 n2\n");
        let sheet = write(&read(&text).ok().unwrap());
        assert_eq!(&sheet[items..], b"PATH n2 n65\nCUTS n3 n70 n99\n");
    }
}
