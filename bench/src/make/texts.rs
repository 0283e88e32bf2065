// Sheet texts from tables, damaged texts, and texts at the limits.

use super::families::{self, System};
use super::Rng;
use crate::rules::sets::Bits;
use std::collections::HashSet;

const PRINTED: (usize, usize) = (33, 126);
/// Bytes next to a limit of some rule.
const ODD_BYTES: &[u8] = &[0, 9, 10, 11, 13, 31, 32, 33, 48, 57, 126, 127, 128, 160, 255];

fn item_line(number: usize, label: &[u8]) -> Vec<u8> {
    [format!("ITEM {number:>3} ").as_bytes(), label, b"\n"].concat()
}

fn row_line(word: &[u8], names: &[&[u8]]) -> Vec<u8> {
    let mut line = word.to_vec();
    for name in names {
        line.push(b' ');
        line.extend_from_slice(name);
    }
    line.push(b'\n');
    line
}

fn random_label(rng: &mut Rng, least: usize, most: usize) -> Vec<u8> {
    (0..rng.within(least, most)).map(|_| rng.within(PRINTED.0, PRINTED.1) as u8).collect()
}

/// Labels of one style, all different.
pub fn labels(count: usize, rng: &mut Rng) -> Vec<Vec<u8>> {
    let style = rng.below(7);
    let from = |rng: &mut Rng, alphabet: &[u8], least: usize, most: usize| -> Vec<u8> {
        (0..rng.within(least, most)).map(|_| *rng.pick(alphabet)).collect()
    };
    let mut known = HashSet::new();
    let mut labels = Vec::new();
    while labels.len() < count {
        let label = match style {
            0 => format!("P{}", labels.len() + 1).into_bytes(),
            1 => random_label(rng, 1, 12),
            2 => random_label(rng, 1, 2),
            3 => random_label(rng, 12, 12),
            4 => from(rng, b"Il1|O0oQ", 3, 12),
            5 => from(rng, b"aA", 1, 12),
            _ => {
                let word = *rng.pick(&["ITEM", "PATH", "CUTS", "STOP", "UP", "DOWN", "ROWS"]);
                let number = rng.below(100);
                if rng.chance(1, 2) && known.len() < 5 {
                    word.into()
                } else {
                    format!("{word}{number}").into_bytes()
                }
            }
        };
        if known.insert(label.clone()) {
            labels.push(label);
        }
    }
    labels
}

/// A formed sheet text of the tables, with labels and rows in some order, perhaps with rows that later ones remove.
pub fn sheet(system: &System, rng: &mut Rng) -> Vec<u8> {
    let labels = labels(system.items, rng);
    let (mixed, redundant) = (rng.chance(1, 3), rng.chance(1, 4));
    let mut rows: Vec<(&[u8], Bits)> = Vec::new();
    for (word, table) in [(&b"PATH"[..], &system.paths), (b"CUTS", &system.cuts)] {
        let start = rows.len();
        for row in table {
            let supersets = if redundant && rng.chance(1, 3) { rng.within(1, 3) } else { 0 };
            for _ in 0..supersets {
                let mut more = *row;
                more.insert(rng.below(system.items));
                more.insert(rng.below(system.items));
                // anywhere in front of the row, where no row in front is within it and it is within none behind
                let place = rng.within(start, rows.len());
                let (front, behind) = rows.split_at(place);
                let accepted = !front[start..].iter().any(|(_, old)| old.within(&more))
                    && !behind.iter().any(|(_, old)| more.within(old));
                if accepted && more != *row {
                    rows.insert(place, (word, more));
                }
            }
            rows.push((word, *row));
        }
    }
    if mixed {
        // each table keeps its own order
        let (mut paths, mut cuts): (Vec<_>, Vec<_>) = rows.into_iter().partition(|(word, _)| *word == b"PATH");
        rows = Vec::new();
        paths.reverse();
        cuts.reverse();
        while !paths.is_empty() || !cuts.is_empty() {
            let from = if rng.chance(1, 2) { &mut paths } else { &mut cuts };
            rows.extend(from.pop());
        }
    }
    let mut text = Vec::new();
    for (k, label) in labels.iter().enumerate() {
        text.extend(item_line(k, label));
    }
    let ordered = rng.chance(1, 2);
    for (word, row) in rows {
        let mut names: Vec<&[u8]> = row.members().into_iter().map(|k| &labels[k][..]).collect();
        if !ordered {
            rng.shuffle(&mut names);
        }
        text.extend(row_line(word, &names));
    }
    text
}

fn lines(text: &[u8]) -> Vec<Vec<u8>> {
    text.split_inclusive(|&byte| byte == b'\n').map(<[u8]>::to_vec).collect()
}

// The numbers of the lines that begin so.
fn beginning(lines: &[Vec<u8>], words: &[&[u8]]) -> Vec<usize> {
    (0..lines.len()).filter(|&l| words.iter().any(|word| lines[l].starts_with(word))).collect()
}

/// A text with one to three damages, and their names.
pub fn damaged(text: &[u8], rng: &mut Rng) -> (String, Vec<u8>) {
    let mut text = text.to_vec();
    let mut names = Vec::new();
    let times = *rng.pick(&[1, 1, 1, 1, 2, 3]);
    for _ in 0..times {
        names.push(damage(&mut text, rng));
    }
    (names.join(", "), text)
}

fn damage(text: &mut Vec<u8>, rng: &mut Rng) -> &'static str {
    if rng.chance(1, 3) {
        damage_bytes(text, rng)
    } else if rng.chance(1, 2) {
        damage_lines(text, rng)
    } else {
        damage_words(text, rng)
    }
}

fn damage_bytes(text: &mut Vec<u8>, rng: &mut Rng) -> &'static str {
    let place = rng.below(text.len() + 1);
    let inside = place < text.len();
    match rng.below(9) {
        0 if inside => {
            text[place] ^= 1 << rng.below(8);
            "a bit flipped"
        }
        1 if inside => {
            text[place] = rng.byte();
            "a byte changed"
        }
        2 if inside => {
            text[place] = *rng.pick(ODD_BYTES);
            "an odd byte in the place of one"
        }
        3 if inside => {
            text.remove(place);
            "a byte deleted"
        }
        4 => {
            text.insert(place, rng.byte());
            "a byte inserted"
        }
        5 => {
            text.insert(place, *rng.pick(ODD_BYTES));
            "an odd byte inserted"
        }
        6 => {
            text.truncate(place);
            "cut off"
        }
        7 => {
            let end = (place + rng.below(20)).min(text.len());
            text.drain(place..end);
            "bytes deleted"
        }
        _ => {
            text.pop();
            "the last byte missing"
        }
    }
}

fn damage_lines(text: &mut Vec<u8>, rng: &mut Rng) -> &'static str {
    let mut list = lines(text);
    if list.is_empty() {
        return "no line to damage";
    }
    let (a, b) = (rng.below(list.len()), rng.below(list.len()));
    let name = match rng.below(9) {
        0 => {
            let line = list[a].clone();
            list.insert(b, line);
            "a line a second time"
        }
        1 => {
            let line = list[a].clone();
            list.push(line);
            "a line once more at the end"
        }
        2 => {
            list.remove(a);
            "a line deleted"
        }
        3 => {
            list.swap(a, b);
            "two lines exchanged"
        }
        4 => {
            list.insert(a, b"\n".to_vec());
            "an empty line"
        }
        5 => {
            with_return(&mut list[a]);
            "CR LF in a line"
        }
        6 => {
            list.iter_mut().for_each(with_return);
            "CR LF in each line"
        }
        7 => {
            rng.shuffle(&mut list);
            "lines in any order"
        }
        _ => {
            let words: [&[u8]; 6] = [b"PATH\n", b"CUTS\n", b"PATH", b"CUTS", b"ITEM", b" \n"];
            list.push(rng.pick(&words).to_vec());
            "a short line at the end"
        }
    };
    *text = list.concat();
    name
}

fn with_return(line: &mut Vec<u8>) {
    if line.pop() == Some(b'\n') {
        line.extend(b"\r\n");
    }
}

fn damage_words(text: &mut Vec<u8>, rng: &mut Rng) -> &'static str {
    let mut list = lines(text);
    let items = beginning(&list, &[b"ITEM "]);
    let rows = beginning(&list, &[b"PATH", b"CUTS"]);
    let name = match rng.below(10) {
        0..=1 if !items.is_empty() => {
            let l = *rng.pick(&items);
            let number = match rng.below(6) {
                0 => format!("{l:<3}"),
                1 => format!("{l:03}"),
                2 => format!("{:>3}", l + 1),
                3 => format!("{:>3}", l.wrapping_sub(1) % 1000),
                4 => format!("{l}"),
                _ => format!("{l:>4}"),
            };
            let label = list[l].get(9..).unwrap_or(b"\n").to_vec();
            list[l] = [b"ITEM ", number.as_bytes(), b" ", &label].concat();
            "another number"
        }
        2..=3 if !items.is_empty() => {
            let l = *rng.pick(&items);
            let length = *rng.pick(&[0, 1, 12, 13, 14, 100]);
            let mut label = random_label(rng, length, length);
            if length > 0 && rng.chance(1, 3) {
                let place = rng.below(length);
                label[place] = *rng.pick(&[32, 127, 255, 33, 126]);
            }
            let front = list[l][..9.min(list[l].len())].to_vec();
            list[l] = [&front[..], &label, b"\n"].concat();
            "another label"
        }
        4 if items.len() > 1 => {
            let (a, b) = (*rng.pick(&items), *rng.pick(&items));
            if list[a].len() > 9 && list[b].len() > 9 {
                let label = list[a][9..].to_vec();
                list[b].truncate(9);
                list[b].extend(label);
            }
            "a label of another item"
        }
        5 if !rows.is_empty() => {
            // one byte of a row becomes another that looks like it
            let l = *rng.pick(&rows);
            let place = rng.below(list[l].len());
            let alike = [(b'1', b'l'), (b'l', b'1'), (b'O', b'0'), (b'0', b'O'), (b' ', b'_'), (b'P', b'p')];
            let old = list[l][place];
            let new = alike.iter().find(|(from, _)| *from == old).map_or(old ^ 32, |(_, to)| *to);
            list[l][place] = new;
            "a byte that looks alike"
        }
        6..=7 if !rows.is_empty() => {
            // a label of the row, or of an item, once more
            let l = *rng.pick(&rows);
            let from = if rng.chance(1, 2) || items.is_empty() { l } else { *rng.pick(&items) };
            let words: Vec<&[u8]> = list[from].trim_ascii_end().split(|&byte| byte == b' ').collect();
            let word = rng.pick(&words).to_vec();
            let fed = list[l].pop() == Some(b'\n');
            list[l].push(b' ');
            list[l].extend(word);
            if fed {
                list[l].push(b'\n');
            }
            "a label more in a row"
        }
        8 if !rows.is_empty() => {
            let l = *rng.pick(&rows);
            let words: [&[u8]; 7] = [b"path", b"PATHS", b"PAT", b"CUT", b"PATH ", b" CUTS", b"ITEM"];
            let behind = list[l].get(4..).unwrap_or(b"").to_vec();
            list[l] = [rng.pick(&words), &behind[..]].concat();
            "another word in front"
        }
        _ => {
            let number = items.len();
            let label = random_label(rng, 1, 12);
            let place = if rng.chance(1, 2) { list.len() } else { rng.below(list.len() + 1) };
            list.insert(place, item_line(number, &label));
            "an item line more"
        }
    };
    *text = list.concat();
    name
}

/// A text at some limit, or of no form at all; and what it is.
pub fn special(rng: &mut Rng) -> (String, Vec<u8>) {
    match rng.below(25) {
        0 => ("empty".into(), vec![]),
        1..=3 => {
            let length = rng.below(300);
            ("random bytes".into(), rng.bytes(length))
        }
        4..=6 => {
            let words: [&[u8]; 14] = [
                b"ITEM",
                b"PATH",
                b"CUTS",
                b" ",
                b"  ",
                b"\n",
                b"0",
                b"1",
                b"a",
                b"b",
                b"ITEM   0 a\n",
                b"PATH a\n",
                b"CUTS a\n",
                b"ITEM   1 b\n",
            ];
            let count = rng.below(20);
            ("random words".into(), (0..count).flat_map(|_| rng.pick(&words).to_vec()).collect())
        }
        7 => {
            let length = rng.within(1, 40);
            ("feeds".into(), vec![*rng.pick(b"\n\r "); length])
        }
        8..=12 => counted(rng),
        13..=14 => after_the_last_item(rng),
        15..=18 => crowded(rng),
        19..=20 => full(rng),
        21 => shrinking(rng),
        22 if rng.chance(1, 2) => {
            let length = rng.within(65_000, 200_000);
            let byte = *rng.pick(b"\nPI x");
            (format!("{length} equal bytes"), vec![byte; length])
        }
        23 if rng.chance(1, 2) => {
            let length = *rng.pick(&[65_534, 65_535, 65_535, 65_536, 65_537, 70_000]);
            (format!("a formed text of {length} bytes"), long(length, rng))
        }
        _ => {
            let mut text = sheet(&families::small(rng), rng);
            let from = rng.below(text.len());
            text.drain(..from);
            ("the end of a text".into(), text)
        }
    }
}

// So many items, about a limit, and a few rows of them.
fn counted(rng: &mut Rng) -> (String, Vec<u8>) {
    let count = *rng.pick(&[0, 1, 2, 9, 10, 11, 63, 64, 64, 65, 65, 99, 100, 101, 255, 256, 256, 257, 258, 300]);
    let labels = labels(count, rng);
    let mut text: Vec<u8> = labels.iter().enumerate().flat_map(|(k, label)| item_line(k, label)).collect();
    let rows = rng.below(6);
    for _ in 0..rows {
        let most = count.min(*rng.pick(&[3, 15, 16, 17, 18, 64]));
        let mut order: Vec<usize> = (0..count).collect();
        rng.shuffle(&mut order);
        let size = rng.within(most.saturating_sub(3), most);
        let names: Vec<&[u8]> = order[..size].iter().map(|&k| &labels[k][..]).collect();
        text.extend(row_line(*rng.pick(&[b"PATH", b"CUTS"]), &names));
    }
    (format!("{count} items"), text)
}

// 256 items and one line more.
fn after_the_last_item(rng: &mut Rng) -> (String, Vec<u8>) {
    let labels = labels(256, rng);
    let mut text: Vec<u8> = labels.iter().enumerate().flat_map(|(k, label)| item_line(k, label)).collect();
    let (name, line) = match rng.below(6) {
        0 => ("an item line with an old label", item_line(256, &labels[rng.below(256)])),
        1 => ("an item line of another number", item_line(*rng.pick(&[255, 257, 0]), b"new")),
        2 => ("an item line without its feed", b"ITEM 256 new".to_vec()),
        3 => ("an item line without label", b"ITEM 256 \n".to_vec()),
        4 => ("a row", row_line(b"CUTS", &[&labels[0], &labels[255]])),
        _ => ("an empty line", b"\n".to_vec()),
    };
    text.extend(line);
    (format!("256 items and {name}"), text)
}

// Very many labels in a row.
fn crowded(rng: &mut Rng) -> (String, Vec<u8>) {
    let count = *rng.pick(&[1, 2, 16, 17, 64, 65, 66, 200, 256]);
    let mut names = labels(count, rng);
    let mut text: Vec<u8> = names.iter().enumerate().flat_map(|(k, label)| item_line(k, label)).collect();
    let wanted = *rng.pick(&[1, 15, 16, 17, 18, 63, 64, 65, 200, 256, 1000, 4000]);
    if rng.chance(1, 2) {
        rng.shuffle(&mut names);
    }
    let different = names.len().min(*rng.pick(&[15, 16, 17, 256]));
    let mut row: Vec<&[u8]> = names[..different].iter().cycle().take(wanted).map(|name| &name[..]).collect();
    if rng.chance(1, 4) {
        let place = rng.below(row.len());
        row[place] = *rng.pick(&[&b"unknown"[..], b"", b"1234567890123"]);
    }
    let word = *rng.pick(&[&b"PATH"[..], b"CUTS"]);
    text.extend(row_line(word, &row));
    if rng.chance(1, 2) {
        text.extend(row_line(word, &[&names[0]]));
    }
    (format!("a row of {wanted} labels of {count}"), text)
}

// As many rows as there are places, and a few more.
fn full(rng: &mut Rng) -> (String, Vec<u8>) {
    let count = *rng.pick(&[60, 64, 65, 80]);
    let labels: Vec<Vec<u8>> = (0..count).map(|k| format!("{k}").into_bytes()).collect();
    let mut text: Vec<u8> = labels.iter().enumerate().flat_map(|(k, label)| item_line(k, label)).collect();
    let mut pairs: Vec<(usize, usize)> = (0..count).flat_map(|a| (0..a).map(move |b| (a, b))).collect();
    rng.shuffle(&mut pairs);
    let word = *rng.pick(&[&b"PATH"[..], b"CUTS"]);
    let rows = rng.within(998, 1003);
    for &(a, b) in &pairs[..rows] {
        text.extend(row_line(word, &[&labels[a], &labels[b]]));
    }
    let more = rng.below(4);
    for _ in 0..more {
        let (a, b) = *rng.pick(&pairs);
        let c = rng.below(count);
        text.extend(match rng.below(4) {
            0 => row_line(word, &[&labels[c]]),
            1 => row_line(word, &[&labels[a], &labels[b]]),
            2 if c != a && c != b => row_line(word, &[&labels[a], &labels[b], &labels[c]]),
            _ => row_line(word, &[]),
        });
    }
    (format!("{rows} rows and {more} more"), text)
}

// Rows each within the one before.
fn shrinking(rng: &mut Rng) -> (String, Vec<u8>) {
    let count = rng.within(2, 64);
    let mut names = labels(count, rng);
    let mut text: Vec<u8> = names.iter().enumerate().flat_map(|(k, label)| item_line(k, label)).collect();
    rng.shuffle(&mut names);
    let word = *rng.pick(&[&b"PATH"[..], b"CUTS"]);
    for size in (rng.below(3)..=count).rev() {
        let row: Vec<&[u8]> = names[..size].iter().map(|name| &name[..]).collect();
        text.extend(row_line(word, &row));
    }
    ("rows each within the one before".into(), text)
}

// A text of exactly so many bytes, formed, with rows that do not contain one another.
fn long(length: usize, rng: &mut Rng) -> Vec<u8> {
    let spare = 4;
    let count = 64 - spare;
    let labels: Vec<Vec<u8>> = (0..count).map(|k| format!("label{k:07}").into_bytes()).collect();
    let mut rows: Vec<Vec<u8>> = Vec::new();
    let mut known = HashSet::new();
    // the items, three spare ones in a last row and one in no row: 4 lines of 10 bytes, and 8 bytes of the row
    let fixed = count * 22 + spare * 10 + 8;
    let mut so_far = fixed;
    while length - so_far > 84 {
        let size = if rows.len() < 990 { 2 } else { 3 };
        let mut row = Bits::default();
        while row.size() < size {
            row.insert(rng.below(count));
        }
        if known.insert(row) {
            let names: Vec<&[u8]> = row.members().into_iter().map(|k| &labels[k][..]).collect();
            let line = row_line(if size == 2 { b"PATH" } else { b"CUTS" }, &names);
            so_far += line.len();
            rows.push(line);
        }
    }
    // what is left is twice the labels in the row and once the other
    let left = length - so_far;
    let alone = (1..=12).rev().find(|a| left > *a && (left - a).is_multiple_of(2) && (left - a) / 2 <= 36).unwrap_or(1);
    let shared = (left - alone) / 2;
    let sizes = [shared / 3, (shared + 1) / 3, shared.div_ceil(3), alone];
    let spares: Vec<Vec<u8>> = sizes.iter().zip(b"abcd").map(|(size, byte)| vec![*byte; *size]).collect();
    let mut text = Vec::new();
    for (k, label) in labels.iter().chain(&spares).enumerate() {
        text.extend(item_line(k, label));
    }
    text.extend(rows.concat());
    text.extend(row_line(b"CUTS", &[&spares[0], &spares[1], &spares[2]]));
    text
}

#[cfg(test)]
mod tests {
    use super::*;
    use crate::rules::text::{read, Tables};

    #[test]
    fn sheets_are_read_as_they_were_meant() {
        let mut rng = Rng::new(3);
        for _ in 0..2000 {
            let system = families::small(&mut rng);
            let text = sheet(&system, &mut rng);
            let Ok(read) = read(&text) else {
                panic!("{}", String::from_utf8_lossy(&text));
            };
            let Tables::Words(paths, cuts) = read.tables else {
                panic!("lists for few items");
            };
            assert_eq!((paths.bits(), cuts.bits()), (system.paths, system.cuts));
        }
    }

    #[test]
    fn long_texts_have_their_length() {
        let mut rng = Rng::new(4);
        for length in 65_500..65_536 {
            let text = long(length, &mut rng);
            assert_eq!(text.len(), length);
            assert!(read(&text).is_ok());
        }
        assert_eq!(read(&long(65_536, &mut rng)).err().unwrap().number, 13);
    }

    #[test]
    fn damages_bring_every_refusal() {
        let mut rng = Rng::new(9);
        let mut seen = [0; 17];
        for round in 0..40_000 {
            let (_, text) = if round % 2 == 0 {
                special(&mut rng)
            } else {
                let text = sheet(&families::small(&mut rng), &mut rng);
                damaged(&text, &mut rng)
            };
            let number = read(&text).err().map_or(0, |refusal| refusal.number);
            seen[usize::from(number)] += 1;
        }
        for number in [0, 1, 3, 4, 5, 6, 13, 14, 15, 16] {
            assert!(seen[number] > 40, "{number}: {seen:?}");
        }
        assert_eq!(seen.iter().sum::<i32>(), 40_000);
        assert_eq!(seen[2] + seen[7] + seen[8] + seen[9] + seen[10] + seen[11] + seen[12], 0);
    }
}
