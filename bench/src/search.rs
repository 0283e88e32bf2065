// The audit: rows without a common item, then the search over halves by the item of the largest share.

use crate::rules::sets::{Bits, Set};
use crate::rules::table::Table;
use crate::rules::Refusal;
use std::cmp::Ordering;

/// What an audit says; a state is the set of the items that are up.
#[derive(Clone, Copy, Debug, PartialEq, Eq)]
pub enum Verdict {
    Same,
    Miss(Bits),
    Both(Bits),
}

impl Verdict {
    pub fn name(&self) -> &'static str {
        match self {
            Verdict::Same => "SAME",
            Verdict::Miss(_) => "MISS",
            Verdict::Both(_) => "BOTH",
        }
    }

    /// The number that the library gives it.
    pub fn code(&self) -> i32 {
        match self {
            Verdict::Same => 0,
            Verdict::Miss(_) => 1,
            Verdict::Both(_) => 2,
        }
    }
}

/// Told of each half that is split, with the rows left in it.
pub trait Meter: Default {
    fn split(&mut self, rows: usize);
}

impl Meter for () {
    #[inline]
    fn split(&mut self, _: usize) {}
}

/// Counts the halves that were split, and the rows left in them together.
#[derive(Clone, Copy, Debug, Default, PartialEq, Eq)]
pub struct Work {
    pub splits: u64,
    pub rows: u64,
}

impl Meter for Work {
    fn split(&mut self, rows: usize) {
        self.splits += 1;
        self.rows += rows as u64;
    }
}

/// The two checks in front of an audit.
pub fn judge<S: Set>(paths: &Table<S>, cuts: &Table<S>) -> Result<(), Refusal> {
    if paths.items() == 0 || cuts.items() == 0 {
        return Err(Refusal::new(1, 0));
    }
    if paths.items() != cuts.items() {
        return Err(Refusal::new(8, paths.items()));
    }
    Ok(())
}

/// So many cuts are asked at once whether a path meets them.
const BLOCK: usize = 512;

/// Finds a path and a cut without a common item.
#[derive(Default)]
pub struct Meetings {
    // for each block of cuts and each item the cuts that have it, one bit each
    having: Vec<[u64; BLOCK / 64]>,
}

impl Meetings {
    /// The first path that has no item in common with some cut.
    pub fn apart<'t, S: Set>(&mut self, paths: &'t Table<S>, cuts: &Table<S>) -> Option<&'t S> {
        // a few paths are asked one cut after the other; it may be over then
        let (first, others) = paths.rows().split_at(paths.rows().len().min(4));
        let found = first.iter().find(|path| {
            let state = path.bits();
            cuts.rows().iter().any(|cut| !cut.meets(&state))
        });
        if found.is_some() || others.is_empty() {
            return found;
        }
        // the others are asked a block at once
        let items = cuts.items();
        let all = Bits::below(items);
        self.having.clear();
        for block in cuts.rows().chunks(BLOCK) {
            let start = self.having.len();
            self.having.resize(start + items, [0; BLOCK / 64]);
            for (c, cut) in block.iter().enumerate() {
                cut.each(&all, |k| self.having[start + k][c / 64] |= 1 << (c % 64));
            }
        }
        // in the last block the places without a cut are as if they were met
        let mut spare = [0; BLOCK / 64];
        for place in cuts.rows().len()..cuts.rows().len().next_multiple_of(BLOCK) {
            spare[place % BLOCK / 64] |= 1 << (place % 64);
        }
        others.iter().find(|path| {
            let mut blocks = self.having.chunks_exact(items).rev();
            let mut start = spare;
            blocks.any(|having| {
                let mut met = std::mem::take(&mut start);
                path.each(&all, |k| {
                    for (met, having) in met.iter_mut().zip(having[k]) {
                        *met |= having;
                    }
                });
                met.iter().fold(u64::MAX, |all, word| all & word) != u64::MAX
            })
        })
    }
}

/// Working memory of audits, to be used again and again.
pub struct Search<S, M = ()> {
    meetings: Meetings,
    items: usize,
    // the rows; those left in a half stand in front, in any order
    paths: Vec<S>,
    cuts: Vec<S>,
    // how many rows left have each undecided item: `items` places a level, a new level where rows drop out
    path_counts: Vec<i16>,
    cut_counts: Vec<i16>,
    // the items decided up; at the end of a search that missed one, the state
    up: Bits,
    meter: M,
}

impl<S: Set> Search<S> {
    pub fn new() -> Search<S> {
        Search::metered()
    }
}

impl<S: Set, M: Meter> Search<S, M> {
    pub fn metered() -> Search<S, M> {
        Search {
            meetings: Meetings::default(),
            items: 0,
            paths: Vec::new(),
            cuts: Vec::new(),
            path_counts: Vec::new(),
            cut_counts: Vec::new(),
            up: Bits::default(),
            meter: M::default(),
        }
    }

    pub fn meter(&self) -> &M {
        &self.meter
    }

    /// Audits a path table and a cut table.
    pub fn audit(&mut self, paths: &Table<S>, cuts: &Table<S>) -> Result<Verdict, Refusal> {
        judge(paths, cuts)?;
        if let Some(path) = self.meetings.apart(paths, cuts) {
            return Ok(Verdict::Both(path.bits()));
        }
        self.load(paths, cuts);
        if self.closes() {
            Ok(Verdict::Same)
        } else {
            Ok(Verdict::Miss(self.up))
        }
    }

    fn load(&mut self, paths: &Table<S>, cuts: &Table<S>) {
        self.items = paths.items();
        self.up = Bits::default();
        let places = self.items * (self.items + 1);
        for (own, counts, table) in
            [(&mut self.paths, &mut self.path_counts, paths), (&mut self.cuts, &mut self.cut_counts, cuts)]
        {
            own.clear();
            own.extend_from_slice(table.rows());
            counts.resize(places, 0);
            tally(&mut counts[..table.items()], table.rows(), &Bits::below(table.items()));
        }
    }

    // Whether every half closes, from the states as a whole on.
    fn closes(&mut self) -> bool {
        if self.paths.iter().chain(&self.cuts).any(|row| row.size() == 0) {
            return true;
        }
        let all = Bits::below(self.items);
        if self.paths.is_empty() || self.cuts.is_empty() {
            if self.paths.is_empty() {
                self.up = all;
            }
            return false;
        }
        self.split(Side { rows: self.paths.len(), level: 0 }, Side { rows: self.cuts.len(), level: 0 }, all)
    }

    // Splits a half in which rows of both tables are left and none is wholly decided.
    fn split(&mut self, paths: Side, cuts: Side, undecided: Bits) -> bool {
        self.meter.split(paths.rows + cuts.rows);
        let n = self.items;
        let item = self.choose(paths, cuts);
        let mut rest = undecided;
        rest.remove(item);

        // with the item up the cuts that have it drop out
        if !self.paths[..paths.rows].iter().any(|path| path.only(item, &rest)) {
            let left = put_aside(&mut self.cuts[..cuts.rows], item);
            self.up.insert(item);
            if left == 0 {
                return false;
            }
            let (kept, dropped) = self.cuts[..cuts.rows].split_at(left);
            descend(&mut self.cut_counts[cuts.level * n..], n, item, kept, dropped, &rest);
            let place = paths.level * n + item;
            let count = std::mem::take(&mut self.path_counts[place]);
            if !self.split(paths, Side { rows: left, level: cuts.level + 1 }, rest) {
                return false;
            }
            self.path_counts[place] = count;
            self.up.remove(item);
        }

        // with the item down the paths that have it drop out
        if !self.cuts[..cuts.rows].iter().any(|cut| cut.only(item, &rest)) {
            let left = put_aside(&mut self.paths[..paths.rows], item);
            if left == 0 {
                self.up = self.up.join(&rest);
                return false;
            }
            let (kept, dropped) = self.paths[..paths.rows].split_at(left);
            descend(&mut self.path_counts[paths.level * n..], n, item, kept, dropped, &rest);
            let place = cuts.level * n + item;
            let count = std::mem::take(&mut self.cut_counts[place]);
            if !self.split(Side { rows: left, level: paths.level + 1 }, cuts, rest) {
                return false;
            }
            self.cut_counts[place] = count;
        }
        true
    }

    // The lowest undecided item with the largest share.
    fn choose(&self, paths: Side, cuts: Side) -> usize {
        let n = self.items;
        let in_paths = &self.path_counts[paths.level * n..][..n];
        let in_cuts = &self.cut_counts[cuts.level * n..][..n];
        let (p, c) = (largest(in_paths), largest(in_cuts));
        // p of the paths against c of the cuts
        let place = match (p as usize * cuts.rows).cmp(&(c as usize * paths.rows)) {
            Ordering::Greater => in_paths.iter().position(|&count| count == p),
            Ordering::Less => in_cuts.iter().position(|&count| count == c),
            Ordering::Equal => in_paths.iter().zip(in_cuts).position(|(&a, &b)| a == p || b == c),
        };
        place.expect("some row is left, so some item has a share")
    }
}

// The rows of one table that are left in a half, and the level of their counts.
#[derive(Clone, Copy)]
struct Side {
    rows: usize,
    level: usize,
}

// Moves the rows without the item to the front; answers how many these are.
fn put_aside<S: Set>(rows: &mut [S], item: usize) -> usize {
    let mut left = 0;
    for i in 0..rows.len() {
        let row = rows[i];
        rows.swap(i, left);
        left += usize::from(!row.has(item));
    }
    left
}

// Counts for the rows kept, on the level behind the one in front: anew, or less those dropped, whichever are fewer.
fn descend<S: Set>(counts: &mut [i16], n: usize, item: usize, kept: &[S], dropped: &[S], rest: &Bits) {
    let (above, below) = counts.split_at_mut(n);
    let below = &mut below[..n];
    if kept.len() <= dropped.len() {
        tally(below, kept, rest);
    } else {
        below.copy_from_slice(above);
        below[item] = 0;
        for row in dropped {
            row.each(rest, |k| below[k] -= 1);
        }
    }
}

fn tally<S: Set>(counts: &mut [i16], rows: &[S], rest: &Bits) {
    counts.fill(0);
    for row in rows {
        row.each(rest, |k| counts[k] += 1);
    }
}

fn largest(counts: &[i16]) -> i16 {
    counts.iter().fold(0, |most, &count| most.max(count))
}

#[cfg(test)]
mod tests {
    use super::*;
    use crate::make::{families, Rng};
    use crate::rules::sets::{List, Word};
    use crate::wide::Wide;

    fn table<S: Set>(items: usize, rows: &[Bits]) -> Table<S> {
        let mut table = Table::open(items, 1000);
        for row in rows {
            table.put(&row.members()).unwrap();
        }
        table
    }

    // The search as the rules tell it, without any haste.
    fn by_the_book(
        paths: &[Bits],
        cuts: &[Bits],
        undecided: Bits,
        up: Bits,
        down: Bits,
        work: &mut Work,
    ) -> Option<Bits> {
        if paths.iter().any(|path| path.within(&up)) || cuts.iter().any(|cut| cut.within(&down)) {
            return None;
        }
        if paths.is_empty() {
            return Some(up.join(&undecided));
        }
        if cuts.is_empty() {
            return Some(up);
        }
        work.split(paths.len() + cuts.len());
        let share = |k: usize| {
            let part = |rows: &[Bits]| (rows.iter().filter(|row| row.has(k)).count(), rows.len());
            let (p, c) = (part(paths), part(cuts));
            if p.0 * c.1 >= c.0 * p.1 {
                p
            } else {
                c
            }
        };
        let larger = |a: (usize, usize), b: (usize, usize)| a.0 * b.1 > b.0 * a.1;
        let items = undecided.members();
        let item =
            items.iter().copied().reduce(|best, k| if larger(share(k), share(best)) { k } else { best }).unwrap();
        let without = |rows: &[Bits]| rows.iter().copied().filter(|row| !row.has(item)).collect::<Vec<_>>();
        let (mut rest, mut more_up, mut more_down) = (undecided, up, down);
        rest.remove(item);
        more_up.insert(item);
        more_down.insert(item);
        by_the_book(paths, &without(cuts), rest, more_up, down, work)
            .or_else(|| by_the_book(&without(paths), cuts, rest, up, more_down, work))
    }

    #[test]
    fn the_same_search() {
        let mut rng = Rng::new(21);
        for round in 0..3000 {
            let lists = round % 2 == 1;
            let mut system = match round % 10 {
                8 => families::large(64, false, &mut rng),
                9 => families::large(100, true, &mut rng),
                _ => families::small(&mut rng),
            };
            if round % 10 >= 8 && system.paths.len() + system.cuts.len() > 120 {
                continue;
            }
            let apart = system.paths.iter().copied().find(|path| system.cuts.iter().any(|cut| !cut.meets(path)));
            let mut wanted = Work::default();
            let verdict = match apart {
                Some(path) => Verdict::Both(path),
                None => {
                    let (none, all) = (Bits::default(), Bits::below(system.items));
                    let missed = by_the_book(&system.paths, &system.cuts, all, none, none, &mut wanted);
                    missed.map_or(Verdict::Same, Verdict::Miss)
                }
            };
            if system.items > 64 || lists {
                check::<List>(&system, verdict, wanted);
            } else {
                check::<Word>(&system, verdict, wanted);
            }
            system.paths.clear();
            if system.items <= 64 {
                check::<Word>(&system, once(&system), Work::default());
            }
        }
    }

    // The verdict where there is no path: the row without items closes all, else all items up are missed.
    fn once(system: &families::System) -> Verdict {
        if system.cuts.contains(&Bits::default()) {
            Verdict::Same
        } else {
            Verdict::Miss(Bits::below(system.items))
        }
    }

    fn check<S: Set>(system: &families::System, verdict: Verdict, work: Work) {
        let (paths, cuts) = (table::<S>(system.items, &system.paths), table::<S>(system.items, &system.cuts));
        let mut plain = Search::<S, Work>::metered();
        let mut wide = Wide::<Work>::new();
        assert_eq!((plain.audit(&paths, &cuts), *plain.meter()), (Ok(verdict), work));
        assert_eq!((wide.audit(&paths, &cuts), *wide.meter()), (Ok(verdict), work));
        // the memory of an audit does for the next
        assert_eq!(plain.audit(&paths, &cuts), Ok(verdict));
        assert_eq!(wide.audit(&paths, &cuts), Ok(verdict));
        assert_eq!((paths.bits(), cuts.bits()), (system.paths.clone(), system.cuts.clone()));
    }

    #[test]
    fn tables_that_do_not_fit() {
        let none = table::<Word>(0, &[]);
        let (three, four) = (table::<Word>(3, &[]), table::<Word>(4, &[]));
        let number = |paths: &Table<Word>, cuts: &Table<Word>| Search::new().audit(paths, cuts).unwrap_err().number;
        assert_eq!(number(&none, &three), 1);
        assert_eq!(number(&three, &none), 1);
        assert_eq!(number(&three, &four), 8);
    }
}
