// The same search once more, quicker: rows as masks of W words, and all items counted at once in bit planes.

use crate::rules::sets::{Bits, Set};
use crate::rules::table::{Table, MOST_PLACES};
use crate::rules::Refusal;
use crate::search::{judge, Meetings, Meter, Verdict};
use std::cmp::Ordering;

/// A number up to the most rows of a table fits in so many bits.
const PLANES: usize = MOST_PLACES.ilog2() as usize + 1;

/// Working memory of audits of any kind and size.
#[derive(Default)]
pub struct Wide<M = ()> {
    one: Engine<1>,
    two: Engine<2>,
    three: Engine<3>,
    four: Engine<4>,
    meetings: Meetings,
    meter: M,
}

impl<M: Meter> Wide<M> {
    pub fn new() -> Wide<M> {
        Wide::default()
    }

    pub fn meter(&self) -> &M {
        &self.meter
    }

    /// Audits a path table and a cut table.
    pub fn audit<S: Set>(&mut self, paths: &Table<S>, cuts: &Table<S>) -> Result<Verdict, Refusal> {
        judge(paths, cuts)?;
        if let Some(path) = self.meetings.apart(paths, cuts) {
            return Ok(Verdict::Both(path.bits()));
        }
        Ok(match paths.items().div_ceil(64) {
            1 => self.one.audit(paths, cuts, &mut self.meter),
            2 => self.two.audit(paths, cuts, &mut self.meter),
            3 => self.three.audit(paths, cuts, &mut self.meter),
            _ => self.four.audit(paths, cuts, &mut self.meter),
        })
    }
}

type Mask<const W: usize> = [u64; W];

struct Engine<const W: usize> {
    paths: Vec<Mask<W>>,
    cuts: Vec<Mask<W>>,
    up: Mask<W>,
}

impl<const W: usize> Default for Engine<W> {
    fn default() -> Self {
        Engine { paths: Vec::new(), cuts: Vec::new(), up: [0; W] }
    }
}

impl<const W: usize> Engine<W> {
    fn audit<S: Set, M: Meter>(&mut self, paths: &Table<S>, cuts: &Table<S>, meter: &mut M) -> Verdict {
        let n = paths.items();
        self.up = [0; W];
        for (own, table) in [(&mut self.paths, paths), (&mut self.cuts, cuts)] {
            own.clear();
            own.extend(table.rows().iter().map(|row| narrow::<W>(row.bits())));
        }
        if self.closes(n, meter) {
            Verdict::Same
        } else {
            Verdict::Miss(widen(self.up))
        }
    }

    fn closes<M: Meter>(&mut self, n: usize, meter: &mut M) -> bool {
        if self.paths.iter().chain(&self.cuts).any(|row| *row == [0; W]) {
            return true;
        }
        let all = narrow(Bits::below(n));
        if self.paths.is_empty() || self.cuts.is_empty() {
            if self.paths.is_empty() {
                self.up = all;
            }
            return false;
        }
        let in_paths = Tally::of(&self.paths);
        let in_cuts = Tally::of(&self.cuts);
        self.split(self.paths.len(), self.cuts.len(), &in_paths, &in_cuts, all, meter)
    }

    // As `split` of the plain search; the tallies count decided items too.
    fn split<M: Meter>(
        &mut self,
        paths: usize,
        cuts: usize,
        in_paths: &Tally<W>,
        in_cuts: &Tally<W>,
        undecided: Mask<W>,
        meter: &mut M,
    ) -> bool {
        meter.split(paths + cuts);
        let (p, with_p) = in_paths.most(paths, &undecided);
        let (c, with_c) = in_cuts.most(cuts, &undecided);
        let item = lowest(&match (p * cuts).cmp(&(c * paths)) {
            Ordering::Greater => with_p,
            Ordering::Less => with_c,
            Ordering::Equal => std::array::from_fn(|w| with_p[w] | with_c[w]),
        });
        let bit = single(item);
        let rest = std::array::from_fn(|w| undecided[w] & !bit[w]);

        if !only(&self.paths[..paths], &bit, &undecided) {
            let left = put_aside(&mut self.cuts[..cuts], item);
            if left == 0 {
                self.up = join(&self.up, &bit);
                return false;
            }
            let tally = Tally::of(&self.cuts[..left]);
            let before = self.up;
            self.up = join(&before, &bit);
            if !self.split(paths, left, in_paths, &tally, rest, meter) {
                return false;
            }
            self.up = before;
        }

        if !only(&self.cuts[..cuts], &bit, &undecided) {
            let left = put_aside(&mut self.paths[..paths], item);
            if left == 0 {
                self.up = join(&self.up, &rest);
                return false;
            }
            let tally = Tally::of(&self.paths[..left]);
            if !self.split(left, cuts, &tally, in_cuts, rest, meter) {
                return false;
            }
        }
        true
    }
}

// How many rows have each item: plane b holds bit b of every count.
struct Tally<const W: usize> {
    planes: [Mask<W>; PLANES],
}

impl<const W: usize> Tally<W> {
    fn of(rows: &[Mask<W>]) -> Tally<W> {
        let mut planes = [[0; W]; PLANES];
        let (eights, few) = rows.split_at(rows.len() & !7);
        for row in few {
            carry(&mut planes, 0, *row);
        }
        for eight in eights.chunks_exact(8) {
            let [ones, twos, fours] = [planes[0], planes[1], planes[2]];
            let (ones, a) = add(&ones, &eight[0], &eight[1]);
            let (ones, b) = add(&ones, &eight[2], &eight[3]);
            let (ones, c) = add(&ones, &eight[4], &eight[5]);
            let (ones, d) = add(&ones, &eight[6], &eight[7]);
            let (twos, e) = add(&twos, &a, &b);
            let (twos, f) = add(&twos, &c, &d);
            let (fours, g) = add(&fours, &e, &f);
            planes[0] = ones;
            planes[1] = twos;
            planes[2] = fours;
            carry(&mut planes, 3, g);
        }
        Tally { planes }
    }

    // The largest count of the undecided items, and the items that have it.
    fn most(&self, rows: usize, undecided: &Mask<W>) -> (usize, Mask<W>) {
        let mut most = 0;
        let mut items = *undecided;
        for b in (0..=rows.ilog2() as usize).rev() {
            let with: Mask<W> = std::array::from_fn(|w| items[w] & self.planes[b][w]);
            if with != [0; W] {
                items = with;
                most |= 1 << b;
            }
        }
        (most, items)
    }
}

// Adds a row into the planes from the given one on.
#[inline]
fn carry<const W: usize>(planes: &mut [Mask<W>; PLANES], from: usize, mut row: Mask<W>) {
    for plane in &mut planes[from..] {
        for w in 0..W {
            let sum = plane[w] ^ row[w];
            row[w] &= plane[w];
            plane[w] = sum;
        }
        if row == [0; W] {
            break;
        }
    }
}

// The sum of three bits at each place, and the carry.
#[inline]
fn add<const W: usize>(a: &Mask<W>, b: &Mask<W>, c: &Mask<W>) -> (Mask<W>, Mask<W>) {
    (std::array::from_fn(|w| a[w] ^ b[w] ^ c[w]), std::array::from_fn(|w| (a[w] & b[w]) | ((a[w] ^ b[w]) & c[w])))
}

// Whether some row has the item of `bit` and no other undecided one.
#[inline]
fn only<const W: usize>(rows: &[Mask<W>], bit: &Mask<W>, undecided: &Mask<W>) -> bool {
    rows.iter().any(|row| (0..W).all(|w| row[w] & undecided[w] == bit[w]))
}

// Moves the rows without the item to the front; answers how many these are.
#[inline]
fn put_aside<const W: usize>(rows: &mut [Mask<W>], item: usize) -> usize {
    let mut left = 0;
    for i in 0..rows.len() {
        let row = rows[i];
        rows.swap(i, left);
        left += (!row[item / 64] >> (item % 64) & 1) as usize;
    }
    left
}

#[inline]
fn lowest<const W: usize>(items: &Mask<W>) -> usize {
    let w = items.iter().position(|word| *word != 0).expect("some row is left, so some item has a share");
    64 * w + items[w].trailing_zeros() as usize
}

#[inline]
fn single<const W: usize>(item: usize) -> Mask<W> {
    std::array::from_fn(|w| if w == item / 64 { 1 << (item % 64) } else { 0 })
}

#[inline]
fn join<const W: usize>(a: &Mask<W>, b: &Mask<W>) -> Mask<W> {
    std::array::from_fn(|w| a[w] | b[w])
}

fn narrow<const W: usize>(set: Bits) -> Mask<W> {
    std::array::from_fn(|w| set.0[w])
}

fn widen<const W: usize>(mask: Mask<W>) -> Bits {
    Bits(std::array::from_fn(|w| mask.get(w).copied().unwrap_or(0)))
}
