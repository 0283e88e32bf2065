// Families of path and cut tables.

use super::Rng;
use crate::rules::sets::Bits;

/// No family makes more rows for a table than this.
pub const MOST_ROWS: usize = 1000;

/// A path table and a cut table, as rows.
#[derive(Clone, Debug, PartialEq, Eq)]
pub struct System {
    pub name: String,
    pub items: usize,
    pub paths: Vec<Bits>,
    pub cuts: Vec<Bits>,
}

impl System {
    fn new(name: String, items: usize, paths: Vec<Bits>, cuts: Vec<Bits>) -> System {
        System { name, items, paths, cuts }
    }

    fn fits(self) -> Option<System> {
        (self.paths.len() <= MOST_ROWS && self.cuts.len() <= MOST_ROWS).then_some(self)
    }

    /// The most items in a row.
    pub fn longest(&self) -> usize {
        self.paths.iter().chain(&self.cuts).map(Bits::size).max().unwrap_or(0)
    }

    /// Paths and cuts the other way round.
    pub fn swapped(self) -> System {
        System::new(self.name + "'", self.items, self.cuts, self.paths)
    }

    /// One item is the whole system.
    pub fn item() -> System {
        System::new("item".into(), 1, vec![Bits::of(&[0])], vec![Bits::of(&[0])])
    }

    fn side(&mut self, rng: &mut Rng) -> &mut Vec<Bits> {
        if rng.chance(1, 2) {
            &mut self.paths
        } else {
            &mut self.cuts
        }
    }

    /// One row is struck; a state is missed then, if the tables described the same system.
    pub fn struck(mut self, rng: &mut Rng) -> System {
        let rows = self.side(rng);
        if !rows.is_empty() {
            rows.remove(rng.below(rows.len()));
        }
        self.name += " struck";
        self
    }

    /// One row loses an item, and rows that contain it go; a state is doubled then.
    pub fn shrunk(mut self, rng: &mut Rng) -> System {
        let rows = self.side(rng);
        if !rows.is_empty() {
            let place = rng.below(rows.len());
            shrink(rows, place, rng);
        }
        self.name += " shrunk";
        self
    }

    /// One row gains an item.
    pub fn grown(mut self, rng: &mut Rng) -> System {
        let item = rng.below(self.items);
        let rows = self.side(rng);
        if !rows.is_empty() {
            let place = rng.below(rows.len());
            rows[place].insert(item);
            *rows = antichain(rows);
        }
        self.name += " grown";
        self
    }

    /// Items and rows in another order, among as many items as given.
    pub fn permuted(self, items: usize, rng: &mut Rng) -> System {
        let mut places: Vec<usize> = (0..items.max(self.items)).collect();
        rng.shuffle(&mut places);
        let mut moved = |rows: &[Bits]| {
            let mut rows: Vec<Bits> = rows.iter().map(|row| shifted(row, |k| places[k])).collect();
            rng.shuffle(&mut rows);
            rows
        };
        let (paths, cuts) = (moved(&self.paths), moved(&self.cuts));
        System { items: items.max(self.items), paths, cuts, ..self }
    }
}

/// The row at this place loses an item, if it has one; rows that contain it go.
pub fn shrink(rows: &mut Vec<Bits>, place: usize, rng: &mut Rng) {
    let members = rows[place].members();
    if !members.is_empty() {
        rows[place].remove(*rng.pick(&members));
        *rows = antichain(rows);
    }
}

/// Disjoint blocks as paths, and as cuts one item of each block.
pub fn blocks(count: usize, size: usize) -> System {
    let block = |b: usize| (b * size..(b + 1) * size).collect::<Vec<_>>();
    let paths: Vec<Bits> = (0..count).map(|b| Bits::of(&block(b))).collect();
    let mut cuts = vec![Bits::default()];
    for b in 0..count {
        cuts = cuts.iter().flat_map(|cut| block(b).into_iter().map(|k| with(cut, k)).collect::<Vec<_>>()).collect();
    }
    System::new(format!("{count} blocks of {size}"), count * size, paths, cuts)
}

/// Disjoint pairs against their transversals.
pub fn pairs(count: usize) -> System {
    System { name: format!("{count} pairs"), ..blocks(count, 2) }
}

/// Works when at least `least` of the items are up.
pub fn threshold(least: usize, items: usize) -> System {
    System::new(format!("{least} of {items}"), items, subsets(items, least), subsets(items, items - least + 1))
}

/// The seven lines of the Fano plane.
pub fn fano() -> System {
    let lines: Vec<Bits> = (0..7).map(|i| Bits::of(&[i, (i + 1) % 7, (i + 3) % 7])).collect();
    System::new("Fano".into(), 7, lines.clone(), lines)
}

/// A system in the place of each item of another; none if there are too many rows.
pub fn composed(outer: &System, inner: &[System]) -> Option<System> {
    assert_eq!(outer.items, inner.len());
    let starts: Vec<usize> = inner
        .iter()
        .scan(0, |next, system| {
            let start = *next;
            *next += system.items;
            Some(start)
        })
        .collect();
    let expand = |rows: &[Bits], own: fn(&System) -> &[Bits]| {
        let mut all = Vec::new();
        for row in rows {
            let mut products = vec![Bits::default()];
            for k in row.members() {
                let inner_rows: Vec<Bits> = own(&inner[k]).iter().map(|r| shifted(r, |i| i + starts[k])).collect();
                products = products.iter().flat_map(|p| inner_rows.iter().map(move |r| p.join(r))).collect();
                if products.len() > MOST_ROWS {
                    return None;
                }
            }
            all.extend(products);
            if all.len() > MOST_ROWS {
                return None;
            }
        }
        Some(all)
    };
    let items = inner.iter().map(|system| system.items).sum();
    let paths = expand(&outer.paths, |system| &system.paths)?;
    let cuts = expand(&outer.cuts, |system| &system.cuts)?;
    System::new(format!("{} over others", outer.name), items, paths, cuts).fits()
}

/// A Fano plane with further planes in the place of some of its points.
pub fn fano_over_fano(points: &[usize]) -> Option<System> {
    let inner: Vec<System> = (0..7).map(|k| if points.contains(&k) { fano() } else { System::item() }).collect();
    let system = composed(&fano(), &inner)?;
    Some(System { name: format!("Fano over {} Fano", points.len()), ..system })
}

/// A grid of items, crossed from left to right over neighbours; none if there are too many rows.
pub fn grid(height: usize, width: usize) -> Option<System> {
    let mut paths = Vec::new();
    for row in 0..height {
        cross(height, width, &mut vec![(row, 0)], &mut paths);
    }
    if paths.len() > MOST_ROWS {
        return None;
    }
    let cuts = transversals(&paths, MOST_ROWS)?;
    System::new(format!("grid {height} by {width}"), height * width, paths, cuts).fits()
}

// Goes on from the last place over neighbours that touch no earlier place.
fn cross(height: usize, width: usize, way: &mut Vec<(usize, usize)>, paths: &mut Vec<Bits>) {
    let Some((&(r, c), earlier)) = way.split_last() else {
        return;
    };
    if c + 1 == width {
        paths.push(Bits::of(&way.iter().map(|(r, c)| r * width + c).collect::<Vec<_>>()));
        return;
    }
    if paths.len() > MOST_ROWS {
        return;
    }
    let near = |a: (usize, usize), b: (usize, usize)| a.0.abs_diff(b.0) + a.1.abs_diff(b.1) <= 1;
    let next = [(r.wrapping_sub(1), c), (r + 1, c), (r, c.wrapping_sub(1)), (r, c + 1)];
    let next = next.into_iter().filter(|&(r, c)| r < height && (1..width).contains(&c));
    let next: Vec<_> = next.filter(|&place| !earlier.iter().any(|&old| near(old, place))).collect();
    for place in next {
        way.push(place);
        cross(height, width, way, paths);
        way.pop();
    }
}

/// The minimal sets that meet every row (Berge's multiplication); none if some step has more than `most`.
pub fn transversals(rows: &[Bits], most: usize) -> Option<Vec<Bits>> {
    let mut sets = vec![Bits::default()];
    for row in rows {
        let (met, unmet): (Vec<Bits>, Vec<Bits>) = sets.into_iter().partition(|set| set.meets(row));
        sets = met.clone();
        for set in unmet {
            for k in row.members() {
                let more = with(&set, k);
                if !met.iter().any(|old| old.within(&more)) {
                    sets.push(more);
                }
            }
            if sets.len() > most {
                return None;
            }
        }
    }
    Some(sets)
}

/// Random small sets that do not contain one another, against their minimal transversals.
pub fn random_dual(items: usize, rows: usize, longest: usize, rng: &mut Rng) -> Option<System> {
    let paths = random_antichain(items, rows, longest, rng);
    let cuts = transversals(&paths, MOST_ROWS)?;
    System::new("random dual".into(), items, paths, cuts).fits()
}

/// As many random sets, less those that contain another.
pub fn random_antichain(items: usize, rows: usize, longest: usize, rng: &mut Rng) -> Vec<Bits> {
    let sets: Vec<Bits> = (0..rows)
        .map(|_| {
            let size = rng.within(1, longest.min(items));
            let mut set = Bits::default();
            while set.size() < size {
                set.insert(rng.below(items));
            }
            set
        })
        .collect();
    antichain(&sets)
}

/// Paths and cuts that have nothing to do with one another.
pub fn unrelated(items: usize, paths: usize, cuts: usize, longest: usize, rng: &mut Rng) -> System {
    let paths = random_antichain(items, paths, longest, rng);
    let cuts = random_antichain(items, cuts, longest, rng);
    System::new("unrelated".into(), items, paths, cuts)
}

/// Two items that choose between two systems on other items: rows of both add up.
pub fn switched(a: System, b: System) -> System {
    let (x, y) = (a.items + b.items, a.items + b.items + 1);
    let join = |of_x: &[Bits], of_y: &[Bits], first: usize, second: usize| {
        let mut rows = vec![Bits::of(&[x, y])];
        rows.extend(of_x.iter().map(|row| with(&shifted(row, |k| k + first), x)));
        rows.extend(of_y.iter().map(|row| with(&shifted(row, |k| k + second), y)));
        rows
    };
    let paths = join(&a.paths, &b.paths, 0, a.items);
    let cuts = join(&b.cuts, &a.cuts, a.items, 0);
    System::new("switched".into(), x + 2, paths, cuts)
}

/// A tree of such choices between copies of a leaf, with at most as many items.
pub fn switch_tree(items: usize, leaf: &System) -> System {
    let most = (items + 2) / (leaf.items + 2);
    let mut tree = switch_of(most.max(1), leaf);
    tree.name = format!("switches to {}", leaf.name);
    tree
}

fn switch_of(leaves: usize, leaf: &System) -> System {
    if leaves == 1 {
        return leaf.clone();
    }
    switched(switch_of(leaves / 2, leaf), switch_of(leaves - leaves / 2, leaf))
}

/// The sets of so many of the items.
fn subsets(items: usize, size: usize) -> Vec<Bits> {
    fn go(from: usize, items: usize, size: usize, set: Bits, out: &mut Vec<Bits>) {
        if size == 0 {
            out.push(set);
            return;
        }
        for k in from..=items - size {
            go(k + 1, items, size - 1, with(&set, k), out);
        }
    }
    let mut out = Vec::new();
    go(0, items, size, Bits::default(), &mut out);
    out
}

/// The sets without those that contain another, and without repetitions.
pub fn antichain(sets: &[Bits]) -> Vec<Bits> {
    let mut kept: Vec<Bits> = Vec::new();
    for set in sets {
        if !kept.iter().any(|old| old.within(set)) {
            kept.retain(|old| !set.within(old));
            kept.push(*set);
        }
    }
    kept
}

fn with(set: &Bits, k: usize) -> Bits {
    let mut set = *set;
    set.insert(k);
    set
}

fn shifted(set: &Bits, place: impl Fn(usize) -> usize) -> Bits {
    Bits::of(&set.members().into_iter().map(place).collect::<Vec<_>>())
}

/// A random system of at most 12 items, mostly with both tables of one system.
pub fn small(rng: &mut Rng) -> System {
    let system = match rng.below(12) {
        0 => pairs(rng.within(1, 6)),
        1 => blocks(rng.within(1, 3), rng.within(1, 4)),
        2 | 3 => {
            let items = rng.within(1, 9);
            threshold(rng.within(1, items), items)
        }
        4 => fano(),
        5 => {
            let (height, width) = *rng.pick(&[(1, 3), (2, 2), (2, 3), (3, 2), (3, 3), (2, 5), (3, 4), (4, 3), (2, 6)]);
            grid(height, width).unwrap_or_else(System::item)
        }
        6 => {
            let leaf = rng.pick(&[System::item(), pairs(2), threshold(2, 3)]).clone();
            switch_tree(rng.within(4, 12), &leaf)
        }
        7 => {
            let inner: Vec<System> =
                (0..3).map(|_| rng.pick(&[System::item(), threshold(2, 3), pairs(2)]).clone()).collect();
            composed(&threshold(rng.within(1, 3), 3), &inner).unwrap_or_else(System::item)
        }
        8 => {
            let (items, paths, cuts, longest) = (rng.within(1, 12), rng.below(8), rng.below(8), rng.within(1, 5));
            unrelated(items, paths, cuts, longest, rng)
        }
        9 if rng.chance(1, 4) => trivial(rng),
        _ => {
            let (items, rows, longest) = (rng.within(2, 12), rng.within(1, 9), rng.within(1, 5));
            random_dual(items, rows, longest, rng).unwrap_or_else(System::item)
        }
    };
    varied(system, 12, rng)
}

/// A random system of more items, with rows that a list can hold if so wished.
pub fn large(most_items: usize, lists: bool, rng: &mut Rng) -> System {
    loop {
        let system = match rng.below(9) {
            0 => Some(blocks(*rng.pick(&[5, 6, 7]), 2)),
            1 => {
                let (count, size) = *rng.pick(&[(2, 16), (2, 31), (3, 8), (4, 5), (3, 5), (5, 3)]);
                Some(blocks(count, size))
            }
            2 => {
                let (least, items) =
                    *rng.pick(&[(2, 15), (3, 12), (4, 8), (2, 30), (1, 16), (16, 16), (5, 9), (2, 17)]);
                Some(threshold(least, items))
            }
            3 => {
                let mut points: Vec<usize> = (0..7).collect();
                rng.shuffle(&mut points);
                fano_over_fano(&points[..*rng.pick(&[1, 1, 2, 2, 2, 2, 3])])
            }
            4 => {
                let (height, width) = *rng.pick(&[(3, 5), (4, 4), (2, 10), (5, 3), (2, 8)]);
                grid(height, width)
            }
            5 | 6 => {
                let leaf = rng.pick(&[System::item(), pairs(3), threshold(2, 3), fano(), threshold(3, 5)]).clone();
                Some(switch_tree(rng.within(13, most_items), &leaf))
            }
            7 => {
                let (paths, cuts, longest) = (rng.below(60), rng.below(60), rng.within(2, 16));
                Some(unrelated(most_items, paths, cuts, longest, rng))
            }
            _ => {
                let (rows, longest) = (rng.within(2, 9), rng.within(2, 8));
                random_dual(most_items.min(40), rows, longest, rng)
            }
        };
        let fitting = system.filter(|s| s.items <= most_items && (!lists || s.longest() <= 16));
        if let Some(system) = fitting {
            return varied(system, most_items, rng);
        }
    }
}

/// A system without rows, or with the row that has no items.
fn trivial(rng: &mut Rng) -> System {
    let rows = [vec![], vec![Bits::default()], vec![Bits::of(&[0])]];
    let (paths, cuts) = (rng.pick(&rows).clone(), rng.pick(&rows).clone());
    System::new("trivial".into(), rng.within(1, 3), paths, cuts)
}

// Perhaps the other way round, with a row struck, shrunk or grown, and in another order.
fn varied(system: System, most_items: usize, rng: &mut Rng) -> System {
    let mut system = if rng.chance(1, 2) { system.swapped() } else { system };
    system = match rng.below(10) {
        0..=2 => system.struck(rng),
        3..=4 => system.shrunk(rng),
        5 => system.grown(rng),
        6 => system.struck(rng).shrunk(rng),
        _ => system,
    };
    match rng.below(4) {
        0 => system,
        1 => system.permuted(rng.within(1, most_items), rng),
        _ => system.permuted(0, rng),
    }
}

#[cfg(test)]
mod tests {
    use super::*;
    use crate::brute::{is_doubled, is_missed, truth, Truth, MOST_ITEMS};
    use crate::rules::sets::{List, Set, Word};
    use crate::rules::table::Table;
    use crate::search::{Search, Verdict};
    use crate::wide::Wide;

    fn audit<S: Set>(system: &System) -> Verdict {
        let table = |rows: &[Bits]| {
            let mut table = Table::<S>::open(system.items, MOST_ROWS);
            for row in rows {
                assert_eq!(table.put(&row.members()), Ok(0));
            }
            table
        };
        let (paths, cuts) = (table(&system.paths), table(&system.cuts));
        let verdict = Search::new().audit(&paths, &cuts).unwrap();
        assert_eq!(Wide::<()>::new().audit(&paths, &cuts).unwrap(), verdict);
        verdict
    }

    fn check(system: System) {
        let mut rng = Rng::new(1);
        let truths = [Truth::Same, Truth::Missed, Truth::Doubled];
        let systems = [system.clone(), system.clone().struck(&mut rng), system.shrunk(&mut rng)];
        for (system, wanted) in systems.into_iter().zip(truths) {
            assert!(system.paths.len() <= MOST_ROWS && system.cuts.len() <= MOST_ROWS);
            if system.items <= MOST_ITEMS {
                assert_eq!(truth(system.items, &system.paths, &system.cuts), wanted, "{}", system.name);
            }
            let moved = system.clone().permuted(0, &mut rng);
            if system.items <= 64 {
                assert_eq!(audit::<Word>(&system).name(), wanted.name(), "{}", system.name);
                assert_eq!(audit::<Word>(&moved).name(), wanted.name(), "{}", system.name);
            }
            if system.longest() <= 16 {
                assert_eq!(audit::<List>(&system).name(), wanted.name(), "{}", system.name);
                assert_eq!(audit::<List>(&moved).name(), wanted.name(), "{}", system.name);
            }
        }
    }

    #[test]
    fn families_are_dual() {
        for k in 1..=9 {
            check(pairs(k));
        }
        check(blocks(3, 10));
        for items in 1..=10 {
            for least in 1..=items {
                check(threshold(least, items));
            }
        }
        check(fano());
        let three = threshold(2, 3);
        check(composed(&three, &[fano(), three.clone(), System::item()]).unwrap());
        check(composed(&threshold(3, 5), &vec![three; 5]).unwrap());
        for points in 0..=2 {
            check(fano_over_fano(&[0, 1, 2, 3, 4][..points]).unwrap());
        }
        for (height, width) in [(1, 1), (1, 5), (4, 1), (2, 2), (3, 3), (3, 4), (4, 3), (4, 4)] {
            check(grid(height, width).unwrap());
        }
        for items in [4, 10, 40, 100, 256] {
            for leaf in [System::item(), pairs(3), fano(), threshold(2, 3)] {
                check(switch_tree(items, &leaf));
            }
        }
    }

    #[test]
    fn fano_wholly_over_fano_is_too_large() {
        assert!(fano_over_fano(&[0, 1, 2, 3, 4, 5, 6]).is_none());
    }

    #[test]
    fn random_duals_are_dual() {
        let mut rng = Rng::new(7);
        for round in 0..300 {
            let items = rng.within(2, if round % 2 == 0 { 12 } else { 30 });
            let (rows, longest) = (rng.within(1, 8), rng.within(1, 6));
            if let Some(system) = random_dual(items, rows, longest, &mut rng) {
                check(system);
            }
        }
    }

    #[test]
    fn a_grid_of_two_by_two() {
        let system = grid(2, 2).unwrap();
        assert_eq!(system.paths, [Bits::of(&[0, 1]), Bits::of(&[2, 3])]);
        assert_eq!(system.cuts.len(), 4);
    }

    #[test]
    fn larger_random_systems_against_transversals() {
        let mut rng = Rng::new(12);
        let mut seen = [0; 2];
        for round in 0..600 {
            let lists = round % 2 == 1;
            let system = large(if lists { 256 } else { 64 }, lists, &mut rng);
            let Some(mut wanted) = transversals(&system.cuts, 2000) else {
                continue;
            };
            let mut paths = system.paths.clone();
            paths.sort_unstable();
            wanted.sort_unstable();
            let same = paths == wanted;
            seen[usize::from(same)] += 1;
            let verdict = if lists { audit::<List>(&system) } else { audit::<Word>(&system) };
            assert_eq!(verdict == Verdict::Same, same, "{}", system.name);
            match verdict {
                Verdict::Same => {}
                Verdict::Miss(state) => assert!(is_missed(&state, &system.paths, &system.cuts)),
                Verdict::Both(state) => assert!(is_doubled(&state, &system.paths, &system.cuts)),
            }
            let doubled = system.paths.iter().any(|path| system.cuts.iter().any(|cut| !cut.meets(path)));
            assert_eq!(matches!(verdict, Verdict::Both(_)), doubled);
        }
        assert!(seen.iter().all(|&count| count > 50), "{seen:?}");
    }

    #[test]
    fn random_systems_against_brute_force() {
        let mut rng = Rng::new(11);
        let mut seen = [0; 3];
        for _ in 0..5000 {
            let system = small(&mut rng);
            assert!(system.items <= MOST_ITEMS);
            let wanted = truth(system.items, &system.paths, &system.cuts);
            seen[wanted as usize] += 1;
            assert_eq!(audit::<Word>(&system).name(), wanted.name());
            assert_eq!(audit::<List>(&system).name(), wanted.name());
        }
        assert!(seen.iter().all(|&count| count > 500), "{seen:?}");
    }
}
