// Tables of rows: opened for an item count and a number of places, filled row by row.

use super::sets::{Bits, Set};
use super::Refusal;

/// No table has more places than this.
pub const MOST_PLACES: usize = 4096;

/// Rows of one set kind, none of which contains another.
pub struct Table<S> {
    items: usize,
    capacity: usize,
    rows: Vec<S>,
}

impl<S: Set> Table<S> {
    /// A table without rows; with a count that is not permitted it has item count 0 and capacity 0.
    pub fn open(items: usize, places: usize) -> Table<S> {
        if items == 0 || items > S::CEILING {
            return Table { items: 0, capacity: 0, rows: Vec::new() };
        }
        let capacity = places.min(MOST_PLACES);
        Table { items, capacity, rows: Vec::with_capacity(capacity) }
    }

    pub fn items(&self) -> usize {
        self.items
    }

    pub fn rows(&self) -> &[S] {
        &self.rows
    }

    pub fn bits(&self) -> Vec<Bits> {
        self.rows.iter().map(S::bits).collect()
    }

    /// Puts a row behind the others and removes the older rows that contain it; answers how many these are.
    pub fn put(&mut self, list: &[usize]) -> Result<usize, Refusal> {
        if self.items == 0 {
            return Err(Refusal::new(1, 0));
        }
        let mut row = S::empty();
        for (place, &item) in list.iter().enumerate() {
            if item >= self.items {
                return Err(Refusal::new(2, place));
            }
            if row.has(item) {
                return Err(Refusal::new(3, place));
            }
            if !row.insert(item) {
                return Err(Refusal::new(4, place));
            }
        }
        if let Some(lowest) = self.rows.iter().position(|old| old.within(&row)) {
            return Err(Refusal::new(5, lowest));
        }
        let before = self.rows.len();
        self.rows.retain(|old| !row.within(old));
        let removed = before - self.rows.len();
        if self.rows.len() == self.capacity {
            return Err(Refusal::new(6, self.capacity));
        }
        self.rows.push(row);
        Ok(removed)
    }
}

#[cfg(test)]
mod tests {
    use super::super::sets::{List, Word};
    use super::*;

    fn members<S: Set>(table: &Table<S>) -> Vec<Vec<usize>> {
        table.bits().iter().map(Bits::members).collect()
    }

    #[test]
    fn counts_that_are_not_permitted() {
        for (items, word, list) in [(0, 0, 0), (1, 1, 1), (64, 64, 64), (65, 0, 65), (256, 0, 256), (257, 0, 0)] {
            assert_eq!(Table::<Word>::open(items, 3).items(), word);
            assert_eq!(Table::<List>::open(items, 3).items(), list);
        }
        assert_eq!(Table::<Word>::open(65, 3).put(&[0]), Err(Refusal::new(1, 0)));
        assert_eq!(Table::<Word>::open(5, 9999).capacity, 4096);
    }

    #[test]
    fn each_number_is_judged_in_turn() {
        let mut table = Table::<Word>::open(4, 5);
        assert_eq!(table.put(&[0, 4, 0]), Err(Refusal::new(2, 1)));
        assert_eq!(table.put(&[0, 1, 0, 4]), Err(Refusal::new(3, 2)));
        assert_eq!(table.put(&[usize::MAX]), Err(Refusal::new(2, 0)));
        let mut table = Table::<List>::open(256, 5);
        let mut row: Vec<usize> = (0..17).collect();
        assert_eq!(table.put(&row), Err(Refusal::new(4, 16)));
        row[16] = 3;
        assert_eq!(table.put(&row), Err(Refusal::new(3, 16)));
        row[16] = 256;
        assert_eq!(table.put(&row), Err(Refusal::new(2, 16)));
        row.truncate(16);
        assert_eq!(table.put(&row), Ok(0));
    }

    #[test]
    fn rows_that_contain_the_new_one_go() {
        let mut table = Table::<Word>::open(6, 5);
        for row in [&[0, 1][..], &[2, 3], &[1, 4], &[3, 5], &[0, 2]] {
            assert_eq!(table.put(row), Ok(0));
        }
        assert_eq!(table.put(&[4, 5]), Err(Refusal::new(6, 5)));
        assert_eq!(table.put(&[4, 1]), Err(Refusal::new(5, 2)));
        assert_eq!(table.put(&[3, 2, 0]), Err(Refusal::new(5, 1)));
        assert_eq!(table.put(&[1]), Ok(2));
        assert_eq!(members(&table), [vec![2, 3], vec![3, 5], vec![0, 2], vec![1]]);
        assert_eq!(table.put(&[4, 5]), Ok(0));
        assert_eq!(table.put(&[]), Ok(5));
        assert_eq!(members(&table), [Vec::<usize>::new()]);
        assert_eq!(table.put(&[]), Err(Refusal::new(5, 0)));
        assert_eq!(table.put(&[2]), Err(Refusal::new(5, 0)));
    }

    #[test]
    fn a_full_table_takes_a_row_that_removes_one() {
        let mut table = Table::<List>::open(100, 2);
        assert_eq!(table.put(&[70, 80]), Ok(0));
        assert_eq!(table.put(&[71, 80]), Ok(0));
        assert_eq!(table.put(&[70, 80, 90]), Err(Refusal::new(5, 0)));
        assert_eq!(table.put(&[72]), Err(Refusal::new(6, 2)));
        assert_eq!(table.put(&[70]), Ok(1));
        assert_eq!(members(&table), [vec![71, 80], vec![70]]);
    }

    #[test]
    fn no_places_at_all() {
        let mut table = Table::<Word>::open(3, 0);
        assert_eq!(table.put(&[0, 0]), Err(Refusal::new(3, 1)));
        assert_eq!(table.put(&[]), Err(Refusal::new(6, 0)));
    }
}
