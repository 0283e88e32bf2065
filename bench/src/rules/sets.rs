// Sets of items: 256 bits for general use, and the two kinds that tables hold, behind one trait.

/// A set of numbers below 256, one bit each.
#[derive(Clone, Copy, Debug, Default, PartialEq, Eq, Hash, PartialOrd, Ord)]
pub struct Bits(pub [u64; 4]);

impl Bits {
    /// The numbers below `count`, which is at most 256.
    pub fn below(count: usize) -> Bits {
        let mut set = Bits::default();
        for (w, word) in set.0.iter_mut().enumerate() {
            let in_word = count.saturating_sub(64 * w).min(64);
            *word = if in_word == 64 { u64::MAX } else { (1 << in_word) - 1 };
        }
        set
    }

    pub fn of(items: &[usize]) -> Bits {
        let mut set = Bits::default();
        for &k in items {
            set.insert(k);
        }
        set
    }

    #[inline]
    pub fn insert(&mut self, k: usize) {
        self.0[k / 64] |= 1 << (k % 64);
    }

    #[inline]
    pub fn remove(&mut self, k: usize) {
        self.0[k / 64] &= !(1 << (k % 64));
    }

    #[inline]
    pub fn has(&self, k: usize) -> bool {
        k < 256 && self.0[k / 64] >> (k % 64) & 1 == 1
    }

    pub fn within(&self, other: &Bits) -> bool {
        self.0.iter().zip(other.0).all(|(a, b)| a & !b == 0)
    }

    pub fn meets(&self, other: &Bits) -> bool {
        self.0.iter().zip(other.0).any(|(a, b)| a & b != 0)
    }

    pub fn join(&self, other: &Bits) -> Bits {
        let mut both = *self;
        for (a, b) in both.0.iter_mut().zip(other.0) {
            *a |= b;
        }
        both
    }

    pub fn size(&self) -> usize {
        self.0.iter().map(|w| w.count_ones() as usize).sum()
    }

    pub fn members(&self) -> Vec<usize> {
        (0..256).filter(|&k| self.has(k)).collect()
    }
}

/// A kind of set that tables hold.
pub trait Set: Copy {
    /// Members are below this number.
    const CEILING: usize;

    fn empty() -> Self;

    /// Adds the item; false, and no change, if that set cannot be held.
    fn insert(&mut self, item: usize) -> bool;

    fn has(&self, item: usize) -> bool;

    fn size(&self) -> usize;

    /// Whether each member is one of the other set.
    fn within(&self, other: &Self) -> bool;

    /// Whether some member is among the items.
    fn meets(&self, items: &Bits) -> bool;

    /// Whether the item is a member, and no other member is in `rest`.
    fn only(&self, item: usize, rest: &Bits) -> bool;

    /// Calls `act` for each member that is in `rest`, in rising order.
    fn each(&self, rest: &Bits, act: impl FnMut(usize));

    fn bits(&self) -> Bits;
}

/// At most 64 items, one bit each.
#[derive(Clone, Copy, Debug, PartialEq, Eq)]
pub struct Word(pub u64);

impl Set for Word {
    const CEILING: usize = 64;

    fn empty() -> Word {
        Word(0)
    }

    fn insert(&mut self, item: usize) -> bool {
        if item >= 64 {
            return false;
        }
        self.0 |= 1 << item;
        true
    }

    #[inline]
    fn has(&self, item: usize) -> bool {
        item < 64 && self.0 >> item & 1 == 1
    }

    fn size(&self) -> usize {
        self.0.count_ones() as usize
    }

    #[inline]
    fn within(&self, other: &Word) -> bool {
        self.0 & !other.0 == 0
    }

    #[inline]
    fn meets(&self, items: &Bits) -> bool {
        self.0 & items.0[0] != 0
    }

    #[inline]
    fn only(&self, item: usize, rest: &Bits) -> bool {
        let bit = 1 << (item % 64);
        self.0 & (rest.0[0] | bit) == bit
    }

    #[inline]
    fn each(&self, rest: &Bits, mut act: impl FnMut(usize)) {
        let mut left = self.0 & rest.0[0];
        while left != 0 {
            act(left.trailing_zeros() as usize);
            left &= left - 1;
        }
    }

    fn bits(&self) -> Bits {
        Bits([self.0, 0, 0, 0])
    }
}

/// At most 16 numbers below 256, in rising order; the places behind them repeat the last one (0 if there is none).
#[derive(Clone, Copy, Debug, PartialEq, Eq)]
pub struct List {
    items: [u8; 16],
    len: u8,
}

impl List {
    #[inline]
    fn members(&self) -> &[u8] {
        &self.items[..usize::from(self.len).min(16)]
    }
}

impl Set for List {
    const CEILING: usize = 256;

    fn empty() -> List {
        List { items: [0; 16], len: 0 }
    }

    fn insert(&mut self, item: usize) -> bool {
        let Ok(item) = u8::try_from(item) else {
            return false;
        };
        let len = usize::from(self.len);
        let Err(place) = self.members().binary_search(&item) else {
            return true;
        };
        if len == 16 {
            return false;
        }
        self.items.copy_within(place..len, place + 1);
        self.items[place] = item;
        let last = self.items[len];
        self.items[len..].fill(last);
        self.len += 1;
        true
    }

    #[inline]
    fn has(&self, item: usize) -> bool {
        // all 16 places are compared at once: those behind the members repeat one of them
        let byte = item as u8;
        let hit = self.items.iter().fold(false, |hit, &k| hit | (k == byte));
        hit & (self.len > 0) & (item < 256)
    }

    fn size(&self) -> usize {
        usize::from(self.len)
    }

    fn within(&self, other: &List) -> bool {
        let mut others = other.members().iter();
        self.members().iter().all(|k| others.find(|&o| o >= k) == Some(k))
    }

    #[inline]
    fn meets(&self, items: &Bits) -> bool {
        self.members().iter().any(|&k| items.has(usize::from(k)))
    }

    #[inline]
    fn only(&self, item: usize, rest: &Bits) -> bool {
        self.has(item) && self.members().iter().all(|&k| usize::from(k) == item || !rest.has(usize::from(k)))
    }

    #[inline]
    fn each(&self, rest: &Bits, mut act: impl FnMut(usize)) {
        for &k in self.members() {
            if rest.has(usize::from(k)) {
                act(usize::from(k));
            }
        }
    }

    fn bits(&self) -> Bits {
        let mut set = Bits::default();
        for &k in self.members() {
            set.insert(usize::from(k));
        }
        set
    }
}

#[cfg(test)]
mod tests {
    use super::*;

    fn list(items: &[usize]) -> List {
        let mut set = List::empty();
        for &k in items {
            assert!(set.insert(k));
        }
        set
    }

    fn word(items: &[usize]) -> Word {
        let mut set = Word::empty();
        for &k in items {
            assert!(set.insert(k));
        }
        set
    }

    #[test]
    fn a_list_keeps_its_members_in_order() {
        let set = list(&[255, 0, 7, 100]);
        assert_eq!(set.members(), [0, 7, 100, 255]);
        assert_eq!(set.size(), 4);
        assert!(set.has(0) && set.has(255) && !set.has(1) && !set.has(256) && !set.has(511));
        assert_eq!(set, list(&[100, 7, 0, 255, 7]));
        assert!(!List::empty().has(0));
    }

    #[test]
    fn a_list_holds_sixteen_below_256() {
        let mut set = list(&(0..16).collect::<Vec<_>>());
        let before = set;
        assert!(!set.insert(16));
        assert!(set.insert(15));
        assert_eq!(set, before);
        let mut set = List::empty();
        assert!(!set.insert(256));
        assert!(set.insert(255));
    }

    #[test]
    fn a_word_holds_numbers_below_64() {
        let mut set = Word::empty();
        assert!(set.insert(63) && !set.insert(64) && !set.insert(usize::MAX));
        assert_eq!(set.0, 1 << 63);
        assert!(!set.has(127));
    }

    #[test]
    fn both_kinds_agree_with_bits() {
        let mut rng = crate::make::Rng::new(5);
        for _ in 0..2000 {
            let pick = |rng: &mut crate::make::Rng| {
                let size = rng.below(9);
                (0..size).map(|_| rng.below(12)).collect::<Vec<_>>()
            };
            let (a, b, r) = (pick(&mut rng), pick(&mut rng), pick(&mut rng));
            let (ba, bb, rest) = (Bits::of(&a), Bits::of(&b), Bits::of(&r));
            let item = rng.below(12);
            let only = ba.has(item) && ba.members().iter().all(|&k| k == item || !rest.has(k));
            let shared: Vec<usize> = ba.members().into_iter().filter(|&k| rest.has(k)).collect();
            let (la, lb, wa, wb) = (list(&a), list(&b), word(&a), word(&b));
            assert_eq!((la.bits(), wa.bits()), (ba, ba));
            assert_eq!((la.within(&lb), wa.within(&wb)), (ba.within(&bb), ba.within(&bb)));
            assert_eq!((la.meets(&bb), wa.meets(&bb)), (ba.meets(&bb), ba.meets(&bb)));
            assert_eq!((la.only(item, &rest), wa.only(item, &rest)), (only, only));
            assert_eq!((la.size(), wa.size()), (ba.size(), ba.size()));
            let (mut seen_l, mut seen_w) = (vec![], vec![]);
            la.each(&rest, |k| seen_l.push(k));
            wa.each(&rest, |k| seen_w.push(k));
            assert_eq!((&seen_l, &seen_w), (&shared, &shared));
        }
    }

    #[test]
    fn bits_below_a_count() {
        for count in [0, 1, 63, 64, 65, 128, 255, 256] {
            assert_eq!(Bits::below(count).members(), (0..count).collect::<Vec<_>>());
        }
    }
}
