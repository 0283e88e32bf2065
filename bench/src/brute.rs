// Brute force over all states of up to 12 items, and checks of a state that is shown.

use crate::rules::sets::Bits;

/// Brute force goes so far.
pub const MOST_ITEMS: usize = 12;

/// What all states together say.
#[derive(Clone, Copy, Debug, PartialEq, Eq)]
pub enum Truth {
    Same,
    Missed,
    Doubled,
}

impl Truth {
    /// The name of the verdict that an audit must give.
    pub fn name(self) -> &'static str {
        match self {
            Truth::Same => "SAME",
            Truth::Missed => "MISS",
            Truth::Doubled => "BOTH",
        }
    }
}

/// Looks at every state of at most 12 items: a doubled one decides, else a missed one.
pub fn truth(items: usize, paths: &[Bits], cuts: &[Bits]) -> Truth {
    assert!(items <= MOST_ITEMS);
    let mut missed = false;
    for state in 0..1u64 << items {
        let state = Bits([state, 0, 0, 0]);
        match (works(&state, paths), fails(&state, cuts)) {
            (true, true) => return Truth::Doubled,
            (false, false) => missed = true,
            _ => {}
        }
    }
    if missed {
        Truth::Missed
    } else {
        Truth::Same
    }
}

/// Some path row is up.
pub fn works(state: &Bits, paths: &[Bits]) -> bool {
    paths.iter().any(|path| path.within(state))
}

/// Some cut row is down.
pub fn fails(state: &Bits, cuts: &[Bits]) -> bool {
    cuts.iter().any(|cut| !cut.meets(state))
}

/// Neither a path row is up nor a cut row down.
pub fn is_missed(state: &Bits, paths: &[Bits], cuts: &[Bits]) -> bool {
    !works(state, paths) && !fails(state, cuts)
}

/// A path row is up and a cut row down.
pub fn is_doubled(state: &Bits, paths: &[Bits], cuts: &[Bits]) -> bool {
    works(state, paths) && fails(state, cuts)
}

#[cfg(test)]
mod tests {
    use super::*;

    fn rows(rows: &[&[usize]]) -> Vec<Bits> {
        rows.iter().map(|row| Bits::of(row)).collect()
    }

    #[test]
    fn small_truths() {
        let (paths, cuts) = (rows(&[&[0, 1]]), rows(&[&[0], &[1]]));
        assert_eq!(truth(2, &paths, &cuts), Truth::Same);
        assert_eq!(truth(2, &paths, &cuts[..1]), Truth::Missed);
        assert_eq!(truth(2, &paths[..0], &cuts), Truth::Missed);
        assert_eq!(truth(2, &rows(&[&[0]]), &cuts), Truth::Doubled);
        assert_eq!(truth(1, &[], &[]), Truth::Missed);
        assert_eq!(truth(1, &rows(&[&[]]), &[]), Truth::Same);
        assert_eq!(truth(1, &rows(&[&[]]), &rows(&[&[]])), Truth::Doubled);
        assert_eq!(truth(0, &rows(&[&[]]), &[]), Truth::Same);
    }

    #[test]
    fn states_shown() {
        let (paths, cuts) = (rows(&[&[0, 1]]), rows(&[&[0]]));
        assert!(is_missed(&Bits::of(&[0]), &paths, &cuts));
        assert!(!is_missed(&Bits::of(&[0, 1]), &paths, &cuts));
        assert!(!is_missed(&Bits::of(&[1]), &paths, &cuts));
        assert!(is_doubled(&Bits::of(&[1]), &rows(&[&[1]]), &cuts));
        assert!(!is_doubled(&Bits::of(&[0, 1]), &rows(&[&[1]]), &cuts));
    }
}
