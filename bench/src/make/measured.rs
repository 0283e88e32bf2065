// The systems that are measured.

use super::cases::Kind;
use super::families::{self, System};
use super::Rng;

/// The families in their sizes, each with both tables of one system; some also with a row struck or shrunk.
pub fn all() -> Vec<System> {
    let mut rng = Rng::new(2024);
    let rng = &mut rng;
    let (fano, three) = (families::fano(), families::threshold(2, 3));
    let named = |name: &str, system: Option<System>| system.map(|system| System { name: name.into(), ..system });
    let mut same = vec![
        families::pairs(9),
        families::blocks(4, 5),
        families::blocks(3, 10),
        families::blocks(2, 16),
        families::blocks(2, 31),
        families::threshold(6, 12),
        families::threshold(3, 18),
        families::threshold(2, 40),
    ];
    same.extend(families::fano_over_fano(&[0, 1, 2]));
    same.extend(named("2 of 3 Fano", families::composed(&three, &[fano.clone(), fano.clone(), fano.clone()])));
    same.extend(named("3 of 5 times 2 of 3", families::composed(&families::threshold(3, 5), &vec![three; 5])));
    for (height, width) in [(3, 7), (4, 5), (5, 4)] {
        same.extend(families::grid(height, width));
    }
    for (items, leaf) in [
        (64, families::threshold(3, 5)),
        (128, families::threshold(3, 6)),
        (128, families::threshold(4, 8)),
        (256, System::item()),
        (256, fano),
        (256, families::threshold(3, 6)),
    ] {
        same.push(families::switch_tree(items, &leaf));
    }
    for (items, rows, longest) in [(20, 10, 5), (32, 8, 8), (40, 40, 3), (64, 6, 16)] {
        same.extend(random_dual_of(items, rows, longest, rng));
    }
    let mut systems = Vec::new();
    for (number, system) in same.into_iter().enumerate() {
        let changed = match number % 4 {
            1 => Some(system.clone().struck(rng)),
            3 => Some(system.clone().shrunk(rng)),
            _ => None,
        };
        systems.push(system.permuted(0, rng));
        systems.extend(changed.map(|system| system.permuted(0, rng)));
    }
    systems
}

// The first of some tries that has 100 rows or more in a table.
fn random_dual_of(items: usize, rows: usize, longest: usize, rng: &mut Rng) -> Option<System> {
    let tries = (0..500).filter_map(|_| families::random_dual(items, rows, longest, rng));
    let mut fitting = tries.filter(|system| system.cuts.len() >= 100);
    fitting.next()
}

/// Families in growing sizes, and the kind in which they are measured.
pub fn growing() -> Vec<(&'static str, Kind, Vec<System>)> {
    let trees = |leaf: System| [20, 40, 64, 128, 256].iter().map(|n| families::switch_tree(*n, &leaf)).collect();
    vec![
        ("half of the items", Kind::Word, (4..=6).map(|k| families::threshold(k, 2 * k)).collect()),
        ("half of the items", Kind::List, (4..=6).map(|k| families::threshold(k, 2 * k)).collect()),
        ("pairs", Kind::Word, (5..=9).map(families::pairs).collect()),
        ("three blocks", Kind::Word, [4, 6, 8, 10].iter().map(|size| families::blocks(3, *size)).collect()),
        ("switches to item", Kind::List, trees(System::item())),
        ("switches to 3 of 6", Kind::List, trees(families::threshold(3, 6))),
    ]
}
