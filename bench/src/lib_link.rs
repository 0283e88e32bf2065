// The foreign functions of the library, and safe calls of them between guard bytes.

use crate::make::cases::Rows;
use crate::make::Rng;

#[cfg(test)]
use crate::stand_ins::{gomzietis_audit, gomzietis_report, gomzietis_sheet};

#[cfg(not(test))]
extern "C" {
    // the report or the STOP line of a text, as `audit` prints it: its length; -1 if `out` has no room for either
    fn gomzietis_report(text: *const u8, text_len: usize, out: *mut u8, out_len: usize) -> isize;

    // the text read and written again: the length of the sheet text; minus the refusal's number if a call refuses
    fn gomzietis_sheet(text: *const u8, text_len: usize, out: *mut u8, out_len: usize) -> isize;

    // two tables filled row by row and audited so often: 0 SAME, 1 MISS, 2 BOTH, and the marks of the state; minus the refusal's number
    fn gomzietis_audit(
        kind: u32,
        items: usize,
        path_items: *const usize,
        path_items_len: usize,
        path_lens: *const usize,
        path_lens_len: usize,
        cut_items: *const usize,
        cut_items_len: usize,
        cut_lens: *const usize,
        cut_lens_len: usize,
        times: usize,
        state: *mut u8,
        state_len: usize,
    ) -> i32;
}

/// What a call that writes bytes answered, and what it did that it must not do.
pub struct Written {
    pub length: isize,
    pub bytes: Vec<u8>,
    pub faults: Vec<String>,
}

/// What an audit answered: its number, the marks of the state, and what it did that it must not do.
pub struct Audited {
    pub code: i32,
    pub marks: Vec<u8>,
    pub faults: Vec<String>,
}

/// What the library prints for a text, written into this memory; none if it answers that it has no room.
pub fn report_into<'o>(text: &[u8], out: &'o mut [u8]) -> Option<&'o [u8]> {
    // SAFETY: both slices are live and apart, and their lengths are handed over with them
    let length = unsafe { gomzietis_report(text.as_ptr(), text.len(), out.as_mut_ptr(), out.len()) };
    out.get(..usize::try_from(length).ok()?)
}

type Writer = unsafe extern "C" fn(*const u8, usize, *mut u8, usize) -> isize;

/// What the library prints for a text, into so many bytes of output.
pub fn report(text: &[u8], room: usize, rng: &mut Rng) -> Written {
    call(gomzietis_report, text, room, rng)
}

/// The text read and written again, into so many bytes of output.
pub fn sheet(text: &[u8], room: usize, rng: &mut Rng) -> Written {
    call(gomzietis_sheet, text, room, rng)
}

fn call(writer: Writer, text: &[u8], room: usize, rng: &mut Rng) -> Written {
    let text = Guarded::of(text, rng);
    let noise = rng.bytes(room);
    let mut out = Guarded::of(&noise, rng);
    let output = out.inside_mut();
    // SAFETY: both slices are live and apart, and their lengths are handed over with them
    let length = unsafe { writer(text.inside().as_ptr(), text.inside().len(), output.as_mut_ptr(), output.len()) };
    let mut faults = Vec::new();
    let written = usize::try_from(length).unwrap_or(0);
    if written > room {
        faults.push(format!("answered {length} bytes in {room}"));
    }
    let written = written.min(room);
    text.check("the text", 0..0, &mut faults);
    out.check("the output", 0..written, &mut faults);
    Written { length, bytes: out.inside()[..written].to_vec(), faults }
}

/// Two tables filled and audited, with the state written into so many places.
pub fn audit(rows: &Rows, times: usize, room: usize, rng: &mut Rng) -> Audited {
    let flat = Flat::of(rows);
    let inputs = [&flat.path_items, &flat.path_lens, &flat.cut_items, &flat.cut_lens];
    let inputs = inputs.map(|input| Guarded::of(input, rng));
    let noise = rng.bytes(room);
    let mut state = Guarded::of(&noise, rng);
    let [path_items, path_lens, cut_items, cut_lens] = inputs.each_ref().map(Guarded::inside);
    let code = audit_of(rows, [path_items, path_lens, cut_items, cut_lens], times, state.inside_mut());
    let mut faults = Vec::new();
    for (input, name) in inputs.iter().zip(["path items", "path lengths", "cut items", "cut lengths"]) {
        input.check(name, 0..0, &mut faults);
    }
    let shown = if code > 0 { room } else { 0 };
    state.check("the state", 0..shown, &mut faults);
    Audited { code, marks: state.inside().to_vec(), faults }
}

fn audit_of(rows: &Rows, inputs: [&[usize]; 4], times: usize, state: &mut [u8]) -> i32 {
    let [path_items, path_lens, cut_items, cut_lens] = inputs;
    // SAFETY: all slices are live and apart, and their lengths are handed over with them
    unsafe {
        gomzietis_audit(
            rows.kind as u32,
            rows.items,
            path_items.as_ptr(),
            path_items.len(),
            path_lens.as_ptr(),
            path_lens.len(),
            cut_items.as_ptr(),
            cut_items.len(),
            cut_lens.as_ptr(),
            cut_lens.len(),
            times,
            state.as_mut_ptr(),
            state.len(),
        )
    }
}

/// Rows as the library takes them, to be audited without checks where time is measured.
pub struct Flat {
    path_items: Vec<usize>,
    path_lens: Vec<usize>,
    cut_items: Vec<usize>,
    cut_lens: Vec<usize>,
}

impl Flat {
    pub fn of(rows: &Rows) -> Flat {
        let lens = |table: &[Vec<usize>]| table.iter().map(Vec::len).collect();
        Flat {
            path_items: rows.paths.concat(),
            path_lens: lens(&rows.paths),
            cut_items: rows.cuts.concat(),
            cut_lens: lens(&rows.cuts),
        }
    }

    pub fn audit(&self, rows: &Rows, times: usize, state: &mut [u8; 256]) -> i32 {
        let inputs = [&self.path_items[..], &self.path_lens, &self.cut_items, &self.cut_lens];
        audit_of(rows, inputs, times, &mut state[..rows.items.min(256)])
    }
}

/// What is guarded: bytes and numbers.
trait Random: Copy + PartialEq {
    fn random(rng: &mut Rng) -> Self;
}

impl Random for u8 {
    fn random(rng: &mut Rng) -> u8 {
        rng.byte()
    }
}

impl Random for usize {
    fn random(rng: &mut Rng) -> usize {
        rng.next() as usize
    }
}

// Values inside a larger buffer, with random values in front and behind, and a copy of all as it was.
struct Guarded<T> {
    buffer: Vec<T>,
    before: Vec<T>,
    inside: std::ops::Range<usize>,
}

impl<T: Random> Guarded<T> {
    fn of(values: &[T], rng: &mut Rng) -> Guarded<T> {
        let (front, behind) = (rng.within(17, 80), rng.within(17, 80));
        let mut buffer: Vec<T> = (0..front).map(|_| T::random(rng)).collect();
        buffer.extend_from_slice(values);
        buffer.extend((0..behind).map(|_| T::random(rng)));
        Guarded { before: buffer.clone(), buffer, inside: front..front + values.len() }
    }

    fn inside(&self) -> &[T] {
        &self.buffer[self.inside.clone()]
    }

    fn inside_mut(&mut self) -> &mut [T] {
        &mut self.buffer[self.inside.clone()]
    }

    // Only the given range of the values may have changed.
    fn check(&self, name: &str, free: std::ops::Range<usize>, faults: &mut Vec<String>) {
        let (start, end) = (self.inside.start, self.inside.end);
        let changed = |range: std::ops::Range<usize>| self.buffer[range.clone()] != self.before[range];
        if changed(0..start) {
            faults.push(format!("memory in front of {name} changed"));
        }
        if changed(end..self.buffer.len()) {
            faults.push(format!("memory behind {name} changed"));
        }
        if changed(start..start + free.start) || changed(start + free.end..end) {
            faults.push(format!("{name} changed where it must not"));
        }
    }
}

#[cfg(test)]
mod tests {
    use super::*;

    #[test]
    fn guards_see_each_change() {
        let mut rng = Rng::new(2);
        for _ in 0..200 {
            let values: Vec<u8> = (0..20).map(|_| rng.byte()).collect();
            let mut guarded = Guarded::of(&values, &mut rng);
            let place = rng.below(guarded.buffer.len());
            guarded.buffer[place] ^= 1;
            let mut faults = Vec::new();
            guarded.check("it", 0..7, &mut faults);
            let start = guarded.inside.start;
            assert_eq!(faults.is_empty(), (start..start + 7).contains(&place));
        }
    }
}
