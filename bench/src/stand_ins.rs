// Stand-ins for the library's functions in the tests, answered by the twin itself.

use crate::compare::fill;
use crate::make::cases::{Kind, Rows};
use crate::report;
use crate::rules::sets::{List, Set, Word};
use crate::rules::text::read;
use crate::rules::Refusal;
use crate::search::{Search, Verdict};
use crate::sheet;

/// The number of the refusal of an output that has no room.
const NO_ROOM: u8 = 12;

// The bytes written over the output, if they have room.
unsafe fn write(bytes: &[u8], out: *mut u8, out_len: usize) -> Option<isize> {
    if bytes.len() > out_len {
        return None;
    }
    std::slice::from_raw_parts_mut(out, bytes.len()).copy_from_slice(bytes);
    Some(bytes.len() as isize)
}

pub unsafe extern "C" fn gomzietis_report(text: *const u8, text_len: usize, out: *mut u8, out_len: usize) -> isize {
    let text = std::slice::from_raw_parts(text, text_len);
    let shown = write(&report::print(text), out, out_len);
    shown.or_else(|| write(&report::stop(NO_ROOM, 0), out, out_len)).unwrap_or(-1)
}

pub unsafe extern "C" fn gomzietis_sheet(text: *const u8, text_len: usize, out: *mut u8, out_len: usize) -> isize {
    let text = std::slice::from_raw_parts(text, text_len);
    match read(text) {
        Ok(read) => write(&sheet::write(&read), out, out_len).unwrap_or(-isize::from(NO_ROOM)),
        Err(refusal) => -isize::from(refusal.number),
    }
}

#[allow(clippy::too_many_arguments)]
pub unsafe extern "C" fn gomzietis_audit(
    kind: u32,
    items: usize,
    path_items: *const usize,
    path_items_len: usize,
    path_lens: *const usize,
    path_lens_len: usize,
    cut_items: *const usize,
    cut_items_len: usize,
    cut_lens: *const usize,
    cut_lens_len: usize,
    _times: usize,
    state: *mut u8,
    state_len: usize,
) -> i32 {
    let rows = |items: *const usize, items_len: usize, lens: *const usize, lens_len: usize| {
        let mut left = std::slice::from_raw_parts(items, items_len);
        let row = |len: &usize| left.split_off(..*len).unwrap_or_default().to_vec();
        std::slice::from_raw_parts(lens, lens_len).iter().map(row).collect()
    };
    let rows = Rows {
        kind: if kind == 0 { Kind::Word } else { Kind::List },
        items,
        paths: rows(path_items, path_items_len, path_lens, path_lens_len),
        cuts: rows(cut_items, cut_items_len, cut_lens, cut_lens_len),
    };
    let state = std::slice::from_raw_parts_mut(state, state_len);
    let answer = match rows.kind {
        Kind::Word => audit::<Word>(&rows),
        Kind::List => audit::<List>(&rows),
    };
    match answer {
        Err(refusal) => -i32::from(refusal.number),
        Ok(verdict) => {
            if let Verdict::Miss(up) | Verdict::Both(up) = verdict {
                for (k, mark) in state.iter_mut().enumerate() {
                    *mark = u8::from(up.has(k));
                }
            }
            verdict.code()
        }
    }
}

fn audit<S: Set>(rows: &Rows) -> Result<Verdict, Refusal> {
    let (paths, cuts) = fill::<S>(rows)?;
    Search::new().audit(&paths, &cuts)
}
