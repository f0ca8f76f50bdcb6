//! The library's functions, as include/vizzaluna.h has them, and the four arenas as arguments.
use crate::{Cell, Report, Slot, SlotRecord};

extern "C" {
    pub fn vizzaluna_create(
        meta: *mut u64,
        meta_count: usize,
        rows: *mut u64,
        rows_count: usize,
        cells: *mut Cell,
        cells_count: usize,
        slots: *mut Slot,
        slots_count: usize,
        n: u64,
        r: u64,
    ) -> u64;
    pub fn vizzaluna_begin(
        meta: *mut u64,
        meta_count: usize,
        rows: *const u64,
        rows_count: usize,
        cells: *const Cell,
        cells_count: usize,
        slots: *mut Slot,
        slots_count: usize,
        slot: *mut u64,
        id: *mut u64,
    ) -> u64;
    pub fn vizzaluna_read(
        meta: *const u64,
        meta_count: usize,
        rows: *const u64,
        rows_count: usize,
        cells: *const Cell,
        cells_count: usize,
        slots: *mut Slot,
        slots_count: usize,
        slot: u64,
        id: u64,
        row: u64,
        kind: *mut u64,
        key: *mut u64,
        about: *mut u64,
    ) -> u64;
    pub fn vizzaluna_write(
        meta: *mut u64,
        meta_count: usize,
        rows: *const u64,
        rows_count: usize,
        cells: *mut Cell,
        cells_count: usize,
        slots: *mut Slot,
        slots_count: usize,
        slot: u64,
        id: u64,
        row: u64,
        keyed: u64,
        key: u64,
        cell: *mut u64,
        about: *mut u64,
    ) -> u64;
    pub fn vizzaluna_commit(
        meta: *const u64,
        meta_count: usize,
        rows: *mut u64,
        rows_count: usize,
        cells: *mut Cell,
        cells_count: usize,
        slots: *mut Slot,
        slots_count: usize,
        slot: u64,
        id: u64,
        about: *mut u64,
    ) -> u64;
    pub fn vizzaluna_abort(
        meta: *mut u64,
        meta_count: usize,
        rows: *const u64,
        rows_count: usize,
        cells: *mut Cell,
        cells_count: usize,
        slots: *mut Slot,
        slots_count: usize,
        slot: u64,
        id: u64,
        about: *mut u64,
    ) -> u64;
    pub fn vizzaluna_vacuum(
        meta: *mut u64,
        meta_count: usize,
        rows: *const u64,
        rows_count: usize,
        cells: *mut Cell,
        cells_count: usize,
        slots: *const Slot,
        slots_count: usize,
        row: u64,
        request: u64,
        reports: *mut Report,
        reports_count: usize,
        count: *mut u64,
        kind: *mut u64,
        key: *mut u64,
        about: *mut u64,
    ) -> u64;
    pub fn vizzaluna_lookup(
        meta: *const u64,
        meta_count: usize,
        rows: *const u64,
        rows_count: usize,
        cells: *const Cell,
        cells_count: usize,
        slots: *mut Slot,
        slots_count: usize,
        slot: u64,
        id: u64,
        key: u64,
        candidates: *const u64,
        candidates_count: usize,
        results: *mut u64,
        results_count: usize,
        count: *mut u64,
        about: *mut u64,
    ) -> u64;
    pub fn vizzaluna_lookup_all(
        meta: *const u64,
        meta_count: usize,
        rows: *const u64,
        rows_count: usize,
        cells: *const Cell,
        cells_count: usize,
        slots: *mut Slot,
        slots_count: usize,
        slot: u64,
        id: u64,
        key: u64,
        results: *mut u64,
        results_count: usize,
        count: *mut u64,
        about: *mut u64,
    ) -> u64;
    pub fn vizzaluna_front(buffer: *const u64, buffer_count: usize, count: u64) -> u64;
    pub fn vizzaluna_retention_horizon(slots: *const SlotRecord, slots_count: usize, clock: u64, request: u64) -> u64;
    pub fn vizzaluna_least_active(slots: *const SlotRecord, slots_count: usize, clock: u64) -> u64;
    #[cfg(test)]
    pub fn vizzaluna_constant(which: u64) -> u64;
}

/// Calls `$f` with the arenas of `$a`, a `&mut Arenas`, as its first eight arguments.
///
/// Sound for whatever the arenas hold: each `Vec` gives a pointer to as many entries as it says, the four do not overlap, and the `&mut`
/// keeps others away. The arguments after them are the caller's.
macro_rules! lent {
    ($f:ident, $a:expr $(, $more:expr)*) => {{
        let arenas: &mut $crate::Arenas = $a;
        $f(
            arenas.meta.as_mut_ptr(), arenas.meta.len(), arenas.rows.as_mut_ptr(), arenas.rows.len(), arenas.cells.as_mut_ptr(),
            arenas.cells.len(), arenas.slots.as_mut_ptr(), arenas.slots.len() $(, $more)*
        )
    }};
}
pub(crate) use lent;
