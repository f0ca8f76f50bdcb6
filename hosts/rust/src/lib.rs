//! Vizzaluna for Rust: a small store of row versions, proved in Rattle and linked from its static library.
//!
//! A [`Store`] owns its four arenas. [`Store::begin`] opens a [`Transaction`], which reads one snapshot whatever others commit, and which
//! aborts when it is dropped. Several transactions are open at once, all from one thread: a `Store` is not `Sync`.
//!
//! ```
//! use vizzaluna::{Seen, Store};
//!
//! let store = Store::new(16, 4)?;
//! let animator = store.begin()?;
//! animator.write(0, 70)?;
//! animator.commit()?;
//! let preview = store.begin()?;
//! let animator = store.begin()?;
//! animator.write(0, 75)?;
//! animator.commit()?;
//! assert_eq!(preview.read(0)?, Seen::Key(70));
//! # Ok::<(), vizzaluna::Error>(())
//! ```
//!
//! Nothing here is `unsafe` for a caller: the library takes any numbers and any contents of the arenas, and what it cannot test itself
//! (pointers, counts, no overlap, one thread at a time) holds by the types.
mod error;
mod ffi;

use error::accepted;
pub use error::Error;
use ffi::*;
use std::cell::RefCell;

/// Transactions open at once.
pub const SLOTS: usize = 16;
/// Versions of one row that a read looks at.
pub const WALK: usize = 64;
/// Rows that one transaction writes.
pub const MOST_WRITES: usize = 32;
/// Versions that one transaction has read.
pub const MOST_READS: usize = 128;
/// The most rows and the most cells that a store has.
pub const MOST_ROWS: usize = 256;
pub const MOST_CELLS: usize = 4096;
/// The largest number: as the request of a vacuum, no limit.
pub const LAST_ID: u64 = u64::MAX;
/// Entries of a whole `meta`, and where in it: rows, cells, the clock, the first free cell.
pub const META_WORDS: usize = 4;
pub const META_ROWS: usize = 0;
pub const META_CELLS: usize = 1;
pub const META_CLOCK: usize = 2;
pub const META_FREE: usize = 3;

const CELL_WORDS: usize = 8;
const SLOT_WORDS: usize = 504;
const SLOT_UNUSED: usize = SLOT_WORDS - 6 - SLOTS - 3 * MOST_WRITES - 3 * MOST_READS;
const REPORT_WORDS: usize = 3;

// ---- the arenas, word by word as the library has them

/// A version. Cell c lies at index c - 1 of its arena.
#[repr(C)]
#[derive(Clone, Copy, Debug, Default, PartialEq, Eq)]
pub struct Cell {
    pub xmin: u64,
    pub xmax: u64,
    pub next: u64,
    pub keyed: u64,
    pub key: u64,
    pub locked: u64,
    pub owner: u64,
    pub link: u64,
}

/// An entry of a write set.
#[repr(C)]
#[derive(Clone, Copy, Debug, Default, PartialEq, Eq)]
pub struct Entry {
    pub row: u64,
    pub base: u64,
    pub cell: u64,
}

/// A read record.
#[repr(C)]
#[derive(Clone, Copy, Debug, Default, PartialEq, Eq)]
pub struct Record {
    pub row: u64,
    pub cell: u64,
    pub xmin: u64,
}

/// A slot: its transaction, the snapshot, the writes and the reads. What lies past a count means nothing.
#[repr(C)]
#[derive(Clone, Copy, Debug, PartialEq, Eq)]
pub struct Slot {
    pub id: u64,
    pub xmin: u64,
    pub xmax: u64,
    pub active_count: u64,
    pub active: [u64; SLOTS],
    pub write_count: u64,
    pub writes: [Entry; MOST_WRITES],
    pub read_count: u64,
    pub reads: [Record; MOST_READS],
    pub unused: [u64; SLOT_UNUSED],
}

impl Default for Slot {
    fn default() -> Slot {
        Slot {
            id: 0,
            xmin: 0,
            xmax: 0,
            active_count: 0,
            active: [0; SLOTS],
            write_count: 0,
            writes: [Entry::default(); MOST_WRITES],
            read_count: 0,
            reads: [Record::default(); MOST_READS],
            unused: [0; SLOT_UNUSED],
        }
    }
}

/// What a vacuum gave back: a cell, and the value that its version had.
#[repr(C)]
#[derive(Clone, Copy, Debug, Default, PartialEq, Eq)]
pub struct Report {
    pub cell: u64,
    pub keyed: u64,
    pub key: u64,
}

/// A slot as a record of two numbers: the transaction's id (0: empty) and its snapshot's xmin.
#[repr(C)]
#[derive(Clone, Copy, Debug, Default, PartialEq, Eq)]
pub struct SlotRecord {
    pub id: u64,
    pub xmin: u64,
}

const _: () = assert!(size_of::<Cell>() == 8 * CELL_WORDS);
const _: () = assert!(size_of::<Slot>() == 8 * SLOT_WORDS);
const _: () = assert!(size_of::<Report>() == 8 * REPORT_WORDS);

/// The four arenas. Any lengths and any contents are fine: the calls find out what is wrong with them.
#[derive(Clone, Debug, Default, PartialEq, Eq)]
pub struct Arenas {
    pub meta: Vec<u64>,
    pub rows: Vec<u64>,
    pub cells: Vec<Cell>,
    pub slots: Vec<Slot>,
}

impl Arenas {
    /// Zeros, as many as a store of these sizes needs.
    pub fn new(cells: usize, rows: usize) -> Arenas {
        Arenas { meta: vec![0; META_WORDS], rows: vec![0; rows], cells: vec![Cell::default(); cells], slots: vec![Slot::default(); SLOTS] }
    }
}

// ---- answers

/// What a row holds for a reader.
#[derive(Clone, Copy, Debug, PartialEq, Eq)]
pub enum Seen {
    /// No version that it sees.
    NoVersion,
    /// A version without a key: the row was deleted.
    NoKey,
    Key(u64),
}

impl Seen {
    fn new(kind: u64, key: u64) -> Seen {
        match kind {
            0 => Seen::NoVersion,
            1 => Seen::NoKey,
            _ => Seen::Key(key),
        }
    }
}

impl Report {
    /// The value that the version had.
    pub fn value(&self) -> Seen {
        if self.keyed == 0 {
            Seen::NoKey
        } else {
            Seen::Key(self.key)
        }
    }
}

/// What a vacuum did: a report for each version that went, newest first, and the value of the one that is newest in the row.
#[derive(Clone, Copy, Debug, PartialEq, Eq)]
pub struct Vacuumed<'b> {
    pub reports: &'b [Report],
    pub live: Seen,
}

/// The filled front of a result buffer.
fn front(buffer: &[u64], count: u64) -> &[u64] {
    // SAFETY: a slice gives a pointer to as many entries as it says.
    let filled = unsafe { vizzaluna_front(buffer.as_ptr(), buffer.len(), count) };
    &buffer[..filled as usize]
}

// ---- the store

/// A store that owns its arenas.
#[derive(Debug)]
pub struct Store {
    arenas: RefCell<Arenas>,
}

impl Store {
    /// A new store of so many cells and rows.
    pub fn new(cells: usize, rows: usize) -> Result<Store, Error> {
        let mut store = Store::open(Arenas::new(cells.min(MOST_CELLS), rows.min(MOST_ROWS)));
        store.create(cells as u64, rows as u64)?;
        Ok(store)
    }

    /// The store that lies in these arenas. Nothing is tested here: each call tests what it uses.
    pub fn open(arenas: Arenas) -> Store {
        Store { arenas: RefCell::new(arenas) }
    }

    /// A new history in the store's own arenas. No transaction is open over it: each borrows the store.
    pub fn create(&mut self, cells: u64, rows: u64) -> Result<(), Error> {
        // SAFETY: see `lent`.
        accepted(unsafe { lent!(vizzaluna_create, self.arenas.get_mut(), cells, rows) }, 0)
    }

    /// A copy of the arenas, to look at.
    pub fn arenas(&self) -> Arenas {
        self.arenas.borrow().clone()
    }

    /// The arenas themselves.
    pub fn into_arenas(self) -> Arenas {
        self.arenas.into_inner()
    }

    /// A new transaction, with a snapshot of what is committed now.
    pub fn begin(&self) -> Result<Transaction<'_>, Error> {
        let (mut slot, mut id) = (0, 0);
        // SAFETY: see `lent`; the out-parameters are two locals.
        let number = unsafe { lent!(vizzaluna_begin, &mut self.arenas.borrow_mut(), &mut slot, &mut id) };
        accepted(number, 0)?;
        Ok(Transaction { store: self, slot, id, open: true })
    }

    /// The versions of a row that no open snapshot can reach given back, as far as `request` allows.
    pub fn vacuum<'b>(&self, row: u64, request: u64, reports: &'b mut [Report]) -> Result<Vacuumed<'b>, Error> {
        let (mut count, mut kind, mut key, mut about) = (0, 0, 0, 0);
        // SAFETY: see `lent`; `reports` is a `&mut` slice, the out-parameters are four locals.
        let number = unsafe {
            lent!(
                vizzaluna_vacuum,
                &mut self.arenas.borrow_mut(),
                row,
                request,
                reports.as_mut_ptr(),
                reports.len(),
                &mut count,
                &mut kind,
                &mut key,
                &mut about
            )
        };
        accepted(number, about)?;
        Ok(Vacuumed { reports: &reports[..count as usize], live: Seen::new(kind, key) })
    }
}

/// An open transaction. Dropped, it aborts: what it wrote is gone, and its slot is free again.
#[derive(Debug)]
#[must_use = "a transaction that is dropped aborts"]
pub struct Transaction<'s> {
    store: &'s Store,
    slot: u64,
    id: u64,
    open: bool,
}

/// A transaction that could not be ended: why, and the transaction, which is still open. With `?` it becomes the [`Error`], and the
/// transaction aborts.
#[derive(Debug)]
pub struct Refused<'s> {
    pub error: Error,
    pub transaction: Transaction<'s>,
}

impl From<Refused<'_>> for Error {
    fn from(refused: Refused<'_>) -> Error {
        refused.error
    }
}

impl<'s> Transaction<'s> {
    pub fn id(&self) -> u64 {
        self.id
    }

    pub fn slot(&self) -> u64 {
        self.slot
    }

    /// What this transaction sees in a row: its own last write, else the last commit before it began.
    pub fn read(&self, row: u64) -> Result<Seen, Error> {
        let (mut kind, mut key, mut about) = (0, 0, 0);
        // SAFETY: see `lent`; the out-parameters are three locals.
        let number =
            unsafe { lent!(vizzaluna_read, &mut self.store.arenas.borrow_mut(), self.slot, self.id, row, &mut kind, &mut key, &mut about) };
        accepted(number, about)?;
        Ok(Seen::new(kind, key))
    }

    /// A key written to a row; the answer is the cell that holds it.
    pub fn write(&self, row: u64, key: u64) -> Result<u64, Error> {
        self.put(row, 1, key)
    }

    /// The row deleted; the answer is the cell that says so.
    pub fn delete(&self, row: u64) -> Result<u64, Error> {
        self.put(row, 0, 0)
    }

    fn put(&self, row: u64, keyed: u64, key: u64) -> Result<u64, Error> {
        let (mut cell, mut about) = (0, 0);
        // SAFETY: see `lent`; the out-parameters are two locals.
        let number = unsafe {
            lent!(vizzaluna_write, &mut self.store.arenas.borrow_mut(), self.slot, self.id, row, keyed, key, &mut cell, &mut about)
        };
        accepted(number, about)?;
        Ok(cell)
    }

    /// The rows that have the key, ascending, of the candidates and of the rows that this transaction has written.
    pub fn lookup<'b>(&self, key: u64, candidates: &[u64], results: &'b mut [u64]) -> Result<&'b [u64], Error> {
        let (mut count, mut about) = (0, 0);
        // SAFETY: see `lent`; the candidates are a `&` slice, the results a `&mut` slice, the out-parameters two locals.
        let number = unsafe {
            lent!(
                vizzaluna_lookup,
                &mut self.store.arenas.borrow_mut(),
                self.slot,
                self.id,
                key,
                candidates.as_ptr(),
                candidates.len(),
                results.as_mut_ptr(),
                results.len(),
                &mut count,
                &mut about
            )
        };
        accepted(number, about)?;
        Ok(front(results, count))
    }

    /// The same over all rows.
    pub fn lookup_all<'b>(&self, key: u64, results: &'b mut [u64]) -> Result<&'b [u64], Error> {
        let (mut count, mut about) = (0, 0);
        // SAFETY: see `lent`; the results are a `&mut` slice, the out-parameters two locals.
        let number = unsafe {
            lent!(
                vizzaluna_lookup_all,
                &mut self.store.arenas.borrow_mut(),
                self.slot,
                self.id,
                key,
                results.as_mut_ptr(),
                results.len(),
                &mut count,
                &mut about
            )
        };
        accepted(number, about)?;
        Ok(front(results, count))
    }

    /// The writes published, all together; or a refusal, and the transaction still open.
    pub fn commit(self) -> Result<(), Refused<'s>> {
        let mut about = 0;
        // SAFETY: see `lent`; the out-parameter is a local.
        let number = unsafe { lent!(vizzaluna_commit, &mut self.store.arenas.borrow_mut(), self.slot, self.id, &mut about) };
        self.ended(accepted(number, about))
    }

    /// The writes dropped; or a refusal, which only a damaged store gives.
    pub fn abort(mut self) -> Result<(), Refused<'s>> {
        let answer = self.give_up();
        self.ended(answer)
    }

    fn give_up(&mut self) -> Result<(), Error> {
        let mut about = 0;
        // SAFETY: see `lent`; the out-parameter is a local.
        let number = unsafe { lent!(vizzaluna_abort, &mut self.store.arenas.borrow_mut(), self.slot, self.id, &mut about) };
        accepted(number, about)
    }

    fn ended(mut self, answer: Result<(), Error>) -> Result<(), Refused<'s>> {
        match answer {
            Ok(()) => {
                self.open = false;
                Ok(())
            }
            Err(error) => Err(Refused { error, transaction: self }),
        }
    }
}

impl Drop for Transaction<'_> {
    fn drop(&mut self) {
        if self.open {
            // A refused abort changes nothing, and there is nobody to tell.
            let _ = self.give_up();
        }
    }
}

// ---- over slots as records of two numbers

/// The least of the request, the clock and the xmin of every record whose id is not 0.
pub fn retention_horizon(slots: &[SlotRecord], clock: u64, request: u64) -> u64 {
    // SAFETY: a slice gives a pointer to as many entries as it says.
    unsafe { vizzaluna_retention_horizon(slots.as_ptr(), slots.len(), clock, request) }
}

/// The least id that is not 0, or the clock where none is below it.
pub fn least_active(slots: &[SlotRecord], clock: u64) -> u64 {
    // SAFETY: a slice gives a pointer to as many entries as it says.
    unsafe { vizzaluna_least_active(slots.as_ptr(), slots.len(), clock) }
}

#[cfg(test)]
mod tests {
    use super::*;
    use std::mem::offset_of;

    /// The numbers of this crate, in the order of the library's table.
    fn own_numbers() -> Vec<Option<u64>> {
        let sizes = [SLOTS, WALK, MOST_WRITES, MOST_READS, MOST_ROWS, MOST_CELLS].map(|n| n as u64);
        let words = [META_WORDS, CELL_WORDS, SLOT_WORDS, REPORT_WORDS, META_ROWS, META_CELLS, META_CLOCK, META_FREE].map(|n| n as u64);
        let places = [
            offset_of!(Slot, id),
            offset_of!(Slot, xmin),
            offset_of!(Slot, xmax),
            offset_of!(Slot, active_count),
            offset_of!(Slot, write_count),
            offset_of!(Slot, read_count),
        ]
        .map(|bytes| bytes as u64 / 8);
        let refusals = (1..=15).map(|n| Error::new(n, 0).map(Error::number));
        let numbers = sizes.into_iter().chain([LAST_ID]).chain(words).chain(places).map(Some);
        numbers.chain(refusals).chain([Some(0), Some(1), Some(2)]).collect()
    }

    #[test]
    fn the_numbers_are_the_library_s() {
        let own = own_numbers();
        for (which, own) in own.iter().enumerate() {
            // SAFETY: numbers alone.
            assert_eq!(*own, Some(unsafe { vizzaluna_constant(which as u64) }), "constant {which}");
        }
        // SAFETY: as above.
        assert_eq!(unsafe { vizzaluna_constant(own.len() as u64) }, 0, "the library has more");
    }

    /// The kinds are those that `Seen::new` reads.
    #[test]
    fn the_kinds_are_read_right() {
        assert_eq!([Seen::new(0, 7), Seen::new(1, 7), Seen::new(2, 7)], [Seen::NoVersion, Seen::NoKey, Seen::Key(7)]);
    }

    /// Transactions that no store gave out: the two refusals that the types rule out elsewhere.
    #[test]
    fn a_transaction_that_is_not_in_its_slot_is_refused() {
        let store = Store::new(4, 2).unwrap();
        let open = store.begin().unwrap();
        let forged = |slot, id| Transaction { store: &store, slot, id, open: false };
        assert_eq!(forged(16, open.id()).read(0), Err(Error::BadSlot));
        assert_eq!(forged(0, 9).read(0), Err(Error::NotOwner { found: 1 }));
        assert_eq!(forged(1, 0).commit().unwrap_err().error, Error::NotOwner { found: 0 });
    }
}
