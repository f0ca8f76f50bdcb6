//! The store as a host uses it: snapshots, ends of transactions, and every refusal that a safe caller can get.
use vizzaluna::*;

const MOST: u64 = LAST_ID;

/// A store with key 70 in row 0 and key 71 in row 1.
fn filled(cells: usize, rows: usize) -> Store {
    let store = Store::new(cells, rows).unwrap();
    let t = store.begin().unwrap();
    assert_eq!(t.write(0, 70), Ok(1));
    assert_eq!(t.write(1, 71), Ok(2));
    t.commit().unwrap();
    store
}

#[test]
fn a_snapshot_holds_while_others_commit() {
    let store = filled(8, 2);
    let old = store.begin().unwrap();
    assert_eq!(old.read(0), Ok(Seen::Key(70)));
    let new = store.begin().unwrap();
    new.write(0, 75).unwrap();
    new.delete(1).unwrap();
    assert_eq!(new.read(0), Ok(Seen::Key(75)));
    assert_eq!(new.read(1), Ok(Seen::NoKey));
    new.commit().unwrap();
    assert_eq!([old.read(0), old.read(1)], [Ok(Seen::Key(70)), Ok(Seen::Key(71))]);
    let later = store.begin().unwrap();
    assert_eq!([later.read(0), later.read(1)], [Ok(Seen::Key(75)), Ok(Seen::NoKey)]);
}

#[test]
fn a_row_that_nobody_wrote_has_no_version() {
    let store = Store::new(1, 1).unwrap();
    assert_eq!(store.begin().unwrap().read(0), Ok(Seen::NoVersion));
}

#[test]
fn a_dropped_transaction_aborts() {
    let store = filled(3, 2);
    {
        let t = store.begin().unwrap();
        assert_eq!(t.write(0, 99), Ok(3));
    }
    let t = store.begin().unwrap();
    assert_eq!((t.slot(), t.id()), (0, 3));
    assert_eq!(t.read(0), Ok(Seen::Key(70)));
    assert_eq!(t.write(0, 98), Ok(3), "the cell was given back and the lock is gone");
}

#[test]
fn an_aborted_transaction_is_not_aborted_again() {
    let store = filled(3, 2);
    let first = store.begin().unwrap();
    first.abort().unwrap();
    let second = store.begin().unwrap();
    assert_eq!(second.slot(), 0);
    assert_eq!(store.arenas().slots[0].id, second.id());
}

#[test]
fn a_refused_commit_stays_open_and_publishes_nothing() {
    let store = filled(8, 2);
    let late = store.begin().unwrap();
    late.read(0).unwrap();
    let early = store.begin().unwrap();
    early.write(0, 75).unwrap();
    early.commit().unwrap();
    late.write(1, 76).unwrap();
    let before = store.arenas();
    let refused = late.commit().unwrap_err();
    assert_eq!(refused.error, Error::ReadConflict { row: 0 });
    assert_eq!(store.arenas(), before);
    assert_eq!(refused.transaction.read(1), Ok(Seen::Key(76)));
    drop(refused);
    assert_eq!(store.begin().unwrap().read(1), Ok(Seen::Key(71)));
}

#[test]
fn a_question_mark_aborts() {
    fn try_it(store: &Store) -> Result<(), Error> {
        let late = store.begin()?;
        late.read(0)?;
        let early = store.begin()?;
        early.write(0, 75)?;
        early.commit()?;
        late.write(1, 76)?;
        late.commit()?;
        Ok(())
    }
    let store = filled(8, 2);
    assert_eq!(try_it(&store), Err(Error::ReadConflict { row: 0 }));
    assert!(store.arenas().slots.iter().all(|slot| *slot == Slot::default()));
}

#[test]
fn a_vacuum_waits_for_the_preview() {
    let store = filled(8, 2);
    let preview = store.begin().unwrap();
    for key in [75, 76] {
        let t = store.begin().unwrap();
        t.write(0, key).unwrap();
        t.commit().unwrap();
    }
    let mut room = [Report::default(); 2];
    assert_eq!(store.vacuum(0, MOST, &mut room), Ok(Vacuumed { reports: &[], live: Seen::Key(76) }));
    drop(preview);
    assert_eq!(store.vacuum(0, MOST, &mut room[..1]), Err(Error::ResultFull));
    let gone = [Report { cell: 3, keyed: 1, key: 75 }, Report { cell: 1, keyed: 1, key: 70 }];
    assert_eq!(store.vacuum(0, MOST, &mut room), Ok(Vacuumed { reports: &gone, live: Seen::Key(76) }));
    assert_eq!(gone[0].value(), Seen::Key(75));
    assert_eq!(store.vacuum(2, MOST, &mut room), Err(Error::BadRow { row: 2 }));
}

#[test]
fn lookups_list_the_rows_with_a_key() {
    let store = filled(8, 4);
    let t = store.begin().unwrap();
    t.write(3, 70).unwrap();
    let mut room = [9; 3];
    assert_eq!(t.lookup_all(70, &mut room), Ok(&[0, 3][..]));
    assert_eq!(room, [0, 3, 9]);
    assert_eq!(t.lookup(70, &[1, 0, 1], &mut room), Ok(&[0, 3][..]));
    assert_eq!(t.lookup(71, &[1, 0, 1], &mut room), Ok(&[1][..]));
    assert_eq!(t.lookup(70, &[0, 4, 5], &mut room), Err(Error::BadRow { row: 4 }));
    assert_eq!(t.lookup_all(70, &mut room[..1]), Err(Error::ResultFull));
    assert_eq!(t.lookup_all(70, &mut []), Err(Error::ResultFull));
    assert_eq!(t.lookup_all(5, &mut []), Ok(&[][..]));
    assert_eq!(t.lookup(5, &[], &mut []), Ok(&[][..]));
}

#[test]
fn sizes_out_of_range_are_refused() {
    for (cells, rows) in [(0, 1), (1, 0), (MOST_CELLS + 1, 1), (1, MOST_ROWS + 1), (usize::MAX, usize::MAX)] {
        assert_eq!(Store::new(cells, rows).unwrap_err(), Error::BadSize);
    }
    assert!(Store::new(MOST_CELLS, MOST_ROWS).is_ok());
}

#[test]
fn slots_and_ids_run_out() {
    let store = Store::new(1, 1).unwrap();
    let open: Vec<_> = (0..SLOTS).map(|_| store.begin().unwrap()).collect();
    assert_eq!(store.begin().unwrap_err(), Error::NoFreeSlot);
    drop(open);
    let mut arenas = store.into_arenas();
    arenas.meta[META_CLOCK] = LAST_ID;
    assert_eq!(Store::open(arenas).begin().unwrap_err(), Error::ClockSpent);
}

#[test]
fn writes_are_refused_where_they_must_be() {
    let store = filled(4, 2);
    let (a, b) = (store.begin().unwrap(), store.begin().unwrap());
    assert_eq!(a.write(2, 1), Err(Error::BadRow { row: 2 }));
    a.write(0, 75).unwrap();
    assert_eq!(b.write(0, 76), Err(Error::RowLocked { row: 0 }));
    a.commit().unwrap();
    assert_eq!(b.write(0, 76), Err(Error::WriteConflict { row: 0 }));
    assert_eq!(b.write(1, 76), Ok(4));
    let c = store.begin().unwrap();
    assert_eq!(c.write(0, 77), Err(Error::NoRoom));
}

#[test]
fn sets_and_chains_have_their_limits() {
    let rows = MOST_READS + 1;
    let store = Store::new(MOST_CELLS, rows).unwrap();
    for from in (0..rows).step_by(MOST_WRITES) {
        let t = store.begin().unwrap();
        let to = (from + MOST_WRITES).min(rows);
        (from..to).for_each(|row| assert!(t.write(row as u64, 1).is_ok()));
        if to - from == MOST_WRITES {
            assert_eq!(t.write((rows - 1) as u64, 1), Err(Error::WriteSetFull));
        }
        t.commit().unwrap();
    }
    let t = store.begin().unwrap();
    (0..MOST_READS).for_each(|row| assert_eq!(t.read(row as u64), Ok(Seen::Key(1))));
    assert_eq!(t.read(MOST_READS as u64), Err(Error::ReadSetFull { row: MOST_READS as u64 }));
    let old = store.begin().unwrap();
    for key in 0..WALK as u64 {
        let t = store.begin().unwrap();
        t.write(0, key).unwrap();
        t.commit().unwrap();
    }
    assert_eq!(old.read(0), Err(Error::ChainTooLong { row: 0 }));
}

#[test]
fn short_arenas_are_refused() {
    type Cut = fn(&mut Arenas);
    let cuts: [Cut; 4] =
        [|a| a.meta.truncate(META_WORDS - 1), |a| a.rows.truncate(1), |a| a.cells.truncate(3), |a| a.slots.truncate(SLOTS - 1)];
    let whole = filled(4, 2).into_arenas();
    for cut in cuts {
        let mut arenas = whole.clone();
        cut(&mut arenas);
        let mut store = Store::open(arenas.clone());
        assert_eq!(store.begin().unwrap_err(), Error::Damaged);
        assert_eq!(store.vacuum(0, MOST, &mut []), Err(Error::Damaged));
        assert_eq!(store.create(4, 2), Err(Error::BadSize));
        assert_eq!(store.into_arenas(), arenas, "a refusal changes nothing");
    }
    let mut none = Store::open(Arenas::default());
    assert_eq!(none.begin().unwrap_err(), Error::Damaged);
    assert_eq!(none.create(1, 1), Err(Error::BadSize));
}

#[test]
fn longer_arenas_keep_their_rest() {
    let mut arenas = Arenas::new(4, 2);
    arenas.meta.push(5);
    arenas.rows.push(6);
    arenas.cells.push(Cell { key: 7, ..Cell::default() });
    arenas.slots.push(Slot { id: 8, ..Slot::default() });
    let mut store = Store::open(arenas);
    store.create(4, 2).unwrap();
    store.begin().unwrap().write(0, 1).unwrap();
    let arenas = store.into_arenas();
    assert_eq!((arenas.meta[4], arenas.rows[2], arenas.cells[4].key, arenas.slots[16].id), (5, 6, 7, 8));
}

#[test]
fn damage_is_found_where_it_is_used() {
    let whole = filled(4, 2).into_arenas();
    let damaged = |spoil: &dyn Fn(&mut Arenas)| {
        let mut arenas = whole.clone();
        spoil(&mut arenas);
        Store::open(arenas)
    };
    assert_eq!(damaged(&|a| a.meta[META_CLOCK] = 0).begin().unwrap_err(), Error::Damaged);
    assert_eq!(damaged(&|a| a.meta[META_ROWS] = 3).begin().unwrap_err(), Error::Damaged);
    assert_eq!(damaged(&|a| a.meta[META_CELLS] = u64::MAX).begin().unwrap_err(), Error::Damaged);
    let head = damaged(&|a| a.rows[0] = 5);
    assert_eq!(head.begin().unwrap().read(0), Err(Error::Damaged));
    assert_eq!(head.begin().unwrap().read(1), Ok(Seen::Key(71)), "the rest can be used");
    assert_eq!(head.vacuum(0, MOST, &mut []), Err(Error::Damaged));
    let free = damaged(&|a| a.meta[META_FREE] = 5);
    assert_eq!(free.begin().unwrap().write(0, 1), Err(Error::Damaged));
    let circle = damaged(&|a| a.cells[0].next = 1);
    assert_eq!(circle.vacuum(0, MOST, &mut []), Err(Error::Damaged));
}

/// Words that no call has made, in every arena: each call ends, and a refused one has changed nothing.
#[test]
fn rubbish_is_answered() {
    let mut state = 1u64;
    let mut any = move || {
        state = state.wrapping_mul(6364136223846793005).wrapping_add(1442695040888963407);
        let x = state >> 33;
        [x % 5, x % 5, x % 20, u64::MAX - x % 2][(x / 32 % 4) as usize]
    };
    let mut accepted = 0;
    for _ in 0..300 {
        let mut arenas = Arenas::new(4, 3);
        arenas.meta = vec![3, 4, any().max(1), any()];
        arenas.rows.iter_mut().for_each(|word| *word = any());
        for cell in &mut arenas.cells {
            *cell = Cell { xmin: any(), xmax: any(), next: any(), keyed: any(), key: any(), locked: any(), owner: any(), link: any() };
        }
        for slot in &mut arenas.slots {
            (slot.id, slot.xmin, slot.xmax) = (any(), any(), any());
        }
        let store = Store::open(arenas);
        let mut answered = |call: &mut dyn FnMut() -> Result<(), Error>| {
            let before = store.arenas();
            match call() {
                Ok(()) => accepted += 1,
                Err(error) => assert_eq!(store.arenas(), before, "{error} has changed something"),
            }
        };
        let Ok(t) = store.begin() else { continue };
        for row in 0..4 {
            answered(&mut || t.read(row).map(|_| ()));
            answered(&mut || t.write(row, 7).map(|_| ()));
            let request = any();
            answered(&mut || store.vacuum(row, request, &mut [Report::default(); 1]).map(|_| ()));
        }
        answered(&mut || t.lookup(7, &[2, 0], &mut [0; 2]).map(|_| ()));
        answered(&mut || t.lookup_all(7, &mut [0; 2]).map(|_| ()));
        let mut open = Some(t);
        answered(&mut || match open.take().expect("it is committed once").commit() {
            Ok(()) => Ok(()),
            Err(refused) => {
                open = Some(refused.transaction);
                Err(refused.error)
            }
        });
    }
    assert!(accepted > 300, "{accepted}");
}

#[test]
fn the_horizon_over_records() {
    let slots = [SlotRecord { id: 0, xmin: 1 }, SlotRecord { id: 6, xmin: 4 }, SlotRecord { id: 5, xmin: 5 }];
    assert_eq!(retention_horizon(&slots, 9, MOST), 4);
    assert_eq!(retention_horizon(&slots, 9, 2), 2);
    assert_eq!(retention_horizon(&[], 9, MOST), 9);
    assert_eq!(least_active(&slots, 9), 5);
    assert_eq!(least_active(&[], 9), 9);
}

#[test]
fn every_refusal_has_its_number() {
    for number in 1..=15 {
        let error = Error::new(number, 3).unwrap();
        assert_eq!(error.number(), number);
        assert!(matches!(error.about(), None | Some(3)));
        assert!(error.to_string().contains(error.name()));
    }
    assert_eq!([Error::new(0, 0), Error::new(16, 0)], [None, None]);
    assert_eq!(Error::NotOwner { found: 7 }.about(), Some(7));
}
