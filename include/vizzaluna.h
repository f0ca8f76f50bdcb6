/* Vizzaluna: a small store of row versions for joint-limit sets, for C and C++. Link crates/vizzaluna/out/libvizzaluna.a (x86-64),
 * which `rt lib` makes in crates/vizzaluna. It needs memcpy and memset, and nothing else: no heap, no file, no thread, no state of its own.
 *
 * A store lives in memory that the host lends to every call: four arenas, each a pointer and a count. Rows 0 to R-1 each hold a chain of
 * versions, newest first. A transaction is a slot and an id; it reads one snapshot, taken when it began, whatever others commit meanwhile.
 *
 * What a call answers
 *   Every call of the store returns a number: 0 is accepted, any other is a refusal, one of the fifteen below. Further answers go to
 *   out-parameters, which are the last ones. They are always written, whatever is answered: with 0 where the answer has no such number.
 *   So after a refusal a slot, an id, a cell, a key and a count are 0 (id 0 is nobody's: every call that takes an id refuses it),
 *   and a kind is VIZZALUNA_NO_VERSION; and `*about` is 0 wherever a call is accepted.
 *   A refused call changes nothing in the arenas and nothing in a buffer: it can be tried again, and a refused commit stays open.
 *   The number, the out-parameters and every lent word afterwards are proved to be what the rules say, for any numbers and for any
 *   contents and counts of the arenas. Rubbish in them is no undefined behaviour: a number that leads nowhere is found where
 *   it is used, and refused (VIZZALUNA_DAMAGED). A call needs less than 16 KB of stack.
 *
 * What is left to the caller, since no function can test it
 *   - A pointer points to as many entries as its count says, of its type, aligned as its type is. It is not null; where the count is 0
 *     it may be, and nothing is read or written through it. An out-parameter is never null.
 *   - The arenas, the buffers and the out-parameters of one call do not overlap.
 *   - One thread at a time uses the arenas of a store. Different stores have nothing in common.
 *   - A history is one store: it begins at an accepted vizzaluna_create, and every later call is lent the same four arenas, which nothing
 *     but the calls changes. Arenas that were changed by hand still get exact answers, but not those of a history.
 */
#ifndef VIZZALUNA_H
#define VIZZALUNA_H

#include <stddef.h>
#include <stdint.h>

#ifdef __cplusplus
extern "C" {
#endif

/* ---- sizes */

#define VIZZALUNA_SLOTS 16       /* transactions open at once */
#define VIZZALUNA_WALK 64        /* versions of one row that a read looks at */
#define VIZZALUNA_MOST_WRITES 32 /* rows that one transaction writes */
#define VIZZALUNA_MOST_READS 128 /* versions that one transaction has read */
#define VIZZALUNA_MOST_ROWS 256  /* the largest R */
#define VIZZALUNA_MOST_CELLS 4096 /* the largest N */
#define VIZZALUNA_LAST_ID UINT64_C(18446744073709551615) /* 2^64 - 1: no id is drawn from there on; as a request: no limit */

/* 64-bit words of one entry of each arena and of a report. A whole meta is VIZZALUNA_META_WORDS entries of one word. */
#define VIZZALUNA_META_WORDS 4
#define VIZZALUNA_CELL_WORDS 8
#define VIZZALUNA_SLOT_WORDS 504
#define VIZZALUNA_REPORT_WORDS 3

/* Where in meta: R, N, the clock (the next id), the first free cell (0: none). */
#define VIZZALUNA_META_ROWS 0
#define VIZZALUNA_META_CELLS 1
#define VIZZALUNA_META_CLOCK 2
#define VIZZALUNA_META_FREE 3

/* Where in a slot, in words: the members of vizzaluna_slot. */
#define VIZZALUNA_SLOT_ID 0
#define VIZZALUNA_SLOT_XMIN 1
#define VIZZALUNA_SLOT_XMAX 2
#define VIZZALUNA_SLOT_ACTIVE 3
#define VIZZALUNA_SLOT_WRITES 20
#define VIZZALUNA_SLOT_READS 117

/* ---- refusals, and what `*about` is then; 0 where nothing is said */

#define VIZZALUNA_ACCEPTED UINT64_C(0)
#define VIZZALUNA_BAD_SIZE UINT64_C(1)        /* create: R or N out of range, or an arena too short for them */
#define VIZZALUNA_CLOCK_SPENT UINT64_C(2)     /* begin: every id has been drawn */
#define VIZZALUNA_NO_FREE_SLOT UINT64_C(3)    /* begin: VIZZALUNA_SLOTS transactions are open */
#define VIZZALUNA_BAD_SLOT UINT64_C(4)        /* the slot is VIZZALUNA_SLOTS or more */
#define VIZZALUNA_NOT_OWNER UINT64_C(5)       /* the id is 0 or not the slot's; about: the id found there (0: the slot is empty) */
#define VIZZALUNA_BAD_ROW UINT64_C(6)         /* a row or a candidate is R or more; about: the first such */
#define VIZZALUNA_ROW_LOCKED UINT64_C(7)      /* write: another open transaction has written the row; about: the row */
#define VIZZALUNA_WRITE_CONFLICT UINT64_C(8)  /* write, commit: the row was changed since this transaction began; about: the row */
#define VIZZALUNA_READ_CONFLICT UINT64_C(9)   /* commit: a version that was read has been replaced; about: the row of the first such */
#define VIZZALUNA_CHAIN_TOO_LONG UINT64_C(10) /* no version seen among the first VIZZALUNA_WALK, and there are more; about: the row */
#define VIZZALUNA_NO_ROOM UINT64_C(11)        /* write: no cell is free */
#define VIZZALUNA_WRITE_SET_FULL UINT64_C(12) /* write: a row more than VIZZALUNA_MOST_WRITES */
#define VIZZALUNA_READ_SET_FULL UINT64_C(13)  /* a version more than VIZZALUNA_MOST_READS; about: its row */
#define VIZZALUNA_RESULT_FULL UINT64_C(14)    /* vacuum, lookup: the list is longer than the buffer */
#define VIZZALUNA_DAMAGED UINT64_C(15)        /* the arenas are too short for the sizes saved in them, or hold what no call stored */

/* ---- what a row holds for a reader */

#define VIZZALUNA_NO_VERSION UINT64_C(0) /* nothing: no version that it sees */
#define VIZZALUNA_NO_KEY UINT64_C(1)     /* a version without a key: the row was deleted */
#define VIZZALUNA_KEY UINT64_C(2)        /* a key */

/* ---- the arenas. Every member is a 64-bit word, so no struct has padding. Look, but leave changes to the calls. */

/* A version. Cell c lies at index c - 1 of its arena; cell 0 is none. */
typedef struct vizzaluna_cell {
    uint64_t xmin;   /* the id that made it */
    uint64_t xmax;   /* the id that replaced it; 0: none has */
    uint64_t next;   /* the cell of the version before it; 0: none */
    uint64_t keyed;  /* 0: no key */
    uint64_t key;
    uint64_t locked; /* 0: not locked by a writer */
    uint64_t owner;  /* the writer's id */
    uint64_t link;   /* of a free cell: the next free cell; 0: none */
} vizzaluna_cell;

/* An entry of a write set: the row, the cell that was its head, the new cell. */
typedef struct vizzaluna_entry {
    uint64_t row, base, cell;
} vizzaluna_entry;

/* A read record: the row, the cell that was seen there, and the id that had made it. */
typedef struct vizzaluna_record {
    uint64_t row, cell, xmin;
} vizzaluna_record;

/* A slot. Its transaction's id (0: the slot is empty), its snapshot (xmin, xmax, the ids that were active), its writes and its reads;
 * what lies past a count means nothing. */
typedef struct vizzaluna_slot {
    uint64_t id, xmin, xmax;
    uint64_t active_count;
    uint64_t active[VIZZALUNA_SLOTS];
    uint64_t write_count;
    vizzaluna_entry writes[VIZZALUNA_MOST_WRITES];
    uint64_t read_count;
    vizzaluna_record reads[VIZZALUNA_MOST_READS];
    uint64_t unused[VIZZALUNA_SLOT_WORDS - 6 - VIZZALUNA_SLOTS - 3 * VIZZALUNA_MOST_WRITES - 3 * VIZZALUNA_MOST_READS];
} vizzaluna_slot;

/* What a vacuum gave back: a cell, and the value that its version had. */
typedef struct vizzaluna_report {
    uint64_t cell, keyed, key;
} vizzaluna_report;

/* A slot as a record of two numbers: the transaction's id (0: empty) and its snapshot's xmin. */
typedef struct vizzaluna_slot_record {
    uint64_t id, xmin;
} vizzaluna_slot_record;

/* The four arenas as a host keeps them, and as it lends them: vizzaluna_begin(VIZZALUNA_LENT(&store), &slot, &id). A store of N cells and
 * R rows needs VIZZALUNA_META_WORDS, R, N and VIZZALUNA_SLOTS entries. Longer arenas are taken, and their rest is left alone. */
typedef struct vizzaluna_store {
    uint64_t *meta;
    size_t meta_count;
    uint64_t *rows; /* the head of each row's chain; 0: none */
    size_t rows_count;
    vizzaluna_cell *cells;
    size_t cells_count;
    vizzaluna_slot *slots;
    size_t slots_count;
} vizzaluna_store;

/* The first eight arguments of a call, from a pointer to a vizzaluna_store, which is evaluated eight times. */
#define VIZZALUNA_LENT(store)                                                                                                              \
    (store)->meta, (store)->meta_count, (store)->rows, (store)->rows_count, (store)->cells, (store)->cells_count, (store)->slots,         \
        (store)->slots_count

/* ---- the calls. "Tests of the slot" are, in this order: DAMAGED (the sizes saved in meta do not fit the arenas, or the clock is 0),
 * BAD_SLOT, NOT_OWNER (about: the id found), DAMAGED (a count of the slot is above its limit). Where several refusals apply, the first
 * one listed is given. */

/* A new store of n cells and r rows, which begins a new history.
 *   Changes   all four arenas, as far as the sizes need them.
 *   Refuses   BAD_SIZE. */
uint64_t vizzaluna_create(uint64_t *meta, size_t meta_count, uint64_t *rows, size_t rows_count, vizzaluna_cell *cells, size_t cells_count,
                          vizzaluna_slot *slots, size_t slots_count, uint64_t n, uint64_t r);

/* A new transaction, in the lowest empty slot, with the next id and a snapshot of what is committed now.
 *   Answers   *slot and *id, which name the transaction in every call after this one.
 *   Changes   the clock and that slot.
 *   Refuses   DAMAGED (sizes or clock), NO_FREE_SLOT, CLOCK_SPENT. A refused begin uses no id. */
uint64_t vizzaluna_begin(uint64_t *meta, size_t meta_count, const uint64_t *rows, size_t rows_count, const vizzaluna_cell *cells,
                         size_t cells_count, vizzaluna_slot *slots, size_t slots_count, uint64_t *slot, uint64_t *id);

/* What the transaction sees in a row: its own last write, else the last commit of the row before it began.
 *   Answers   *kind: VIZZALUNA_NO_VERSION, VIZZALUNA_NO_KEY or VIZZALUNA_KEY; *key: the key, 0 where there is none.
 *   Changes   the slot: the version that was seen is recorded, once, for the commit to validate.
 *   Refuses   tests of the slot; BAD_ROW; DAMAGED (the cell of the own write); DAMAGED (a cell number of the row's chain) or
 *             CHAIN_TOO_LONG, whichever the walk along the chain meets first; READ_SET_FULL. */
uint64_t vizzaluna_read(const uint64_t *meta, size_t meta_count, const uint64_t *rows, size_t rows_count, const vizzaluna_cell *cells,
                        size_t cells_count, vizzaluna_slot *slots, size_t slots_count, uint64_t slot, uint64_t id, uint64_t row,
                        uint64_t *kind, uint64_t *key, uint64_t *about);

/* A key written to a row, or the row deleted where `keyed` is 0 (`key` is then not looked at). Others see it once it is committed.
 *   Answers   *cell: the cell that holds it. A second write of the row replaces the value and keeps the cell.
 *   Changes   the row's newest version, which is locked for this transaction; a free cell; the slot.
 *   Refuses   tests of the slot; BAD_ROW; DAMAGED (the own cell, or the row's head); ROW_LOCKED; WRITE_CONFLICT; WRITE_SET_FULL;
 *             NO_ROOM; DAMAGED (the free list). */
uint64_t vizzaluna_write(uint64_t *meta, size_t meta_count, const uint64_t *rows, size_t rows_count, vizzaluna_cell *cells,
                         size_t cells_count, vizzaluna_slot *slots, size_t slots_count, uint64_t slot, uint64_t id, uint64_t row,
                         uint64_t keyed, uint64_t key, uint64_t *cell, uint64_t *about);

/* The transaction's writes published, all together, and the transaction ended. One without writes just ends.
 *   Changes   the heads of the written rows, the versions they replace, the new ones; the slot, which is empty afterwards.
 *   Refuses   tests of the slot; and only where there are writes: READ_CONFLICT or DAMAGED for the first read record that fails;
 *             WRITE_CONFLICT or DAMAGED for the first write that fails; DAMAGED (a new cell). A refused commit publishes nothing and
 *             leaves the transaction open: abort it. */
uint64_t vizzaluna_commit(const uint64_t *meta, size_t meta_count, uint64_t *rows, size_t rows_count, vizzaluna_cell *cells,
                          size_t cells_count, vizzaluna_slot *slots, size_t slots_count, uint64_t slot, uint64_t id, uint64_t *about);

/* The transaction's writes dropped, and the transaction ended.
 *   Changes   the versions that it had locked; its new cells, which are free afterwards; the slot, which is empty afterwards.
 *   Refuses   tests of the slot; DAMAGED (a cell number of a write). */
uint64_t vizzaluna_abort(uint64_t *meta, size_t meta_count, const uint64_t *rows, size_t rows_count, vizzaluna_cell *cells,
                         size_t cells_count, vizzaluna_slot *slots, size_t slots_count, uint64_t slot, uint64_t id, uint64_t *about);

/* The versions of a row that no open snapshot can reach given back. Those are the ones after the newest that were replaced by an id below
 * the horizon: the least of `request`, the clock and the snapshot xmin of every open transaction. VIZZALUNA_LAST_ID requests no limit.
 *   Answers   *count: how many went; the first *count entries of `reports`: their cells and values, newest first; *kind and *key: the
 *             value of the version that is newest, as vizzaluna_read gives one.
 *   Changes   the row's chain, the cells given back, the front of `reports`.
 *   Refuses   DAMAGED (sizes or clock); BAD_ROW; DAMAGED (the row's chain); RESULT_FULL. */
uint64_t vizzaluna_vacuum(uint64_t *meta, size_t meta_count, const uint64_t *rows, size_t rows_count, vizzaluna_cell *cells,
                          size_t cells_count, const vizzaluna_slot *slots, size_t slots_count, uint64_t row, uint64_t request,
                          vizzaluna_report *reports, size_t reports_count, uint64_t *count, uint64_t *kind, uint64_t *key,
                          uint64_t *about);

/* The rows that have a key, as the transaction sees them: of the candidates (in any order, repeats allowed) and of the rows it has written.
 *   Answers   *count: how many; the first *count entries of `results`: the rows, ascending, each once.
 *   Changes   the slot, as a read of each candidate does; the front of `results`.
 *   Refuses   tests of the slot; BAD_ROW (the first such candidate); then, row by row ascending, what a read refuses, and RESULT_FULL;
 *             DAMAGED (an own write of a row at R or above). A refused lookup records nothing. */
uint64_t vizzaluna_lookup(const uint64_t *meta, size_t meta_count, const uint64_t *rows, size_t rows_count, const vizzaluna_cell *cells,
                          size_t cells_count, vizzaluna_slot *slots, size_t slots_count, uint64_t slot, uint64_t id, uint64_t key,
                          const uint64_t *candidates, size_t candidates_count, uint64_t *results, size_t results_count, uint64_t *count,
                          uint64_t *about);

/* The same over all rows. It refuses nothing as BAD_ROW. */
uint64_t vizzaluna_lookup_all(const uint64_t *meta, size_t meta_count, const uint64_t *rows, size_t rows_count,
                              const vizzaluna_cell *cells, size_t cells_count, vizzaluna_slot *slots, size_t slots_count, uint64_t slot,
                              uint64_t id, uint64_t key, uint64_t *results, size_t results_count, uint64_t *count, uint64_t *about);

/* ---- and beside the calls. These refuse nothing, and change nothing. */

/* How many entries of a result buffer are filled: `count`, and no more than the buffer has. */
uint64_t vizzaluna_front(const uint64_t *buffer, size_t buffer_count, uint64_t count);

/* The retention horizon over slots that a host keeps as records of two numbers: the least of `request`, `clock` and the xmin of every
 * record whose id is not 0. */
uint64_t vizzaluna_retention_horizon(const vizzaluna_slot_record *slots, size_t slots_count, uint64_t clock, uint64_t request);

/* The least id of such records that is not 0, or `clock` where none is below it. */
uint64_t vizzaluna_least_active(const vizzaluna_slot_record *slots, size_t slots_count, uint64_t clock);

/* The numbers above as the library has them, so that a host can compare: the n-th #define from VIZZALUNA_SLOTS on, VIZZALUNA_ACCEPTED not
 * counted, and 0 past VIZZALUNA_KEY. */
uint64_t vizzaluna_constant(uint64_t which);

#ifdef __cplusplus
}
#endif

#endif
