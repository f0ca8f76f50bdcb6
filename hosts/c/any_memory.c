/* Every exported function on memory that no call has made: arenas too short, empty ones with a null pointer, damage in single words, and
 * rubbish throughout. Prints how many checks there were and ends with 0; at the first that fails it says which, and ends with 1. */
#include <inttypes.h>
#include <stdio.h>
#include <stdlib.h>
#include <string.h>

#include "vizzaluna.h"

static unsigned long checks;

static void expect(int holds, const char *what, uint64_t found) {
    checks++;
    if (!holds) {
        fprintf(stderr, "any_memory: not so: %s (found %" PRIu64 ")\n", what, found);
        exit(EXIT_FAILURE);
    }
}

/* ---- what is lent: more entries than are told, so that a store past a count shows */

enum { ROWS = 6, CELLS = 20, BUFFER = 3, CANDIDATES = 4, REST = 2 };

typedef struct {
    uint64_t meta[VIZZALUNA_META_WORDS + REST];
    uint64_t rows[ROWS + REST];
    vizzaluna_cell cells[CELLS + REST];
    vizzaluna_slot slots[VIZZALUNA_SLOTS + REST];
    vizzaluna_report reports[BUFFER + REST];
    uint64_t results[BUFFER + REST];
    uint64_t candidates[CANDIDATES];
} memory;

typedef struct {
    size_t meta, rows, cells, slots, buffer, candidates;
} counts;

typedef struct {
    uint64_t slot, id, row, keyed, key, request;
} given;

/* What a call answers: its number, and its out-parameters in the order of its prototype but for `about`. */
typedef struct {
    uint64_t number, about, first, second, third;
} answer;

enum { CREATE, BEGIN, READ, WRITE, COMMIT, ABORT, VACUUM, LOOKUP, LOOKUP_ALL, CALLS };

static const counts whole = {VIZZALUNA_META_WORDS, ROWS, CELLS, VIZZALUNA_SLOTS, BUFFER, CANDIDATES};
static const uint64_t unwritten = UINT64_C(0x5555555555555555);

/* A pointer to no entries is null here. */
#define LENT(pointer, count) ((count) ? (pointer) : NULL), (count)
#define ARENAS LENT(m->meta, n->meta), LENT(m->rows, n->rows), LENT(m->cells, n->cells), LENT(m->slots, n->slots)

static answer call(int which, memory *m, const counts *n, const given *g) {
    answer a = {unwritten, unwritten, unwritten, unwritten, unwritten};
    switch (which) {
    case CREATE: a.number = vizzaluna_create(ARENAS, g->key, g->row); break;
    case BEGIN: a.number = vizzaluna_begin(ARENAS, &a.first, &a.second); break;
    case READ: a.number = vizzaluna_read(ARENAS, g->slot, g->id, g->row, &a.first, &a.second, &a.about); break;
    case WRITE: a.number = vizzaluna_write(ARENAS, g->slot, g->id, g->row, g->keyed, g->key, &a.first, &a.about); break;
    case COMMIT: a.number = vizzaluna_commit(ARENAS, g->slot, g->id, &a.about); break;
    case ABORT: a.number = vizzaluna_abort(ARENAS, g->slot, g->id, &a.about); break;
    case VACUUM:
        a.number = vizzaluna_vacuum(ARENAS, g->row, g->request, LENT(m->reports, n->buffer), &a.first, &a.second, &a.third, &a.about);
        break;
    case LOOKUP:
        a.number = vizzaluna_lookup(ARENAS, g->slot, g->id, g->key, LENT(m->candidates, n->candidates), LENT(m->results, n->buffer),
                                    &a.first, &a.about);
        break;
    default: a.number = vizzaluna_lookup_all(ARENAS, g->slot, g->id, g->key, LENT(m->results, n->buffer), &a.first, &a.about); break;
    }
    return a;
}

/* ---- what must hold of any call */

/* How many out-parameters a call has besides `about`, and whether it has that. */
static const int outs[CALLS] = {0, 2, 2, 1, 0, 0, 3, 1, 1};
static const int has_about[CALLS] = {0, 0, 1, 1, 1, 1, 1, 1, 1};

static void expect_outs(int which, const answer *a) {
    const uint64_t out[3] = {a->first, a->second, a->third};
    int i;
    for (i = 0; i < 3; i++) {
        if (i >= outs[which])
            expect(out[i] == unwritten, "a call writes to its own out-parameters alone", out[i]);
        else if (a->number)
            expect(out[i] == 0, "an out-parameter is 0 after a refusal", out[i]);
        else
            expect(out[i] != unwritten, "an out-parameter is written", out[i]);
    }
    if (!has_about[which])
        expect(a->about == unwritten, "a call writes to its own out-parameters alone", a->about);
    else if (!a->number)
        expect(a->about == 0, "about is 0 where a call is accepted", a->about);
    else
        expect(a->about != unwritten, "about is written", a->about);
}

#define SAME_REST(part, count)                                                                                                             \
    expect(!memcmp(after->part + (count), before->part + (count), sizeof after->part - (count) * sizeof *after->part),                   \
           "entries past the count are as they were: " #part, 0)

static void expect_rest(const memory *before, const memory *after, const counts *n) {
    SAME_REST(meta, n->meta);
    SAME_REST(rows, n->rows);
    SAME_REST(cells, n->cells);
    SAME_REST(slots, n->slots);
    SAME_REST(reports, n->buffer);
    SAME_REST(results, n->buffer);
    SAME_REST(candidates, 0);
}

/* The call, with all that must hold of any call tested. */
static answer tested(int which, memory *m, const counts *n, const given *g) {
    static memory before;
    answer a;
    before = *m;
    a = call(which, m, n, g);
    expect(a.number <= VIZZALUNA_DAMAGED, "the number is 0 or a refusal's", a.number);
    expect_outs(which, &a);
    if (a.number)
        expect(!memcmp(&before, m, sizeof before), "a refusal changes nothing", a.number);
    else
        expect_rest(&before, m, n);
    return a;
}

/* ---- a store with something in it: row 0 has keys 70 and then 75, row 1 was deleted, transaction 3 in slot 0 has read row 0 and written
 * row 2 */

static void fill(memory *m) {
    static const given size = {0, 0, ROWS, 0, CELLS, 0}, one = {0, 1, 0, 1, 70, 0}, gone = {0, 1, 1, 0, 0, 0}, two = {0, 2, 0, 1, 75, 0},
                       three = {0, 3, 2, 1, 7, 0}, look = {0, 3, 0, 0, 0, 0};
    memset(m, 0, sizeof *m);
    expect(!tested(CREATE, m, &whole, &size).number, "a fresh store", 0);
    expect(tested(BEGIN, m, &whole, &one).second == 1, "the first id is 1", 0);
    expect(tested(WRITE, m, &whole, &one).first == 1, "the first cell is 1", 0);
    expect(tested(WRITE, m, &whole, &gone).first == 2, "the second cell is 2", 0);
    expect(!tested(COMMIT, m, &whole, &one).number, "1 commits", 0);
    tested(BEGIN, m, &whole, &two);
    tested(WRITE, m, &whole, &two);
    expect(!tested(COMMIT, m, &whole, &two).number, "2 commits", 0);
    tested(BEGIN, m, &whole, &three);
    expect(tested(READ, m, &whole, &look).second == 75, "3 reads 75", 0);
    expect(tested(WRITE, m, &whole, &three).first == 4, "3 writes cell 4", 0);
}

/* The members of the structs are where the library has them. */
static void test_layout(void) {
    static memory m;
    const vizzaluna_cell *c;
    const vizzaluna_slot *s;
    fill(&m);
    c = m.cells + 0;
    expect(c->xmin == 1 && c->xmax == 2 && c->next == 0 && c->keyed == 1 && c->key == 70 && !c->locked && !c->owner, "cell 1", c->key);
    c = m.cells + 2;
    expect(c->xmin == 2 && c->xmax == 0 && c->next == 1 && c->keyed == 1 && c->key == 75 && !c->locked && !c->owner, "cell 3", c->key);
    expect(m.cells[4].link == 6 && m.cells[CELLS - 1].link == 0, "the free list", m.cells[4].link);
    s = m.slots;
    expect(s->id == 3 && s->xmin == 3 && s->xmax == 4 && s->active_count == 1 && s->active[0] == 3, "the snapshot", s->id);
    expect(s->write_count == 1 && s->writes[0].row == 2 && s->writes[0].base == 0 && s->writes[0].cell == 4, "the write", s->write_count);
    expect(s->read_count == 1 && s->reads[0].row == 0 && s->reads[0].cell == 3 && s->reads[0].xmin == 2, "the record", s->read_count);
    expect(m.meta[VIZZALUNA_META_ROWS] == ROWS && m.meta[VIZZALUNA_META_CELLS] == CELLS, "the sizes", m.meta[VIZZALUNA_META_ROWS]);
    expect(m.meta[VIZZALUNA_META_CLOCK] == 4 && m.meta[VIZZALUNA_META_FREE] == 5, "the clock", m.meta[VIZZALUNA_META_CLOCK]);
    expect(m.rows[0] == 3 && m.rows[1] == 2 && m.rows[2] == 0, "the heads", m.rows[0]);
    expect(sizeof(vizzaluna_cell) == 8 * VIZZALUNA_CELL_WORDS, "a cell's words", sizeof(vizzaluna_cell));
    expect(sizeof(vizzaluna_slot) == 8 * VIZZALUNA_SLOT_WORDS, "a slot's words", sizeof(vizzaluna_slot));
    expect(sizeof(vizzaluna_report) == 8 * VIZZALUNA_REPORT_WORDS, "a report's words", sizeof(vizzaluna_report));
    expect(offsetof(vizzaluna_slot, xmin) == 8 * VIZZALUNA_SLOT_XMIN, "xmin", 0);
    expect(offsetof(vizzaluna_slot, xmax) == 8 * VIZZALUNA_SLOT_XMAX, "xmax", 0);
    expect(offsetof(vizzaluna_slot, active_count) == 8 * VIZZALUNA_SLOT_ACTIVE, "active_count", 0);
    expect(offsetof(vizzaluna_slot, write_count) == 8 * VIZZALUNA_SLOT_WRITES, "write_count", 0);
    expect(offsetof(vizzaluna_slot, read_count) == 8 * VIZZALUNA_SLOT_READS, "read_count", 0);
}

/* ---- short arenas: one entry too few, and none at all with a null pointer */

static void test_short(void) {
    static memory full, m;
    static const given g = {0, 3, 0, 1, 70, VIZZALUNA_LAST_ID}, size = {0, 0, ROWS, 0, CELLS, 0};
    int which, arena, none;
    fill(&full);
    for (which = 0; which < CALLS; which++)
        for (arena = 0; arena < 4; arena++)
            for (none = 0; none < 2; none++) {
                counts n = whole;
                size_t *count = arena == 0 ? &n.meta : arena == 1 ? &n.rows : arena == 2 ? &n.cells : &n.slots;
                answer a;
                *count = none ? 0 : *count - 1;
                m = full;
                a = tested(which, &m, &n, which == CREATE ? &size : &g);
                expect(a.number == (which == CREATE ? VIZZALUNA_BAD_SIZE : VIZZALUNA_DAMAGED), "an arena is too short", a.number);
                expect(which == CREATE || which == BEGIN || a.about == 0, "it is about nothing", a.about);
            }
}

static void test_buffers(void) {
    static memory m;
    static const given sweep = {0, 0, 0, 0, 0, VIZZALUNA_LAST_ID}, seek = {0, 3, 0, 0, 75, 0}, other = {0, 3, 0, 0, 76, 0};
    counts n = whole;
    answer a;
    n.buffer = 0;
    fill(&m);
    a = tested(VACUUM, &m, &n, &sweep);
    expect(a.number == VIZZALUNA_RESULT_FULL, "a report and no buffer", a.number);
    expect(tested(LOOKUP_ALL, &m, &n, &seek).number == VIZZALUNA_RESULT_FULL, "a row and no buffer", 0);
    expect(tested(LOOKUP_ALL, &m, &n, &other).number == 0, "no row and no buffer", 0);
    n = whole;
    n.candidates = 0;
    a = tested(LOOKUP, &m, &n, &seek);
    expect(a.number == 0 && a.first == 0, "no candidate", a.number);
    a = tested(LOOKUP, &m, &whole, &seek);
    expect(a.number == 0 && a.first == 1 && m.results[0] == 0, "row 0 has 75", a.first);
    a = tested(VACUUM, &m, &whole, &sweep);
    expect(a.number == 0 && a.first == 1 && a.second == VIZZALUNA_KEY && a.third == 75, "70 goes, 75 lives", a.third);
    expect(m.reports[0].cell == 1 && m.reports[0].keyed == 1 && m.reports[0].key == 70, "it is reported", m.reports[0].cell);
}

/* ---- numbers that a call refuses, and damage in one word */

static void refused(int which, const memory *full, uint64_t slot, uint64_t id, uint64_t row, uint64_t number, uint64_t about) {
    static memory m;
    given g = {slot, id, row, 1, 70, VIZZALUNA_LAST_ID};
    answer a;
    m = *full;
    m.candidates[0] = 1;
    m.candidates[1] = row;
    a = tested(which, &m, &whole, &g);
    expect(a.number == number, "the number of a refusal", a.number);
    expect(a.about == (has_about[which] ? about : unwritten), "what it is about", a.about);
}

static void test_numbers(void) {
    static memory m;
    int which;
    fill(&m);
    for (which = READ; which < CALLS; which++) {
        if (which == VACUUM) continue;
        refused(which, &m, VIZZALUNA_SLOTS, 3, 0, VIZZALUNA_BAD_SLOT, 0);
        refused(which, &m, VIZZALUNA_LAST_ID, 3, 0, VIZZALUNA_BAD_SLOT, 0);
        refused(which, &m, 0, 2, 0, VIZZALUNA_NOT_OWNER, 3);
        refused(which, &m, 0, 0, 0, VIZZALUNA_NOT_OWNER, 3);
        refused(which, &m, 1, 0, 0, VIZZALUNA_NOT_OWNER, 0);
    }
    refused(READ, &m, 0, 3, ROWS, VIZZALUNA_BAD_ROW, ROWS);
    refused(WRITE, &m, 0, 3, ROWS, VIZZALUNA_BAD_ROW, ROWS);
    refused(VACUUM, &m, 0, 0, VIZZALUNA_LAST_ID, VIZZALUNA_BAD_ROW, VIZZALUNA_LAST_ID);
    refused(LOOKUP, &m, 0, 3, ROWS + 1, VIZZALUNA_BAD_ROW, ROWS + 1);
    m.cells[2].locked = 7;
    m.cells[2].owner = 9;
    refused(WRITE, &m, 0, 3, 0, VIZZALUNA_ROW_LOCKED, 0);
    m.cells[2].xmax = 9;
    refused(COMMIT, &m, 0, 3, 0, VIZZALUNA_READ_CONFLICT, 0);
    m.slots[0].read_count = 0;
    m.rows[2] = 1;
    refused(COMMIT, &m, 0, 3, 0, VIZZALUNA_WRITE_CONFLICT, 2);
}

static void test_damage(void) {
    static memory full, m;
    int which;
    fill(&full);
    for (which = BEGIN; which < CALLS; which++) {
        uint64_t word;
        for (word = 0; word < 3; word++) {
            m = full;
            m.meta[word] = 0;
            refused(which, &m, 0, 3, 0, VIZZALUNA_DAMAGED, 0);
            m.meta[word] = VIZZALUNA_LAST_ID;
            if (word != VIZZALUNA_META_CLOCK) refused(which, &m, 0, 3, 0, VIZZALUNA_DAMAGED, 0);
        }
    }
    for (which = READ; which < CALLS; which++) {
        if (which == VACUUM) continue;
        m = full;
        m.slots[0].active_count = VIZZALUNA_SLOTS + 1;
        refused(which, &m, 0, 3, 0, VIZZALUNA_DAMAGED, 0);
        m = full;
        m.slots[0].write_count = VIZZALUNA_MOST_WRITES + 1;
        refused(which, &m, 0, 3, 0, VIZZALUNA_DAMAGED, 0);
        m = full;
        m.slots[0].read_count = VIZZALUNA_MOST_READS + 1;
        refused(which, &m, 0, 3, 0, VIZZALUNA_DAMAGED, 0);
        m = full;
        m.slots[0].writes[0].cell = 0;
        if (which == COMMIT || which == ABORT || which == LOOKUP_ALL) refused(which, &m, 0, 3, 0, VIZZALUNA_DAMAGED, 0);
    }
    m = full;
    m.meta[VIZZALUNA_META_CLOCK] = VIZZALUNA_LAST_ID;
    refused(BEGIN, &m, 0, 0, 0, VIZZALUNA_CLOCK_SPENT, 0);
    m = full;
    m.rows[0] = CELLS + 1;
    refused(READ, &m, 0, 3, 0, VIZZALUNA_DAMAGED, 0);
    refused(WRITE, &m, 0, 3, 0, VIZZALUNA_DAMAGED, 0);
    refused(VACUUM, &m, 0, 3, 0, VIZZALUNA_DAMAGED, 0);
    m.rows[0] = 3;
    m.cells[0].next = 3; /* a chain that goes in a circle */
    refused(VACUUM, &m, 0, 3, 0, VIZZALUNA_DAMAGED, 0);
    m.cells[0].xmin = m.cells[2].xmin = 9;
    refused(READ, &m, 0, 3, 0, VIZZALUNA_CHAIN_TOO_LONG, 0);
}

/* ---- rubbish throughout */

static uint64_t state = 88172645463325252u;

static uint64_t any(void) {
    state ^= state << 13;
    state ^= state >> 7;
    state ^= state << 17;
    return state;
}

/* Mostly a small number, so that calls get past their first tests. */
static uint64_t rubbish(void) {
    uint64_t x = any();
    switch (x % 8) {
    case 0: return x;
    case 1: return VIZZALUNA_LAST_ID - x / 8 % 3;
    case 2: return 0;
    default: return x / 8 % 24;
    }
}

static void spoil(void *words, size_t bytes) {
    uint64_t *word = (uint64_t *)words;
    size_t i;
    for (i = 0; i < bytes / sizeof *word; i++) word[i] = rubbish();
}

static size_t at_most(size_t n) { return any() % 16 ? n : (size_t)(any() % (n + 1)); }

/* Sizes that fit, and an owner with few writes and reads, so that the rest of a call is reached. Cells and heads stay rubbish. */
static void mend(memory *m, given *g) {
    uint64_t r = 1 + any() % ROWS, n = 1 + any() % CELLS, i;
    vizzaluna_slot *s = m->slots + (g->slot %= VIZZALUNA_SLOTS);
    m->meta[VIZZALUNA_META_ROWS] = r;
    m->meta[VIZZALUNA_META_CELLS] = n;
    m->meta[VIZZALUNA_META_CLOCK] = 1 + any() % 24;
    m->meta[VIZZALUNA_META_FREE] = any() % (n + 1);
    g->row = any() % r;
    g->id = s->id = 1 + any() % 24;
    s->xmax = any() % 24;
    s->active_count = any() % 4;
    s->write_count = any() % 3;
    s->read_count = any() % 3;
    for (i = 0; i < ROWS; i++) m->rows[i] = any() % (n + 1);
    for (i = 0; i < CANDIDATES; i++) m->candidates[i] = any() % r;
    for (i = 0; i < 3; i++) s->writes[i].row = any() % r, s->writes[i].cell = 1 + any() % n;
}

static void test_rubbish(unsigned long runs) {
    static memory m;
    unsigned long accepted[CALLS] = {0}, refusals[CALLS] = {0}, i;
    int which;
    for (i = 0; i < runs; i++) {
        counts n = {at_most(VIZZALUNA_META_WORDS), at_most(ROWS), at_most(CELLS), at_most(VIZZALUNA_SLOTS), at_most(BUFFER),
                    at_most(CANDIDATES)};
        given g = {any() % (VIZZALUNA_SLOTS + 1), rubbish(), rubbish(), any() % 2, rubbish(), rubbish()};
        which = (int)(any() % CALLS);
        spoil(&m, sizeof m);
        if (any() % 4) mend(&m, &g);
        if (tested(which, &m, &n, &g).number)
            refusals[which]++;
        else
            accepted[which]++;
    }
    for (which = 0; which < CALLS; which++) {
        expect(accepted[which] > 20, "each call is accepted now and then", accepted[which]);
        expect(refusals[which] > 20, "each call is refused now and then", refusals[which]);
    }
}

static void test_records(void) {
    vizzaluna_slot_record r[3] = {{0, 1}, {6, 4}, {5, VIZZALUNA_LAST_ID}};
    const uint64_t buffer[2] = {1, 2};
    expect(vizzaluna_retention_horizon(r, 3, 9, VIZZALUNA_LAST_ID) == 4, "the least xmin", 0);
    expect(vizzaluna_retention_horizon(r, 1, 9, VIZZALUNA_LAST_ID) == 9, "an empty slot does not count", 0);
    expect(vizzaluna_retention_horizon(r, 3, 9, 2) == 2, "the request", 0);
    expect(vizzaluna_retention_horizon(NULL, 0, 9, 7) == 7, "no slots", 0);
    expect(vizzaluna_least_active(r, 3, 9) == 5, "the least id", 0);
    expect(vizzaluna_least_active(r, 3, 3) == 3, "the clock", 0);
    expect(vizzaluna_least_active(NULL, 0, 9) == 9, "no slots", 0);
    expect(vizzaluna_front(buffer, 2, 1) == 1 && vizzaluna_front(buffer, 2, 3) == 2, "the front", 0);
    expect(vizzaluna_front(NULL, 0, VIZZALUNA_LAST_ID) == 0, "the front of nothing", 0);
    expect(vizzaluna_constant(VIZZALUNA_LAST_ID) == 0, "no such constant", 0);
}

int main(void) {
    test_layout();
    test_short();
    test_buffers();
    test_numbers();
    test_damage();
    test_records();
    test_rubbish(20000);
    printf("any_memory: %lu checks hold\n", checks);
    return 0;
}
