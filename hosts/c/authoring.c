/* An authoring tool in small: joint limits in a store, an animator who changes them, and a preview that must not jump while it plays.
 * What it prints stands in hosts/expected; hosts/rust/examples/authoring.rs prints the same. */
#include <inttypes.h>
#include <stdio.h>
#include <stdlib.h>

#include "vizzaluna.h"

enum { JOINTS = 4, CELLS = 16 };
enum { SHOULDER, ELBOW, WRIST, KNEE };

static const char *const joint_names[JOINTS] = {"shoulder", "elbow", "wrist", "knee"};

/* The arenas, for as many rows and cells as this tool has. */
static uint64_t meta[VIZZALUNA_META_WORDS];
static uint64_t rows[JOINTS];
static vizzaluna_cell cells[CELLS];
static vizzaluna_slot slots[VIZZALUNA_SLOTS];
static const vizzaluna_store store = {meta, VIZZALUNA_META_WORDS, rows, JOINTS, cells, CELLS, slots, VIZZALUNA_SLOTS};

typedef struct {
    uint64_t slot, id;
} transaction;

/* ---- a joint's limits in whole degrees, as one key */

enum { KEY_HALF = 32, KEY_ZERO = 360 };

static uint64_t limits(int low, int high) { return (uint64_t)(low + KEY_ZERO) << KEY_HALF | (uint64_t)(high + KEY_ZERO); }

static void format_limits(uint64_t key, char *text, size_t size) {
    snprintf(text, size, "%d..%d", (int)(key >> KEY_HALF) - KEY_ZERO, (int)(key & UINT32_MAX) - KEY_ZERO);
}

/* ---- refusals */

static const char *refusal_name(uint64_t number) {
    static const char *const names[] = {"accepted",       "bad size",      "clock spent",    "no free slot",   "bad slot", "not owner",
                                        "bad row",        "row locked",    "write conflict", "read conflict",  "chain too long",
                                        "no room",        "write set full", "read set full", "result full",    "damaged"};
    return number <= VIZZALUNA_DAMAGED ? names[number] : "unknown";
}

/* The story below is refused only where it says so. */
static void need(uint64_t number, const char *what) {
    if (number != VIZZALUNA_ACCEPTED) {
        fprintf(stderr, "%s: refused with %" PRIu64 ", %s\n", what, number, refusal_name(number));
        exit(EXIT_FAILURE);
    }
}

static void say_refused(const char *who, uint64_t id, const char *what, uint64_t number, uint64_t about) {
    if (number == VIZZALUNA_ACCEPTED || about >= JOINTS) {
        fprintf(stderr, "%s %" PRIu64 " %s: a refusal over a joint was expected\n", who, id, what);
        exit(EXIT_FAILURE);
    }
    printf("%s %" PRIu64 " %s: refused, %" PRIu64 " %s: %s\n", who, id, what, number, refusal_name(number), joint_names[about]);
}

/* ---- the calls, as this tool uses them */

static transaction begin(void) {
    transaction t;
    need(vizzaluna_begin(VIZZALUNA_LENT(&store), &t.slot, &t.id), "begin");
    return t;
}

static void set_limits(transaction t, uint64_t joint, int low, int high) {
    uint64_t cell, about;
    need(vizzaluna_write(VIZZALUNA_LENT(&store), t.slot, t.id, joint, 1, limits(low, high), &cell, &about), "write");
}

static void delete_limits(transaction t, uint64_t joint) {
    uint64_t cell, about;
    need(vizzaluna_write(VIZZALUNA_LENT(&store), t.slot, t.id, joint, 0, 0, &cell, &about), "delete");
}

static void commit(transaction t, const char *what) {
    uint64_t about;
    need(vizzaluna_commit(VIZZALUNA_LENT(&store), t.slot, t.id, &about), "commit");
    printf("animator %" PRIu64 " commits %s\n", t.id, what);
}

static void end(transaction t) {
    uint64_t about;
    need(vizzaluna_abort(VIZZALUNA_LENT(&store), t.slot, t.id, &about), "abort");
}

static void format_value(uint64_t kind, uint64_t key, char *text, size_t size) {
    if (kind == VIZZALUNA_KEY)
        format_limits(key, text, size);
    else
        snprintf(text, size, "%s", kind == VIZZALUNA_NO_KEY ? "deleted" : "none");
}

/* One line of the table: what a transaction sees in every joint. */
static void say_seen(const char *who, transaction t) {
    uint64_t joint, kind, key, about;
    char name[32], text[32];
    snprintf(name, sizeof name, "%s %" PRIu64, who, t.id);
    printf("%-16s", name);
    for (joint = 0; joint < JOINTS; joint++) {
        need(vizzaluna_read(VIZZALUNA_LENT(&store), t.slot, t.id, joint, &kind, &key, &about), "read");
        format_value(kind, key, text, sizeof text);
        printf(" %10s", text);
    }
    putchar('\n');
}

static void say_joints(void) {
    uint64_t joint;
    printf("%-16s", "");
    for (joint = 0; joint < JOINTS; joint++) printf(" %10s", joint_names[joint]);
    putchar('\n');
}

static void say_vacuum(uint64_t joint) {
    vizzaluna_report gone[CELLS];
    uint64_t count, kind, key, about, i;
    char text[32];
    need(vizzaluna_vacuum(VIZZALUNA_LENT(&store), joint, VIZZALUNA_LAST_ID, gone, CELLS, &count, &kind, &key, &about), "vacuum");
    format_value(kind, key, text, sizeof text);
    printf("vacuum of %s: %" PRIu64 " given back", joint_names[joint], count);
    for (i = 0; i < count; i++) {
        char old[32];
        format_value(gone[i].keyed ? VIZZALUNA_KEY : VIZZALUNA_NO_KEY, gone[i].key, old, sizeof old);
        printf(", cell %" PRIu64 " with %s", gone[i].cell, old);
    }
    printf("; live: %s\n", text);
}

static void say_joints_with(const char *who, transaction t, int low, int high) {
    uint64_t found[JOINTS], count, about, i;
    char text[32];
    need(vizzaluna_lookup_all(VIZZALUNA_LENT(&store), t.slot, t.id, limits(low, high), found, JOINTS, &count, &about), "lookup");
    format_limits(limits(low, high), text, sizeof text);
    printf("%s %" PRIu64 " looks for %s:", who, t.id, text);
    for (i = 0; i < vizzaluna_front(found, JOINTS, count); i++) printf(" %s", joint_names[found[i]]);
    putchar('\n');
}

/* ---- the story */

static void first_set(void) {
    transaction animator = begin();
    set_limits(animator, SHOULDER, -90, 90);
    set_limits(animator, ELBOW, 0, 150);
    set_limits(animator, WRIST, -90, 90);
    set_limits(animator, KNEE, 0, 130);
    commit(animator, "a set");
}

/* The preview holds its snapshot while an animator narrows the elbow and deletes the knee. */
static void preview_holds(void) {
    uint64_t cell, about, number;
    transaction preview = begin(), animator, reader;
    say_seen("preview", preview);
    animator = begin();
    set_limits(animator, ELBOW, 0, 140);
    delete_limits(animator, KNEE);
    commit(animator, "a narrower elbow and no knee");
    say_seen("preview", preview);
    reader = begin();
    say_seen("reader", reader);
    say_joints_with("reader", reader, 0, 150);
    say_joints_with("preview", preview, 0, 150);
    end(reader);
    say_vacuum(ELBOW);
    number = vizzaluna_write(VIZZALUNA_LENT(&store), preview.slot, preview.id, ELBOW, 1, limits(0, 145), &cell, &about);
    say_refused("preview", preview.id, "writes", number, about);
    end(preview);
    printf("preview %" PRIu64 " ends\n", preview.id);
    say_vacuum(ELBOW);
    say_vacuum(KNEE);
}

/* Two animators: the second one's wrist rests on a shoulder that the first has changed meanwhile. */
static void conflict(void) {
    uint64_t number, about;
    transaction late = begin(), early = begin();
    say_seen("animator", late);
    say_joints_with("animator", late, -90, 90);
    set_limits(early, SHOULDER, -80, 80);
    commit(early, "a narrower shoulder");
    set_limits(late, WRIST, -45, 45);
    number = vizzaluna_commit(VIZZALUNA_LENT(&store), late.slot, late.id, &about);
    say_refused("animator", late.id, "commits", number, about);
    end(late);
}

static void last_look(void) {
    transaction reader = begin();
    say_seen("reader", reader);
    say_joints_with("reader", reader, -90, 90);
    end(reader);
}

int main(void) {
    need(vizzaluna_create(VIZZALUNA_LENT(&store), CELLS, JOINTS), "create");
    say_joints();
    first_set();
    preview_holds();
    conflict();
    last_look();
    return 0;
}
