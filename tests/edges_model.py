#!/usr/bin/env python3
"""What the script of crates/edges is to print, worked out from the rules of paper 01.

    python3 tests/edges_model.py < crates/edges/stdin | cmp - crates/edges/stdout

Written from paper 01 and the readings of docs/DECISIONS.md, not from the Rattle code: an independent second account of every call.

A line of the script is one of these; the words of an entry go by name or by number, and numbers are decimal:

    case TEXT                               told as it stands
    lend NAME COUNT ..                      how many entries are lent: meta, heads, results, wanted, cells, slots, reports
    memory X Y                              every word of every lent entry becomes X, of the entries beyond Y
    meta NAME V ..                          rows, cells, clock, free
    cell C NAME V .., slot S NAME V ..      a slot's names: id, low and top (its snapshot), actives, writes, reads (its counts)
    head ROW V .., want I V ..              heads and candidates from there on
    open S ID LOW TOP COUNT ID ..           the first words of a slot
    entry S I ROW BASE NEW ..               write entries from the I-th on; record S I ROW CELL XMIN .. for read records
    heads FIRST COUNT V RISE                a series: COUNT words, the first V, each RISE more; so too wants FIRST ..,
    cells FIRST NAME COUNT V RISE           slots FIRST NAME .., entries S FIRST NAME .., records S FIRST NAME ..
    create N R, begin, read S ID ROW, write S ID ROW KEY, delete S ID ROW, commit S ID, abort S ID, vacuum ROW REQUEST,
    lookup S ID KEY (over the candidates), lookup_all S ID KEY, front COUNT

A call prints itself, its answer (a refusal: number and value), and each word of the memory that it changed, lent or not."""
import sys

WALK, SLOTS, WRITES, READS, ROWS, CELLS, LAST = 64, 16, 32, 128, 256, 4096, 2 ** 64 - 1
WIDTH, ENTRIES, RECORDS = 504, 20, 117     # a slot: id, xmin, xmax, then active ids, writes and reads, each after its count
XMIN, XMAX, NEXT, KEYED, KEY, LOCKED, OWNER, LINK = range(8)
META, HEADS, RESULTS, WANTED, LENT = range(5)
LENGTHS = ['meta', 'heads', 'results', 'wanted', 'cells', 'slots', 'reports']
CELL_NAMES = ['xmin', 'xmax', 'next', 'keyed', 'key', 'locked', 'owner', 'link']
SLOT_NAMES = {'id': 0, 'low': 1, 'top': 2, 'actives': 3, 'writes': ENTRIES, 'reads': RECORDS}
NAMES = {'lend': LENGTHS, 'meta': ['rows', 'cells', 'clock', 'free'], 'cell': CELL_NAMES, 'cells': CELL_NAMES,
         'slot': SLOT_NAMES, 'slots': SLOT_NAMES, 'entries': ['row', 'base', 'new'], 'records': ['row', 'cell', 'xmin']}


class No(Exception):
    def __init__(self, number, value=0):
        super().__init__(number, value)


class Slot:
    """A slot as a call that passed its tests sees it."""

    def __init__(self, words):
        self.words = words
        self.id, self.xmin, self.xmax = words[:3]
        self.active = words[4:4 + words[3]]
        self.entries = [tuple(words[k:k + 3]) for k in range(ENTRIES + 1, ENTRIES + 1 + 3 * words[ENTRIES], 3)]
        self.records = [tuple(words[k:k + 3]) for k in range(RECORDS + 1, RECORDS + 1 + 3 * words[RECORDS], 3)]

    def sees_creator(self, x):
        return x != 0 and (x == self.id or (x < self.xmax and x not in self.active))

    def sees(self, v):
        return self.sees_creator(v[XMIN]) and not (v[XMAX] != 0 and self.sees_creator(v[XMAX]))

    def own(self, row):
        """The last entry of the row."""
        return next((e for e in reversed(self.entries) if e[0] == row), None)

    def record(self, triples):
        for r in triples:
            at = RECORDS + 1 + 3 * self.words[RECORDS]
            self.words[at:at + 3] = r
            self.words[RECORDS] += 1


def value_of(v):
    return 'key %d' % v[KEY] if v[KEYED] else 'empty'


class Memory:
    def __init__(self):
        self.words = [[0] * 264 for _ in range(5)]
        self.cells = [[0] * 8 for _ in range(4100)]
        self.slots = [[0] * WIDTH for _ in range(18)]
        self.reports = [[0] * 3 for _ in range(4100)]

    def copy(self):
        m = Memory.__new__(Memory)
        for name in ('words', 'cells', 'slots', 'reports'):
            setattr(m, name, [list(x) for x in getattr(self, name)])
        return m

    def lent(self, what):
        arena = {'cells': self.cells, 'slots': self.slots, 'reports': self.reports}.get(what)
        most = 264 if arena is None else len(arena)
        return min(self.words[LENT][LENGTHS.index(what)], most)

    # ---- what every call tests first

    def too_short(self, r, n):
        return self.lent('meta') < 4 or self.lent('heads') < r or self.lent('cells') < n or self.lent('slots') < SLOTS

    def store(self):
        r, n, clock, free = self.words[META][:4]
        if self.lent('meta') < 4 or not 1 <= r <= ROWS or not 1 <= n <= CELLS or self.too_short(r, n) or clock == 0:
            raise No(15)
        self.r, self.n = r, n

    def slot(self, s, tx):
        self.store()
        if s >= SLOTS:
            raise No(4)
        words = self.slots[s]
        if tx == 0 or words[0] != tx:
            raise No(5, words[0])
        if words[3] > SLOTS or words[ENTRIES] > WRITES or words[RECORDS] > READS:
            raise No(15)
        return Slot(words)

    def row(self, row):
        if row >= self.r:
            raise No(6, row)

    def cell(self, c):
        """The cell with a number, where it is used: cell 0 and those above N are damage."""
        if not 1 <= c <= self.n:
            raise No(15)
        return self.cells[c - 1]

    # ---- the calls

    def create(self, n, r):
        if not 1 <= r <= ROWS or not 1 <= n <= CELLS or self.too_short(r, n):
            raise No(1)
        self.words[META][:4] = [r, n, 1, 1]
        self.words[HEADS][:r] = [0] * r
        for c in range(1, n + 1):
            self.cells[c - 1] = [0] * 7 + [c + 1 if c < n else 0]
        for s in range(SLOTS):
            self.slots[s] = [0] * WIDTH
        return 'ok'

    def begin(self):
        self.store()
        free = [s for s in range(SLOTS) if self.slots[s][0] == 0]
        if not free:
            raise No(3)
        tx = self.words[META][2]
        if tx == LAST:
            raise No(2)
        self.words[META][2] = clock = tx + 1
        words = self.slots[free[0]]
        words[0] = tx
        active = [w[0] for w in self.slots[:SLOTS] if w[0] != 0]
        words[1] = min([clock] + active)
        words[2] = max(clock, min(max(active) + 1, LAST))
        words[3:4 + len(active)] = [len(active)] + active
        words[ENTRIES] = words[RECORDS] = 0
        return 'slot %d id %d' % (free[0], tx)

    def look(self, slot, row, records):
        """What the reader sees in a row; a record for a version found is added to the list."""
        e = slot.own(row)
        if e:
            return value_of(self.cell(e[2]))
        p = self.words[HEADS][row]
        looked = 0
        while p != 0:
            if looked == WALK:
                raise No(10, row)
            v = self.cell(p)
            looked += 1
            if slot.sees(v):
                if all(r[1] != p for r in records):
                    if len(records) == READS:
                        raise No(13, row)
                    records.append((row, p, v[XMIN]))
                return value_of(v)
            p = v[NEXT]
        return 'none'

    def read(self, s, tx, row):
        slot = self.slot(s, tx)
        self.row(row)
        records = list(slot.records)
        answer = self.look(slot, row, records)
        slot.record(records[len(slot.records):])
        return answer

    def write(self, s, tx, row, *key):
        slot = self.slot(s, tx)
        self.row(row)
        value = [1, key[0]] if key else [0, 0]
        e = slot.own(row)
        if e:
            self.cell(e[2])[KEYED:KEY + 1] = value
            return 'cell %d' % e[2]
        head = self.words[HEADS][row]
        if head != 0:
            v = self.cell(head)
            if v[LOCKED] and v[OWNER] != tx:
                raise No(7, row)
            if not slot.sees(v):
                raise No(8, row)
        if len(slot.entries) == WRITES:
            raise No(12)
        new = self.words[META][3]
        if new == 0:
            raise No(11)
        self.cell(new)
        if head != 0:
            self.cell(head)[LOCKED:OWNER + 1] = [1, tx]
        self.words[META][3] = self.cell(new)[LINK]
        self.cells[new - 1] = [tx, 0, 0] + value + [0, 0, 0]
        at = ENTRIES + 1 + 3 * len(slot.entries)
        slot.words[at:at + 3] = [row, head, new]
        slot.words[ENTRIES] += 1
        return 'cell %d' % new

    delete = write

    def commit(self, s, tx):
        slot = self.slot(s, tx)
        if slot.entries:
            self.may_commit(slot)
        for row, base, new in slot.entries:
            if base != 0:
                v = self.cell(base)
                v[XMAX], v[LOCKED], v[OWNER] = tx, 0, 0
            self.cell(new)[NEXT] = base
            self.words[HEADS][row] = new
        self.slots[s] = [0] * WIDTH
        return 'ok'

    def may_commit(self, slot):
        """Every test comes before any change."""
        for row, c, xmin in slot.records:
            v = self.cell(c)
            if v[XMIN] != xmin:
                raise No(9, row)
            if v[XMAX] not in (0, slot.id) and (v[XMAX] >= slot.xmax or v[XMAX] in slot.active):
                raise No(9, row)
        for row, base, new in slot.entries:
            if row >= self.r:
                raise No(15)
            if self.words[HEADS][row] != base:
                raise No(8, row)
            if base != 0 and self.cell(base)[XMAX] != 0:
                raise No(8, row)
        for row, base, new in slot.entries:
            self.cell(new)

    def give_back(self, c):
        self.cells[c - 1] = [0] * 7 + [self.words[META][3]]
        self.words[META][3] = c

    def abort(self, s, tx):
        slot = self.slot(s, tx)
        for row, base, new in slot.entries:
            if base != 0:
                self.cell(base)
            self.cell(new)
        for row, base, new in slot.entries:
            if base != 0 and self.cell(base)[OWNER] == tx:
                self.cell(base)[LOCKED:OWNER + 1] = [0, 0]
        for row, base, new in slot.entries:
            self.give_back(new)
        self.slots[s] = [0] * WIDTH
        return 'ok'

    def vacuum(self, row, request):
        self.store()
        self.row(row)
        horizon = min([request, self.words[META][2]] + [w[1] for w in self.slots[:SLOTS] if w[0] != 0])
        chain = []
        p = self.words[HEADS][row]
        while p != 0:
            if len(chain) == self.n:
                raise No(15)
            v = self.cell(p)
            chain.append(p)
            p = v[NEXT]
        dead = [i for i, c in enumerate(chain)
                if i > 0 and self.cell(c)[XMAX] != 0 and self.cell(c)[XMAX] < horizon and not self.cell(c)[LOCKED]]
        if len(dead) > self.lent('reports'):
            raise No(14)
        live = value_of(self.cell(chain[0])) if chain else 'none'
        kept = [c for i, c in enumerate(chain) if i not in dead]
        gone = [(c, self.cell(c)[KEYED], self.cell(c)[KEY]) for i, c in enumerate(chain) if i in dead]
        for c, following in zip(kept, kept[1:] + [0]):
            self.cell(c)[NEXT] = following
        for i, (c, keyed, key) in enumerate(gone):
            self.reports[i] = [c, keyed, key]     # the value's two words, as they lie
            self.give_back(c)
        return 'vacuumed %d live %s' % (len(gone), live)

    def listing(self, slot, key, rows):
        records, found = list(slot.records), []
        for row in rows:
            if row >= self.r:
                raise No(15)
            if self.look(slot, row, records) == 'key %d' % key:
                if len(found) == self.lent('results'):
                    raise No(14)
                found.append(row)
        slot.record(records[len(slot.records):])
        self.words[RESULTS][:len(found)] = found
        return 'listed %d' % len(found)

    def lookup(self, s, tx, key):
        slot = self.slot(s, tx)
        wanted = self.words[WANTED][:self.lent('wanted')]
        for row in wanted:
            self.row(row)
        return self.listing(slot, key, sorted(set(wanted) | {e[0] for e in slot.entries}))

    def lookup_all(self, s, tx, key):
        return self.listing(self.slot(s, tx), key, range(self.r))

    def front(self, count):
        part = self.words[RESULTS][:self.lent('results')][:count]
        return 'front of %d:' % len(part) + ''.join(' %d' % x for x in part)

    # ---- memory made by hand

    def memory(self, inside, beyond):
        for arena, what in ((self.cells, 'cells'), (self.slots, 'slots'), (self.reports, 'reports')):
            for i in range(len(arena)):
                arena[i] = [inside if i < self.lent(what) else beyond] * len(arena[i])
        for a in range(4):
            self.words[a] = [inside if i < self.lent(LENGTHS[a]) else beyond for i in range(264)]

    def poke(self, verb, args):
        if verb in ('lend', 'meta', 'cell', 'slot'):
            part = {'lend': lambda: self.words[LENT], 'meta': lambda: self.words[META],
                    'cell': lambda: self.cells[args[0] - 1], 'slot': lambda: self.slots[args[0]]}[verb]()
            pairs = args if verb in ('lend', 'meta') else args[1:]
            for k, v in zip(pairs[::2], pairs[1::2]):
                part[k] = v
        elif verb in ('head', 'want', 'open', 'entry', 'record'):
            part, at = self.place(verb, args)
            values = args[2:] if verb in ('entry', 'record') else args[1:]
            part[at:at + len(values)] = values
        else:
            count, v, rise = args[-3:]
            for j in range(count):
                if verb in ('cells', 'slots'):
                    (self.cells[args[0] - 1 + j] if verb == 'cells' else self.slots[args[0] + j])[args[1]] = v
                else:
                    part, at = self.place({'heads': 'head', 'wants': 'want', 'entries': 'entry', 'records': 'record'}[verb], args)
                    part[at + (j if verb in ('heads', 'wants') else 3 * j + args[2])] = v
                v = (v + rise) % 2 ** 64

    def place(self, verb, args):
        if verb in ('head', 'want'):
            return self.words[HEADS if verb == 'head' else WANTED], args[0]
        start = {'open': lambda: 0, 'entry': lambda: ENTRIES + 1 + 3 * args[1], 'record': lambda: RECORDS + 1 + 3 * args[1]}[verb]()
        return self.slots[args[0]], start


# ---- what is told of a call

def slot_word(k):
    if k in (0, 1, 2, 3):
        return ['id', 'low', 'top', 'actives'][k]
    if k < ENTRIES:
        return 'active %d' % (k - 4)
    if k in (ENTRIES, RECORDS):
        return 'writes' if k == ENTRIES else 'reads'
    start, kind, names = (ENTRIES + 1, 'entry', ['row', 'base', 'new']) if k < RECORDS else (RECORDS + 1, 'record', ['row', 'cell', 'xmin'])
    return '%s %d %s' % (kind, (k - start) // 3, names[(k - start) % 3])


def told(before, now, arena, name, word, rise):
    """Each run of neighbours that changed alike."""
    i = 0
    while i < len(now):
        j = i
        if before[i] != now[i]:
            while j + 1 < len(now) and before[j + 1] != now[j + 1] and now[j + 1] == (now[j] + rise) % 2 ** 64:
                j += 1
            print('  ' + ' '.join([arena, name(i)] + (['to', name(j)] if j > i else []) + word + ['= %d' % now[i]]
                                  + (['and up'] if j > i and rise else [])))
        i = j + 1


def changes(b, m):
    for a, (arena, rise) in enumerate((('meta', 0), ('head', 0), ('result', 1), ('wanted', 0), ('lent', 0))):
        told(b.words[a], m.words[a], arena, (lambda i: ['rows', 'cells', 'clock', 'free'][i]) if a == META else str, [], rise)
    for k, name in enumerate(CELL_NAMES):
        told([c[k] for c in b.cells], [c[k] for c in m.cells], 'cell', lambda i: str(i + 1), [name], 1 if k == LINK else 0)
    for s in range(18):
        told(b.slots[s], m.slots[s], 'slot %d' % s, slot_word, [], 0)
    for k, name in enumerate(['cell', 'keyed', 'key']):
        told([r[k] for r in b.reports], [r[k] for r in m.reports], 'report', str, [name], 1 if k == 0 else 0)


def number(verb, word):
    if word.isdigit():
        return int(word)
    names = NAMES[verb]
    return names[word] if isinstance(names, dict) else names.index(word)


def main():
    m = Memory()
    for line in sys.stdin.read().splitlines():
        verb, *words = line.split(' ')
        if verb == 'case':
            print(line)
            continue
        args = [number(verb, w) for w in words]
        if verb == 'memory':
            m.memory(*args)
        elif verb in ('lend', 'meta', 'cell', 'slot', 'head', 'want', 'open', 'entry', 'record',
                      'heads', 'wants', 'cells', 'slots', 'entries', 'records'):
            m.poke(verb, args)
        else:
            before = m.copy()
            try:
                answer = getattr(m, verb)(*args)
            except No as no:
                answer = 'refused %d %d' % no.args
            print('%s: %s' % (line, answer))
            changes(before, m)


main()
