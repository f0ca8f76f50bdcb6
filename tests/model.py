#!/usr/bin/env python3
"""A second replay, written from the paper's rules and not from the Rattle code: records on standard input, answer lines on standard output.

It keeps versions as objects and chains as Python lists, so that it shares no representation with the store. Only the numbers that answers
show (cells, slots, ids) are modelled as numbers. A store that only these calls have changed is never damaged, so 15 is answered before the
first accepted `store` and nowhere else.
"""
import re
import sys

SLOTS, WALK, WRITES, READS = 16, 64, 32, 128
MOST_ROWS, MOST_CELLS = 256, 4096
LENT_ROWS, LENT_CELLS = 64, 512
LAST = 2**64 - 1
NUMBER = re.compile(rb"(?:0|[1-9][0-9]*)\Z")


class Refused(Exception):
    def __init__(self, number):
        self.number = number


class Version:
    def __init__(self, cell, xmin, value):
        self.cell, self.xmin, self.value = cell, xmin, value
        self.xmax = 0
        self.lock = 0  # the id that holds the lock, 0: unlocked


class Transaction:
    def __init__(self, ident, xmax, active):
        self.ident, self.xmax, self.active = ident, xmax, active
        self.xmin = min(active)
        self.writes = []  # [row, base version or None, new version]
        self.reads = []  # [row, version, xmin at the time]

    def sees_creator(self, ident):
        return ident != 0 and (ident == self.ident or (ident < self.xmax and ident not in self.active))

    def sees(self, version):
        return self.sees_creator(version.xmin) and not (version.xmax != 0 and self.sees_creator(version.xmax))

    def own(self, row):
        for entry in reversed(self.writes):
            if entry[0] == row:
                return entry
        return None


class Store:
    def __init__(self, cells, rows):
        self.rows = [[] for _ in range(rows)]  # newest first
        self.free = list(range(cells, 0, -1))  # the next handed out is the last
        self.clock = 1
        self.slots = [None] * SLOTS

    def transaction(self, slot, ident):
        if slot >= SLOTS:
            raise Refused(4)
        t = self.slots[slot]
        if ident == 0 or t is None or t.ident != ident:
            raise Refused(5)
        return t

    def check_row(self, row):
        if row >= len(self.rows):
            raise Refused(6)

    def begin(self):
        if None not in self.slots:
            raise Refused(3)
        if self.clock == LAST:
            raise Refused(2)
        slot = self.slots.index(None)
        ident = self.clock
        self.clock += 1
        active = {t.ident for t in self.slots if t is not None} | {ident}
        self.slots[slot] = Transaction(ident, max(self.clock, max(active) + 1), active)
        return [slot, ident]

    def look(self, t, row, reads):
        """What t sees in a row, a version or None; `reads` gets the record."""
        own = t.own(row)
        if own is not None:
            return own[2]
        for k, version in enumerate(self.rows[row]):
            if k == WALK:
                raise Refused(10)
            if t.sees(version):
                if all(r[1].cell != version.cell for r in reads):
                    if len(reads) == READS:
                        raise Refused(13)
                    reads.append([row, version, version.xmin])
                return version
        return None

    def read(self, slot, ident, row):
        t = self.transaction(slot, ident)
        self.check_row(row)
        return self.look(t, row, t.reads)

    def write(self, slot, ident, row, value):
        t = self.transaction(slot, ident)
        self.check_row(row)
        own = t.own(row)
        if own is not None:
            own[2].value = value
            return [own[2].cell]
        chain = self.rows[row]
        base = chain[0] if chain else None
        if base is not None:
            if base.lock not in (0, ident):
                raise Refused(7)
            if not t.sees(base):
                raise Refused(8)
        if len(t.writes) == WRITES:
            raise Refused(12)
        if not self.free:
            raise Refused(11)
        if base is not None:
            base.lock = ident
        new = Version(self.free.pop(), ident, value)
        t.writes.append([row, base, new])
        return [new.cell]

    def commit(self, slot, ident):
        t = self.transaction(slot, ident)
        if t.writes:
            for row, version, xmin in t.reads:
                if version.xmin != xmin:
                    raise Refused(9)
                if version.xmax not in (0, ident) and (version.xmax >= t.xmax or version.xmax in t.active):
                    raise Refused(9)
            for row, base, _ in t.writes:
                head = self.rows[row][0] if self.rows[row] else None
                if head is not base or (base is not None and base.xmax != 0):
                    raise Refused(8)
            for row, base, new in t.writes:
                if base is not None:
                    base.xmax = ident
                    base.lock = 0
                self.rows[row].insert(0, new)
        self.slots[slot] = None
        return []

    def abort(self, slot, ident):
        t = self.transaction(slot, ident)
        for _, base, _ in t.writes:
            if base is not None and base.lock == ident:
                base.lock = 0
        for _, _, new in t.writes:
            self.free.append(new.cell)
        self.slots[slot] = None
        return []

    def vacuum(self, row, request):
        self.check_row(row)
        horizon = min([request, self.clock] + [t.xmin for t in self.slots if t is not None])
        chain = self.rows[row]
        dead = [v for v in chain[1:] if v.xmax != 0 and v.xmax < horizon and v.lock == 0]
        self.rows[row] = [v for v in chain if v not in dead]
        self.free.extend(v.cell for v in dead)
        return [len(dead)] + [v.cell for v in dead]

    def find(self, slot, ident, key):
        t = self.transaction(slot, ident)
        reads = list(t.reads)
        rows = []
        for row in range(len(self.rows)):
            version = self.look(t, row, reads)
            if version is not None and version.value == key:
                rows.append(row)
        t.reads = reads
        return rows


def numbers(fields):
    out = []
    for f in fields:
        if not NUMBER.match(f) or len(f) > 20 or int(f) > LAST:
            raise Refused(0)
        out.append(int(f))
    return out


COUNTS = {b"store": 2, b"begin": 0, b"read": 3, b"write": 4, b"commit": 2, b"abort": 2, b"vacuum": 2, b"find": 3}


class Replay:
    def __init__(self):
        self.store = None

    def ok(self, values):
        return b",".join([b"ok"] + [b"%d" % v for v in values])

    def perform(self, record):
        word, *fields = record.split(b",")
        if COUNTS.get(word) != len(fields):
            raise Refused(0)
        deletes = word == b"write" and fields[3] == b""
        n = numbers(fields[:3] if deletes else fields)
        if word == b"store":
            cells, rows = n
            if not (1 <= rows <= min(MOST_ROWS, LENT_ROWS) and 1 <= cells <= min(MOST_CELLS, LENT_CELLS)):
                raise Refused(1)
            self.store = Store(cells, rows)
            return b"ok"
        if self.store is None:
            raise Refused(15)
        s = self.store
        if word == b"begin":
            return self.ok(s.begin())
        if word == b"read":
            v = s.read(*n)
            if v is None:
                return b"none"
            return b"empty" if v.value is None else b"key,%d" % v.value
        if word == b"write":
            return self.ok(s.write(n[0], n[1], n[2], None if deletes else n[3]))
        if word == b"commit":
            return self.ok(s.commit(*n))
        if word == b"abort":
            return self.ok(s.abort(*n))
        if word == b"vacuum":
            return self.ok(s.vacuum(*n))
        return self.ok(s.find(*n))

    def answer(self, record):
        try:
            return self.perform(record)
        except Refused as r:
            return b"refused,%d" % r.number


def records(text):
    parts = text.split(b"\r\n")
    if parts[-1] == b"":
        parts.pop()
    return parts


def replay(text):
    r = Replay()
    return b"".join(r.answer(record) + b"\r\n" for record in records(text))


if __name__ == "__main__":
    sys.stdout.buffer.write(replay(sys.stdin.buffer.read()))
