#!/usr/bin/env python3
"""Writes what the program edge_runs must print, from document 01's rules alone: python3 expected.py > stdout"""

# Int8 to Int64, UInt8 to UInt64, Float32, Float64: the value's low bits.
WIDTHS = (8, 16, 32, 64, 8, 16, 32, 64, 32, 64)
ONES = 0xFFFFFFFFFFFFFFFF


def is_utf8(name):
    """Python's strict decoder takes what RFC 3629 allows."""
    try:
        name.decode("utf-8", "strict")
    except UnicodeDecodeError:
        return False
    return True


def words_for(n):
    return (n + 63) // 64


class Builder:
    """The book of a list: columns (name, kind), and entries (column, value bits, or None for a null)."""

    def __init__(self, dense, slots, limit):
        self.dense, self.slots, self.limit = dense, slots, limit
        self.columns, self.entries = [], []

    def check(self):
        """Questions 15 and 16, of the memory that every list is lent: 66 type ids and offsets, 200 words, 12 mask words, 384 name bytes."""
        n, k = self.slots, self.limit
        if not (1 <= n <= 65536 and 1 <= k <= 128):
            return 15
        return 16 if n > 66 or n * k > 200 or k * words_for(n) > 12 or 32 * k > 384 else 0

    def append(self, name, kind, bits):
        """Questions 15 to 20."""
        if self.check():
            return self.check()
        if len(name) > 32 or not is_utf8(name):
            return 17
        known = [k for k, c in enumerate(self.columns) if c[0] == name]
        if known and self.columns[known[0]][1] != kind:
            return 18
        if len(self.entries) >= self.slots:
            return 19
        if not known:
            if len(self.columns) >= self.limit:
                return 20
            known = [len(self.columns)]
            self.columns.append((name, kind))
        self.entries.append((known[0], None if bits is None else bits % 2 ** WIDTHS[kind]))
        return 0

    def finish(self):
        """Columns in order by name, each with its own words, mask words and 32 name bytes in the order of the ids; of a refused one, none."""
        if self.check():
            return Array(False, [], [], [])
        children = []
        for k in sorted(range(len(self.columns)), key=lambda k: (self.columns[k][0], k)):
            if self.dense:
                cells = [bits for column, bits in self.entries if column == k]
            else:
                cells = [bits if column == k else None for column, bits in self.entries]
            name, kind = self.columns[k]
            children.append(Child(k, kind, name, k * self.slots, cells, None in cells, 64 * k * words_for(self.slots)))
        ids = [column for column, _ in self.entries]
        offsets = [ids[:i].count(k) for i, k in enumerate(ids)]
        return Array(self.dense, children, ids, offsets)


class Child:
    def __init__(self, id, kind, name, values, cells, masked, bit):
        self.id, self.kind, self.name, self.values, self.cells, self.masked, self.bit = id, kind, name, values, cells, masked, bit


class Array:
    def __init__(self, dense, children, ids, offsets):
        self.dense, self.children, self.ids, self.offsets = dense, children, ids, offsets

    def slice(self, o, n):
        """Dense keeps its children; sparse moves each one's words and mask bits by o, and sets its slots to n."""
        children = self.children
        if not self.dense:
            children = [Child(c.id, c.kind, c.name, c.values + o, c.cells[o:o + n], c.masked, c.bit + o) for c in children]
        return Array(self.dense, children, self.ids[o:o + n], self.offsets[o:o + n])

    def child(self, id):
        return [c for c in self.children if c.id == id][0]

    def offset(self, i):
        return self.offsets[i] if self.dense else i

    def bits(self, i):
        return self.child(self.ids[i]).cells[self.offset(i)]

    def fields(self):
        """N, M and F: all fields, those with a null, those that are fully null."""
        nulls = [(c.cells.count(None), len(c.cells)) for c in self.children]
        return len(nulls), sum(n > 0 for n, _ in nulls), sum(n == m and m > 0 for n, m in nulls)

    def route(self, cost):
        n, m, f = self.fields()
        if n <= 1:
            return 1 if any(c.masked for c in self.children) else 0
        if m == 0:
            return 0
        if f == n:
            return 2
        if self.dense:
            return 3
        costs = [(cost, 3)] + [(n - 1, 4)] * (m == n) + [(m, 5), (n - f, 6)]
        return min(costs)[1]

    def applies(self, route):
        """Question 14."""
        n, m, _ = self.fields()
        return n >= 2 and (route == 3 or not self.dense) and (route != 4 or m == n)


def yes(b):
    return "yes" if b else "no"


def layout(dense):
    return "dense" if dense else "sparse"


# ---- the lists: entries (name, kind, value bits or None), slots, columns

def pairs(text):
    for i in range(len(text) // 2):
        mark = text[2 * i + 1:2 * i + 2]
        yield text[2 * i:2 * i + 1], 0 if mark == b"-" else int(mark), None if mark == b"-" else i + 1


PATTERNS = (0xA5, 0xA5C3, 0xA5C39617, 0xA5C396177E814B2D, 0xB6, 0xB6D4, 0xB6D49728, 0xB6D497286F815C3E, 0xFFA5C396, 0xFFF5C396177E814B)

NAMES = ("6e" * 33, "6e" * 32, "eda080", "edbfbf", "ed9fbf", "ee8080", "f48fbfbf", "f4908080", "f5808080", "f08fbfbf", "f0908080", "f09f9880", "f09f98",
         "c080", "c1bf", "c280", "c3", "c341", "dfbf", "e09fbf", "e0a080", "e282", "efbfbf", "", "80", "bf", "ff", "6180", "6e", "7a7a", "ed9fbf")


def kinds():
    for k in range(10):
        yield b"%d" % k, k, ONES
        yield b"%d" % k, k, PATTERNS[k]


def turns(n):
    for i in range(n):
        yield (b"a", b"b")[i % 2], (2, 5)[i % 2], None if i % 3 == 2 else 1000 * i + 7


LISTS = (
    ("one column", list(pairs(b"A0A-")), 2, 1),
    ("b then a", list(pairs(b"b0a0")), 3, 3),
    ("A, B, A of another kind, C, A", list(pairs(b"A0B0A1C0A0")), 5, 3),
    ("3 slots and 2 columns", list(pairs(b"a0b0c0a1a-a0c0a1\xff0")), 3, 2),
    ("the ten kinds", list(kinds()), 20, 10),
    ("names", [(bytes.fromhex(name), 4, i + 1) for i, name in enumerate(NAMES)], 16, 12),
    ("one slot more than is lent", list(pairs(b"A0A-")), 67, 1),
    ("no column", list(pairs(b"A0A-")), 2, 0),
)


# ---- what is read

def fields(a):
    for c in a.children:
        mask = ", mask at %d %d" % (c.bit // 64, c.bit % 64) if c.masked else ""
        print("  field: id %d, name %d %s; child 0, id %d, kind %d, name at %d %d, values at %d %d%s"
              % (c.id, len(c.name), c.name.hex(), c.id, c.kind, 32 * c.id, len(c.name), c.values, len(c.cells), mask))


def slots(a):
    for i, id in enumerate(a.ids):
        c, bits = a.child(id), a.bits(i)
        value = "missing, %016x" % 0 if bits is None else "bits %016x" % bits
        print("  slot %d: type_id 0, id %d, value_offset 0 %d, value 0, id %d, kind %d, %s, name %d %s"
              % (i, id, a.offset(i), id, c.kind, value, len(c.name), c.name.hex().ljust(64, "0")))
    print("  slot %d: type_id 10, id 0, value_offset 10 0, value 10, id 0, kind 0, bits %016x, name 0 %s" % (len(a.ids), 0, "0" * 64))


def memory(b):
    """The first of each kind of memory, which held ones: an append writes its type id, its offset if dense, the words and mask bits of the
    slots that it adds, and a new name's bytes."""
    ids, offsets, masks, values, names = [255] * 6, ["-"] * 6, [ONES] * 3, [ONES] * 15, [255] * 96
    a = b.finish()
    for i, id in enumerate(a.ids):
        ids[i] = id
        if a.dense:
            offsets[i] = a.offsets[i]
    for c in a.children:
        for j, bits in enumerate(c.cells):
            values[c.values + j] = bits or 0
            if bits is None:
                masks[c.bit // 64] -= 1 << j
        names[32 * c.id:32 * c.id + len(c.name)] = c.name
    print("  memory: type ids %s, offsets %s, masks %s" % (" ".join(map(str, ids)), " ".join(map(str, offsets)), " ".join("%016x" % w for w in masks)))
    print("   values " + " ".join("%016x" % w for w in values))
    print("   names " + bytes(names).hex())


def shown(a):
    if not a.ids:
        return
    for label, refusal, ids in (("", 0, a.ids), (" from slot 1 on", 0, a.ids[1:]), (", one too few lent", 3, [])):
        print("  type_ids%s: %d, shown %d%s" % (label, refusal, len(ids), "".join(" %d" % id for id in ids)))


def mask(a, label, refusal, present, nulls, route, written):
    """The mask over three lent words of 0xff: whole words are written, bits past the count 0, later words kept."""
    out = [0xFF, 0xFF, 0xFF]
    if written:
        for k in range(words_for(len(a.ids))):
            out[k] = sum(1 << j for j in range(64) if 64 * k + j < len(a.ids) and a.bits(64 * k + j) is not None)
    print("  %s: %d %s %d %d%s" % (label, refusal, yes(present), nulls, route, "".join(" %016x" % w for w in out)))


def masks(a):
    nulls = sum(a.bits(i) is None for i in range(len(a.ids)))
    for cost in (10, 3, 2, 0):
        route = a.route(cost)
        present = route in (1, 2) or (route > 0 and nulls > 0)
        mask(a, "mask at %d" % cost, 0, present, nulls if present else 0, route, route > 0)
    mask(a, "mask at 4", 12, False, 0, 0, False)
    for route, label in ((3, "gather"), (4, "skip one"), (5, "skip without nulls"), (6, "skip fully null")):
        if a.applies(route):
            mask(a, label, 0, nulls > 0, nulls, route, True)
        else:
            mask(a, label, 14, False, 0, 0, False)


def state(dense, slots, limit, length=0, columns=0):
    return "a %s builder %d %d %d %d" % (layout(dense), slots, limit, length, columns)


# ---- what is run

def play(dense, entries, slots, limit, lines):
    b = Builder(dense, slots, limit)
    for name, kind, bits in entries:
        refusal = b.append(name, kind, bits)
        if lines:
            value = "missing" if bits is None else "bits %016x" % bits
            print(" append %s, kind %d, %s: %d, length %d" % (name.hex(), kind, value, refusal, len(b.entries)))
    return b


def same():
    """`append_mut` leaves what `append` does."""
    print(" by append_mut: builder yes, numbers yes, memory yes yes yes yes yes")


def run(dense, title, entries, slots_, limit):
    print("%s, %s" % (layout(dense), title))
    b = play(dense, entries, slots_, limit, True)
    same()
    if (title, entries, slots_, limit) in LISTS[:4]:
        memory(b)
    a = b.finish()
    # A refused finish hands the builder back as it came; an accepted one hands back an empty sparse one.
    print(" finish %d, slots %d, fields %d, %s" % (b.check(), len(a.ids), len(a.children), state(dense and b.check() > 0, slots_, limit)))
    print("  is_dense 0 %s, is_nullable 0 %s" % (yes(a.dense), yes(a.fields()[1] > 0)))
    fields(a)
    slots(a)
    shown(a)
    return a


def read_back(a):
    fields(a)
    print("  try_new 0, slots that tell their entry %d" % len(a.ids))
    masks(a)


def round_of(dense, n):
    """C appends, then 19; a snapshot half way is read back with the rest."""
    print("%s, %d slots" % (layout(dense), n))
    print(" append %d: 19, length %d" % (n, n))
    same()
    a = play(dense, turns(n + 1), n, 3, False).finish()
    print(" finish_cloned: 0")
    read_back(a)
    print(" slice from slot 1: 0")
    read_back(a.slice(1, n - 1))
    half = (n + 1) // 2
    print(" snapshot at slot %d" % half)
    read_back(play(dense, turns(half), n, 3, False).finish())


def refusals(a):
    print("  slice of none at the end: 0, of one: 9, of all from slot 1: 9")
    print("  child of id 9: 11, of id -1: 11")
    print("  no word lent: mask at 10: 13, at 4: 12, gather: %d" % (13 if a.applies(3) else 14))
    print("  slice of slot 0: 0")
    masks(a.slice(0, 1))


def makings(dense):
    """Questions 15 and 16, over 1024 type ids, offsets and words, 128 mask words and 4096 name bytes."""
    print("%s, makings" % layout(dense))
    for n, k in ((0, 1), (1, 0), (1, 1), (1, 128), (1, 129), (65536, 1), (65537, 1), (1024, 0), (1024, 1), (1024, 2)):
        if not (1 <= n <= 65536 and 1 <= k <= 128):
            refusal = 15
        elif n > 1024 or n * k > 1024 or k * words_for(n) > 128 or 32 * k > 4096:
            refusal = 16
        else:
            refusal = 0
        print(" making of %d %d: %d, %s" % (n, k, refusal, state(False, 0, 0) if refusal else state(dense, n, k)))
    for kind in range(6):
        # One element too few of a kind of memory; the last is lent all.
        refusal = 16 if kind < 5 else 0
        print(" short of %d: making %d, finish_cloned %d, finish %d" % (kind, refusal, refusal, refusal))


for dense in (False, True):
    for n in (63, 64, 65):
        round_of(dense, n)
    for i, entry in enumerate(LISTS):
        a = run(dense, *entry)
        if i in (0, 2):
            refusals(a)
    makings(dense)
