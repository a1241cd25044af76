#!/usr/bin/env python3
"""Writes what the program readings must print for the files of data/, from document 01's rules alone: python3 expected.py > stdout
With file names as arguments it writes what the program must print for those."""
import os
import sys
from fractions import Fraction

KINDS = {b"Int8": ("i", 8), b"Int16": ("i", 16), b"Int32": ("i", 32), b"Int64": ("i", 64), b"UInt8": ("u", 8), b"UInt16": ("u", 16),
         b"UInt32": ("u", 32), b"UInt64": ("u", 64), b"Float32": ("f", 32), b"Float64": ("f", 64)}
FORMATS = {32: (24, 127), 64: (53, 1023)}
LENT = {"slots": 4096, "values": 131072, "masks": 2176, "names": 4096}
SENTENCES = {
    9: "the slice ends after the last slot",
    12: "the setting is none of 10, 3, 2 and 0",
    15: "a builder has 1 to 65536 slots and 1 to 128 columns",
    16: "the memory is too small for so many slots and columns",
    17: "the name is not UTF-8 of at most 32 bytes",
    19: "every slot is taken",
    20: "every column is taken",
}
ROUTES = {0: "no column has a null", 1: "one column", 2: "only nulls", 3: "gather", 4: "skip one", 5: "skip without nulls", 6: "skip fully null"}


class Bad(Exception):
    """A bad line."""


class Refused(Exception):
    """A refusal's number."""


# ---- values as text


def nearest(x, width):
    """The bits of the float nearest to a fraction of at least 0, ties to even."""
    precision, bias = FORMATS[width]
    if x == 0:
        return 0
    exponent = 0
    while x >= 2 ** (exponent + 1):
        exponent += 1
    while x < Fraction(2) ** exponent:
        exponent -= 1
    significand = round(x / Fraction(2) ** (exponent - precision + 1))
    if significand == 2 ** precision:
        significand, exponent = significand // 2, exponent + 1
    return (exponent + bias) * 2 ** (precision - 1) + significand - 2 ** (precision - 1)


def digits(text):
    if not text or any(b not in b"0123456789" for b in text):
        raise Bad
    return int(text)


def hexadecimal(text, width):
    body = text[2:]
    if len(body) != width // 4 or any(b not in b"0123456789abcdefABCDEF" for b in body):
        raise Bad
    return int(body, 16)


def float_bits(text, width):
    sign = 0
    if text[:1] in (b"-", b"+"):
        sign, text = text[:1] == b"-", text[1:]
    whole, _, part = text.partition(b".")
    if len(part) > 15 or digits(whole + part) >= 10 ** 15:
        raise Bad
    bits = nearest(Fraction(int(whole + part), 10 ** len(part)), width)
    if width == 64:
        assert float(Fraction(int(whole + part), 10 ** len(part))) == float(text)
    return bits + (2 ** (width - 1) if sign else 0)


def bits_of(text, kind):
    family, width = KINDS[kind]
    if text[:2] == b"0x":
        return hexadecimal(text, width)
    if family == "f":
        return float_bits(text, width)
    negative = text[:1] == b"-"
    n = digits(text[1:] if text[:1] in (b"-", b"+") else text)
    low, high = (-(2 ** (width - 1)), 2 ** (width - 1) - 1) if family == "i" else (0, 2 ** width - 1)
    n = -n if negative else n
    if not low <= n <= high:
        raise Bad
    return n % 2 ** width


def float_text(bits, width):
    precision, bias = FORMATS[width]
    size = bits % 2 ** (width - 1)
    field, low = divmod(size, 2 ** (precision - 1))
    if field < 2 * bias + 1:
        exact = Fraction(low + (2 ** (precision - 1) if field else 0)) * Fraction(2) ** (max(field, 1) - bias - precision + 1)
        for k in range(16):
            m = int(exact * 10 ** k)
            for c in (m, m + 1):
                if c < 10 ** 15 and nearest(Fraction(c, 10 ** k), width) == size:
                    whole = str(c).rjust(k + 1, "0")
                    return ("-" if bits != size else "") + (whole[:-k] + "." + whole[-k:] if k else whole)
    return "0x%0*x" % (width // 4, bits)


def value_text(bits, kind):
    family, width = KINDS[kind]
    if family == "f":
        return float_text(bits, width)
    if family == "i" and bits >= 2 ** (width - 1):
        bits -= 2 ** width
    return str(bits)


# ---- the builder and its batches


class Builder:
    def __init__(self, dense, capacity, limit):
        if not (1 <= capacity <= 65536 and 1 <= limit <= 128):
            raise Refused(15)
        if capacity > LENT["slots"] or limit * capacity > LENT["values"] or limit * -(-capacity // 64) > LENT["masks"] or 32 * limit > LENT["names"]:
            raise Refused(16)
        self.dense, self.capacity, self.limit = dense, capacity, limit
        self.columns, self.entries = [], []

    def append(self, name, kind, bits):
        """Answers the column's id, and whether it is new. A missing reading has bits None."""
        try:
            name.decode("utf-8")
            if len(name) > 32:
                raise Refused(17)
        except UnicodeDecodeError:
            raise Refused(17)
        ids = [i for i, (n, _) in enumerate(self.columns) if n == name]
        if ids and self.columns[ids[0]][1] != kind:
            raise Refused(18)
        if len(self.entries) == self.capacity:
            raise Refused(19)
        if not ids and len(self.columns) == self.limit:
            raise Refused(20)
        if not ids:
            self.columns.append((name, kind))
        self.entries.append((ids[0] if ids else len(self.columns) - 1, bits))
        return self.entries[-1][0], not ids

    def batch(self):
        return Batch(self.dense, list(self.columns), list(self.entries), 0, len(self.entries))


class Batch:
    """The entries first, first + 1, .. of those that a builder had, `count` of them."""

    def __init__(self, dense, columns, entries, first, count):
        self.dense, self.columns, self.entries, self.first, self.count = dense, columns, entries, first, count

    def slice(self, start, count):
        if start + count > self.count:
            raise Refused(9)
        return Batch(self.dense, self.columns, self.entries, self.first + start, count)

    def slots(self):
        return self.entries[self.first:self.first + self.count]

    def child(self, k):
        """A child's slots, present or not, as it stands, and whether it has a mask: exactly if a null was put in."""
        if self.dense:
            column = [bits is not None for i, bits in self.entries if i == k]
            return column, not all(column)
        column = [i == k and bits is not None for i, bits in self.entries]
        return column[self.first:self.first + self.count], not all(column)

    def mask(self, setting):
        """Presence, null count and route; slot i is null if its entry is missing."""
        if setting not in (10, 3, 2, 0):
            raise Refused(12)
        children = [self.child(k) for k in range(len(self.columns))]
        nulls = sum(bits is None for _, bits in self.slots())
        n = len(children)
        if n <= 1:
            has = any(m for _, m in children)
            return has, nulls if has else 0, 1 if has else 0
        some = sum(not all(c) for c, _ in children)
        full = sum(len(c) > 0 and not any(c) for c, _ in children)
        if some == 0:
            return False, 0, 0
        if full == n:
            return True, self.count, 2
        route = 3
        if not self.dense:
            costs = [(setting, 3)] + ([(n - 1, 4)] if some == n else []) + [(some, 5), (n - full, 6)]
            route = min(costs, key=lambda c: c[0])[1]
        return nulls > 0, nulls, route


# ---- the program's lines


def shown(name):
    return bytes(63 if b < 32 or b == 127 else b for b in name)


def counted(n, what):
    return "%d %s%s" % (n, what, "" if n == 1 else "s")


def summary(batch, setting):
    present, nulls, route = batch.mask(setting)
    return "nulls %d of %d, mask %s, route %d (%s) at setting %d" % (
        nulls, batch.count, "present" if present else "absent", route, ROUTES[route], setting)


def table(batch):
    slots = batch.slots()
    texts = ["null" if bits is None else value_text(bits, batch.columns[i][1]) for i, bits in slots]
    names = max([4] + [len(n.decode("utf-8")) for n, _ in batch.columns])
    wide = max([5] + [len(t) for t in texts])
    out = []
    if slots:
        out.append(b"      slot   id  name" + b" " * (names - 4) + b"  kind     " + b"value".rjust(wide) + b"  mark")
    present = batch.mask(10)[0]
    for at, ((i, bits), text) in enumerate(zip(slots, texts)):
        name, kind = batch.columns[i]
        out.append(b"%10d%5d  " % (at, i) + shown(name) + b" " * (names - len(name.decode("utf-8"))) + b"  " + kind.ljust(9)
                   + text.encode().rjust(wide) + (b"  null" if present and bits is None else b"  -"))
    return out + [b"   " + summary(batch, 10).encode()]


def marks(batch, setting):
    if not batch.mask(setting)[0]:
        return []
    row = ["N" if bits is None else "." for _, bits in batch.slots()]
    return [b"%10d  " % k + "".join(row[k:k + 64]).encode() for k in range(0, len(row), 64)]


class Program:
    def __init__(self):
        self.builder, self.batch, self.past = None, None, False

    def made(self):
        if self.builder is None:
            raise Bad("no builder yet")
        return self.builder

    def there(self):
        if self.batch is None:
            raise Bad("no batch yet")
        return self.batch

    def show(self, batch, text):
        self.batch = batch
        return [text.encode()] + table(batch)

    def run(self, command, words):
        if command in (b"dense", b"sparse"):
            counts = [1024] + words if len(words) == 1 else words
            self.builder = Builder(command == b"dense", *counts)
            self.batch, self.past = None, False
            return [b"%s builder of %s and %s" % (command, counted(counts[0], "slot").encode(), counted(counts[1], "column").encode())]
        if command in (b"append", b"null"):
            builder = self.made()
            name, kind, bits = words
            try:
                column, new = builder.append(name, kind, bits)
            except Refused as r:
                if r.args[0] == 18:
                    return [b'refused 18: the column "' + shown(name) + b'" has another kind']
                raise
            if self.past:
                self.batch, self.past = None, False
            return [("%sappended to %scolumn %d, %s so far" % (
                "null " if bits is None else "", "new " if new else "", column, counted(len(builder.entries), "slot"))).encode()]
        if command == b"len":
            return [counted(len(self.made().entries), "slot").encode() + b" so far"]
        if command == b"snapshot":
            batch = self.made().batch()
            self.past = False
            return self.show(batch, "snapshot of " + counted(batch.count, "slot"))
        if command == b"finish":
            builder = self.made()
            self.builder = Builder(False, builder.capacity, builder.limit)
            self.past = True
            return self.show(builder.batch(), "finished %s; the builder is now empty and sparse" % counted(len(builder.entries), "slot"))
        if command == b"slice":
            batch = self.there().slice(*words)
            return self.show(batch, "slice of " + counted(batch.count, "slot"))
        return [summary(self.there(), words[0]).encode()] + marks(self.batch, words[0])


def split(text, name):
    """The next word and what follows it; a name may stand in double quotes."""
    text = text.lstrip(b" \t")
    if name and text[:1] == b'"':
        word, quote, rest = text[1:].partition(b'"')
        if not quote or rest[:1] not in (b"", b" ", b"\t"):
            raise Bad("bad line: the name's quotes are not closed")
        return word, rest
    end = min([i for i, b in enumerate(text) if b in b" \t"] + [len(text)])
    if end == 0:
        return None, b""
    return text[:end], text[end:]


def count(word):
    if word is None:
        raise Bad("bad line: a word is missing")
    try:
        if digits(word) < 2 ** 64:
            return int(word)
    except Bad:
        pass
    raise Bad("bad line: not a number from 0 to 18446744073709551615")


def parse(command, text):
    words = []
    if command in (b"append", b"null"):
        name, text = split(text, True)
        kind, text = split(text, False)
        if name is None or kind is None:
            raise Bad("bad line: a word is missing")
        if kind not in KINDS:
            raise Bad("bad line: no such kind")
        bits = None
        if command == b"append":
            word, text = split(text, False)
            if word is None:
                raise Bad("bad line: a word is missing")
            try:
                bits = bits_of(word, kind)
            except Bad:
                raise Bad("bad line: the value is not a number of kind " + kind.decode())
        words = [name, kind, bits]
    elif command in (b"dense", b"sparse", b"slice", b"mask"):
        word, text = split(text, False)
        words = [count(word)]
        if command != b"mask":
            word, text = split(text, False)
            if word is not None or command == b"slice":
                words.append(count(word))
    elif command not in (b"len", b"snapshot", b"finish"):
        raise Bad("bad line: no such command")
    if split(text, False)[0] is not None:
        raise Bad("bad line: there are words after the command")
    return words


def answer(program, line):
    if len(line) > 1024:
        return [b"bad line: the line is longer than 1024 bytes"]
    line = line[:-1] if line.endswith(b"\r") else line
    command, rest = split(line, False)
    if command is None or command.startswith(b"#"):
        return []
    try:
        return program.run(command, parse(command, rest))
    except Bad as b:
        return [b.args[0].encode()]
    except Refused as r:
        return [("refused %d: %s" % (r.args[0], SENTENCES[r.args[0]])).encode()]


def answers(text):
    program, out = Program(), []
    lines = text.split(b"\n")
    for number, line in enumerate(lines if lines[-1] else lines[:-1], 1):
        got = answer(program, line)
        if got:
            out += [b"%d: " % number + got[0]] + got[1:]
    return b"".join(line + b"\n" for line in out)


here = os.path.dirname(os.path.abspath(__file__))
if len(sys.argv) > 1:
    files = [(f.encode(), f) for f in sys.argv[1:]]
else:
    files = [(f.encode(), os.path.join(here, "data", f)) for f in open(os.path.join(here, "args")).read().split()]
for name, path in files:
    with open(path, "rb") as f:
        sys.stdout.buffer.write(name + b"\n" + answers(f.read()))
