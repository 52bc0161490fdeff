#!/usr/bin/env python3
"""A model of `protocol`, written from the rules alone, before the program was there.
The expected outputs in tests/cases and crates/protocol/stdout come from it; the gate does not run it.

usage: model.py FILE              prints what `protocol number FILE` prints (status 1 on a refusal)
       model.py -                 the same from standard input
       model.py --engine fill FILE, --limit K   for experiments
"""
import sys

WIDTH, PAGE_ROWS, MAX_LINE, MAX_LINES, SLOTS = 72, 40, 120, 4096, 4096


class Refused(Exception):
    def __init__(self, number, *values):
        super().__init__(number, values)
        self.number, self.values = number, values


# ---- lines and the store that the program uses ------------------------------------------------
def split(data):
    lines, at = [], 0
    while True:
        k = data.find(b"\n", at)
        if k < 0:
            if at < len(data):
                lines.append(data[at:])
            return lines
        lines.append(data[at:k])
        at = k + 1


def line_fault(line):
    if len(line) > MAX_LINE:
        return Refused(2, len(line))
    for c, b in enumerate(line):
        if not 32 <= b <= 126:
            return Refused(3, c)
    return None


def take(data, slots=SLOTS):
    got = []
    for line in split(data):
        f = line_fault(line)
        if f:
            raise f
        if len(got) + 1 > MAX_LINES or len(got) + 1 > slots:
            raise Refused(4, len(got), slots)
        got.append(line)
    return got


# ---- directives -------------------------------------------------------------------------------
def digits(arg, most):
    return 1 <= len(arg) <= most and all(48 <= b <= 57 for b in arg)


def kind(line):
    """text, or a directive"""
    if line[:1] == b"." and line[:2] != b"..":
        return "directive", line
    return "text", line[1:] if line[:2] == b".." else line


def directive(line, letters, bare):
    """letter and argument, or (cause, column)"""
    if len(line) < 2 or line[1:2] not in letters:
        return None, (1, 1)
    letter = line[1:2]
    if letter in bare:
        return ((letter, b""), None) if len(line) == 2 else (None, (2, 2))
    if line[2:3] != b" ":
        return None, (2, 2)
    return (letter, line[3:]), None


# ---- engines: step(state, line) -> (state, rows) or ('refused', cause, column) -----------------
class Number:
    start = (0, 22)

    @staticmethod
    def step(state, line):
        v, m = state
        if line_fault(line):
            return "refused", 9, 0
        what, text = kind(line)
        if what == "directive":
            got, bad = directive(line, (b"n", b"m"), ())
            if bad:
                return ("refused",) + bad
            letter, arg = got
            if letter == b"n":
                sign, body = (-1, arg[1:]) if arg[:1] == b"-" else (1, arg)
                if not digits(body, 5):
                    return "refused", 2, 3
                return (sign * int(body), m), []
            if not digits(arg, 3) or not 1 <= int(arg) <= 256:
                return "refused", 2, 3
            return (v, int(arg)), []
        if v == 100000:
            return "refused", 3, 0
        t = v // m
        p = v - m * t
        assert v == m * t + p and 0 <= p < m
        rows = [b"%7d %3d " % (t, p) + text[:60].ljust(60)]
        if len(text) > 60:
            rows.append(b" " * 12 + text[60:].ljust(60))
        assert all(len(r) == WIDTH for r in rows)
        return (v + 1, m), rows

    @staticmethod
    def close(state):
        return []


class Fill:
    start = (0, b"")

    @staticmethod
    def out(state):
        indent, row = state
        return (b" " * indent + row).ljust(WIDTH)

    @classmethod
    def step(cls, state, line):
        indent, row = state
        if line_fault(line):
            return "refused", 9, 0
        what, text = kind(line)
        flushed = [cls.out(state)] if row else []
        if what == "directive":
            got, bad = directive(line, (b"b", b"i"), (b"b",))
            if bad:
                return ("refused",) + bad
            letter, arg = got
            if letter == b"b":
                return (indent, b""), flushed
            if not digits(arg, 2) or int(arg) > 12:
                return "refused", 2, 3
            return (int(arg), b""), flushed
        words = [w for w in text.split(b" ") if w]
        if not words:
            return (indent, b""), flushed + [b" " * WIDTH]
        a, rows = WIDTH - indent, []
        for w in words:
            for piece in [w[i:i + a] for i in range(0, len(w), a)]:
                if not row:
                    row = piece
                elif len(row) + 1 + len(piece) <= a:
                    row = row + b" " + piece
                else:
                    rows.append(cls.out((indent, row)))
                    row = piece
        assert len(rows) <= 3
        return (indent, row), rows

    @classmethod
    def close(cls, state):
        return [cls.out(state)] if state[1] else []


# ---- the page rule ----------------------------------------------------------------------------
class Page:
    def __init__(self, first, items, rows, checkpoint, last):
        self.first, self.items, self.rows, self.checkpoint = first, items, rows, checkpoint
        self.steps = items + (0 if last else 1)
        self.last = last

    def body(self):
        return self.rows + [b" " * WIDTH] * (PAGE_ROWS - len(self.rows))

    def key(self):
        return (self.first, self.items, len(self.rows), self.checkpoint, tuple(self.body()))


def make_page(engine, lines, q, j, state):
    """one page; answers it and the state behind it"""
    first, checkpoint, rows = j, state, []
    while True:
        if j < len(lines):
            got = engine.step(state, lines[j])
            if got[0] == "refused":
                raise Refused(6, got[1], got[2], j, q)
            after, more = got
        else:
            after, more = state, engine.close(state)
        if len(rows) + len(more) > PAGE_ROWS:
            return Page(first, j - first, rows, checkpoint, False), state
        rows, state, j = rows + more, after, j + 1
        if j > len(lines):
            return Page(first, j - first, rows, checkpoint, True), state


def pages(engine, lines, limit):
    q, j, state = 0, 0, engine.start
    while True:
        if q == limit:
            raise Refused(7, j, limit)
        page, state = make_page(engine, lines, q, j, state)
        yield page
        if page.last:
            return
        q, j = q + 1, j + page.items


# ---- the program ------------------------------------------------------------------------------
def run(engine, data, limit=256):
    out = []
    try:
        lines = take(data)
        count = steps = 0
        for p in pages(engine, lines, limit):
            out.append(b"page %d: first %d, items %d, rows %d, steps %d" % (count, p.first, p.items, len(p.rows), p.steps))
            out += p.body()
            count += 1
            steps += p.steps
        out.append(b"pages %d, steps %d" % (count, steps))
        status = 0
    except Refused as r:
        out.append(b" ".join([b"refused", b"%d" % r.number] + [b"%d" % v for v in r.values]))
        status = 1
    return b"\n".join(out) + b"\n", status


if __name__ == "__main__":
    args = sys.argv[1:]
    engine, limit = Number, 256
    while len(args) > 1 and args[0] in ("--engine", "--limit"):
        if args[0] == "--engine":
            engine = {"number": Number, "fill": Fill}[args[1]]
        else:
            limit = int(args[1])
        args = args[2:]
    data = sys.stdin.buffer.read() if args == ["-"] or not args else open(args[0], "rb").read()
    text, status = run(engine, data, limit)
    sys.stdout.buffer.write(text)
    sys.exit(status)
