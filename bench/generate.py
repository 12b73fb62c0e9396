#!/usr/bin/env python3
"""Writes random inputs (a rule sheet and a log image each) into a folder.

usage: generate.py FOLDER [NUMBER [SEED]]

The same NUMBER and SEED write the same files, 00000.in, 00001.in and so on.
Every seventh is from a fixed list of inputs, mostly at the edges of the layout, until the list is
used up.  Of the others most are valid and about one in six is damaged in some way.
"""
import os
import random
import struct
import sys

NOT, OR, AND, IMPLIES, OCCURRENCE, ABSENCE, AFTER, BEFORE, GIVEN, FORALL, EXISTS = range(1, 12)
TRUE, TNOT, TAND, TOR, EQUAL, LESS, ATMOST = range(20, 27)
CONSTANT, TIME, VALUE, NUMBER, SUM, DIFFERENCE, PRODUCT, QUOTIENT = range(30, 38)
FIRST, LAST, EACH = 1, 2, 3
LOWEST, HIGHEST = -2**31, 2**31 - 1
MOST_ROWS, MOST_BOUND, MOST_BYTES = 64, 8, 64520


# ------------------------------------------------------------ bytes

def sheet_bytes(rules, count=None, rows=None):
    """rules: a list of lists of rows (kind, a, b, c, number)."""
    flat = [row for rule in rules for row in rule]
    head = struct.pack('<HH', len(rules) if count is None else count,
                       len(flat) if rows is None else rows)
    heads = b''.join(bytes(row[:4]) for row in flat)
    numbers = b''.join(struct.pack('<i', row[4]) for row in flat)
    return head + heads + numbers


def body_bytes(name, values):
    """values: a list of (code, number), number None if unread."""
    out = struct.pack('<BBH', name, len(values), 0)
    for slot in range(4):
        code, number = values[slot] if slot < len(values) else (0, None)
        out += struct.pack('<BBi', code, 0 if number is None else 1, number or 0)
    return out


def image_bytes(events):
    """events: a list of (time, name, values)."""
    return (struct.pack('<HH', len(events), 28)
            + b''.join(struct.pack('<i', e[0]) for e in events)
            + b''.join(body_bytes(e[1], e[2]) for e in events))


def row(kind, a=0, b=0, c=0, number=0):
    return (kind, a, b, c, number)


# ------------------------------------------------------------ rules

class Rules:
    """Random trees.  `known` is the list of sorts of the known variables, 'e' or 'n'."""

    def __init__(self, rng):
        self.rng = rng
        self.names = rng.choice([1, 2, 2, 3, 3])
        self.codes = rng.choice([1, 1, 2, 3])
        # How often a comparison uses an outer variable.
        self.outer = rng.choice([0.3, 0.6])

    def name(self):
        return self.rng.randint(1, self.names)

    def code(self):
        return self.rng.randint(1, self.codes)

    def of_sort(self, known, sort):
        return [i for i, s in enumerate(known) if s == sort]

    def event_variable(self, known):
        events = self.of_sort(known, 'e')
        if known[-1] == 'e' and self.rng.random() > self.outer:
            return len(known) - 1
        return self.rng.choice(events)

    def number(self):
        roll = self.rng.random()
        if roll < 0.8:
            return self.rng.randint(-3, 4)
        if roll < 0.9:
            return self.rng.choice([LOWEST, HIGHEST, LOWEST + 1, HIGHEST - 1])
        if roll < 0.97:
            return self.rng.choice([46340, 46341, 65536, -46341, 1 << 30])
        return self.rng.randint(LOWEST, HIGHEST)

    def term(self, known, depth):
        """A list of rows."""
        roll = self.rng.random()
        if depth > 0 and roll < 0.3:
            kind = self.rng.choice([SUM, DIFFERENCE, PRODUCT, QUOTIENT, QUOTIENT])
            return [row(kind)] + self.term(known, depth - 1) + self.term(known, depth - 1)
        numbers = self.of_sort(known, 'n')
        if numbers and roll < 0.55:
            return [row(NUMBER, self.rng.choice(numbers))]
        if roll < 0.62:
            return [row(TIME, self.event_variable(known))]
        if roll < 0.88:
            return [row(VALUE, self.event_variable(known), self.code())]
        return [row(CONSTANT, number=self.number())]

    def step(self):
        """A step on two constants and about what comes out: a list of rows."""
        x, y = self.rng.choice([(-7, 2), (7, -2), (-7, -2), (7, 2), (-1, 2), (LOWEST, -1),
                                (LOWEST, 1), (HIGHEST, -1), (LOWEST, 2), (5, 0), (0, 0),
                                (46341, 46341), (46340, 46340), (-65536, 32768), (65536, 32768),
                                (HIGHEST, 1), (HIGHEST, 0), (LOWEST, LOWEST), (-1, LOWEST)])
        kind = self.rng.choice([SUM, DIFFERENCE, PRODUCT, QUOTIENT, QUOTIENT, QUOTIENT])
        out = {SUM: x + y, DIFFERENCE: x - y, PRODUCT: x * y, QUOTIENT: int(x / y) if y else 0}[kind]
        out += self.rng.choice([0, 0, -1, 1])
        out = min(max(out, LOWEST), HIGHEST)
        return [row(kind), row(CONSTANT, number=x), row(CONSTANT, number=y),
                row(CONSTANT, number=out)]

    def test(self, known, depth):
        roll = self.rng.random()
        if roll > 0.96:
            return [row(self.rng.choice([EQUAL, ATMOST]))] + self.step()
        if depth > 0 and roll < 0.3:
            kind = self.rng.choice([TNOT, TAND, TOR])
            out = [row(kind)] + self.test(known, depth - 1)
            return out if kind == TNOT else out + self.test(known, depth - 1)
        if roll < 0.4:
            return [row(TRUE)]
        kind = self.rng.choice([EQUAL, LESS, ATMOST])
        deep = self.rng.choice([0, 0, 1, 2])
        return [row(kind)] + self.term(known, deep) + self.term(known, deep)

    def leaf(self, known):
        deep = self.rng.choice([0, 1, 2])
        if self.rng.random() < 0.5:
            return [row(ABSENCE, self.name())] + self.test(known + ['e'], deep)
        n = self.rng.choice([0, 1, 1, 1, 1, 2, 2, 2, 3, 3, 4, 65535])
        return [row(OCCURRENCE, self.name(), number=n)] + self.test(known + ['e'], deep)

    def two_fold(self, known):
        """A leaf that compares the innermost number, and something else beside it."""
        kind = self.rng.choice([OCCURRENCE, ABSENCE])
        compared = ([row(self.rng.choice([EQUAL, LESS, ATMOST])), row(NUMBER, len(known) - 1)]
                    + self.term(known + ['e'], 0))
        return ([row(kind, self.name(), number=1 if kind == OCCURRENCE else 0),
                 row(self.rng.choice([TAND, TOR]))] + compared + self.test(known + ['e'], 0))

    def scope(self, known, inner):
        kind = self.rng.choice([AFTER, BEFORE, GIVEN])
        duration = 0
        if kind != GIVEN and self.rng.random() < 0.45:
            duration = self.rng.choice([1, 1, 2, 2, 3, 3, 4, 5, 6, 9, HIGHEST])
        which = self.rng.choice([FIRST, LAST, EACH])
        deep = self.rng.choice([0, 0, 1])
        return ([row(kind, self.name(), which, 0, duration)]
                + self.test(known + ['e'], deep) + inner(known + ['e']))

    def property(self, known, depth):
        if depth == 0 or len(known) >= MOST_BOUND - 1:
            return self.leaf(known)
        roll = self.rng.random()
        if roll < 0.08:
            return [row(NOT)] + self.property(known, depth - 1)
        if roll < 0.3:
            kind = self.rng.choice([OR, AND, IMPLIES])
            return [row(kind)] + self.property(known, depth - 1) + self.property(known, depth - 1)
        if roll < 0.5 and 'e' in known:
            kind = self.rng.choice([FORALL, EXISTS])
            inside = known + ['n']
            head = [row(kind, self.event_variable(known), self.code())]
            if self.rng.random() < 0.3 and len(inside) < MOST_BOUND:
                return head + self.two_fold(inside)
            return head + self.property(inside, depth - 1)
        if roll < 0.92:
            return self.scope(known, lambda inside: self.property(inside, depth - 1))
        return self.leaf(known)

    def chain(self, links):
        """Binding rows nested `links` deep, the innermost counted."""
        def go(known):
            left = links - len(known)
            if left <= 1:
                return self.leaf(known)
            if 'e' in known and self.rng.random() < 0.35:
                return ([row(self.rng.choice([FORALL, EXISTS]), self.event_variable(known),
                             self.code())] + go(known + ['n']))
            return self.scope(known, go)
        return go([])

    def rule(self, room):
        """A rule of at most `room` rows, at least 2."""
        for _ in range(20):
            if self.rng.random() < 0.07:
                rows = self.chain(self.rng.randint(3, MOST_BOUND))
            else:
                rows = self.property([], self.rng.choice([0, 1, 2, 2, 3, 3, 4, 5]))
            if len(rows) <= room:
                return rows
        return [row(ABSENCE, self.name()), row(TRUE)]

    def sheet(self):
        wanted = self.rng.choice([1, 1, 1, 2, 3, 4, 6, 16])
        rules, left = [], MOST_ROWS
        while len(rules) < wanted and left >= 2:
            rules.append(self.rule(left))
            left -= len(rules[-1])
        return rules


# ------------------------------------------------------------ logs

def random_log(rng, rules):
    length = rng.choice([0, 1, 2, 3, 4, 5, 6, 7, 8, 9, 10, 11, 12, rng.randint(6, 12)])
    distinct = rng.randint(1, 7)
    base = 0 if rng.random() < 0.95 else HIGHEST - 12
    times = sorted(base + rng.randint(0, distinct) for _ in range(length))
    unread = rng.choice([0.0, 0.15, 0.3, 0.6])
    usual = rng.choice([0.4, 0.8, 0.95])  # how often an event has each code at most once
    events = []
    for time in times:
        name = rng.randint(1, rules.names)
        if rng.random() < usual:
            codes = rng.sample(range(1, rules.codes + 1),
                               rng.choice([rules.codes, rng.randint(0, rules.codes)]))
        else:
            codes = [rng.randint(1, rules.codes) for _ in range(rng.randint(0, 4))]
        values = []
        for code in codes:
            number = rng.randint(-3, 4) if rng.random() < 0.75 else rules.number()
            values.append((code, None if rng.random() < unread else number))
        events.append((time, name, values))
    return events


# ------------------------------------------------------------ damage

# By kind: fields set so that the row is just out of, or just inside, what it may be.
EDGES = {
    OCCURRENCE: [(1, 0), (2, 1), (4, -1), (4, 65536), (4, 65535), (4, LOWEST)],
    ABSENCE: [(1, 0), (2, 1), (4, 1)],
    AFTER: [(1, 0), (2, 0), (2, 4), (4, -1), (4, LOWEST), (4, HIGHEST)],
    BEFORE: [(1, 0), (2, 0), (2, 4), (4, -1), (4, LOWEST), (4, HIGHEST)],
    GIVEN: [(1, 0), (2, 0), (2, 4), (4, 1), (4, -1)],
    FORALL: [(2, 0), (4, 1)],
    EXISTS: [(2, 0), (4, 1)],
    CONSTANT: [(1, 1), (2, 1)],
    TIME: [(2, 1), (4, 1)],
    VALUE: [(2, 0), (4, 1)],
    NUMBER: [(2, 1), (4, 1)],
}


def broken_field(rng, rules):
    """One row's field set to something else, or a row dropped, added, doubled or moved."""
    flat = [list(r) for rule in rules for r in rule]
    kind = rng.choice(sorted(set(r[0] for r in flat)))
    at = rng.choice([i for i, r in enumerate(flat) if r[0] == kind])
    how = rng.randrange(14)
    if how < 5:
        edges = EDGES.get(kind, [(1, 1), (2, 1), (4, 1), (4, -1)]) + [(3, 1)]
        if kind in (FORALL, EXISTS, TIME, VALUE, NUMBER):
            edges = edges + [(1, v) for v in range(9)] + [(1, v) for v in range(4)] * 3
        field, content = rng.choice(edges)
        flat[at][field] = content
    elif how < 7:
        flat[at][rng.randrange(1, 4)] = rng.choice([0, 1, 2, 3, 4, 5, 7, 8, 255])
    elif how == 7:
        flat[at][0] = rng.choice(list(range(0, 40)) + [255])
    elif how == 8:
        flat[at][4] = rng.choice([-1, 0, 1, 65535, 65536, LOWEST, HIGHEST])
    elif how == 9:
        del flat[at]
    elif how == 10:
        flat.insert(at, list(rng.choice(flat)))
    elif how == 11:
        flat.append(list(row(TRUE)))
    elif how == 12:
        flat.pop()
    else:
        other = rng.randrange(len(flat))
        flat[at], flat[other] = flat[other], flat[at]
    return flat


def broken_event(rng, image, n, at):
    """Event `at` of the image put out of its bounds in one way, or left at their edge."""
    time, body = 4 + 4 * at, 4 + 4 * n + 28 * at
    used = image[body + 1]
    how = rng.choice(['time', 'name', 'count', 'zero', 'beyond', 'code', 'state', 'unread'])
    if how == 'time':
        image[time + 3] = rng.choice([127, 128, 255])
    elif how == 'name':
        image[body] = 0
    elif how == 'count':
        image[body + 1] = rng.choice([used + 1, 5, 255] + [used - 1] * (used > 0))
        if rng.random() < 0.5:
            for slot in range(used, 4):
                image[body + 4 + 6 * slot] = 1
    elif how == 'zero':
        image[body + rng.choice([2, 3])] = 1
    elif how == 'beyond' or used == 0:
        if used < 4:
            slot = body + 4 + 6 * rng.randrange(used, 4)
            image[slot + rng.randrange(6)] = 1
    else:
        slot = body + 4 + 6 * rng.randrange(used)
        if how == 'code':
            image[slot] = 0
        elif how == 'state':
            image[slot + 1] = rng.choice([2, 255])
        else:
            image[slot + 1] = 0
            image[slot + 2 + rng.randrange(4)] = rng.choice([1, 128])


def damaged(rng, tools, rules, events):
    sheet, image = sheet_bytes(rules), image_bytes(events)
    whole = bytearray(sheet + image)
    how = rng.choice(['cut', 'cut', 'byte', 'byte', 'byte', 'sheet byte', 'image byte', 'count',
                      'rows', 'field', 'field', 'field', 'field', 'field', 'field', 'field', 'field',
                      'fall', 'fall', 'slot', 'slot', 'slot', 'slot', 'slot', 'slot', 'long', 'long',
                      'empty', 'tail', 'image count', 'ninth', 'rubbish', 'both', 'few'])
    n = len(events)
    if how == 'cut':
        return bytes(whole[:rng.randrange(len(whole))])
    if how == 'byte':
        whole[rng.randrange(len(whole))] = rng.choice([0, 1, 2, 3, 4, 5, 128, rng.randrange(256)])
        return bytes(whole)
    if how == 'sheet byte':
        whole[rng.randrange(len(sheet))] ^= 1 << rng.randrange(8)
        return bytes(whole)
    if how == 'image byte':
        whole[len(sheet) + rng.randrange(len(image))] ^= 1 << rng.randrange(8)
        return bytes(whole)
    if how == 'count':
        return sheet_bytes(rules, count=rng.choice([0, len(rules) + 1, len(rules) - 1, 16, 17,
                                                    65535])) + image
    if how == 'rows':
        right = sum(len(r) for r in rules)
        return sheet_bytes(rules, rows=rng.choice([0, right + 1, right - 1, 64, 65, 65535])) + image
    if how == 'field':
        flat = broken_field(rng, rules)[:80]
        return sheet_bytes([flat], count=len(rules)) + image
    if how == 'fall':
        if n < 2:
            return sheet + struct.pack('<HH', 2, 28) + struct.pack('<ii', 1, 0) + \
                body_bytes(1, []) * 2
        moved = list(events)
        for _ in range(rng.choice([1, 2])):
            at = rng.randrange(n)
            moved[at] = (rng.choice([0, 1, 9, -1, LOWEST, HIGHEST]),) + moved[at][1:]
        return sheet + image_bytes(moved)
    if how == 'slot':
        if n == 0:
            return sheet + struct.pack('<HH', 1, 28) + bytes(32)
        broken = bytearray(image)
        for _ in range(rng.choice([1, 1, 2])):
            broken_event(rng, broken, n, rng.randrange(n))
        return sheet + bytes(broken)
    if how == 'long':
        if rng.random() < 0.3:
            # the most that fits: 64 rows and 2,000 events
            rule = [row(NOT), row(NOT), row(ABSENCE, rng.randint(1, 4)), row(TRUE)]
            many = [(i // 7, 1 + i % 3, [(1, i % 5)]) for i in range(2000)]
            return sheet_bytes([rule] * 16) + image_bytes(many)
        size = rng.choice([MOST_BYTES, MOST_BYTES, MOST_BYTES + 1, MOST_BYTES + 2, 70000])
        return (bytes(whole) + bytes(size))[:size]
    if how == 'empty':
        return rng.choice([b'', b'\0', b'\1\0', b'\1\0\1', b'\1\0\1\0', sheet, sheet + image[:4]])
    if how == 'tail':
        return bytes(whole) + bytes(rng.choice([1, 4, 28, 32]))
    if how == 'image count':
        struct.pack_into('<H', whole, len(sheet) + rng.choice([0, 2]),
                         rng.choice([0, n + 1, max(n - 1, 0), 27, 28, 29, 65535]))
        return bytes(whole)
    if how == 'ninth':
        return sheet_bytes([tools.chain(rng.choice([8, 9, 9, 10]))[:MOST_ROWS]]) + image
    if how == 'few':
        # more rules than rows, or none of either
        if rng.random() < 0.5:
            return sheet_bytes([[row(ABSENCE, 1), row(TRUE)]], count=rng.choice([3, 16])) + image
        return sheet_bytes([], rows=0, count=rng.choice([0, 0, 1])) + image
    if how == 'rubbish':
        return bytes(rng.randrange(256) for _ in range(rng.randrange(100)))
    flat = broken_field(rng, rules)
    whole = bytearray(sheet_bytes([flat], count=len(rules)) + image)
    whole[len(whole) - 1] ^= 1
    return bytes(whole)


# ------------------------------------------------------------ edges

def edge_inputs():
    """A fixed list: every kind's fields at their edges, the counts, and the bounds of an event."""
    value_less = [row(LESS), row(VALUE, 0, 1), row(CONSTANT, number=9)]
    every_kind = [
        [row(AND), row(NOT), row(OR), row(OCCURRENCE, 1, number=2)] + value_less
        + [row(ABSENCE, 1), row(TNOT), row(TRUE)]
        + [row(IMPLIES), row(AFTER, 1, EACH, 0, 5), row(TRUE), row(FORALL, 0, 1),
           row(BEFORE, 2, FIRST, 0, 3), row(TAND), row(EQUAL), row(NUMBER, 1), row(VALUE, 2, 1),
           row(TOR), row(TRUE), row(TRUE), row(EXISTS, 2, 1), row(ABSENCE, 1), row(ATMOST),
           row(SUM), row(DIFFERENCE), row(NUMBER, 3), row(NUMBER, 1), row(PRODUCT), row(TIME, 4),
           row(CONSTANT, number=2), row(QUOTIENT), row(TIME, 0), row(CONSTANT, number=2),
           row(GIVEN, 1, LAST)] + value_less + [row(OCCURRENCE, 1, number=1), row(TRUE)],
        [row(ABSENCE, 3), row(TRUE)],
    ]
    events = [(0, 1, [(1, 3)]), (1, 2, [(1, 3), (2, None), (1, 4)]), (1, 1, [(1, None)]),
              (4, 2, [(1, 0), (2, 1), (3, None), (4, -1)]), (9, 3, [])]
    image = image_bytes(events)
    inputs = [sheet_bytes(every_kind) + image]

    flat = [r for rule in every_kind for r in rule]
    for kind in sorted(set(r[0] for r in flat)):
        at = max(i for i, r in enumerate(flat) if r[0] == kind)
        edges = EDGES.get(kind, [(1, 1), (2, 1), (4, 1)]) + [(3, 1)]
        if kind in (FORALL, EXISTS, TIME, VALUE, NUMBER):
            edges = edges + [(1, v) for v in range(6)]
        for field, content in edges:
            changed = [list(r) for r in flat]
            changed[at][field] = content
            inputs.append(sheet_bytes([changed], count=2) + image)
    for kind in [0, 12, 19, 27, 29, 38, 255]:
        inputs.append(sheet_bytes([[row(kind, 1), row(TRUE)]]) + image)
        inputs.append(sheet_bytes([[row(ABSENCE, 1), row(kind)]]) + image)

    two = [row(ABSENCE, 1), row(TRUE)]
    for count in [1, 2, 15, 16, 17, 18]:
        inputs.append(sheet_bytes([two] * count) + image)
    for rows in [63, 64, 65, 66]:
        inputs.append(sheet_bytes([[row(NOT)] * (rows - 2) + two]) + image)
    for count, rows in [(0, 0), (0, 2), (1, 0), (2, 2), (3, 2), (1, 1), (1, 3)]:
        inputs.append(sheet_bytes([two], count=count, rows=rows) + image)
    for links in [7, 8, 9]:
        inputs.append(sheet_bytes([[row(GIVEN, 1, EACH), row(TRUE)] * (links - 1) + two]) + image)
        inputs.append(sheet_bytes([[row(GIVEN, 1, EACH), row(TRUE)]
                                   + [row(FORALL, 0, 1)] * (links - 2) + two]) + image)

    sheet, n = sheet_bytes([two]), len(events)
    for at in [1, 2, 3]:
        body = 4 + 4 * n + 28 * at
        used = image[body + 1]
        changes = [(4 + 4 * at + 3, 127), (4 + 4 * at + 3, 128), (4 + 4 * at, 0), (4 + 4 * at, 1),
                   (body, 0), (body, 255), (body + 1, 0), (body + 1, used - 1), (body + 1, used + 1),
                   (body + 1, 5), (body + 2, 1), (body + 3, 1)]
        for slot in range(4):
            start = body + 4 + 6 * slot
            changes += [(start, 0), (start, 1), (start + 1, 0), (start + 1, 1), (start + 1, 2),
                        (start + 2, 1), (start + 5, 128)]
        for where, content in changes:
            changed = bytearray(image)
            changed[where] = content
            if changed != image:
                inputs.append(sheet + bytes(changed))

    # two open values, each with another origin
    for values in [[(1, 3), (1, None), (2, None)], [(1, None), (1, 3), (2, None)]]:
        for kind in [FORALL, EXISTS]:
            inputs.append(sheet_bytes([[
                row(GIVEN, 1, EACH), row(TRUE), row(kind, 0, 1), row(OCCURRENCE, 1, number=1),
                row(TAND), row(LESS), row(NUMBER, 1), row(CONSTANT, number=5),
                row(LESS), row(VALUE, 2, 2), row(CONSTANT)]]) + image_bytes([(0, 1, values)]))
    return inputs


# ------------------------------------------------------------ cases

def case(rng):
    tools = Rules(rng)
    rules = tools.sheet()
    events = random_log(rng, tools)
    if rng.random() < 1 / 6:
        return damaged(rng, tools, rules, events)
    return sheet_bytes(rules) + image_bytes(events)


def main():
    if len(sys.argv) < 2:
        sys.exit(__doc__)
    folder = sys.argv[1]
    number = int(sys.argv[2]) if len(sys.argv) > 2 else 2000
    seed = sys.argv[3] if len(sys.argv) > 3 else '1'
    os.makedirs(folder, exist_ok=True)
    edges = edge_inputs()
    for i in range(number):
        data = (edges[i // 7] if i % 7 == 6 and i // 7 < len(edges)
                else case(random.Random('%s/%d' % (seed, i))))
        with open(os.path.join(folder, '%05d.in' % i), 'wb') as out:
            out.write(data)


if __name__ == '__main__':
    main()
