#!/usr/bin/env python3
"""Writes crates/replay/data/tables.txt: scripts of symbol tables, each with the lines that tools/walk_lines.py works out for it. Run at
the top.

    python3 tools/table_scripts.py

It writes the same each time, in the format of tools/walk_scripts.py. Every script goes through all answers that its tags can give, in a
drawn order: for each, fields of the tag are drawn until one has that answer. After a field that took something away the names are looked
up again. The tags 01 to 06 build what is needed in between.
"""
import copy

import walk_lines
from walk_scripts import Draw, check, field, write

SEED = 90
SCRIPTS = 5
TRIES = 1000
NAMES = [b"a", b"b", b"_c"]
BAD_NAMES = [b"", b"9a", b"a-", b"\xc3\xa9", b"n" * 33]
FOUND, ABSENT, SHOWN, EMPTY = "found", "none", "shown", "end"
POINTS = range(6)

# What each tag can answer: rows by their numbers, a point where an insertion at it is done, and else a word for what the line shows.
ANSWERS = {
    0x07: [23, 24, 1, 2, 3, 9, 10, 11, 12, 14, 18] + [f"at {point}" for point in POINTS if point != 1] * 2,
    0x08: [23, 24, 1, 2, 3, 13, "ok"],
    0x09: [23, 24, 1, 2, 3, 13, "ok", "ok", "ok"],
    0x0A: [23, 24, 1, 19, "ok"],
    0x0B: [23, 24, 1, 17, "ok"],
    0x0C: [23, 24, 1, 2, 5, 6, FOUND, ABSENT],
    0x0D: [23, 24, 1, 5, 6, FOUND, ABSENT],
    0x0F: [23, 24, 1, 2, SHOWN, SHOWN, EMPTY],
    0x03: [19, "ok", "ok", "ok"],
    0x04: [17, "ok"],
    0x05: [19, "ok"],
    0x06: [17],
}
ERASING = {0x09, 0x0A, 0x0B}
TAKING_AWAY = {0x08} | ERASING


def tree():
    """Tables in one another, with operations between them, and tables, symbols and operations that stand nowhere yet."""
    makings = [(1, 1, b""), (3, 1, b"a"), (7, 1, b"b"), (0, 2, b""), (0, 0, b""), (4, 0, b""), (5, 1, b""), (2, 1, b"_c")]
    makings += [(2, 0, name) for name in NAMES] + [(6, 0, b"a"), (3, 1, b"_c"), (0, 1, b"")]
    blocks = {5: 3, 6: 4, 7: 6}  # with the regions into which they go, of o3 and of the symbol o7; b8 stands nowhere
    links = [(3, 0), (4, 5), (6, 5), (5, 0), (13, 6), (11, 8)]
    symbols = [(0, 7), (0, 1), (1, 9), (6, 8), (1, 12), (12, 10)]
    fields = [field(0x01, *making) for making in makings] + [field(0x02)] * (len(blocks) + 1)
    fields += [field(0x04, 1, (block,), (region,)) for block, region in blocks.items()]
    fields += [field(0x03, 1, (op,), (block,)) for op, block in links]
    fields += [field(0x07, (table,), (symbol,), 0, (0,)) for table, symbol in symbols]
    return fields + [field(0x01, 3, 1, name) for name in NAMES]


class Recording:
    """A script that grows, and the store that it has made so far."""

    def __init__(self, seed):
        self.draw, self.fields, self.store = Draw(seed), [], walk_lines.Store()
        self.seen = {}
        for one in tree():
            self.run(one)

    def run(self, one):
        """Adds a field, and says what it answers."""
        said = answer_of(self.store, one)
        self.fields.append(one)
        self.seen.setdefault(one[0], set()).add(said)
        return said

    def given(self, letter):
        """A node number: seldom one that was not given yet."""
        count = len(self.store.nodes[letter])
        return (self.draw.one([count, 0xFFFF]),) if self.draw.likely(6) else (self.draw.below(count),)

    def table(self):
        """An operation's number, rather a live table's."""
        tables = [op.number for op in self.store.nodes["o"] if op.table and op.live]
        return (self.draw.one(tables),) if tables and self.draw.likely(70) else self.given("o")

    def symbol(self):
        symbols = [op.number for op in self.store.nodes["o"] if op.symbol and op.live]
        return (self.draw.one(symbols),) if symbols and self.draw.likely(70) else self.given("o")

    def name(self):
        return self.draw.one(BAD_NAMES if self.draw.likely(25) else NAMES)

    def drawn(self, tag):
        """A field of a tag, whatever it answers."""
        draw = self.draw
        if tag == 0x07:
            point = draw.one(list(POINTS) + [6] * draw.likely(5))
            table = self.table()
            parts = [table, table if draw.likely(10) else self.symbol(), point, self.given("b" if point in (2, 3) else "o")]
        elif tag in (0x08, 0x09):
            parts = [self.table(), self.symbol()]
        elif tag in (0x0C, 0x0D):
            parts = [self.table() if draw.likely(60) else self.given("o"), self.name()]
        elif tag in (0x03, 0x04):
            letters = "ob" if tag == 0x03 else "br"
            how = draw.below(4)
            parts = [how, self.given(letters[0]), self.given(letters[0] if how > 1 else letters[1])]
        else:
            parts = [self.given("b") if tag in (0x06, 0x0B) else self.table() if tag == 0x0F else self.given("o")]
        if draw.likely(4):
            parts = draw.one([parts[:-1], parts + [0]]) if tag not in (0x0C, 0x0D) else []
        return field(tag, *parts)

    def aim(self, tag, wanted):
        """Adds a field of the tag that has the wanted answer, if one is met among so many."""
        for _ in range(TRIES):
            one = self.drawn(tag)
            if answer_of(copy.deepcopy(self.store), one) == wanted:
                self.run(one)
                return True
        return False

    def look_again(self):
        """Looks names up in a table and from an operation, and walks the fullest table."""
        self.run(field(0x0C, self.table(), self.draw.one(NAMES)))
        self.run(field(0x0D, self.given("o"), self.draw.one(NAMES)))
        tables = [op for op in self.store.nodes["o"] if op.table and op.live]
        if tables:
            self.run(field(0x0F, (max(tables, key=lambda table: len(walk_lines.plain_below(table))).number,)))

    def make_more(self):
        kind = self.draw.one([0, 1, 2, 2, 3, 4, 6])
        regions = 1 if kind & 1 else self.draw.below(3)
        self.run(field(0x01, kind, regions, self.draw.one(NAMES) if kind & 2 else b""))

    def go_through(self):
        """Every answer of every tag, in a drawn order; erasing, and what is erased, come last, so that there is something to find."""
        aims = [(tag, wanted) for tag, answers in ANSWERS.items() for wanted in answers]
        last = [(tag, wanted) for tag, wanted in aims if wanted == 1 or (tag in ERASING and wanted == "ok")]
        first = [aim for aim in aims if aim not in last]
        for at, (tag, wanted) in enumerate(self.draw.shuffled(first) + self.draw.shuffled(last)):
            if at % 10 == 0:
                self.make_more()
            if self.aim(tag, wanted) and tag in TAKING_AWAY and wanted == "ok":
                self.look_again()


def answer_of(store, one):
    """What a field answers, as in ANSWERS; the store is then as the field leaves it."""
    tag, value = one[0], one[3:]
    said = walk_lines.run_field(store, tag, value)
    if said[0] == "refused":
        return int(said[1])
    if tag == 0x07:
        return f"at {value[4]}"
    if tag in (0x0C, 0x0D):
        return ABSENT if said[1] == "none" else FOUND
    if tag == 0x0F:
        return SHOWN if len(said) > 2 else EMPTY
    return "ok"


def main():
    recordings = [Recording(SEED + share) for share in range(SCRIPTS)]
    for recording in recordings:
        recording.go_through()
    for tag, answers in ANSWERS.items():
        seen = set().union(*(recording.seen.get(tag, set()) for recording in recordings))
        assert set(answers) <= seen, (hex(tag), set(answers) - seen)
    scripts = [recording.fields for recording in recordings]
    check(scripts, {*range(1, 14), 0x0F})
    write("tables.txt", "Scripts of symbol tables, each followed by its lines.", scripts, "table_scripts")


if __name__ == "__main__":
    main()
