#!/usr/bin/env python3
"""Writes crates/replay/data: scripts, each with the lines that tools/walk_lines.py works out for it. Run at the top.

    python3 tools/walk_scripts.py

It writes the same each time. A record has a script, as hexadecimal text with one field to a line, then a line with the word
`prints`, then the script's lines; records are parted by empty lines. makings.txt needs the tags 01 and 02, links.txt 03 to 06 too,
and walks.txt 0E too.
"""
import random

import walk_lines

SEED = 20
NODES = 25
DEPTH = 4
SHARES = 8  # the 64 configurations are shared among so many trees, which keeps each script below 4,096 bytes
FOLDER = "crates/replay/data"
OPERATION, BLOCK, REGION, NONE = range(4)
FRONT, BACK, BEFORE, AFTER = range(4)
POST_BITS = {"o": 0x01, "b": 0x04, "r": 0x10}


def field(tag, *parts):
    """A field whose value is the bytes, node numbers (as tuples of one) and texts that are given."""
    value = b"".join(bytes([p]) if isinstance(p, int) else p if isinstance(p, bytes) else p[0].to_bytes(2, "big") for p in parts)
    return bytes([tag]) + len(value).to_bytes(2, "big") + value


def walk(root, configuration, skip=(NONE, (0xFFFF,)), broken=(NONE, (0xFFFF,))):
    return field(0x0E, *root, configuration, *skip, *broken)


class Draw:
    """Choices from a seed, the same in each version of Python."""

    def __init__(self, seed):
        self.random = random.Random(seed)

    def below(self, n):
        return int(self.random.random() * n)

    def one(self, items):
        return items[self.below(len(items))]

    def likely(self, percent):
        return self.below(100) < percent

    def shuffled(self, items):
        items = list(items)
        return [items.pop(self.below(len(items))) for _ in range(len(items))]


class Plan:
    """A node of a tree that is to be made: its children in order, and how its making is written."""

    def __init__(self, code, parent=None, depth=0, kind=0):
        self.code, self.parent, self.depth, self.kind = code, parent, depth, kind
        self.children, self.number, self.linked = [], None, code == REGION
        if parent is not None:
            parent.children.append(self)

    def at(self):
        return (self.code, (self.number,))

    def below(self):
        """The node and what lies in it."""
        return [self] + [inner for child in self.children for inner in child.below()]


class Tree:
    """A tree of about so many nodes of all kinds, and the fields that make it."""

    def __init__(self, draw):
        self.draw, self.fields, self.names = draw, [], 0
        self.counts = [0, 0, 0]
        self.root = self.operation(None, 0, draw.one([0, 4, 2]), 1 + draw.below(3))
        while len(self.root.below()) < NODES:
            self.grow()

    def operation(self, parent, depth, kind, regions):
        node = Plan(OPERATION, parent, depth, kind)
        for _ in range(regions):
            region = Plan(REGION, node, depth)
            if kind & 1:
                Plan(BLOCK, region, depth).linked = True
        return node

    def grow(self):
        """A block for a region, or an operation for a block, rather deep than flat; a table's region keeps its body alone, which
        holds no symbols."""
        draw = self.draw
        open_nodes = [n for n in self.root.below() if n.code != OPERATION and len(n.children) < 3]
        blocks = [n for n in open_nodes if n.code == BLOCK]
        choices = blocks if blocks and draw.likely(65) else open_nodes
        parent = max([draw.one(choices) for _ in range(3)], key=lambda n: n.depth)
        if parent.code == REGION and not parent.parent.kind & 1:
            Plan(BLOCK, parent, parent.depth)
        elif parent.code == BLOCK and parent.depth < DEPTH:
            in_body = parent.parent.parent.kind & 1
            kind = draw.one([0, 1, 4, 5] if in_body else range(8))
            regions = 1 if kind & 1 else draw.one([0, 0, 0, 1, 1, 1, 1, 2, 2, 3, 4])
            self.operation(parent, parent.depth + 1, kind, regions)

    def make(self, node):
        if node.code == BLOCK:
            self.fields.append(field(0x02))
            self.give(node)
            return
        name = b""
        if node.kind & 2:
            self.names += 1
            name = b"s%d" % self.names
        self.fields.append(field(0x01, node.kind, len(node.children), name))
        self.give(node)
        for region in node.children:
            self.give(region)
        if node.kind & 1:
            self.give(node.children[0].children[0])

    def give(self, node):
        node.number = self.counts[node.code]
        self.counts[node.code] += 1

    def link(self, node):
        """Links a node at its place among those of its siblings that are linked, in one of the ways that lead there."""
        siblings = node.parent.children
        at = siblings.index(node)
        earlier = [n for n in siblings[:at] if n.linked]
        later = [n for n in siblings[at + 1 :] if n.linked]
        hows = []
        hows += [(BEFORE, later[0])] if later else [(BACK, node.parent)]
        hows += [(AFTER, earlier[-1])] if earlier else [(FRONT, node.parent)]
        how, target = self.draw.one(hows)
        self.fields.append(field(0x03 + node.code, how, (node.number,), (target.number,)))
        node.linked = True

    def unlink(self, node):
        self.fields.append(field(0x05 + node.code, (node.number,)))
        node.linked = False

    def build(self):
        """The fields of the makings, of the linkings in any order, and of some unlinkings and linkings back; some are refused."""
        nodes = self.root.below()
        made = [n for n in nodes if n.code != REGION and not n.linked]
        for node in self.draw.shuffled(made):
            self.make(node)
        links = self.draw.shuffled([n for n in made if n is not self.root])
        loose = self.draw.one([n for n in links if n.kind & 2] or links)
        links.remove(loose)
        links.append(loose)
        for node in links[:-1]:
            self.link(node)
        self.refused(nodes, links)
        self.link(links[-1])
        for node in self.draw.shuffled(links)[:4]:
            self.unlink(node)
            self.link(node)
        lines = walk_lines.lines(b"".join(self.fields))
        assert sum(" refused " in line for line in lines) == self.bad

    def refused(self, nodes, links):
        """Fields that change nothing: for each row of links, where the tree has what it takes."""
        loose, linked, root = links[-1], links[0], self.root
        blocks = [n for n in nodes if n.code == BLOCK]
        bodies = [n for n in blocks if n.parent.parent.kind & 1]
        bad = [
            field(0x03, 4, (root.number,), (0,)),
            field(0x03, FRONT, (root.number,), (511,)),
            field(0x03 + linked.code, BACK, (linked.number,), (linked.parent.number,)),
            field(0x03 + loose.code, BEFORE, (loose.number,), (loose.number,)),
            field(0x05, (root.number,)),
        ]
        for block in self.draw.shuffled([n for n in blocks if n not in loose.below()])[:1]:
            bad.append(field(0x03, BACK, (root.number,), (block.number,)))
        for body in bodies[:1]:
            bad.append(field(0x06, (body.number,)))
            bad.append(field(0x04, FRONT, (loose.number if loose.code == BLOCK else body.number,), (body.parent.number,)))
            bad += [field(0x03, FRONT, (n.number,), (body.number,)) for n in (root, loose) if n.kind & 2]
        self.fields += bad
        self.bad = len(bad)

    def walks(self, configurations):
        """For each configuration and kind of root six walks: with neither answer, Skip, Break, both, both at one node, and Skip at
        a node in post-order."""
        for configuration in configurations:
            for code in (OPERATION, BLOCK, REGION):
                for answers in range(6):
                    self.fields.append(self.one_walk(configuration, code, answers))

    def one_walk(self, configuration, code, answers):
        draw, nodes = self.draw, self.root.below()
        root = self.root
        if code != OPERATION or draw.likely(25):
            full = [n for n in nodes if n.code == code and len(n.below()) > 3]
            root = draw.one(full if full and draw.likely(90) else [n for n in nodes if n.code == code])
        inside = root.below()
        one, other = draw.one(inside), draw.one(nodes if draw.likely(10) else inside)
        after = [n for n in inside if POST_BITS["obr"[n.code]] & configuration and n.children]
        late = draw.one(after or inside)
        skip, broken = [(None, None), (one, None), (None, one), (one, other), (one, one), (late, None)][answers]
        none = (NONE, (draw.one([0, 0xFFFF]),))
        return walk(root.at(), configuration, skip.at() if skip else none, broken.at() if broken else none)


def trees():
    return [Tree(Draw(SEED + share)) for share in range(SHARES)]


def known():
    """A tree of which some walks are known, see KNOWN_LINES, and fields that are refused."""
    o0, o1, b0, b1, r0 = (OPERATION, (0,)), (OPERATION, (1,)), (BLOCK, (0,)), (BLOCK, (1,)), (REGION, (0,))
    return [
        field(0x01, 0, 1),
        field(0x02),
        field(0x04, BACK, (0,), (0,)),
        field(0x01, 2, 1, b"put"),
        field(0x02),
        field(0x04, BACK, (1,), (1,)),
        field(0x01, 4, 0),
        field(0x03, BACK, (2,), (0,)),
        field(0x03, BEFORE, (1,), (2,)),
        walk(o0, 0x00),
        walk(o0, 0x01),
        walk(o0, 0x00, broken=b1),
        walk(o0, 0x00, skip=o1, broken=o1),
        walk(o0, 0x00, skip=o1),
        walk(o0, 0x01, skip=o1),
        walk(o0, 0x2A),
        walk(o0, 0x3F),
        field(0x02),
        field(0x04, BACK, (2,), (0,)),
        walk(r0, 0x00, skip=b0),
        walk(r0, 0x04, skip=b0),
        walk(r0, 0x20, skip=b0),
        field(0x0E, *o0, 0, NONE, (0,), NONE, (0,), 0),
        field(0x0E, *o0, 0, NONE, (0,), NONE),
        walk((NONE, (0,)), 0x00),
        walk(o0, 0x40),
        walk(o0, 0x00, skip=(4, (0,))),
        walk(o0, 0x00, broken=(4, (0,))),
        walk((OPERATION, (3,)), 0x40),
        walk((OPERATION, (3,)), 0x00),
        walk(o0, 0x00, skip=(BLOCK, (3,))),
        walk(o0, 0x00, broken=(REGION, (2,))),
        walk((BLOCK, (2,)), 0x3F),
    ]


# what the walks of known() show, written by hand
KNOWN_LINES = [
    "o0 r0 b0 o1 r1 b1 o2 end",
    "r0 b0 r1 b1 o1 o2 o0 end",
    "o0 r0 b0 o1 r1 b1 break",
    "o0 r0 b0 o1 break",
    "o0 r0 b0 o1 o2 end",
    "r0 b0 r1 b1 o1 o2 o0 end",
    "o0 r0 b0 o2 o1 r1 b1 end",
    "o2 b1 r1 o1 b0 r0 o0 end",
    "r0 b0 b2 end",
    "r0 o1 r1 b1 o2 b0 b2 end",
    "r0 b2 b0 end",
    "b2 end",
]


def makings():
    """Scripts of makings alone: every shape, names, and where numbers, names and records run out."""
    shapes = [field(0x01, kind, regions, name) for kind in range(9) for regions in range(6) for name in (b"", b"n%d" % kind)]
    names = [b"_", b"a" * 32, b"a" * 33, b"9a", b"a9", b"a-", b"\x80", b"Z_9", b"9" * 33]
    odd = [field(0x01), field(0x01, 0), field(0x02, 0), field(0x00), field(0xFF, 1, 2)]
    many = [field(0x01, 2, 0, b"n%d" % place) for place in range(256)]
    return [
        shapes + [field(0x01, 2, 0, name) for name in names] + odd,
        [field(0x01, 0, 0)] * 513 + [field(0x01, 8, 0), field(0x02), field(0x01, 2, 0, b"a" * 33)],
        [field(0x02)] * 257 + [field(0x01, 1, 1), field(0x01, 0, 1)],
        [field(0x01, 0, 4)] * 63 + [field(0x01, 0, 3), field(0x01, 0, 2), field(0x01, 1, 1), field(0x01, 0, 1), field(0x01, 0, 0)],
        many + [field(0x01, 2, 0, b"more"), field(0x01, 2, 0, b"n7"), field(0x01, 2, 0, b"9")],
        [field(0x02), b"\x01\x00\x03\x01\x01"],
        [field(0x02), b"\x02\x00"],
        [b"\x01"],
    ]


def links():
    out = []
    for tree in trees():
        tree.build()
        out.append(tree.fields)
    return out


def walks():
    out = [known()]
    for share, tree in enumerate(trees()):
        tree.build()
        tree.walks(range(share, 64, SHARES))
        out.append(tree.fields)
    return out


def check(scripts, tags):
    """What the files promise of themselves: short scripts, and every tag at work."""
    for fields in scripts:
        assert len(b"".join(fields)) <= walk_lines.MOST_BYTES
    seen = {one[0] for fields in scripts for one in fields}
    assert tags <= seen, seen


def write(name, about, scripts, by="walk_scripts"):
    header = f"# {about}\n# Written by tools/{by}.py, with the lines that the rules demand by tools/walk_lines.py.\n"
    records = []
    for fields in scripts:
        lines = walk_lines.lines(b"".join(fields))
        records.append("\n".join([one.hex() for one in fields] + ["prints"] + lines))
    with open(f"{FOLDER}/{name}", "w", encoding="ascii") as file:
        file.write(header + "\n\n".join(records) + "\n")


def main():
    files = [
        ("makings.txt", "Scripts of makings, each followed by its lines.", makings(), {0x01, 0x02}),
        ("links.txt", "Scripts that make and link trees, each followed by its lines.", links(), set(range(1, 7))),
        ("walks.txt", "Scripts that walk over trees, each followed by its lines.", walks(), {*range(1, 7), 0x0E}),
    ]
    shown = [line.split(" ok ")[1] for line in walk_lines.lines(b"".join(known())) if line.endswith(("end", "break"))]
    assert shown == KNOWN_LINES, shown
    for name, about, scripts, tags in files:
        check(scripts, tags)
        write(name, about, scripts)


if __name__ == "__main__":
    main()
