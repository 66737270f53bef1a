#!/usr/bin/env python3
"""Prints the lines that docs/RULES.md demands of a script, to compare the program's with.

    python3 tools/walk_lines.py [FILE]

The script is hexadecimal text, in FILE or on standard input. Written from the rules alone: nodes are objects that hold lists of
their children, a walk is a recursion over these lists, and a symbol is looked for among the children of a table's body. Tags that are
not in the table TAGS are refused as not listed.
"""
import re
import sys

MOST_BYTES = 4096
MOST_NUMBERS = 512
MOST_NAMES = 256
MOST_LIVE = {"o": 512, "b": 256, "r": 256}
LETTERS = "obr"  # by the byte for a kind of node: 00 operation, 01 block, 02 region
NO_NODE = 3
NO_POINT, UNSET, AT_BLOCK_START, AT_BLOCK_END, AFTER_OPERATION, BEFORE_OPERATION = range(6)
NAME = re.compile(rb"[A-Za-z_][A-Za-z0-9_]*")


class Refused(Exception):
    """The number of the row that refuses a field."""


def refuse_if(row, fits):
    """Refuses by a row that fits: asked in the order of the rows, so that the upper one is given."""
    if fits:
        raise Refused(row)


class Node:
    """A node with its children in order, and the node among whose children it stands, if any."""

    def __init__(self, letter):
        self.letter, self.number = letter, None
        self.children, self.container, self.live = [], None, True

    def word(self):
        return f"{self.letter}{self.number}"

    def lies_in(self, other):
        """Whether it is the other node, or stands in it at any depth."""
        return self is other or (self.container is not None and self.container.lies_in(other))

    def parent_operation(self):
        """Of an operation, the one whose region has its block."""
        region = self.container and self.container.container
        return region and region.container

    def end(self):
        """Ends it and all that lies below it."""
        self.live = False
        for child in self.children:
            child.end()

    def is_tables_region(self):
        return self.letter == "r" and self.container.table

    def is_tables_body(self):
        return self.letter == "b" and self.container is not None and self.container.is_tables_region()

    def insert(self, place, child):
        self.children.insert(place, child)
        child.container = self

    def take_out(self):
        self.container.children.remove(self)
        self.container = None


class Operation(Node):
    def __init__(self, kind, name):
        super().__init__("o")
        self.table, self.symbol, self.terminator = bool(kind & 1), bool(kind & 2), bool(kind & 4)
        self.name = name

    def body(self):
        """Of a table, its one block."""
        return self.children[0].children[0]

    def found(self, name):
        """In a table, the operation that stands directly in its body under a name."""
        return next((op for op in self.body().children if op.symbol and op.name == name), None)


def plain_below(node):
    """The operations that a walk of a table shows below a node, in order: no table, and nothing that lies below a nested one."""
    shown = []
    for child in node.children:
        if child.letter == "o" and child.table:
            continue
        shown += [child] if child.letter == "o" else []
        shown += plain_below(child)
    return shown


def refuse_bad_name(name):
    refuse_if(5, len(name) > 32)
    refuse_if(6, not NAME.fullmatch(name))


def walk(root, configuration, skip, broken):
    """The nodes that a walk shows, in order, and whether it was broken off.

    The order from a node is the node if PreOrder, then the orders from its children in that direction, then the node if PostOrder;
    the configuration pairs an order and a direction for the children of an operation, of a block and of a region.
    """
    shown = []
    post = {letter: bool(configuration >> 2 * i & 1) for i, letter in enumerate(LETTERS)}
    reverse = {letter: bool(configuration >> 2 * i & 2) for i, letter in enumerate(LETTERS)}

    def goes_on_from(node):
        if not post[node.letter]:
            shown.append(node)
            if node is broken:
                return False
            if node is skip:
                return True
        for child in reversed(node.children) if reverse[node.letter] else node.children:
            if not goes_on_from(child):
                return False
        if post[node.letter]:
            shown.append(node)
            if node is broken:
                return False
        return True

    return shown, not goes_on_from(root)


class Store:
    """What a script has made: the nodes of each kind by their numbers, and the names held."""

    def __init__(self):
        self.nodes = {"o": [], "b": [], "r": []}
        self.names = set()

    def node(self, letter, number):
        refuse_if(24, number >= len(self.nodes[letter]))
        return self.nodes[letter][number]

    def lacks_numbers(self, letter, more):
        return len(self.nodes[letter]) + more > MOST_NUMBERS

    def lacks_records(self, letter, more):
        return sum(node.live for node in self.nodes[letter]) + more > MOST_LIVE[letter]

    def enter(self, made):
        for node in made:
            node.number = len(self.nodes[node.letter])
            self.nodes[node.letter].append(node)

    def make_operation(self, value):
        refuse_if(23, len(value) < 2)
        kind, regions, name = value[0], value[1], value[2:]
        table, symbol = kind & 1, kind & 2
        allowed = kind <= 7 and regions <= 4 and (not table or regions == 1) and bool(name) == bool(symbol)
        wanted = {"o": 1, "r": regions, "b": 1 if table else 0}
        refuse_if(25, allowed and any(self.lacks_numbers(*of) for of in wanted.items()))
        refuse_if(4, not allowed)
        refuse_if(5, len(name) > 32)
        refuse_if(6, name and not NAME.fullmatch(name))
        refuse_if(7, name and name not in self.names and len(self.names) == MOST_NAMES)
        refuse_if(8, any(self.lacks_records(*of) for of in wanted.items()))
        made = [Operation(kind, name)]
        for place in range(regions):
            made.append(Node("r"))
            made[0].insert(place, made[-1])
        if table:
            made.append(Node("b"))
            made[1].insert(0, made[-1])
        self.names |= {name} - {b""}
        self.enter(made)
        return words(made)

    def make_block(self, value):
        refuse_if(23, value)
        refuse_if(25, self.lacks_numbers("b", 1))
        refuse_if(8, self.lacks_records("b", 1))
        made = [Node("b")]
        self.enter(made)
        return words(made)

    def link(self, value, letter, container_letter):
        refuse_if(23, len(value) != 5 or value[0] > 3)
        how, by_mark = value[0], value[0] >= 2
        node = self.node(letter, number(value, 1))
        target = self.node(letter if by_mark else container_letter, number(value, 3))
        refuse_if(1, not node.live or not target.live)
        refuse_if(14, node.container is not None)
        refuse_if(15, by_mark and target.container is None)
        container = target.container if by_mark else target
        refuse_if(17, letter == "b" and container.is_tables_region())
        refuse_if(18, target.lies_in(node))
        refuse_if(19, letter == "o" and node.symbol and container.is_tables_body())
        at_mark = container.children.index(target) if by_mark else None
        container.insert([0, len(container.children), at_mark, by_mark and at_mark + 1][how], node)
        return []

    def unlink(self, value, letter):
        refuse_if(23, len(value) != 2)
        node = self.node(letter, number(value, 0))
        refuse_if(1, not node.live)
        refuse_if(16, node.container is None)
        refuse_if(17, letter == "b" and node.container.is_tables_region())
        refuse_if(19, letter == "o" and node.symbol and node.container.is_tables_body())
        node.take_out()
        return []

    def erase(self, value, letter):
        refuse_if(23, len(value) != 2)
        node = self.node(letter, number(value, 0))
        refuse_if(1, not node.live)
        refuse_if(17, letter == "b" and node.container is not None and node.container.is_tables_region())
        refuse_if(19, letter == "o" and node.symbol and node.container is not None and node.container.is_tables_body())
        if node.container is not None:
            node.take_out()
        node.end()
        return []

    def point(self, value):
        """The node that an insertion's point names, if it names one."""
        code, at = value[4], number(value, 5)
        if code in (AT_BLOCK_START, AT_BLOCK_END):
            return self.node("b", at)
        return self.node("o", at) if code in (AFTER_OPERATION, BEFORE_OPERATION) else None

    def insert_symbol(self, value):
        refuse_if(23, len(value) != 7 or value[4] > BEFORE_OPERATION)
        table, symbol, code = self.node("o", number(value, 0)), self.node("o", number(value, 2)), value[4]
        named = self.point(value)
        refuse_if(1, not table.live or not symbol.live or (named is not None and not named.live))
        refuse_if(2, not table.table)
        refuse_if(3, not symbol.symbol)
        refuse_if(9, table.found(symbol.name) is not None)
        refuse_if(10, symbol.parent_operation() not in (None, table))
        by_mark = code in (AFTER_OPERATION, BEFORE_OPERATION)
        refuse_if(11, code == UNSET or (by_mark and named.container is None))
        body = table.body()
        block = body if named is None else named.container if by_mark else named
        refuse_if(12, block is not body)
        refuse_if(14, symbol.container is not None)
        refuse_if(18, body.lies_in(symbol))
        ends = bool(body.children) and body.children[-1].terminator
        place = {
            NO_POINT: len(body.children) - ends,
            AT_BLOCK_START: 0,
            AT_BLOCK_END: len(body.children),
            AFTER_OPERATION: by_mark and body.children.index(named) + 1,
            BEFORE_OPERATION: by_mark and body.children.index(named),
        }[code]
        body.insert(place, symbol)
        return []

    def remove_symbol(self, value, erased):
        refuse_if(23, len(value) != 4)
        table, symbol = self.node("o", number(value, 0)), self.node("o", number(value, 2))
        refuse_if(1, not table.live or not symbol.live)
        refuse_if(2, not table.table)
        refuse_if(3, not symbol.symbol)
        refuse_if(13, symbol.parent_operation() is not table)
        symbol.take_out()
        if erased:
            symbol.end()
        return []

    def look_up(self, value):
        refuse_if(23, len(value) < 2)
        table, name = self.node("o", number(value, 0)), value[2:]
        refuse_if(1, not table.live)
        refuse_if(2, not table.table)
        refuse_bad_name(name)
        return [found.word() if (found := table.found(name)) else "none"]

    def look_up_nearest(self, value):
        refuse_if(23, len(value) < 2)
        op, name = self.node("o", number(value, 0)), value[2:]
        refuse_if(1, not op.live)
        refuse_bad_name(name)
        while op is not None and not op.table:
            op = op.parent_operation()
        return [found.word() if op is not None and (found := op.found(name)) else "none"]

    def walk_table(self, value):
        refuse_if(23, len(value) != 2)
        table = self.node("o", number(value, 0))
        refuse_if(1, not table.live)
        refuse_if(2, not table.table)
        return words(plain_below(table)) + ["end"]

    def answered(self, value, at):
        """The node for which a walk has an answer: none, or one that may be dead, and then is not met."""
        return None if value[at] == NO_NODE else self.node(LETTERS[value[at]], number(value, at + 1))

    def show_walk(self, value):
        refuse_if(23, len(value) != 10 or value[0] > 2 or value[3] > 0x3F or value[4] > NO_NODE or value[7] > NO_NODE)
        root = self.node(LETTERS[value[0]], number(value, 1))
        skip, broken = self.answered(value, 4), self.answered(value, 7)
        refuse_if(1, not root.live)
        shown, was_broken = walk(root, value[3], skip, broken)
        return words(shown) + ["break" if was_broken else "end"]


def words(nodes):
    return [node.word() for node in nodes]


def number(value, at):
    return int.from_bytes(value[at : at + 2], "big")


TAGS = {
    0x01: Store.make_operation,
    0x02: Store.make_block,
    0x03: lambda store, value: store.link(value, "o", "b"),
    0x04: lambda store, value: store.link(value, "b", "r"),
    0x05: lambda store, value: store.unlink(value, "o"),
    0x06: lambda store, value: store.unlink(value, "b"),
    0x07: Store.insert_symbol,
    0x08: lambda store, value: store.remove_symbol(value, False),
    0x09: lambda store, value: store.remove_symbol(value, True),
    0x0A: lambda store, value: store.erase(value, "o"),
    0x0B: lambda store, value: store.erase(value, "b"),
    0x0C: Store.look_up,
    0x0D: Store.look_up_nearest,
    0x0E: Store.show_walk,
    0x0F: Store.walk_table,
}


def field_at(script, place):
    """The tag and the value of the field at a place, and the place past it. A field that is cut has no tag, and ends the script."""
    end = place + 3 + number(script, place + 1)
    if place + 3 > len(script) or end > len(script):
        return None, b"", len(script)
    return script[place], script[place + 3 : end], end


def run_field(store, tag, value):
    """The words that follow the place in a field's line."""
    try:
        refuse_if(21, tag is None)
        refuse_if(22, tag not in TAGS)
        return ["ok"] + TAGS[tag](store, value)
    except Refused as refused:
        return ["refused", str(refused)]


def lines(script):
    """The lines of a script, each without its end; none of one that is too long."""
    store, place, out = Store(), 0, []
    while place < len(script) <= MOST_BYTES:
        tag, value, end = field_at(script, place)
        out.append(" ".join([str(place)] + run_field(store, tag, value)))
        place = end
    return out


def script_of(text):
    """The bytes that hexadecimal text means: comments go from # to the end of their line, and commas part like white space."""
    return bytes.fromhex(re.sub(r"#[^\n]*|,", " ", text))


if __name__ == "__main__":
    with open(sys.argv[1] if len(sys.argv) > 1 else "/dev/stdin", encoding="ascii") as file:
        for line in lines(script_of(file.read())):
            print(line)
