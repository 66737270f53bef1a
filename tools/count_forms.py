#!/usr/bin/env python3
"""Counts the places in crates/*/src that are written in an older form, point by point, and lists them.

    python3 tools/count_forms.py [TOP] [--list]

Each point has one or more rules; a rule looks at one function, struct or impl at a time. A place that stays as it is has
a comment that begins with "Kept:" right above it, in it or at the head of its file, and is counted apart.
"""
import difflib
import re
import sys
from collections import defaultdict
from pathlib import Path

TESTS = {"tests.rt"}
TEST_CRATES = {"ir_tests", "script_tests"}


class Item:
    """A function, struct, enum or impl head: where it stands, its signature and clauses, its body, the comment above."""

    def __init__(self, crate, file, kind, name, line, head, body, above):
        self.crate, self.file, self.kind, self.name = crate, file, kind, name
        self.line, self.head, self.body, self.above = line, head, body, above
        self.kept = self.of_trait = False

    def place(self):
        return f"{self.crate}/src/{self.file}:{self.line} {self.name}"


def body_of(text, at):
    """The block that begins at the brace `at`, with its end."""
    depth = 0
    for i in range(at, len(text)):
        if text[i] == "{":
            depth += 1
        elif text[i] == "}":
            depth -= 1
            if depth == 0:
                return text[at : i + 1], i + 1
    return text[at:], len(text)


def strip(text):
    """The text without comments and string contents, of the same length, so that lines and places stay."""
    text = re.sub(r"//[^\n]*", lambda m: " " * len(m.group(0)), text)
    text = re.sub(r'b?"(?:\\.|[^"\\])*"', lambda m: '"' + re.sub(r"[^\n]", " ", m.group(0)[1:-1]) + '"', text, flags=re.S)
    return re.sub(r"b?'(?:\\.|[^'\\])'", lambda m: "'" + " " * (len(m.group(0)) - 2) + "'", text)


def above_of(raw, at):
    """The comment and attribute lines right above a place."""
    lines = raw[:at].split("\n")
    out = []
    for line in reversed(lines[:-1]):
        if line.strip().startswith(("//", "#[")):
            out.append(line)
        else:
            break
    return "\n".join(reversed(out))


def items(crate, path):
    raw = path.read_text()
    text = strip(raw)
    out = []
    for m in re.finditer(r"\b(fn|struct|enum|impl|trait)\b\s*([A-Za-z_][\w]*)?", text):
        kind, name = m.group(1), m.group(2) or ""
        brace = m.end()
        depth = 0
        end = None
        while brace < len(text):
            c = text[brace]
            if c in "([":
                depth += 1
            elif c in ")]":
                depth -= 1
            elif c == ";" and depth == 0:
                end = brace
                break
            elif c == "{" and depth == 0:
                # a clause's block follows requires, ensures or a label of them
                before = text[m.start() : brace].rstrip()
                if re.search(r"\b(requires|ensures\*?)(\s+\w+)?$", before):
                    _, brace = body_of(text, brace)
                    continue
                end = brace
                break
            brace += 1
        if end is None:
            continue
        head = text[m.start() : end]
        body = body_of(text, end)[0] if text[end] == "{" else ""
        line = text.count("\n", 0, m.start()) + 1
        start = text.rfind("\n", 0, m.start()) + 1
        if kind == "impl":
            name = "impl " + re.sub(r"\s+", " ", head[4:]).strip()
        raw_body = raw[end : end + len(body)]
        above = above_of(raw, start)
        item = Item(crate, path.name, kind, name, line, head, body, above)
        head_lines = raw.split("\nuse ")[0].split("\nghost use ")[0].split("\npub ")[0].split("\nstruct ")[0]
        item.kept = "Kept:" in above or "Kept:" in head_lines or (kind in ("fn", "struct", "enum") and "Kept:" in raw_body)
        item.start, item.end = m.start(), end + len(body)
        out.append(item)
    for a in out:
        inside = [b for b in out if b.kind == "impl" and b.start < a.start and a.end <= b.end]
        a.of_trait = any(" for " in b.name for b in inside)
    return out


def clauses(head):
    """The texts of the clauses of a function's head."""
    out = []
    for m in re.finditer(r"\b(requires|ensures)(\s+\w+)?\s*\{", head):
        text, _ = body_of(head, m.end() - 1)
        out.append((m.group(1), re.sub(r"\s+", " ", text)))
    return out


def params(head):
    """The parameters of a function's head, as (name, type) pairs."""
    m = re.search(r"\(", head)
    if not m:
        return []
    depth, i = 0, m.start()
    for i in range(m.start(), len(head)):
        if head[i] in "([<":
            depth += 1
        elif head[i] in ")]" or (head[i] == ">" and head[i - 1] != "-"):
            depth -= 1
            if depth == 0:
                break
    inner = head[m.start() + 1 : i]
    parts, depth, last = [], 0, 0
    for j, c in enumerate(inner):
        if c in "([<":
            depth += 1
        elif c in ")]>":
            depth -= 1
        elif c == "," and depth == 0:
            parts.append(inner[last:j])
            last = j + 1
    parts.append(inner[last:])
    out = []
    for p in parts:
        p = re.sub(r"\s+", " ", p).strip()
        if ":" in p:
            n, t = p.split(":", 1)
            out.append((n.replace("mut ", "").strip(), t.strip()))
    return out


def shape(item):
    """A function's text with the words of the three kinds of node made alike."""
    text = item.head + item.body
    text = re.sub(r"\bfn\s+\w+", "fn f", text)
    text = re.sub(r"[A-Za-z_]\w*", lambda m: kindless(m.group(0)), text)
    return re.sub(r",(?=[)}])", "", re.sub(r"\s+", "", text))


def tokens(item):
    """A function's signature and body, without clauses, as words and signs."""
    head = re.sub(r"\b(requires|ensures)\b.*", "", item.head, flags=re.S)
    return re.findall(r"\w+|[^\w\s]", re.sub(r"\bfn\s+\w+", "fn f", head) + item.body)


def kindless(word):
    parts = word.split("_")
    for i, p in enumerate(parts):
        if p in ("operation", "operations", "block", "blocks", "region", "regions", "op", "ops", "table", "body"):
            parts[i] = "k"
    word = "_".join(parts)
    return re.sub(r"Operation|BasicBlock|Block|Region|Op(?=[A-Z])|Op$", "K", word)


def find(top):
    found = defaultdict(list)
    every = []
    for crate in sorted(p.name for p in (top / "crates").iterdir()):
        if crate in TEST_CRATES:
            continue
        for path in sorted((top / "crates" / crate / "src").rglob("*.rt")):
            if path.name not in TESTS:
                every += items(crate, path)
    fns = [i for i in every if i.kind == "fn" and i.body]
    # what an impl of a trait writes is the trait's one form at a type, and no twin
    own = [f for f in fns if not f.of_trait]
    structs = [i for i in every if i.kind in ("struct", "enum")]
    for f in fns:
        b = re.sub(r"\s+", " ", f.body)
        for _ in re.finditer(r"Err\((\w+)\) => (?:return )?Err\(\1\)|Ok\(\(\)\) => (?:return )?Ok\(\(\)\)", b):
            found["1 a match that passes an error on"].append(f)
            break
        for m in re.finditer(r"match ([^{}]+) \{", b):
            arms, _ = body_of(b, m.end() - 1)
            if re.search(r"\b(?:None|Err\(_\)) => (?:return )?(?:None|Ok\(None\)|Err\([\w:]+\)|false|true|unreachable\(\)|\{ ?\})", arms) and re.search(r"Some\(|Ok\(", arms):
                found["1 a match on an Option that a combinator or ? says"].append(f)
                break
        if re.search(r"else \{ (return (None|false|true);|unreachable\(\)) \}|else \{ return Ok\(None\); \}; [^;]*\}$", b) or re.search(r"if [^{}]+ \{ return None; \}|\{ Some\(.*\) \} else \{ None \}", b):
            found["1 an early None that ? or then says"].append(f)
        if re.search(r"&mut", f.head) and re.search(r"-> bool", f.head):
            found["1 a flag for success of a call that changes something"].append(f)
        if not f.of_trait and any(t == "u8" and n in ("kind", "sum", "letter", "regions", "operations", "blocks", "byte") and n != "byte" for n, t in params(f.head)):
            found["1 a number for a kind"].append(f)
        if re.search(r"-> u8\b", f.head) and re.fullmatch(r"\{\s*0\s*\}", f.body):
            found["1 a number answered where a theorem has no answer"].append(f)
        if re.search(r"for (\w+) in [^{]*\.\.[^{]* \{(?:(?!\bfor\b).)*\[\1", b) or re.search(r"for (\w+) in \S+\.\.\S+ \{.*\[\1\]", b):
            found["3 a loop over an index into a list"].append(f)
        elif re.search(r"(\w+) \+= 1;", b) and re.search(r"\b(for|while|loop)\b", b):
            found["3 a loop that counts by hand"].append(f)
        elif re.search(r"(\w+) \+= [^1]", b) and re.search(r"\bfor\b", b):
            found["3 a loop that adds up by hand"].append(f)
        if re.search(r"\b48 \+|/ 10\b", b):
            found["4 decimal digits by hand"].append(f)
        if f.name in ("same", "same_node", "is_node"):
            found["4 equality by a function of its own"].append(f)
        if f.name in ("from_sum", "sum", "tag_of"):
            found["4 a conversion by a function of its own"].append(f)
        if re.fullmatch(r"\{ match \w+ \{( \w+::\w+(\([^)]*\))? => (self\.)?\w+\([^()]*\),?)+ \} \}", b):
            found["7 a match that calls one function for each case"].append(f)
    for i in every:
        if i.kind == "impl" and re.search(r"\b(PartialEq|Eq|PartialOrd|Ord|Clone|Copy|Debug|Hash)\b for", i.name):
            found["4 an impl that a derive writes"].append(i)
    by_shape = defaultdict(list)
    for f in own:
        by_shape[shape(f)].append(f)
    for group in by_shape.values():
        if len(group) > 1 and len(group[0].body) > 4:
            for f in group:
                found["2 functions that differ in a kind of node"].append(f)
    alike = set()
    for a in range(len(own)):
        for b2 in range(a + 1, len(own)):
            x, y = own[a], own[b2]
            if x.crate == y.crate and shape(x) != shape(y):
                tx, ty = tokens(x), tokens(y)
                if min(len(tx), len(ty)) >= 40 and difflib.SequenceMatcher(None, tx, ty, autojunk=False).ratio() >= 0.82:
                    alike |= {a, b2}
    for a in sorted(alike):
        found["2 functions of one crate that are alike but for a few words"].append(own[a])
    types = defaultdict(list)
    for s in structs:
        types[re.sub(r"\s+", "", re.sub(r"[A-Za-z_]\w*", lambda m: kindless(m.group(0)), s.head + s.body))].append(s)
    for group in types.values():
        if len(group) > 1 and "{" in group[0].body:
            for s in group:
                found["2 types that differ in a kind of node"].append(s)
    texts = defaultdict(set)
    for f in fns:
        for word, text in clauses(f.head):
            texts[(word, text)].add(f)
    for (word, text), who in texts.items():
        if len(who) >= 3:
            rep = Item("", "", "clause", f"{word} {text} ({len(who)} functions, first {min(w.place() for w in who)})", 0, "", "", "")
            rep.kept = all(w.kept for w in who)
            rep.place = lambda rep=rep: rep.name
            found["5 a clause that stands in three or more functions"].append(rep)
    pairs = defaultdict(set)
    for f in fns:
        ps = [p for p in params(f.head) if p[0] != "self"]
        for a in range(len(ps)):
            for b2 in range(a + 1, len(ps)):
                pairs[(f.crate, ps[a], ps[b2])].add(f)
    for (crate, a, b2), who in sorted(pairs.items()):
        if len(who) >= 3:
            rep = Item("", "", "pair", f"{crate}: {a[0]}: {a[1]}, {b2[0]}: {b2[1]} ({len(who)} functions)", 0, "", "", "")
            rep.kept = all(w.kept for w in who)
            rep.place = lambda rep=rep: rep.name
            found["5 parameters that travel together in three or more functions"].append(rep)
    for s in structs:
        b = re.sub(r"\s+", " ", s.body)
        if re.search(r"\b(len|count): (usize|u8)", b) and re.search(r": \[[^\]]+; \d+\]", b):
            found["6 an array with a length beside it"].append(s)
        if len(re.findall(r": Vec<", b)) > 1 or (re.search(r": Vec<", b) and re.search(r": Places\b", b)):
            found["6 parallel lists"].append(s)
        if s.kind == "struct" and re.search(r"\b(len|count|place|at|next): usize", b) and len(re.findall(r"\w+: ", b)) == 2 and "Vec" not in b and "[" not in b:
            found["6 a count or a place beside a value"].append(s)
    for f in fns:
        ps = params(f.head)
        names = {n: t for n, t in ps}
        if any(t.startswith("&mut [") for _, t in ps) and any(n in ("count", "at", "len") and t == "usize" for n, t in ps):
            found["6 a buffer and a place or count as two parameters"].append(f)
    return found, every


def main():
    args = [a for a in sys.argv[1:] if not a.startswith("--")]
    top = Path(args[0] if args else ".")
    found, every = find(top)
    for rule in sorted(found):
        places = found[rule]
        kept = [p for p in places if p.kept]
        print(f"{rule}: {len(places)}, kept with a reason {len(kept)}")
        if "--list" in sys.argv:
            for p in places:
                print(f"    {'kept ' if p.kept else ''}{p.place()}")
    answers = list((top / "crates").glob("*/proofs/**/Answers.antt"))
    files = list((top / "crates").glob("*/proofs/**/*.antt"))
    lines = sum(len(p.read_text().splitlines()) for p in files)
    print(f"8 proof files: {len(files)}, answer files {len(answers)}, lines {lines}")


if __name__ == "__main__":
    main()
