#!/usr/bin/env python3
"""Spells the repository's own definitions, lemmas, fields and constructors in snake case: `countBelow` is `count_below`, `bit-lt` is `bit_lt`.

usage: tools/spell.py [--list]        at the top, once, right after /opt/rattle/port/port.py; --list writes nothing

Types and modules keep their capitals, functions of src/, exported C names, strings, inputs and outputs their names. What the texts in specs/ and proofs/
declare is turned where it stands as a word: in specs/, proofs/, clauses and edits, and in the code spans of comments and pages. In the proof of one function
a word behind a dot is turned only where it is a field of a record of ours or ends a path. Names that would fall together with another are listed and stay.
"""
import collections
import os
import re
import sys

WORD = re.compile(r"[^\s(){}.;,@\"«»`\[\]]+")
MARKS = r"(?:(?:pattern|unfoldable|abbrev|pub) +)*"
DECLARED = re.compile(r"^( *)" + MARKS + r"([^\s(){}.;,@\"]+(?: [^\s(){}.;,@\"]+)*) :(?: |$)")
SKIPPED = {"use", "let", "in", "module", "open", "data", "record", "where", "mod", "import"}
FUNCTION = re.compile(r"/proofs/.*/(Proof|Answers|Invariants)\.antt$")
PATH = re.compile(r"(?:Rattle|proofs|specs)\.[\w.+]*$")


def spelled(name):
    words = re.sub(r"(?<=[a-z0-9])([A-Z])", lambda m: "_" + m[1].lower(), name)
    return words.replace("-", "_").replace("′", "'")


def texts(endings, top="."):
    for folder, dirs, files in os.walk(top):
        dirs[:] = sorted(d for d in dirs if d not in ("out", "target", ".git", "tools"))
        for f in sorted(files):
            if f.endswith(endings):
                yield os.path.join(folder, f)


def read(path):
    with open(path, encoding="utf-8") as f:
        return f.read()


def declared(path):
    """The names that a text declares, each with whether it is a field or a constructor."""
    inside = None
    for line in read(path).split("\n"):
        m = re.match(r"^( *)(?:\w+ )*?(data|record) ", line)
        if m and not line.lstrip().startswith(("record {", "--")):
            inside = len(m[1])
        elif inside is not None and line.strip() and len(line) - len(line.lstrip()) <= inside:
            inside = None
        m = DECLARED.match(line)
        if not m or line.lstrip().startswith("--"):
            continue
        for name in m[2].split():
            if name in SKIPPED or "=" in m[2].split() or "→" in m[2]:
                break
            yield name, inside is not None and len(m[1]) > inside


def table():
    rows, fields, places = {}, set(), collections.defaultdict(set)
    for path in texts(".antt", "crates"):
        if FUNCTION.search(path):
            continue
        for name, field in declared(path):
            places[name].add(path)
            if name[:1].isupper() or not re.search(r"[a-z]", name):
                continue
            if spelled(name) != name:
                rows[name] = spelled(name)
                if field:
                    fields.add(name)
    return rows, fields, places


def words_of(text):
    return set(WORD.findall(text))


def turn(text, rows, fields, function):
    def word(m):
        old = m[0]
        if old not in rows:
            return old
        before = text[max(0, m.start() - 120):m.start()]
        if function and before.endswith("."):
            if old not in fields and not PATH.search(before.rsplit(None, 1)[-1].lstrip("(")):
                return old
        return rows[old]

    return WORD.sub(word, text)


def turn_prose(text, rows):
    """Within code spans alone."""
    return re.sub(r"`[^`\n]+`", lambda m: WORD.sub(lambda w: rows.get(w[0], w[0]), m[0]), text)


def turn_antt(text, rows, fields, function):
    out = []
    for line in text.split("\n"):
        at = re.search(r"(?:^|\s)--(?:\s|$)", line)
        if at:
            code, prose = line[:at.start()], line[at.start():]
            plain = {o: n for o, n in rows.items() if re.search(r"[a-z][A-Z]", o)}
            prose = WORD.sub(lambda w: plain.get(w[0], w[0]), turn_prose(prose, rows))
            out.append(turn(code, rows, fields, function) + prose)
        else:
            out.append(turn(line, rows, fields, function))
    return "\n".join(out)


def turn_rt(text, rows, fields):
    out = []
    for line in text.split("\n"):
        if line.lstrip().startswith("//"):
            plain = {o: n for o, n in rows.items() if re.search(r"[a-z][A-Z]", o)}
            line = WORD.sub(lambda w: plain.get(w[0], w[0]), turn_prose(line, rows))
        elif '"' not in line:
            line = turn(line, rows, fields, False)
        out.append(line)
    return "\n".join(out)


def undone(rows, places):
    """Words that port.py turned and that a definition of ours wants: they get their dash back, in the texts that declare or import them."""
    wanted = {new for old, new in rows.items() if re.search(r"[a-z][A-Z]", old)}
    back = {it: it.replace("_", "-") for it in wanted & set(places)}
    rowed = collections.defaultdict(set)
    for path in texts(".antt", "crates"):
        if back and not FUNCTION.search(path):
            for name, field in declared(path):
                rowed[name].add((path, field))
    for path in texts(".antt", "crates"):
        text = read(path)
        here = {name for name, _ in declared(path)} if not FUNCTION.search(path) else set()
        crate = path.split(os.sep)[2]
        here |= {it for it in back if any(field and at.split(os.sep)[2] == crate for at, field in rowed[it])}
        for items in re.findall(r"^use Rattle\.\w+\.proofs\.[\w.]+\{([^}]*)\}", text, re.M):
            here |= set(WORD.findall(items))
        mine = {it: new for it, new in back.items() if it in here}
        if mine:
            made = re.sub(r"(?<![.\w'-])([\w]+)(?![\w'-])", lambda m: mine.get(m[1], m[1]), text)
            with open(path, "w", encoding="utf-8") as f:
                f.write(made)
    return back


def main():
    rows, fields, places = table()
    listing = "--list" in sys.argv
    back = {} if listing else undone(rows, places)
    rows, fields, places = table()
    new = collections.Counter(rows.values())
    camel = {old for old in rows if re.search(r"[a-z][A-Z]", old)}
    taken = {rows[old] for old in camel} | set(places)
    staying = {old for old in rows if old not in camel and (rows[old] in taken or new[rows[old]] > 1)}
    for path in texts((".antt", ".rt"), "crates"):
        here = words_of(read(path))
        staying |= {old for old in here & set(rows) - camel if rows[old] in here}
    for old in sorted(staying):
        print("stays:", old)
        del rows[old]
    for old in sorted(camel):
        if rows[old] in places:
            print("falls together:", old, rows[old], sorted(places[rows[old]]))
    for path in texts(".antt", "crates"):
        if not FUNCTION.search(path):
            here = words_of(read(path))
            for old in here & set(rows):
                if rows[old] in here:
                    print("look:", old, "->", rows[old], "at", path)
    print(len(rows), "names;", sorted(back.values()))
    if listing:
        for old in sorted(rows):
            print(old, rows[old])
        return
    for path in texts((".antt", ".rt", ".edit", ".md"), "."):
        text = read(path)
        if path.endswith(".antt"):
            made = turn_antt(text, rows, fields, bool(FUNCTION.search(path)))
        elif path.endswith(".rt"):
            made = turn_rt(text, rows, fields)
        elif path.endswith(".edit"):
            made = "\n".join(turn(x, rows, fields, False) if x.startswith(("old:", "new:")) else turn_prose(x, rows) for x in text.split("\n"))
        else:
            made = turn_prose(text, rows)
        if made != text:
            with open(path, "w", encoding="utf-8") as f:
                f.write(made)


main()
