#!/usr/bin/env python3
"""Brings the repository's own definitions and lemmas to the spelling of today's Rattle.

    python3 tools/respell.py [--list]     at the top; --list only prints old and new

Words are in snake case; a dash stays only between two names that are themselves defined, as in `length-printed`. A lemma
that would get the name of another declaration gets `_lem` behind it. Names of src/, of the library and of what the checker
generates keep their spelling. It was run once, after port.py; a second run changes nothing.
"""
import collections
import glob
import re
import sys

TOKEN = re.compile(r"[^\s(){}\[\];,.`|\"]+")
DECLARATION = re.compile(
    r"^(\s*)((?:(?:unfoldable|abbrev|pub|record|data|ruleset|axiom)\s+)*)([^\s:(){}.,;`]+)\s*((?:\{[^}]*\}\s*|\([^)]*\)\s*)*):\s(.*)$"
)
LIBRARY = re.compile(r"^\s*(?:pub )?use ((?!Rattle\.)\S*|Rattle\.std\.\S*?)\.\{(.*)\}\s*$")
STD_WORDS = """length take drop append map filter reverse replicate sum min max suc zero get_or set cond eqb leb ltb
true false and or le lt eq ne add sub mul div mod pow nth fold""".split()


def snake(part):
    part = part.replace("′", "'")
    if re.fullmatch(r"[A-Z].*", part):
        return part
    return re.sub(r"([a-z0-9'])([A-Z])", lambda m: m.group(1) + "_" + m.group(2).lower(), part)


def code(line):
    """The line without its comment, and the comment."""
    m = re.match(r"^(.*?)(\s*--(?:\s.*)?)$", line)
    if m and (m.group(1) == "" or re.match(r"^\s+--|^\s*--", m.group(2))):
        return m.group(1), m.group(2)
    return line, ""


def texts(pattern):
    return sorted(glob.glob(pattern, recursive=True))


def declared():
    """Each declared name, with whether what it declares is a definition (and not a lemma)."""
    names = collections.defaultdict(set)
    library = set()
    for path in texts("crates/*/specs/**/*.antt") + texts("crates/*/proofs/**/*.antt"):
        for line in open(path, encoding="utf8"):
            text, _ = code(line.rstrip("\n"))
            m = LIBRARY.match(text)
            if m:
                library |= {n.split(" as ")[0].strip() for n in m.group(2).split(",")}
            m = DECLARATION.match(text)
            if m and not m.group(5).startswith(("tie.", "goal.", "{M : Type 1}")):
                words, kind = m.group(2).split(), m.group(5)
                defines = bool({"unfoldable", "abbrev", "record", "data"} & set(words)) or kind.startswith("Type")
                names[m.group(3)].add(defines)
            for v in re.findall(r"[({]([^(){}:]+) : ", text):
                for n in v.split():
                    names[n].add(False)
            for v in re.findall(r"λ ([^.()]+)\.", text):
                for n in v.split():
                    names[n].add(False)
    return names, library


def mapping():
    names, library = declared()
    defined = {snake(n) for n, kinds in names.items() if True in kinds} | set(STD_WORDS)
    table = {}
    for n in sorted(names):
        if n in library or not re.match(r"[A-Za-z]", n):
            continue
        parts = [snake(p) for p in n.split("-")]
        new = parts[0]
        for before, part in zip(parts, parts[1:]):
            joined = before in defined and part in defined
            new += ("-" if joined else "_") + part
        if new != n:
            table[n] = new
    kept = set(names) - set(table)
    for n, new in sorted(table.items()):
        # a definition has the name that it is due; a lemma of that name, also one that has it already, gets `_lem`
        if new in library or (new in kept and not (True in names[n] and True not in names[new])):
            table[n] = new + "_lem"
        elif new in kept:
            table[new] = new + "_lem"
    seen = collections.defaultdict(list)
    for n, new in table.items():
        seen[new].append(n)
    for new, olds in seen.items():
        first = sorted(olds, key=lambda o: (True not in names[o], "-" in o, o))[0]
        for o in olds:
            if o != first:
                table[o] = new + "_lem"
    return table


def turned(text, table):
    return TOKEN.sub(lambda m: table.get(m.group(0), m.group(0)), text)


def turn_antt(text, table):
    out = []
    for line in text.split("\n"):
        body, note = code(line)
        camel = {o: n for o, n in table.items() if "-" not in o and o != o.lower()}
        note = re.sub(r"`[^`]*`", lambda m: turned(m.group(0), table), note)
        out.append(turned(body, table) + turned(note, camel))
    return "\n".join(out)


def turn_rt(text, table):
    out, depth, inside = [], 0, False
    for line in text.split("\n"):
        if not inside and re.match(r"\s*(ghost|requires|ensures)\b", line):
            inside, depth = True, 0
        if inside:
            line = turned(line, table)
            depth += line.count("{") - line.count("}")
            inside = depth > 0
        elif line.strip().startswith("//"):
            line = re.sub(r"`[^`]*`", lambda m: turned(m.group(0), table), line)
        out.append(line)
    return "\n".join(out)


def turn_edit(text, table):
    return "\n".join(turned(l, table) if l.startswith(("old:", "new:")) else l for l in text.split("\n"))


def turn_page(text, table):
    """A page also has names that port.py respelled in the crates alone."""
    camel = {o: n for o, n in table.items() if "-" not in o and o != o.lower()}
    names = set(declared()[0])

    def name(m):
        word = table.get(m.group(0), m.group(0))
        if word not in names and re.fullmatch(r"[a-z][A-Za-z0-9_'-]*", word):
            other = re.sub("-", "_", snake(word))
            word = other if other in names or re.search("[A-Z]", word) else word
        return word

    text = re.sub(r"`[^`\n]*`", lambda m: TOKEN.sub(name, m.group(0)), text)
    return turned(text, camel)


def main():
    table = mapping()
    if "--list" in sys.argv:
        for o in sorted(table):
            print(o, table[o])
        return
    while table:
        turn_all(table)
        table = mapping()
    for path in texts("docs/**/*.md") + ["README.md"]:
        rewrite(path, lambda text: turn_page(text, {}))


def rewrite(path, turn):
    old = open(path, encoding="utf8").read()
    new = turn(old)
    if new != old:
        open(path, "w", encoding="utf8").write(new)


def turn_all(table):
    turns = [("crates/*/specs/**/*.antt", turn_antt), ("crates/*/proofs/**/*.antt", turn_antt), ("crates/*/src/**/*.rt", turn_rt)]
    turns += [("crates/*/must-fail/*.edit", turn_edit), ("docs/**/*.md", turn_page), ("README.md", turn_page)]
    for pattern, turn in turns:
        for path in texts(pattern):
            rewrite(path, lambda text: turn(text, table))


main()
