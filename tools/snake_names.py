#!/usr/bin/env python3
"""Puts the names of the definitions and lemmas of every crate into snake case, once, right after the kit's port.py.

usage: python3 tools/snake_names.py [--list]      at the top of the repository; --list prints the table and what may fall together, and writes nothing

A name that begins with a small letter and has a capital or a dash is respelled: `leAt` is `le_at`, `over-nil` is `over_nil`.
Types and facts keep their capitals, and so do the functions of src/, strings and exported names.
What the checker makes of the code (`c.loop.inv`, `tie.Need-returns`) keeps its spelling too.
"""

import collections
import glob
import re
import sys

WORD = re.compile(r"[^\s(){}\[\].;,:@\"«»`|]+")
QUALIFIERS = r"(?:(?:abbrev|unfoldable|pub|opaque|instance)\s+)*"
DECLARED = re.compile(rf"^(?:  )?{QUALIFIERS}«?([^\s(){{}}.;,:@\"«»]+)»?\s*:(?!:)\s*(.*)")
STRING = re.compile(r'"(?:[^"\\]|\\.)*"')

# Variables that a definition or a proof binds.
LOCALS = "isSecured headerRoom auxRoom recordRoom updateId foundBy panIds".split()

# Lemmas that port.py, or this script, would give the name of a definition beside them: crate, name, new name.
LEMMAS = {
    ("casefile", "same_text"): "same_text_lem",
    ("casefile", "word_end"): "word_end_lem",
    ("journal", "place_at"): "place_at_lem",
    ("nwk", "clear_in"): "clear_in_lem",
    ("frame", "first-of"): "first_of_lem",
    ("header", "type-of"): "type_of_lem",
    ("octets", "in-turn"): "in_turn_lem",
}


def snake(name):
    name = name.replace("getD", "get_or")
    name = re.sub(r"(?<=[a-z0-9₀'])([A-Z]+)", lambda m: "_" + m[1].lower(), name)
    return name.replace("-", "_")


def lines(path):
    with open(path, encoding="utf-8") as f:
        return f.read().split("\n")


def code_of(line):
    """The line without a comment of antt's."""
    return re.sub(r"(?:^|(?<=\s))--.*", "", line)


def to_turn(name):
    return not name[0].isupper() and (re.search(r"[a-z0-9₀][A-Z]", name) or "-" in name)


def declared(path):
    """The names that a file declares, with what stands behind the colon: top level names, those of a section, fields and constructors."""
    for line in lines(path):
        m = DECLARED.match(code_of(line))
        if m and not line.startswith(("use ", "mod ", "pub mod ")):
            yield m[1], m[2]


def tables():
    """The table of all crates, and one for each proof of a function, for its own lemmas."""
    whole, own = {name: snake(name) for name in LOCALS}, collections.defaultdict(dict)
    shared = sorted(glob.glob("crates/*/specs/**/*.antt", recursive=True) + glob.glob("crates/*/proofs/*.antt"))
    for path in shared:
        for name, _ in declared(path):
            if to_turn(name):
                whole[name] = snake(name)
    # A lemma that would have its definition's name says that it is one.
    taken = {new for old, new in whole.items() if "-" not in old}
    for old, new in whole.items():
        if "-" in old and new in taken:
            whole[old] = new + "_lem"
    for path in sorted(glob.glob("crates/*/proofs/**/*.antt", recursive=True)):
        for (crate, name), new in LEMMAS.items():
            if path.startswith(f"crates/{crate}/"):
                own[path][name] = new
        if path in shared:
            continue
        for name, kind in declared(path):
            # A goal's answer has the goal's name, which the checker made.
            if to_turn(name) and "tie." not in kind and "goal." not in kind and not kind.startswith("goal"):
                own[path][name] = snake(name)
    return shared, whole, own


def turn(text, table):
    """The text with each name of the table turned. A name with a dash right behind a dot is the checker's, but for a path of a crate."""

    def one(m):
        word = m[0]
        new = table.get(word)
        if new is None:
            return word
        if new.endswith("_lem") and "." in (text[m.start() - 1 : m.start()], text[m.end() : m.end() + 1]):
            return word
        if "-" in word and text[m.start() - 1 : m.start()] == ".":
            head = re.search(r"\S*$", text[: m.start()])[0].lstrip("({[λ←")
            if not head.startswith("Rattle."):
                return word
        return new

    return WORD.sub(one, text)


def turned(path, table):
    out = []
    for line in lines(path):
        if path.endswith(".antt"):
            code = code_of(line)
            said = line[len(code) :]
            code = turn(code, table)
        else:
            at = line.find("//")
            code, said = (line, "") if at < 0 else (line[:at], line[at:])
            parts, last = [], 0
            for m in STRING.finditer(code):
                parts += [turn(code[last : m.start()], table), m[0]]
                last = m.end()
            code = "".join(parts) + turn(code[last:], table)
        said = re.sub(r"`[^`]*`", lambda m: turn(m[0], table), said)
        said = WORD.sub(lambda m: table[m[0]] if m[0] in table and "-" not in m[0] else m[0], said)
        out.append(code + said)
    return "\n".join(out)


def main(argv):
    shared, whole, own = tables()
    files = sorted(glob.glob("crates/*/specs/**/*.antt", recursive=True) + glob.glob("crates/*/proofs/**/*.antt", recursive=True) + glob.glob("crates/*/src/**/*.rt", recursive=True))
    back = collections.defaultdict(list)
    for old, new in whole.items():
        back[new].append(old)
    for new, olds in back.items():
        if len(olds) > 1:
            print("two names: " + " ".join(olds) + " -> " + new)
    for path in files:
        table = {**whole, **own.get(path, {})}
        text = "\n".join(lines(path) if path.endswith(".rt") else [code_of(l) for l in lines(path)])
        bare = {m[0] for m in WORD.finditer(text) if text[m.start() - 1 : m.start()] != "."}
        for old in bare:
            new = table.get(old)
            if new and new in bare:
                print(f"also there: {path}: {old} -> {new}")
    if "--list" in argv:
        for old, new in sorted(whole.items()):
            print(f"{old}\t{new}")
        return 0
    for path in files:
        table = {**whole, **own.get(path, {})}
        new = turned(path, table)
        with open(path, encoding="utf-8") as f:
            if f.read() == new:
                continue
        with open(path, "w", encoding="utf-8") as f:
            f.write(new)
    return 0


if __name__ == "__main__":
    raise SystemExit(main(sys.argv[1:]))
