#!/usr/bin/env python3
"""Spells the repository's own definitions and lemmas as today's Rattle does.

usage: python3 tools/respell.py [--list]      at the top of the repository, once, after port.py

A name of a definition, lemma, field or constructor of specs/ and proofs/ is in snake case: `byteValues` becomes
`byte_values`. A dash stays only between two names of functions, as in `length-set`; elsewhere it becomes `_`, as in
`rule_accepted`. Names of types and facts, of modules, and of all that stands in src/ stay. In pages and comments only
what stands between backticks is turned. --list prints the names and writes nothing.
"""
import glob
import re
import sys

WORD = r"[^\s(){}\[\],;.:«»\"`λ∷◌]+"
HEAD = re.compile(
    r"\s*(?:abbrev |unfoldable |pub |data |record |ruleset |mutual )*(" + WORD + r")(?: [({][^)}]*[)}])* :(?: |$)")
# Lemmas that would have the name of a definition.
LEMMAS = """four-numbers counted-row after_one after_two code-bytes next-frame one-made two_made state-at next-byte
item-bytes at-end is-on refusal-told which-told length-told are-bytes too_short""".split()
OWN = {name: name.replace("-", "_") + "_lem" for name in LEMMAS}
OWN["So-far"] = "SoFar"
OWN["getD-padded"] = "get_or-padded"
# Lemmas of one crate whose name is also that of a function or a field elsewhere.
SCOPED = [("crates/rules/proofs/", {"room_of": "space_of"}), ("crates/emitter/proofs/", {"own_code": "own_code_lem"})]
# A constructor of the answers, a field and a lemma have this name, each in a module of its own.
SHARED = {"no_room", "room_of", "own_code"}
# Functions of lists, numbers and bits, whose names a dash joins.
FUNCTIONS = set("length append take drop map set get_or".split())


def files(*patterns):
    return [f for p in patterns for f in sorted(glob.glob(p, recursive=True))]


def snake(name):
    return re.sub(r"(?<=[a-z0-9])([A-Z])", lambda m: "_" + m[1].lower(), name)


def definitions():
    names = {}
    for path in files("crates/*/specs/**/*.antt", "crates/*/proofs/*.antt"):
        for line in open(path, encoding="utf-8").read().split("\n"):
            found = HEAD.match(line)
            if found and not re.match(r"\s*(--|let |use |module )", line):
                names.setdefault(found[1], path)
    return names


def target(name, names):
    if name in OWN:
        return OWN[name]
    if not re.match(r"[a-zA-Z]", name):
        return name
    parts = name.split("-")
    if re.match(r"[a-z]", parts[0]):
        parts = [snake(p) for p in parts]
    made = parts[0]
    for left, right in zip(parts, parts[1:]):
        both = left in FUNCTIONS and right in FUNCTIONS
        made += ("-" if both else "_") + right
    return made


def turned(text, mapping):
    return re.sub(WORD, lambda m: mapping.get(m[0], m[0]), text)


def quoted(text, mapping):
    return re.sub(r"`[^`\n]+`", lambda m: "`" + turned(m[0][1:-1], mapping) + "`", text)


def camel_only(mapping):
    return {a: b for a, b in mapping.items() if "-" not in a}


def antt(text, mapping):
    lines = []
    for line in text.split("\n"):
        code, mark, note = line.partition("--") if line.lstrip().startswith("--") else (line, "", "")
        lines.append(turned(code, mapping) + mark + (quoted(note, mapping) if mark else ""))
    return "\n".join(lines)


def main():
    names = definitions()
    mapping = {n: target(n, names) for n in names}
    mapping = {a: b for a, b in mapping.items() if a != b}
    made = {}
    for a, b in list(mapping.items()) + [(n, n) for n in names if n not in mapping]:
        if b in made and made[b] != a and b not in SHARED:
            sys.exit(f"{a} and {made[b]} both become {b}")
        made[b] = a
    if "--list" in sys.argv:
        for a, b in sorted(mapping.items()):
            print(a, b)
        return
    work = []
    for path in files("crates/*/specs/**/*.antt", "crates/*/proofs/**/*.antt"):
        work.append((path, antt))
    for path in files("crates/*/src/**/*.rt"):
        work.append((path, lambda text, m: turned(text, camel_only(m))))
    for path in files("crates/*/must-fail/*.edit"):
        work.append((path, lambda text, m: turned(text, camel_only(m))))
    for path in files("*.md", "docs/*.md", "examples/*.c", "include/*.h"):
        work.append((path, quoted))
    for path, turn in work:
        with open(path, encoding="utf-8", newline="") as f:
            text = f.read()
        own = [m for prefix, m in SCOPED if path.startswith(prefix)]
        new = turn(text, dict(mapping, **own[0]) if own else mapping)
        if new != text:
            with open(path, "w", encoding="utf-8", newline="") as f:
                f.write(new)


if __name__ == "__main__":
    main()
