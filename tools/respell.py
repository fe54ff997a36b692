#!/usr/bin/env python3
"""Respells this repository's own definitions, lemmas, fields and bound names as today's Rattle spells them.

usage: python3 tools/respell.py [--list] [ROOT]

Run it once on a tree that port.py has just turned. Types and modules keep their capitals. Every other name of an
.antt file goes to snake case: `forestOf` to `forest_of`, `start-below` to `start_below`. A dash stays where it
joins two names that this repository or the library defines, as in `length-records_in` and `first-++`. Names that
Rattle makes (goals, invariants, steps of the code), names of the library, functions of src/ and strings stay.
--list prints the names, old and new, and writes nothing.
"""

import os
import re
import sys

KIT = "/opt/rattle/rattle"
# A word of a name: anything but blanks, brackets and the punctuation of antt.
TOKEN = re.compile(r"[^\s(){}\[\],;:.«»\"λ]+")
HEAD = re.compile(r"^\s*(?:abbrev |unfoldable |pub )*([^\s(){}\[\],;:.«»\"]+) *:(?!:) ")
DEFINED = re.compile(r"^\s*(?:abbrev |unfoldable )(?:pub )?([^\s(){}\[\],;:.«»\"]+)(?= :)")
# Where the plain rule gives a name that is taken, or a poor one.
ALIKE = {
    "bit-and": "bit-bit_and",
    "bit-or": "bit-bit_or",
    "putMid-written": "put_mid-written",
    # lemmas that would have the name of a definition
    "byte-clear": "byte_clear_lem",
    "byte-mask": "byte_mask_lem",
    "byte-value": "byte_value_lem",
    "code-at": "code_at_lem",
    "code-value": "code_value_lem",
    "entry-bytes": "entry_bytes_lem",
    "code-of": "code_of_lem",
    "pairs_below": "pairs_below_lem",
    "pairs_of": "pairs_of_lem",
    "placement-of": "placement_of_lem",
    "raw_at": "raw_at_lem",
    "root_in": "root_in_lem",
}
LIBRARY_WORDS = {"length", "append", "map", "filter", "take", "drop", "set", "get_or", "cond", "All", "reverse"}


def files(root, *endings):
    for folder, dirs, names in os.walk(os.path.join(root, "crates")):
        dirs[:] = sorted(d for d in dirs if d not in ("out", "data"))
        for n in sorted(names):
            if n.endswith(endings):
                yield os.path.join(folder, n)


def read(path):
    with open(path, encoding="utf-8") as f:
        return f.read()


def code_lines(text):
    return [l for l in text.split("\n") if not l.lstrip().startswith("--")]


def is_foreign(name):
    """Whether a name has another spelling than today's: a dash, or a small letter first and a capital later."""
    return bool(re.search(r"[a-z0-9']-", name) or re.search(r"-[a-z0-9]", name) or re.match(r"[a-z][a-z0-9_'-]*[A-Z]", name)) and not name.startswith("-")


def library_names():
    found = set()
    for folder, dirs, names in os.walk(KIT):
        dirs[:] = [d for d in dirs if d not in ("examples", "docs")]
        for n in names:
            if n.endswith((".antt", ".rt")):
                try:
                    found.update(TOKEN.findall(read(os.path.join(folder, n))))
                except (UnicodeDecodeError, OSError):
                    pass
    return found


def collect(root):
    """The names that .antt files declare or bind, and those that Rattle makes."""
    declared, bound, made = set(), set(), set()
    for p in files(root, ".antt"):
        for line in code_lines(read(p)):
            bound.update(re.findall(r" as ([A-Za-z0-9'_-]+)[,}]", line) if "use " in line else [])
            if line.startswith("use ") or line.startswith("pub use "):
                m = re.match(r"use \S*\.(?:Goals|Given)\.\{([^}]*)\}", line)
                made.update(x.strip() for x in m.group(1).split(",")) if m else None
                continue
            m = HEAD.match(line)
            if m:
                (made if re.search(r": goal\.|: given\.", line) else declared).add(m.group(1))
            for group in re.findall(r"[({]([^(){}:=]+) :(?!:) ", line):
                bound.update(w for w in group.split() if TOKEN.fullmatch(w))
            for m in re.finditer(r"\blet ([^\s(){}\[\],;:.]+) ?[:=]", line):
                bound.add(m.group(1))
            for m in re.finditer(r"λ ([^.(]+)\.", line):
                bound.update(m.group(1).split())
            for m in re.finditer(r"\| ([^↦|]+)↦", line):
                bound.update(TOKEN.findall(m.group(1)))
            m = re.match(r"^\s*([^\s=]+) ([^=:]+) = ?", line)
            if m:
                bound.update(TOKEN.findall(m.group(2)))
            m = re.match(r"^\s*([^\s(){}\[\],;:.]+) = ", line)
            if m:
                bound.add(m.group(1))
    for p in files(root, ".rt"):
        for line in read(p).split("\n"):
            bound.update(re.findall(r" as ([a-z][A-Za-z0-9'_-]+)[,}]", line) if line.startswith("ghost use") else [])
    return declared, bound - declared, made


def snake(word):
    if word[:1].isupper():
        return word
    return re.sub(r"(?<=[A-Za-z0-9'])([A-Z])", lambda m: "_" + m.group(1).lower(), word)


def respell(name, words, plain):
    if name in ALIKE:
        return ALIKE[name]
    if name in plain and re.fullmatch(r"[A-Za-z0-9'_-]+", name):
        return "_".join(snake(part) for part in name.split("-"))
    if re.match(r"[A-Z][A-Za-z0-9']*$", name):
        return name
    parts = name.split("-")
    out = snake(parts[0])
    for before, part in zip(parts, parts[1:]):
        joins = not re.match(r"[A-Za-z0-9]", part) or len(parts) == 2 and before in words and part in words or before in LIBRARY_WORDS and part in words
        out += ("-" if joins else "_") + snake(part)
    return out


def mapping(root):
    library = library_names()
    declared, bound, made = collect(root)
    specs, plain = set(), set()
    for p in files(root, ".antt"):
        if "/specs/" in p:
            for line in code_lines(read(p)):
                m = DEFINED.match(line)
                if m:
                    specs.add(m.group(1))
                m = HEAD.match(line)
                if m:
                    plain.add(m.group(1))
    words = specs | LIBRARY_WORDS
    turned = {}
    for name in sorted(declared | bound):
        if name in made or not (is_foreign(name) or name in ALIKE) or name in library and name not in declared:
            continue
        new = respell(name, words, plain)
        if new != name:
            turned[name] = new
    return turned, declared, bound, library


def clashes(turned, declared, bound):
    taken = {}
    for old, new in turned.items():
        if (new in declared or new in bound) and new not in turned or new in taken:
            yield old, new, taken.get(new)
        taken[new] = old


def turn_line(line, turned, answers):
    """In an answer, a name that follows `c.`, `w.`, `l.` or `goal.` is one that Rattle makes."""
    if line.lstrip().startswith("--"):
        return line

    def put(m):
        made = answers and re.search(r"(?:^|[^\w'.-])(?:c|w|l|goal)\.$", line[: m.start()])
        return m.group(0) if made else turned.get(m.group(0), m.group(0))

    return TOKEN.sub(put, line)


def turn_antt(path, text, turned):
    answers = path.endswith(("Answers.antt", "Invariants.antt"))
    return "\n".join(turn_line(l, turned, answers) for l in text.split("\n"))


def turn_rt(text, turned):
    """Only what is ghost: `ghost use` lines, ghost members, contracts. Elsewhere no name has these spellings."""
    out, depth, inside = [], 0, False
    for line in text.split("\n"):
        starts = re.match(r"\s*(ghost |requires\b|ensures\b)", line)
        if starts or inside:
            depth = (0 if starts and not inside else depth) + line.count("{") - line.count("}")
            inside = depth > 0 or bool(starts) and "{" not in line and not line.rstrip().endswith(";")
            code, bar, comment = line.partition(" //")
            line = TOKEN.sub(lambda m: turned.get(m.group(0), m.group(0)), code) + bar + comment
        out.append(line)
    return "\n".join(out)


def main(argv):
    only_list = "--list" in argv
    roots = [a for a in argv if not a.startswith("--")]
    root = roots[0] if roots else "."
    turned, declared, bound, library = mapping(root)
    for old, new, other in clashes(turned, declared, bound):
        print(f"clash: {old} would be {new}" + (f", as {other}" if other else ""))
    if only_list:
        for old, new in sorted(turned.items()):
            print(f"{old} -> {new}" + ("   (a name of the library too)" if old in library or new in library else ""))
        return 0
    count = 0
    for p in files(root, ".antt", ".rt"):
        before = read(p)
        after = turn_antt(p, before, turned) if p.endswith(".antt") else turn_rt(before, turned)
        if after != before:
            with open(p, "w", encoding="utf-8") as f:
                f.write(after)
            count += 1
    print(f"respell: {len(turned)} names in {count} files")
    return 0


if __name__ == "__main__":
    raise SystemExit(main(sys.argv[1:]))
