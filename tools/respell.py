#!/usr/bin/env python3
"""Respells this repository's own definitions and lemmas: functions, lemmas and fields in snake case, types in camel case.

usage: python3 tools/respell.py [--list] [ROOT]

Run it once, after the kit's script has turned the tree. A name that Rattle makes (a goal, a step of a function, an invariant) and
a name of the library keep their spelling, and so does everything in Rust code, in strings and in comments. A dash stays where it
joins a lemma's function to the library's function that it meets, as in bytes-append. With --list it only prints the names.
"""

import os
import re
import sys

HEAD = re.compile(r"^(\s*)((?:(?:pub|abbrev|unfoldable|record|data|ruleset)\s+)*)([^\s:(){}.,;=]+(?:\s+[^\s:(){}.,;=]+)*)\s*(?:[({][^=]*)?:\s*(.*)$")
TOKEN = re.compile(r"[^\s(){}\[\].,;:⌜⌝|]+")
CHAIN = re.compile(r"[^\s(){}\[\],;:⌜⌝|]+")
JOINED = re.compile(r"-(append|take|drop)$")
STEPS = {"c", "l", "w", "g"}


def files(root):
    for folder, dirs, names in os.walk(os.path.join(root, "crates")):
        dirs[:] = sorted(d for d in dirs if d != "out")
        for n in sorted(names):
            if n.endswith((".antt", ".rt")):
                yield os.path.join(folder, n)


def new_name(name, is_type):
    if is_type:
        parts = name.split("-")
        return parts[0] + "".join(p[:1].upper() + p[1:] for p in parts[1:])
    if name[:1].isupper():
        return name
    tail = JOINED.search(name)
    if tail:
        return name[: tail.start()].replace("-", "_") + tail.group(0)
    return name.replace("-", "_")


def definitions(path):
    """The names with a dash that a file of antt declares, each with whether it is a type. Goals and imports are none."""
    with open(path, encoding="utf-8") as f:
        for line in f:
            line = line.split("--")[0].rstrip() if line.lstrip().startswith("--") else line.rstrip()
            if line.lstrip().startswith(("use ", "module ", "unfolding ", "|", "let ", "elim ")):
                continue
            m = HEAD.match(line)
            if not m:
                continue
            words, sign = m.group(3).split(), m.group(4)
            if any(not re.fullmatch(r"[\w'+*-]+", w) for w in words):
                continue
            for w in words:
                if "-" in w and not re.match(r"goal\.", sign):
                    is_type = "record" in m.group(2) or "data" in m.group(2) or (w[:1].isupper() and sign.endswith("Type 0"))
                    yield w, is_type


def renaming(root):
    names = {}
    for path in files(root):
        if path.endswith(".antt"):
            for name, is_type in definitions(path):
                new = new_name(name, is_type)
                if new != name:
                    names[name] = new
    return names


def turn_code(text, names):
    """Respells the tokens of text that holds no string and no comment."""

    def chain(m):
        whole = m.group(0)
        parts = whole.split(".")
        if parts[0] == "goal":
            return whole
        keep = 1 if len(parts) > 1 and parts[0] in STEPS else None
        return ".".join(p if i == keep else names.get(p, p) for i, p in enumerate(parts))

    return CHAIN.sub(chain, text)


def turn(path, text, names):
    mark = "--" if path.endswith(".antt") else "//"
    out = []
    for line in text.split("\n"):
        at = line.find(mark)
        while at > 0 and mark == "--" and not line[at - 1].isspace():
            at = line.find(mark, at + 1)
        code, comment = (line, "") if at < 0 else (line[:at], line[at:])
        if re.match(r"\s*use .*\.(Goals|Given)\.\{", code):
            out.append(line)
            continue
        pieces = re.split(r'("(?:[^"\\]|\\.)*")', code)
        code = "".join(p if i % 2 else turn_code(p, names) for i, p in enumerate(pieces))
        out.append(code + comment)
    return "\n".join(out)


def main(argv):
    only = "--list" in argv
    roots = [a for a in argv if a != "--list"]
    root = roots[0] if roots else "."
    names = renaming(root)
    if only:
        for old in sorted(names):
            print(old, names[old])
        return 0
    taken = {}
    for old, new in sorted(names.items()):
        taken.setdefault(new, []).append(old)
    for new, olds in taken.items():
        if len(olds) > 1:
            print(f"respell: {' and '.join(olds)} fall together as {new}", file=sys.stderr)
            return 1
    changed = 0
    for path in list(files(root)):
        with open(path, encoding="utf-8") as f:
            text = f.read()
        turned = turn(path, text, names)
        if turned != text:
            with open(path, "w", encoding="utf-8") as f:
                f.write(turned)
            changed += 1
    print(f"respell: {len(names)} names, {changed} files")
    return 0


if __name__ == "__main__":
    raise SystemExit(main(sys.argv[1:]))
