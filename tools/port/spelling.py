#!/usr/bin/env python3
"""The repository's own definitions and lemmas in snake case: run once, at the top, after the kit's port.py.

A name that a file of specs/ or a lemma file of proofs/ declares loses its capitals inside and its dashes.
Names of src/, exported names, strings, inputs and outputs stay. Types and facts keep their capital.
"""
import collections
import glob
import re
import sys

FALL_TOGETHER = {
    "length-with": "length_with_lem",
    "numbers-at": "numbers_at_lem",
    "mulwDW": "mulw_d_w",
    "mulwDWu": "mulw_d_wu",
}
# `ground` is a tactic's name now: the record put together from its fields, and the field of another session's run.
TACTICS = {"ground": "ground_on"}
OWN_FIELDS = [("pub ground : Ground", "pub own_ground : Ground"), ("f.ground", "f.own_ground")]
KEEP = re.compile(r"^(invariant|decreases)-")

DECLARED = re.compile(r"^\s*(?:(?:abbrev|pub|unfoldable|opaque|private)\s+)*([^\s(){}.:,;=|]+)\s+:\s")
TOKEN = re.compile(r"[A-Za-z_][\w'\-]*")


def snake(name):
    if name in FALL_TOGETHER:
        return FALL_TOGETHER[name]
    if name[0].islower():
        name = re.sub(r"(?<=[a-z0-9])([A-Z]+)", lambda m: "_" + m.group(1).lower(), name)
    return name.replace("-", "_").lower() if name[0].islower() else name.replace("-", "_")


def lemma_files():
    specs = glob.glob("crates/*/specs/**/*.antt", recursive=True)
    return sorted(specs + glob.glob("crates/*/proofs/*.antt"))


def table():
    names = set()
    for path in lemma_files():
        for line in open(path, encoding="utf-8"):
            found = DECLARED.match(line)
            if found and not KEEP.match(found.group(1)):
                names.add(found.group(1))
    named = {name: snake(name) for name in names if snake(name) != name}
    return {**named, **TACTICS}


def turned(text, names, generated):
    """One piece of code. In a proof file of one function a dashed name behind a dot is the check's own."""
    def one(found):
        word = found.group(0)
        behind_dot = found.start() > 0 and text[found.start() - 1] == "."
        if word not in names or (generated and behind_dot and "-" in word):
            return word
        return names[word]
    return TOKEN.sub(one, text)


def comment_turned(text, names):
    """Prose: a name in backquotes, or one that no English word can be."""
    def quoted(found):
        return turned(found.group(0), names, False)
    text = re.sub(r"`[^`]*`", quoted, text)
    camel = {name: new for name, new in names.items() if re.search("[A-Z]", name)}
    return turned(text, camel, False)


def line_turned(line, mark, names, generated):
    inside, out = False, []
    code, rest = line, ""
    for spot in range(len(line)):
        if line[spot] == '"':
            inside = not inside
        if not inside and line.startswith(mark, spot) and (mark != "--" or spot == 0 or line[spot - 1] in " \t"):
            code, rest = line[:spot], line[spot:]
            break
    for part, text in enumerate(code.split('"')):
        out.append(turned(text, names, generated) if part % 2 == 0 else text)
    return '"'.join(out) + comment_turned(rest, names)


def main():
    names = table()
    fallen = collections.defaultdict(list)
    for name, new in names.items():
        fallen[new].append(name)
    clash = {new: olds for new, olds in fallen.items() if len(olds) > 1}
    if clash:
        sys.exit(f"fall together: {clash}")
    everywhere = glob.glob("crates/**/*.antt", recursive=True) + glob.glob("crates/**/*.rt", recursive=True)
    for path in sorted(everywhere):
        before = open(path, encoding="utf-8").read()
        fields = before
        if path.startswith("crates/isolation/"):
            for old, new in OWN_FIELDS:
                fields = fields.replace(old, new)
        mark = "--" if path.endswith(".antt") else "//"
        generated = path.count("/") > 3 and "/proofs/" in path
        after = "\n".join(line_turned(line, mark, names, generated) for line in fields.split("\n"))
        if after != before:
            open(path, "w", encoding="utf-8").write(after)
    for path in ["README.md"] + sorted(glob.glob("docs/*.md")):
        before = open(path, encoding="utf-8").read()
        after = "\n".join(comment_turned(line, names) for line in before.split("\n"))
        if after != before:
            open(path, "w", encoding="utf-8").write(after)
    for name in sorted(names):
        print(name, names[name])


main()
