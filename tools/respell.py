#!/usr/bin/env python3
"""Brings the repository's own names to today's spelling, once, after the toolchain's porting script.

    python3 tools/respell.py

A name with a dash that a specs/ or proofs/ file of this repository defines, as a definition, a lemma, a field, a parameter
or an alias, becomes snake case, or camel case where it names a type. Names of goals, which the toolchain makes, keep their
spelling, and so do all names of src/. Prints each name with what it became, and names that fall together.
"""
import re
import sys
from pathlib import Path

TOP = Path(__file__).parent.parent
TOKEN = re.compile(r"[^\s(){}\[\];,.λ\"`]+")
HEAD = re.compile(r"^\s*(?:(?:pub|abbrev|unfoldable|record|data|ruleset)\s+)*([^\s:(){}=]+)((?:\s+[({].*?[)}])*)\s*:(?:\s|$)")
GROUP = re.compile(r"[({]([^(){}:]+?) : ")
ALIAS = re.compile(r"\bas ([^\s,};]+)")
# names of values in the examples that were spelled as types are
EXAMPLES = {"A": "bool_a", "B": "bool_b", "C": "bool_c", "P": "past_a", "Q": "past_b"}


def code(line, comment):
    return line.split(comment)[0]


def antt_files():
    for folder in ("specs", "proofs"):
        yield from sorted(TOP.glob(f"crates/*/{folder}/**/*.antt"))


def rt_files():
    yield from sorted(TOP.glob("crates/*/src/**/*.rt"))


def own_names():
    """Each dashed name that is defined here, with the crates that define it."""
    names = {}
    for path in antt_files():
        answers = path.name in ("Answers.antt", "Invariants.antt")
        for line in path.read_text().splitlines():
            text = code(line, "--")
            found = []
            head = HEAD.match(text)
            if head and not (answers and re.search(r": goal\.", text)):
                found.append(head[1])
            for group in GROUP.findall(text):
                found += group.split()
            found += ALIAS.findall(text)
            for name in found:
                if "-" in name:
                    names.setdefault(name, set()).add(path.parts[-3 if not answers else -4])
    for path in rt_files():
        for line in path.read_text().splitlines():
            if line.lstrip().startswith("ghost use"):
                for name in ALIAS.findall(line):
                    if "-" in name:
                        names.setdefault(name, set()).add("src")
    return set(names)


def spelled(name):
    if name[0].isupper():
        return "".join(part[0].upper() + part[1:] for part in name.split("-"))
    return name.replace("-", "_")


def respell(text, names, comment):
    """The text with the names respelled, strings and comments left alone."""
    done = []
    for line in text.splitlines(keepends=True):
        body = code(line, comment)
        rest = line[len(body):]
        parts = re.split(r'("(?:[^"\\]|\\.)*")', body)
        parts = [part if part.startswith('"') else TOKEN.sub(lambda m: names.get(m[0], m[0]), part) for part in parts]
        done.append("".join(parts) + quoted(rest, names))
    return "".join(done)


def quoted(text, names):
    """A page: names that stand in back quotes."""
    return re.sub(r"`[^`\n]+`", lambda m: TOKEN.sub(lambda t: names.get(t[0], t[0]), m[0]), text)


def main():
    own = own_names()
    names = {name: spelled(name) for name in own}
    # aliases that the porting script took for facts or types
    names["is_IsLeaf"] = "is_leaf"
    names["no_Operand"] = "no_operand"
    taken = {}
    for old, new in sorted(names.items()):
        taken.setdefault(new, []).append(old)
        print(f"{old} -> {new}")
    there = set()
    for path in antt_files():
        for line in path.read_text().splitlines():
            head = HEAD.match(code(line, "--"))
            if head:
                there.add(head[1])
    for new, olds in taken.items():
        if len(olds) > 1 or new in there:
            print(f"fall together: {', '.join(olds)} -> {new}", file=sys.stderr)
    for path in antt_files():
        text = path.read_text()
        more = {**names, **EXAMPLES} if path.match("crates/sva/specs/Examples.antt") else names
        path.write_text(respell(text, more, "--"))
    for path in rt_files():
        text = path.read_text()
        path.write_text(respell(text, names, "//"))
    for path in sorted(TOP.glob("tools/planted/**/*.txt")):
        path.write_text(respell(path.read_text(), names, "\0"))
    for path in [TOP / "README.md", *sorted((TOP / "docs").glob("*.md"))]:
        path.write_text(quoted(path.read_text(), names))


main()
