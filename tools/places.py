#!/usr/bin/env python3
"""Lists the places in crates/*/src that may read like an older Rattle, point by point.

    python3 tools/places.py [COMMIT]

Without a commit it reads the files as they are. A line that is printed is a candidate, to be judged by a
reader; docs/DESIGN-PASS.md says what became of each.
"""
import collections
import re
import subprocess
import sys


def sources(commit):
    names = subprocess.run(
        ["git", "ls-tree", "-r", "--name-only", commit or "HEAD", "crates"], capture_output=True, text=True, check=True
    ).stdout.split()
    if not commit:
        names = subprocess.run(["git", "ls-files", "-co", "--exclude-standard", "crates"], capture_output=True, text=True, check=True).stdout.split()
    for name in sorted(set(names)):
        if re.fullmatch(r"crates/\w+/src/.*\.rt", name):
            if commit:
                text = subprocess.run(["git", "show", f"{commit}:{name}"], capture_output=True, text=True, check=True).stdout
            else:
                try:
                    text = open(name).read()
                except FileNotFoundError:
                    continue
            yield name[len("crates/"):], text


def functions(text):
    """(line, name, parameters, clauses, body) of each function."""
    for m in re.finditer(r"^( *)(?:pub(?:\(crate\))? )?(?:const )?fn (\w+)(?:<[^>]*>)?\(", text, re.M):
        depth, at = 1, m.end()
        while depth:
            depth += {"(": 1, ")": -1}.get(text[at], 0)
            at += 1
        params = text[m.end():at - 1]
        rest = text[at:]
        clauses = re.findall(r"^\s+(requires|ensures)[^\n]*?\{ (.*) \}$", rest[:rest.find("\n" + m.group(1) + "}")], re.M)
        end = rest.find("\n" + m.group(1) + "}")
        yield text[:m.start()].count("\n") + 1, m.group(2), params, clauses, rest[:end]


def point(number, title, found):
    print(f"\n{number}. {title}: {len(found)}")
    for line in found:
        print("   ", line)


def lines(files, pattern):
    return [f"{name}:{i}: {line.strip()}" for name, text in files for i, line in enumerate(text.split("\n"), 1)
            if re.search(pattern, line) and not line.strip().startswith("//") and not line.startswith("ghost use")]


def main():
    commit = sys.argv[1] if len(sys.argv) > 1 else None
    files = list(sources(commit))

    point(1, "enums, flags, results that are a truth, numbers of a kind or a refusal",
          lines(files, r"^\s*(pub(\(crate\))? )?enum |let mut \w+ = (true|false);|fn .*Result<bool|\b(kind|number): u\d+"))

    shapes = collections.defaultdict(list)
    for name, text in files:
        for line, fn, params, clauses, body in functions(text):
            body = body[body.find("\n    {") if "\n    {" in body else body.find("\n{"):]
            shape = re.sub(r"\b[A-Za-z_]\w*\b", "x", re.sub(r"//.*", "", body))
            shape = re.sub(r"\d+", "0", re.sub(r"\s+", " ", shape))
            if len(shape) > 25:
                shapes[shape].append(f"{name}:{line} {fn}")
    twins = [", ".join(group) for group in shapes.values() if len(group) > 1]
    impls = collections.Counter(re.sub(r"\w+Fault", "_", line.split(": ", 1)[1]) for line in lines(files, r"^impl.* for "))
    point(2, "functions whose bodies have one shape, and impls that differ in a type",
          twins + [f"{n} times: {line}" for line, n in impls.items() if n > 1])

    point(3, "loops, ranges, and indices that are counted",
          lines(files, r"\b(while|loop)\b.*\{$|\bfor .* in |\[\w+ as usize\]|\[\d+\]|at \+ \d+"))

    point(4, "equality, order, conversion and printing",
          lines(files, r"impl.* (From|TryFrom|fmt::Display|PartialEq|PartialOrd|Ord|Clone)\b.* for |\(Class::\w+, Class::\w+\)|match (class|role|last\.class)|let number = |fn (sentence|stands_for)|fn parse"))

    needs = collections.defaultdict(list)
    pairs = collections.defaultdict(list)
    for name, text in files:
        for line, fn, params, clauses, body in functions(text):
            for kind, clause in clauses:
                if kind == "requires":
                    for word in set(re.findall(r"\b(are_earlier|earlier|ranged|AllShort|nat_lt o\.node|crossed)\b", clause)):
                        needs[word].append(f"{name} {fn}")
            ps = [p.strip() for p in re.split(r",\s*(?![^<(]*[>)])", params) if p.strip() and "self" not in p]
            ps = [re.sub(r"^mut ", "", p) for p in ps]
            for a in range(len(ps)):
                for b in range(a + 1, len(ps)):
                    pairs[ps[a], ps[b]].append(f"{name} {fn}")
    point(5, "what three functions or more require, and parameters that three or more take together",
          [f"{len(fns)} times: {clause}" for clause, fns in needs.items() if len(fns) > 2]
          + [f"{len(fns)} times: {a}, {b} ({'; '.join(fns)})" for (a, b), fns in pairs.items() if len(fns) > 2])

    point(6, "arrays, counts, and a Vec with a number beside it",
          lines(files, r": \[\w+; \d+\]|^\s+(pub(\(crate\))? )?(count|places|length): |: Vec<|&mut Vec<"))

    point(7, "steps that are chosen by a match, and functions as values",
          lines(files, r"match (step|\*step)\b|fn\(|dyn |impl Fn|Fn(Once|Mut)?\("))


main()
