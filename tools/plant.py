#!/usr/bin/env python3
"""Plants changes in the definitions of a crate, one at a time, and says what notices each.

    python3 tools/plant.py [CRATE | CRATE/NAME ..]

The changes for crates/CRATE/specs/NAME.antt stand in tools/planted/CRATE/NAME.txt, one a line: what stands there once, ' ==> ',
what is put in its place, and behind ' ;; ' a further such pair. Each is tried in a copy of the crates, by `rt check`, some five to twenty seconds each. A line is printed for each:
'examples' where a worked example is refused, 'proofs' where only the proof of a law or of a function is, 'NOT NOTICED' otherwise.
"""
import re
import shutil
import subprocess
import sys
import tempfile
from pathlib import Path

HERE = Path(__file__).parent


def check(top, crate):
    done = subprocess.run(["rt", "check"], cwd=top / "crates" / crate, capture_output=True, text=True)
    return done.stdout + done.stderr


def noticed(text):
    if re.search(r"specs/\w+\.antt:\d+:\d+: error", text):
        return "NO DEFINITION"
    if re.search(r"proofs/Examples\.antt:\d+:\d+: error|^fn \w+::laws::\w+_examples: no", text, re.M):
        return "examples"
    return "NOT NOTICED" if re.findall(r"logic=\S+", text)[-1:] == ["logic=proved"] else "proofs"


def planted(wanted):
    for changes in sorted((HERE / "planted").glob("*/*.txt")):
        crate, name = changes.parent.name, changes.stem
        if not wanted or crate in wanted or f"{crate}/{name}" in wanted:
            yield crate, name, changes.read_text().splitlines()


def main():
    counts = {}
    with tempfile.TemporaryDirectory() as folder:
        top = Path(folder)
        shutil.copy(HERE.parent / "crates.txt", top)
        shutil.copytree(HERE.parent / "crates", top / "crates", ignore=shutil.ignore_patterns("out"))
        for crate, name, changes in planted(sys.argv[1:]):
            spec = top / f"crates/{crate}/specs/{name}.antt"
            text = spec.read_text()
            for line in changes:
                changed = text
                for pair in line.split(" ;; "):
                    old, new = pair.split(" ==> ")
                    changed = changed.replace(old, new) if changed.count(old) == 1 else None
                    if changed is None:
                        break
                if changed is None:
                    found = "NOT ONCE THERE"
                else:
                    spec.write_text(changed)
                    found = noticed(check(top, crate))
                counts[found] = counts.get(found, 0) + 1
                print(f"{found:14} {crate}/{name}: {line}", flush=True)
            spec.write_text(text)
    print(", ".join(f"{found} {count}" for found, count in sorted(counts.items())))
    sys.exit(0 if set(counts) <= {"examples", "proofs"} else 1)


main()
