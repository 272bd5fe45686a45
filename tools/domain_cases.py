#!/usr/bin/env python3
"""Writes the cases of crates/agreement.

The expected answers come from `over_rows` and `over_gates` below, which are written from docs/domains.md alone and share
nothing with the proved code. Run it from the top of the repository:

    python3 tools/domain_cases.py
"""
import random
from pathlib import Path

END = 2**41
PLACES = 2**32


class Refused(Exception):
    pass


class Nothing(Exception):
    pass


def work_out(steps, atom, gate, place, joined):
    """The value of the steps. `place` is asked for each & and |; `joined` keeps what they give."""
    values = []
    for step in steps:
        if step in ("0", "1"):
            values.append(step == "1")
        elif step[0] == "s":
            signal, cycle = map(int, step[1:].split("@"))
            values.append(atom(signal, cycle))
        elif step[0] == "g":
            values.append(gate(int(step[1:])))
        else:
            wanted = 1 if step == "!" else 2
            if len(values) < wanted:
                raise Nothing
            operands = values[-wanted:]
            del values[-wanted:]
            if None in operands:
                raise Refused("25 0")
            if step == "!":
                values.append(not operands[0])
                continue
            place()
            value = all(operands) if step == "&" else any(operands)
            joined(step, value)
            values.append(value)
    if not values:
        raise Nothing
    return values[-1]


def high(first, rows, signal, cycle):
    return first <= cycle < first + len(rows) and rows[cycle - first] >> signal & 1 == 1


def answer(f):
    try:
        return {True: "true", False: "false", None: "false"}[f()]
    except Refused as refused:
        return f"refused {refused}"
    except Nothing:
        return "nothing"


def over_rows(first, rows, steps):
    held = len(rows) if first + len(rows) <= END else 0

    def atom(signal, cycle):
        if signal > 63 or not first <= cycle < first + held:
            raise Refused("26 0")
        return high(first, rows, signal, cycle)

    def gate(place):
        raise Nothing

    return answer(lambda: work_out(steps, atom, gate, lambda: None, lambda step, value: None))


def over_gates(first, rows, length, steps):
    """Each & and | is one gate. The gate of a | is true where the | is not."""
    gates = []
    most = min(length, PLACES)

    def atom(signal, cycle):
        if signal > 63 or cycle >= END:
            raise Refused("26 0")
        return high(first, rows, signal, cycle)

    def gate(place):
        return gates[place] if place < len(gates) else None

    def place():
        if len(gates) == most:
            raise Refused("24 0")

    def joined(step, value):
        gates.append(value if step == "&" else not value)

    given = answer(lambda: work_out(steps, atom, gate, place, joined))
    return f"{given}, {len(gates)} used, {most - len(gates)} free"


def hand_cases():
    yield "constant 0", 0, [], 0, "0"
    yield "constant 1 takes no place", 0, [], 0, "1"
    yield "not of a constant takes no place", 0, [], 0, "1 !"
    yield "an atom takes no place", 7, [1], 0, "s0@7"
    yield "the same atom twice", 7, [1], 1, "s0@7 s0@7 &"
    yield "and takes one", 7, [1, 2], 1, "s0@7 s1@8 &"
    yield "or takes one", 7, [1, 2], 1, "s0@8 s1@8 |"
    yield "no place for and", 7, [1, 2], 0, "s0@7 s1@8 &"
    yield "no place for or", 7, [1, 2], 0, "s0@7 s1@8 |"
    yield "no place for the second and", 7, [1, 2], 1, "s0@7 s1@8 & s0@7 &"
    yield "the third and fits exactly", 7, [1, 2], 3, "s0@7 s1@8 & s0@7 & s0@7 &"
    yield "not needs no place in a full list", 7, [1, 2], 1, "s0@7 s1@8 & !"
    yield "signal 63", 0, [2**63, 2**63 - 1], 4, "s63@0"
    yield "signal 63 is low", 0, [2**63, 2**63 - 1], 4, "s63@1"
    yield "signal 64", 0, [2**64 - 1], 4, "s64@0"
    yield "signal 255", 0, [2**64 - 1], 4, "s255@0"
    yield "signal 0 is not the last", 0, [2**64 - 2], 4, "s0@0"
    yield "the first cycle", 100, [1, 0, 1], 4, "s0@100"
    yield "a cycle before the first", 100, [1, 1, 1], 4, "s0@99"
    yield "cycle 0 before a later first", 100, [1, 1, 1], 4, "s0@0"
    yield "the last cycle", 100, [0, 0, 1], 4, "s0@102"
    yield "a cycle behind the last", 100, [1, 1, 1], 4, "s0@103"
    yield "no rows", 5, [], 4, "s0@5"
    yield "rows up to the largest cycle", END - 2, [0, 1], 4, f"s0@{END - 1}"
    yield "a row past the largest cycle", END - 2, [1, 1, 1], 4, f"s0@{END - 2}"
    yield "a first cycle at the end", END, [1], 4, f"s0@{END}"
    yield "no rows at the end", END, [], 4, f"s0@{END}"
    yield "a first cycle far behind the end", 2**64 - 1, [1, 1], 4, f"s0@{2**64 - 1}"
    yield "the largest cycle", 0, [1], 4, f"s0@{END - 1}"
    yield "a cycle past the largest", 0, [1], 4, f"s0@{END}"
    yield "the last number of a cycle", 0, [1], 4, f"s0@{2**64 - 1}"
    yield "a gate of an empty list", 0, [1], 4, "g0 !"
    yield "a gate that is the next one", 0, [1], 4, "1 1 & g1 &"
    yield "the gate that is there", 0, [1], 4, "1 1 & g0 &"
    yield "the gate of an or", 0, [1], 4, "1 0 | g0 |"
    yield "the gate of an or, negated", 0, [1], 4, "1 0 | ! g0 |"
    yield "not of a gate that is not there", 0, [1], 4, "1 1 & g7 !"
    yield "and, left not issued", 0, [1], 4, "g0 1 &"
    yield "and, right not issued", 0, [1], 4, "1 g0 &"
    yield "or, left not issued", 0, [1], 4, "g3 1 |"
    yield "or, right not issued", 0, [1], 4, "1 g3 |"
    yield "and, neither issued", 0, [1], 4, f"g{2**32 - 1} g0 &"
    yield "not issued goes before a full list, and", 0, [1], 0, "1 g0 &"
    yield "not issued goes before a full list, or", 0, [1], 0, "g0 1 |"
    yield "a refusal leaves the gates before it", 0, [1], 3, "1 1 & s0@0 | s64@0 &"
    yield "an operator without its operand", 0, [1], 4, "1 &"
    yield "no step", 0, [1], 4, ""
    for a in "01":
        yield f"not {a}", 0, [], 4, f"{a} !"
        for b in "01":
            yield f"{a} and {b}", 0, [], 4, f"{a} {b} &"
            yield f"{a} or {b}", 0, [], 4, f"{a} {b} |"


def random_steps(rng, first, rows, depth):
    if depth == 0 or rng.random() < 0.15:
        if rng.random() < 0.1:
            return [rng.choice("01")]
        return [f"s{rng.choice([0, 1, 2, 31, 63])}@{first + rng.randrange(len(rows))}"]
    if rng.random() < 0.3:
        return random_steps(rng, first, rows, depth - 1) + ["!"]
    left = random_steps(rng, first, rows, depth - 1)
    right = random_steps(rng, first, rows, depth - 1)
    return left + right + [rng.choice("&|")]


def random_cases(count):
    rng = random.Random(4)
    for i in range(count):
        rows = [rng.getrandbits(64) for _ in range(rng.randint(1, 5))]
        first = rng.choice([0, 1, 1000, 2**40, END - len(rows)])
        steps = random_steps(rng, first, rows, rng.randint(1, 6))
        joins = sum(step in "&|" for step in steps)
        length = rng.choice([joins, joins + 1, 64, 64, 64, max(0, joins - 1)])
        yield f"random {i}", first, rows, length, " ".join(steps)


def main():
    cases = list(hand_cases()) + list(random_cases(500))
    stdin, stdout, counts = [], [], {}
    for title, first, rows, length, steps in cases:
        stdin.append(f"{title}; {first}; {' '.join(f'{row:x}' for row in rows)}; {length}; {steps}\n")
        on_rows = over_rows(first, rows, steps.split())
        on_gates = over_gates(first, rows, length, steps.split())
        stdout.append(f"{title}: rows {on_rows}, gates {on_gates}\n")
        for told in (f"rows {on_rows}", f"gates {on_gates.split(',')[0]}"):
            counts[told] = counts.get(told, 0) + 1
    Path("crates/agreement/stdin").write_text("".join(stdin))
    Path("crates/agreement/stdout").write_text("".join(stdout))
    print(len(cases), "expressions:", ", ".join(f"{told} {count}" for told, count in sorted(counts.items())))


main()
