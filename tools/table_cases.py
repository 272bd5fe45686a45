#!/usr/bin/env python3
"""Writes the cases of crates/trials and the samples of crates/inspect.

The expected answers come from `verdict` and `span` below, which are written from docs/table-format.md alone and
share nothing with the proved code. Run it from the top of the repository:

    python3 tools/table_cases.py
"""
import random
from pathlib import Path

SIGNAL, AND, NOT, OR, PAST = 2, 4, 3, 5, 6
BOOLEAN, SEQUENCE, PROPERTY = "Boolean", "sequence", "property"
ORDER = {BOOLEAN: 0, SEQUENCE: 1, PROPERTY: 2}

# kind: (class, roles of a and b, which of m and n it uses)
KINDS = {
    1: (BOOLEAN, (), "m"),
    2: (BOOLEAN, (), "m"),
    3: (BOOLEAN, (BOOLEAN,), ""),
    4: (BOOLEAN, (BOOLEAN, BOOLEAN), ""),
    5: (BOOLEAN, (BOOLEAN, BOOLEAN), ""),
    6: (BOOLEAN, (BOOLEAN,), "m"),
    16: (SEQUENCE, (SEQUENCE, SEQUENCE), "mn"),
    17: (SEQUENCE, (SEQUENCE, SEQUENCE), ""),
    18: (SEQUENCE, (SEQUENCE,), "mn"),
    19: (SEQUENCE, (SEQUENCE, SEQUENCE), ""),
    20: (SEQUENCE, (SEQUENCE, SEQUENCE), ""),
    21: (SEQUENCE, (SEQUENCE, SEQUENCE), ""),
    22: (SEQUENCE, (BOOLEAN, SEQUENCE), ""),
    23: (SEQUENCE, (SEQUENCE, SEQUENCE), ""),
    24: (SEQUENCE, (SEQUENCE,), ""),
    32: (PROPERTY, (PROPERTY,), ""),
    33: (PROPERTY, (PROPERTY, PROPERTY), ""),
    34: (PROPERTY, (PROPERTY, PROPERTY), ""),
    35: (PROPERTY, (SEQUENCE, PROPERTY), ""),
    36: (PROPERTY, (SEQUENCE, PROPERTY), ""),
    38: (PROPERTY, (PROPERTY,), "m"),
    39: (PROPERTY, (PROPERTY,), "mn"),
    40: (PROPERTY, (PROPERTY,), "mn"),
}


def ranged(kind, m, n, signals):
    if kind == 1:
        return m <= 1
    if kind == 2:
        return m < signals
    if kind == 6:
        return 1 <= m <= 16
    if kind == 16:
        return 1 <= m <= n <= 31
    if kind in (18, 39, 40):
        return m <= n <= 31
    if kind == 38:
        return m <= 31
    return True


def lengths(kind, x, y, m, n):
    """(lo, hi) of a sequence."""
    if kind == 16:
        return x["lo"] + y["lo"] + m - 1, x["hi"] + y["hi"] + n - 1
    if kind == 17:
        return max(x["lo"], 1) + max(y["lo"], 1) - 1, x["hi"] + y["hi"] - 1
    if kind == 18:
        return m * x["lo"], n * x["hi"]
    if kind == 19:
        return min(x["lo"], y["lo"]), max(x["hi"], y["hi"])
    if kind == 20:
        return max(x["lo"], y["lo"]), min(x["hi"], y["hi"])
    if kind == 21:
        return max(x["lo"], y["lo"]), max(x["hi"], y["hi"])
    if kind == 22:
        return y["lo"], y["hi"]
    if kind == 23:
        return max(x["lo"], y["lo"]), y["hi"]
    return x["lo"], x["hi"]


def horizon(kind, x, y, m, n):
    ahead = lambda z: z["horizon"] if z["class"] == PROPERTY else z["hi"] - 1
    if kind == 32:
        return ahead(x)
    if kind in (33, 34):
        return max(ahead(x), ahead(y))
    if kind == 35:
        return x["hi"] - 1 + ahead(y)
    if kind == 36:
        return x["hi"] + ahead(y)
    if kind == 38:
        return m + ahead(x)
    return n + ahead(x)


def node(i, word, signals, known):
    """What is known of node i, or the number of its refusal."""
    kind, a, b, z3, m, n, z6, z7 = word
    if kind not in KINDS or z3 or z6 or z7:
        return 3
    cls, roles, numbers = KINDS[kind]
    if (len(roles) < 1 and a) or (len(roles) < 2 and b) or ("m" not in numbers and m) or ("n" not in numbers and n):
        return 3
    used = (a, b)[: len(roles)]
    if any(k >= i for k in used):
        return 4
    taken = [known[k] for k in used]
    if any(ORDER[t["class"]] > ORDER[r] for t, r in zip(taken, roles)):
        return 5
    if not ranged(kind, m, n, signals):
        return 6
    x = taken[0] if taken else None
    y = taken[1] if len(taken) > 1 else None
    if kind == 20 and max(x["lo"], y["lo"]) > min(x["hi"], y["hi"]):
        return 7
    if kind == 17 and 0 in (x["hi"], y["hi"]):
        return 7
    if kind == 23 and x["lo"] > y["hi"]:
        return 7
    if kind == 35 and x["hi"] == 0:
        return 7
    if any(r == PROPERTY and t["class"] == SEQUENCE and t["lo"] == 0 for t, r in zip(taken, roles)):
        return 8
    back = max([t["back"] for t in taken], default=0) + (m if kind == 6 else 0)
    if cls == BOOLEAN:
        found = {"class": cls, "lo": 1, "hi": 1, "horizon": 0}
    elif cls == SEQUENCE:
        lo, hi = lengths(kind, x, y, m, n)
        found = {"class": cls, "lo": lo, "hi": hi, "horizon": hi - 1}
    else:
        found = {"class": cls, "lo": 0, "hi": 0, "horizon": horizon(kind, x, y, m, n)}
    found["back"] = back
    if found["hi"] > 32 or back > 32 or found["horizon"] > 31:
        return 9
    return found


def examine(data):
    """The refusal as text, or the horizon and the lookback."""
    count = data[0] if data else 0
    if not 1 <= count <= 32 or len(data) != 16 + 8 * count:
        return "refused 1 0"
    signals, ceiling = data[1], int.from_bytes(data[8:16], "little")
    if not 1 <= signals <= 64 or any(data[2:8]) or not 1 <= ceiling <= 2**40:
        return "refused 2 0"
    known = []
    for i in range(count):
        found = node(i, data[16 + 8 * i : 24 + 8 * i], signals, known)
        if isinstance(found, int):
            return f"refused {found} {i}"
        known.append(found)
    last = known[-1]
    if last["class"] == SEQUENCE and last["lo"] == 0:
        return f"refused 8 {count - 1}"
    return last["horizon"], max(k["back"] for k in known)


def verdict(data):
    found = examine(data)
    if isinstance(found, str):
        return found
    ahead, back = found
    scratch = (data[0] + 2) * ((ahead + 2) ** 2 + back)
    return f"accepted, horizon {ahead}, lookback {back}, scratch {scratch}"


def span(data, start):
    found = examine(data)
    if isinstance(found, str):
        return found
    ahead, back = found
    return "refused 16 0" if start > 2**40 else f"span {max(0, start - back)} to {start + ahead}"


def word(kind, a=0, b=0, m=0, n=0):
    return bytes([kind, a, b, 0, m, n, 0, 0])


def table(nodes, signals=3, ceiling=100):
    head = bytes([len(nodes), signals, 0, 0, 0, 0, 0, 0]) + ceiling.to_bytes(8, "little")
    return head + b"".join(nodes)


# three signals a, b, c
A, B, C = word(2, m=0), word(2, m=1), word(2, m=2)
ABC = [A, B, C]


def hand_cases():
    """(title, bytes): every refusal, and both sides of every limit."""
    put = lambda data, at, value: data[:at] + bytes([value]) + data[at + 1 :]
    good = table(ABC + [word(36, 0, 1)])
    yield "a |=> b", good
    # 1: the length and the node count
    yield "no byte at all", b""
    yield "one byte", b"\1"
    yield "header alone, no node", table([])
    yield "33 nodes", table([A] * 33)
    yield "32 nodes", table([A] * 32)
    yield "one byte short", good[:-1]
    yield "one byte long", good + b"\0"
    yield "a node count above the bytes", put(good, 0, 5)
    yield "a node count below the bytes", put(good, 0, 3)
    yield "a wrong length goes before a wrong signal count", put(good, 1, 0)[:-1]
    # 2: the header
    yield "no signal", table([word(1)], signals=0)
    yield "1 signal", table([word(1)], signals=1)
    yield "64 signals", table([word(1)], signals=64)
    yield "65 signals", table([word(1)], signals=65)
    for at in range(2, 8):
        yield f"header byte {at} set", put(good, at, 1)
    yield "ceiling 0", table([word(1)], ceiling=0)
    yield "ceiling 1", table([word(1)], ceiling=1)
    yield "ceiling 2^40", table([word(1)], ceiling=2**40)
    yield "ceiling 2^40 + 1", table([word(1)], ceiling=2**40 + 1)
    yield "ceiling 2^63", table([word(1)], ceiling=2**63)
    yield "a wrong header goes before a wrong node", table([word(0)], signals=0)
    # 3: kinds, unused fields, zero bytes
    for kind in list(range(0, 42)) + [63, 64, 128, 255]:
        if kind not in KINDS:
            yield f"kind {kind}", table(ABC + [word(kind)])
    for kind, (_, roles, numbers) in KINDS.items():
        full = word(kind, 0, 1 if len(roles) > 1 else 0, 1 if "m" in numbers else 0, 1 if "n" in numbers else 0)
        yield f"kind {kind}, all as it should be", table(ABC + [full])
        for at, name in ((1, "a"), (2, "b"), (3, "byte 3"), (4, "m"), (5, "n"), (6, "byte 6"), (7, "byte 7")):
            used = {1: len(roles) > 0, 2: len(roles) > 1, 4: "m" in numbers, 5: "n" in numbers}.get(at, False)
            if not used:
                yield f"kind {kind} with {name} set", table(ABC + [put(full, at, 1)])
    yield "an unused operand that is not earlier is no operand", table([put(word(1), 1, 9)])
    # 4: operands
    yield "an operand that is the node itself", table(ABC + [word(3, 3)])
    yield "an operand behind the node", table(ABC + [word(3, 4), A])
    yield "a first node with an operand", table([word(3, 0)])
    yield "the second operand is the node itself", table(ABC + [word(4, 0, 3)])
    yield "operand 255", table(ABC + [word(4, 0, 255)])
    yield "a late operand goes before a wrong number", table(ABC + [word(6, 3, 0, 0)])
    # 5: classes, each operand place with each class: n0 Boolean, n1 sequence, n2 property
    classes = [A, word(16, 0, 0, 1, 1), word(32, 0)]
    for kind, (_, roles, numbers) in KINDS.items():
        m, n = (1 if "m" in numbers else 0), (1 if "n" in numbers else 0)
        for a in range(3 if len(roles) > 0 else 0):
            for b in range(3) if len(roles) > 1 else [0]:
                yield f"kind {kind} over n{a}" + (f", n{b}" if len(roles) > 1 else ""), table(classes + [word(kind, a, b, m, n)])
    yield "a wrong class goes before a wrong number", table(classes + [word(6, 1, 0, 0)])
    # 6: numbers
    yield "constant 0", table([word(1, m=0)])
    yield "constant 1", table([word(1, m=1)])
    yield "constant 2", table([word(1, m=2)])
    yield "signal 2 of 3", table([word(2, m=2)])
    yield "signal 3 of 3", table([word(2, m=3)])
    yield "signal 63 of 64", table([word(2, m=63)], signals=64)
    yield "signal 64 of 64", table([word(2, m=64)], signals=64)
    for m in (0, 1, 16, 17):
        yield f"past(a, {m})", table([A, word(6, 0, m=m)])
    for m, n in ((0, 0), (0, 1), (1, 1), (1, 2), (2, 1), (30, 30), (31, 31), (1, 31), (32, 32), (1, 32)):
        yield f"a ##[{m}:{n}] b", table(ABC + [word(16, 0, 1, m, n)])
    for m, n in ((0, 0), (0, 1), (1, 0), (1, 1), (31, 31), (1, 31), (31, 32), (32, 32), (5, 4)):
        yield f"a[*{m}:{n}]", table(ABC + [word(18, 0, 0, m, n)])
    for m in (0, 31, 32, 255):
        yield f"nexttime[{m}] a", table([A, word(38, 0, m=m)])
    for kind, name in ((39, "always"), (40, "s_eventually")):
        for m, n in ((0, 0), (0, 31), (31, 31), (0, 32), (1, 0), (255, 255)):
            yield f"{name}[{m}:{n}] a", table([A, word(kind, 0, 0, m, n)])
    # 7: lengths that leave no match; n3 is a[*0]
    none = word(18, 0, 0, 0, 0)
    maybe = word(18, 0, 0, 0, 1)
    yield "a[*0] ##0 b", table(ABC + [none, word(17, 3, 1)])
    yield "b ##0 a[*0]", table(ABC + [none, word(17, 1, 3)])
    yield "a[*0:1] ##0 b", table(ABC + [maybe, word(17, 3, 1)])
    yield "b ##0 a[*0:1]", table(ABC + [maybe, word(17, 1, 3)])
    delays = lambda x, y: ABC + [word(16, 0, 1, x, x), word(16, 0, 2, y, y)]
    yield "(a ##1 b) intersect (a ##2 c)", table(delays(1, 2) + [word(20, 3, 4)])
    yield "(a ##2 b) intersect (a ##2 c)", table(delays(2, 2) + [word(20, 3, 4)])
    yield "(a ##1 b) and (a ##2 c)", table(delays(1, 2) + [word(21, 3, 4)])
    yield "(a ##1 b) or (a ##2 c)", table(delays(1, 2) + [word(19, 3, 4)])
    yield "(a ##1 b) within (a ##2 c)", table(delays(1, 2) + [word(23, 3, 4)])
    yield "(a ##2 b) within (a ##2 c)", table(delays(2, 2) + [word(23, 3, 4)])
    yield "(a ##3 b) within (a ##2 c)", table(delays(3, 2) + [word(23, 3, 4)])
    yield "b within a[*3]", table(ABC + [word(18, 0, 0, 3, 3), word(23, 1, 3)])
    yield "a[*0] within b", table(ABC + [none, word(23, 3, 1)])
    yield "a[*0] |-> b", table(ABC + [none, word(35, 3, 1)])
    yield "a[*0:1] |-> b", table(ABC + [maybe, word(35, 3, 1)])
    yield "a[*0] |=> b", table(ABC + [none, word(36, 3, 1)])
    yield "a[*0] |-> a[*0] is 7 before 8", table(ABC + [none, word(35, 3, 3)])
    # 8: an empty match where a property stands
    yield "a[*0]", table([A, none])
    yield "a[*0:1]", table([A, maybe])
    yield "not a[*0:1]", table([A, maybe, word(32, 1)])
    yield "a[*0:1] or b as properties", table(ABC + [maybe, word(33, 3, 1)])
    yield "b or a[*0:1] as properties", table(ABC + [maybe, word(33, 1, 3)])
    yield "b and a[*0:1] as properties", table(ABC + [maybe, word(34, 1, 3)])
    yield "b |-> a[*0:1]", table(ABC + [maybe, word(35, 1, 3)])
    yield "b |=> a[*0:1]", table(ABC + [maybe, word(36, 1, 3)])
    yield "nexttime[1] a[*0:1]", table([A, maybe, word(38, 1, m=1)])
    yield "always[0:1] a[*0:1]", table([A, maybe, word(39, 1, 0, 0, 1)])
    yield "s_eventually[0:1] a[*0:1]", table([A, maybe, word(40, 1, 0, 0, 1)])
    yield "a[*0] or b as sequences", table(ABC + [none, word(19, 3, 1)])
    yield "a[*0] and b as sequences", table(ABC + [none, word(21, 3, 1)])
    yield "always[0:31] a[*0:2] is 8 before 9", table([A, word(18, 0, 0, 0, 2), word(39, 1, 0, 0, 31)])
    yield "a last node with lo 0 and hi 62 is 9 before 8", table([A, word(18, 0, 0, 0, 31), word(16, 1, 1, 1, 1)])
    yield "an empty sequence in the middle, not used", table([A, none, B])
    # 9: lengths, lookback, horizon
    yield "a[*31] ##1 b", table(ABC + [word(18, 0, 0, 31, 31), word(16, 3, 1, 1, 1)])
    yield "a[*31] ##2 b", table(ABC + [word(18, 0, 0, 31, 31), word(16, 3, 1, 2, 2)])
    sixteen = [A, word(18, 0, 0, 16, 16)]
    yield "16 times 2 cycles", table(sixteen + [word(18, 1, 0, 2, 2)])
    yield "16 times 16 cycles: 256", table(sixteen + [word(18, 1, 0, 16, 16)])
    nine = [A, word(18, 0, 0, 9, 9)]
    yield "31 times 9 cycles: 279", table(nine + [word(18, 1, 0, 31, 31)])
    full = [A, word(18, 0, 0, 31, 31), word(16, 1, 0, 1, 1)]
    yield "32 cycles", table(full)
    yield "31 times 32 cycles: 992", table(full + [word(18, 2, 0, 31, 31)])
    yield "32 cycles ##[31] 32 cycles: 94", table(full + [word(16, 2, 2, 31, 31)])
    yield "a long node that is not used", table(full + [word(16, 2, 2, 31, 31), B])
    pasts = [A, word(6, 0, m=16), word(6, 1, m=16)]
    yield "lookback 32", table(pasts)
    yield "lookback 33", table(pasts + [word(6, 2, m=1)])
    yield "lookback 48", table(pasts + [word(6, 2, m=16)])
    yield "a lookback of a node that is not used", table(pasts + [B])
    yield "32 cycles |-> b", table(full + [B, word(35, 2, 3)])
    yield "32 cycles |=> b", table(full + [B, word(36, 2, 3)])
    yield "31 cycles |=> b", table([A, word(18, 0, 0, 31, 31), B, word(36, 1, 2)])
    yield "32 cycles |-> 32 cycles: 62", table(full + [word(35, 2, 2)])
    yield "32 cycles |=> 32 cycles: 63", table(full + [word(36, 2, 2)])
    yield "nexttime[31] nexttime[1] a", table([A, word(38, 0, m=1), word(38, 1, m=31)])
    yield "nexttime[30] nexttime[1] a", table([A, word(38, 0, m=1), word(38, 1, m=30)])
    yield "always[0:31] nexttime[1] a", table([A, word(38, 0, m=1), word(39, 1, 0, 0, 31)])
    yield "s_eventually[0:30] nexttime[1] a", table([A, word(38, 0, m=1), word(40, 1, 0, 0, 30)])
    yield "node by node: 9 at n2 before 3 at n3", table([A, word(18, 0, 0, 31, 31), word(16, 1, 1, 1, 1), word(0)])
    # what lengths and lookback are made of
    ab = ABC + [word(18, 0, 0, 2, 5), word(18, 1, 0, 3, 4)]
    for kind in (16, 17, 19, 20, 21, 22, 23):
        m = 2 if kind == 16 else 0
        n = 3 if kind == 16 else 0
        yield f"lengths 2 to 5 and 3 to 4 under kind {kind}", table(ab + [word(kind, 2 if kind == 22 else 3, 4, m, n)])
    yield "first_match of 2 to 5 cycles", table(ab + [word(24, 3)])
    yield "2 to 5 cycles, [*2:3]", table(ab + [word(18, 3, 0, 2, 3)])
    ahead = ABC + [word(38, 0, m=3), word(38, 1, m=5), word(6, 2, m=4)]
    for kind in (33, 34):
        yield f"horizons 3 and 5 under kind {kind}", table(ahead + [word(kind, 3, 4)])
    yield "past in the antecedent", table(ahead + [word(35, 5, 4)])
    yield "past in the consequent", table(ahead + [word(36, 0, 5)])
    yield "first_match(a ##[1:2] b) |-> c", table(ABC + [word(16, 0, 1, 1, 2), word(24, 3), word(35, 4, 2)])
    yield "a |-> past(!b, 1)", table(ABC + [word(3, 1), word(6, 3, m=1), word(35, 0, 4)])
    yield "a[*0:1] ##1 b", table(ABC + [maybe, word(16, 3, 1, 1, 1)])


def span_cases():
    """(title, bytes, start): starts before and behind the lookback, and both sides of the last start."""
    tables = [
        ("a |=> b", table(ABC + [word(36, 0, 1)])),
        ("past(a, 3) |=> b", table(ABC + [word(6, 0, m=3), word(36, 3, 1)])),
        ("lookback 32, horizon 31", table([A, word(6, 0, m=16), word(6, 1, m=16), word(38, 2, m=31)])),
        ("a lookback of 5 that is not used", table([A, word(6, 0, m=5), B])),
    ]
    for title, data in tables:
        for start in (0, 1, 2, 3, 4, 5, 31, 32, 33, 2**40 - 1, 2**40, 2**40 + 1, 2**41, 2**64 - 1):
            yield f"{title}, start {start}", data, start


def random_tables(count):
    """Tables that are mostly right, with a field changed here and there."""
    rng = random.Random(1800)
    kinds = list(KINDS)
    for k in range(count):
        nodes = [word(2, m=rng.randrange(3)) for _ in range(2)]
        wanted = rng.randrange(3, 16)
        while len(nodes) < wanted:
            kind = rng.choice(kinds if rng.random() < 0.3 else kinds[6:])
            roles, numbers = KINDS[kind][1], KINDS[kind][2]
            low = rng.choice((0, 0, 1, 1, 2, 3))
            fields = [kind, 0, 0, 0, 0, 0, 0, 0]
            for at in range(len(roles)):
                fields[1 + at] = max(rng.randrange(len(nodes)), rng.randrange(len(nodes)))
            if "m" in numbers:
                fields[4] = low
            if "n" in numbers:
                fields[5] = low + rng.randrange(4)
            if rng.random() < 0.02:
                fields[rng.randrange(8)] = rng.choice((1, 2, 16, 32, 37, 255))
            candidate = bytes(fields)
            # keep a node that is refused only now and then, so that tables grow long
            if verdict(table(nodes + [candidate, A])).startswith("accepted") or rng.random() < 0.1:
                nodes.append(candidate)
        yield f"random {k}", table(nodes)


def samples():
    rule = ABC + [word(36, 0, 1)]
    yield "table.bin", table(rule)
    yield "feeder.bin", table(
        [
            word(2, m=0),
            word(2, m=1),
            word(2, m=2),
            word(6, 0, m=2),
            word(4, 1, 3),
            word(18, 2, 0, 0, 3),
            word(16, 5, 1, 1, 4),
            word(22, 2, 6),
            word(24, 6),
            word(35, 4, 7),
            word(39, 9, 0, 0, 7),
        ],
        signals=16,
        ceiling=1000000,
    )
    yield "middle.bin", table(
        ABC + [word(16, 0, 1, 1, 1), word(16, 0, 2, 2, 2), word(20, 3, 4), word(35, 5, 2)]
    )
    yield "end.bin", table(ABC + [word(18, 0, 0, 0, 2), word(19, 3, 1)])
    yield "form.bin", table(ABC + [word(37, 0, 1)])
    yield "header.bin", table(rule, signals=65)
    yield "torn.bin", table(rule)[:41]


def main():
    cases = list(hand_cases()) + list(random_tables(300))
    spans = list(span_cases())
    stdin = "".join(f"{title}; {data.hex(' ')}\n" for title, data in cases)
    stdin += "".join(f"{title}; {data.hex(' ')}; {start}\n" for title, data, start in spans)
    stdout = "".join(f"{title}: {verdict(data)}\n" for title, data in cases)
    stdout += "".join(f"{title}: {span(data, start)}\n" for title, data, start in spans)
    Path("crates/trials/stdin").write_text(stdin)
    Path("crates/trials/stdout").write_text(stdout)
    folder = Path("crates/inspect/data")
    folder.mkdir(parents=True, exist_ok=True)
    for name, data in samples():
        (folder / name).write_bytes(data)
    numbers = sorted({line.rsplit("refused ", 1)[1].split()[0] for line in stdout.splitlines() if "refused" in line})
    print(len(cases), "tables,", len(spans), "spans; refusals reached:", " ".join(numbers))


main()
