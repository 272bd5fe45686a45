#!/usr/bin/env python3
"""A second reading of docs/semantics.md: what each example's property gives on its rows.

It is written from that page alone and shares nothing with the proved definitions: a sequence is
worked out as the set of boundaries at which its matches end. Run from the top of the repository,

    python3 tools/semantics.py

works out every example of the page, and compares the page with crates/sva/specs/Examples.antt: the
statements there have to be the examples here, each once. With --statements it prints them.

An example is an indented line: a property, 'on', rows, and for each row's start its verdict or 'open'.
"""
import re
import sys
from pathlib import Path

BOOLEAN, SEQUENCE, PROPERTY = range(3)
CLASS = {name: BOOLEAN for name in ("constant", "signal", "!", "&&", "||", "past")}
CLASS |= {name: SEQUENCE for name in ("##", "##0", "[*]", "seq or", "intersect", "seq and", "throughout", "within", "first_match")}
CLASS |= {name: PROPERTY for name in ("not", "or", "and", "|->", "|=>", "nexttime", "always", "s_eventually")}

TOKEN = re.compile(r"\s*(1'b[01]|\w+|##|\[\*|\|->|\|=>|&&|\|\||[!()\[\]:,])")


class Reader:
    """Reads a property: at most one operator of two operands inside each pair of brackets."""

    def __init__(self, text):
        self.tokens = TOKEN.findall(text)
        if "".join(self.tokens) != text.replace(" ", ""):
            raise ValueError(f"not read: {text}")
        self.at = 0

    def peek(self):
        return self.tokens[self.at] if self.at < len(self.tokens) else ""

    def take(self, wanted=None):
        token = self.peek()
        if not token or wanted not in (None, token):
            raise ValueError(f"{wanted or 'more'} wanted at {self.at} in {self.tokens}")
        self.at += 1
        return token

    def numbers(self):
        low = int(self.take())
        high = low
        if self.peek() == ":":
            self.take()
            high = int(self.take())
        self.take("]")
        return low, high

    def item(self):
        token = self.take()
        if token == "(":
            node = self.expression()
            self.take(")")
        elif token in ("1'b0", "1'b1"):
            node = ("constant", token == "1'b1")
        elif token in ("a", "b", "c"):
            node = ("signal", "abc".index(token))
        elif token == "!":
            node = ("!", self.item())
        elif token == "past":
            self.take("(")
            x = self.item()
            self.take(",")
            node = ("past", int(self.take()), x)
            self.take(")")
        elif token == "first_match":
            self.take("(")
            node = ("first_match", self.expression())
            self.take(")")
        elif token == "not":
            node = ("not", self.item())
        elif token in ("nexttime", "always", "s_eventually"):
            self.take("[")
            m, n = self.numbers()
            node = ("nexttime", m, self.item()) if token == "nexttime" else (token, m, n, self.item())
        else:
            raise ValueError(f"{token} begins nothing")
        if self.peek() == "[*":
            self.take()
            node = ("[*]", *self.numbers(), node)
        return node

    def expression(self):
        left = self.item()
        if self.peek() in ("", ")", ","):
            return left
        token = self.take()
        if token == "##":
            if self.peek() == "[":
                self.take()
                m, n = self.numbers()
            else:
                m = n = int(self.take())
            right = self.item()
            return ("##0", left, right) if n == 0 else ("##", m, n, left, right)
        right = self.item()
        if token in ("or", "and") and PROPERTY not in (CLASS[left[0]], CLASS[right[0]]):
            token = "seq " + token
        if token not in CLASS:
            raise ValueError(f"{token} joins nothing")
        return (token, left, right)


def read(text):
    reader = Reader(text)
    node = reader.expression()
    if reader.peek():
        raise ValueError(f"{reader.peek()} is left over in {text}")
    return node


def lengths(x):
    kind = x[0]
    if CLASS[kind] == BOOLEAN:
        return 1, 1
    parts = [lengths(y) for y in x[1:] if isinstance(y, tuple)]
    (la, ha), (lb, hb) = parts[0], parts[-1]
    if kind == "##":
        return la + lb + x[1] - 1, ha + hb + x[2] - 1
    if kind == "##0":
        return max(la, 1) + max(lb, 1) - 1, ha + hb - 1
    if kind == "[*]":
        return x[1] * la, x[2] * ha
    return {
        "seq or": (min(la, lb), max(ha, hb)),
        "intersect": (max(la, lb), min(ha, hb)),
        "seq and": (max(la, lb), max(ha, hb)),
        "throughout": (lb, hb),
        "within": (max(la, lb), hb),
        "first_match": (la, ha),
    }[kind]


def horizon(x):
    kind = x[0]
    if CLASS[kind] != PROPERTY:
        return max(lengths(x)[1] - 1, 0)
    ahead = [horizon(y) for y in x[1:] if isinstance(y, tuple)]
    if kind == "|->":
        return lengths(x[1])[1] - 1 + ahead[1]
    if kind == "|=>":
        return lengths(x[1])[1] + ahead[1]
    if kind in ("nexttime", "always", "s_eventually"):
        return x[-2] + ahead[0]
    return max(ahead)


class Trace:
    """Rows; behind the last one all signals are low."""

    def __init__(self, rows):
        self.rows = rows

    def value(self, x, c):
        kind = x[0]
        if kind == "constant":
            return x[1]
        if kind == "signal":
            return c < len(self.rows) and self.rows[c] >> x[1] & 1 == 1
        if kind == "!":
            return not self.value(x[1], c)
        if kind == "&&":
            return self.value(x[1], c) and self.value(x[2], c)
        if kind == "||":
            return self.value(x[1], c) or self.value(x[2], c)
        return c >= x[1] and self.value(x[2], c - x[1])

    def ends(self, x, s):
        """Where the matches that begin at boundary s end."""
        kind = x[0]
        if CLASS[kind] == BOOLEAN:
            return {s + 1} if self.value(x, s) else set()
        if kind == "##":
            _, m, n, a, b = x
            return {e for k in self.ends(a, s) for d in range(m, n + 1) for e in self.ends(b, k + d - 1)}
        if kind == "##0":
            _, a, b = x
            return {e for k in self.ends(a, s) if k > s for e in self.ends(b, k - 1) if e > k - 1}
        if kind == "[*]":
            _, m, n, a = x
            found, now = set(), {s}
            for j in range(n + 1):
                if j >= m:
                    found |= now
                if j < n:
                    now = {e for k in now for e in self.ends(a, k)}
            return found
        if kind == "seq or":
            return self.ends(x[1], s) | self.ends(x[2], s)
        if kind == "intersect":
            return self.ends(x[1], s) & self.ends(x[2], s)
        if kind == "seq and":
            return {max(i, j) for i in self.ends(x[1], s) for j in self.ends(x[2], s)}
        if kind == "throughout":
            return {e for e in self.ends(x[2], s) if all(self.value(x[1], c) for c in range(s, e))}
        if kind == "within":
            return {e for e in self.ends(x[2], s) if any(j <= e for i in range(s, e + 1) for j in self.ends(x[1], i))}
        ends = self.ends(x[1], s)
        return {min(ends)} if ends else set()

    def outcome(self, x, s):
        """Whether the property holds, and whether it is live."""
        kind = x[0]
        if CLASS[kind] != PROPERTY:
            return any(e > s for e in self.ends(x, s)), True
        if kind == "not":
            holds, live = self.outcome(x[1], s)
            return not holds, live
        if kind in ("or", "and"):
            left, right = self.outcome(x[1], s), self.outcome(x[2], s)
            return (left[0] or right[0] if kind == "or" else left[0] and right[0]), left[1] or right[1]
        if kind == "|->":
            found = [self.outcome(x[2], e - 1) for e in self.ends(x[1], s) if e > s]
        elif kind == "|=>":
            found = [self.outcome(x[2], e) for e in self.ends(x[1], s)]
        elif kind == "nexttime":
            return self.outcome(x[2], s + x[1])
        else:
            found = [self.outcome(x[3], s + d) for d in range(x[1], x[2] + 1)]
        together = any if kind == "s_eventually" else all
        return together(h for h, _ in found), any(l for _, l in found)


def verdict(x, rows, start):
    holds, live = Trace(rows).outcome(x, start)
    return "failed" if not holds else "held" if live else "vacuous"


def outcomes(x, rows):
    decided = max(len(rows) - horizon(x), 0)
    return [verdict(x, rows, s) for s in range(decided)] + ["open"] * (len(rows) - decided)


def boolean_term(x):
    kind = x[0]
    if kind == "constant":
        return f"Boolean.constant {'true' if x[1] else 'false'}"
    if kind == "signal":
        return f"bool_{'abc'[x[1]]}"
    if kind == "past":
        return f"Boolean.past {x[1]} {bracket(boolean_term(x[2]))}"
    name = {"!": "not", "&&": "and", "||": "or"}[kind]
    return f"Boolean.{name} " + " ".join(bracket(boolean_term(y)) for y in x[1:])


def bracket(term):
    return f"({term})" if " " in term else term


def sequence_term(x):
    kind = x[0]
    if kind == "signal":
        return "abc"[x[1]]
    if CLASS[kind] == BOOLEAN:
        return f"Sequence.boolean {bracket(boolean_term(x))}"
    name = {"##": "delay", "##0": "fusion", "[*]": "repeat", "seq or": "or", "seq and": "and"}.get(kind, kind)
    if kind == "throughout":
        parts = [bracket(boolean_term(x[1])), bracket(sequence_term(x[2]))]
    else:
        parts = [bracket(sequence_term(y)) if isinstance(y, tuple) else str(y) for y in x[1:]]
    return f"Sequence.{name} " + " ".join(parts)


def property_term(x):
    kind = x[0]
    if CLASS[kind] == BOOLEAN:
        return f"bool {bracket(boolean_term(x))}"
    if CLASS[kind] == SEQUENCE:
        return f"seq {bracket(sequence_term(x))}"
    name = {"|->": "implies", "|=>": "implies_next", "s_eventually": "eventually"}.get(kind, kind)
    if kind in ("|->", "|=>"):
        parts = [bracket(sequence_term(x[1])), bracket(property_term(x[2]))]
    else:
        parts = [bracket(property_term(y)) if isinstance(y, tuple) else str(y) for y in x[1:]]
    return f"Property.{name} " + " ".join(parts)


def listed(items):
    return " ∷ ".join([*items, "[]"])


def statement(x, rows, told):
    decided = [word.capitalize() for word in told if word != "open"]
    return f"({property_term(x)} on {listed(map(str, rows))} gives {listed(decided)})"


EXAMPLE = re.compile(r"^ {4,6}(\S.*?) +on ([0-9, ]+?)  +([a-z, ]+)$")


def examples(page):
    """(heading, property, rows, verdicts) of each example line, in order."""
    heading = ""
    for line in page.splitlines():
        if line.startswith("#"):
            heading = line.strip("# ")
        found = EXAMPLE.match(line)
        if found:
            rows = [int(word) for word in found[2].split(",")]
            yield heading, found[1], rows, [word.strip() for word in found[3].split(",")]


def main():
    page = list(examples(Path("docs/semantics.md").read_text()))
    wrong = 0
    wanted = []
    for heading, text, rows, told in page:
        tree = read(text)
        found = outcomes(tree, rows)
        if found != told:
            wrong += 1
            print(f"{text} on {rows}: the page says {', '.join(told)}; worked out: {', '.join(found)}")
        one = statement(tree, rows, told)
        if one not in wanted:
            wanted.append(one)
            if "--statements" in sys.argv:
                print(f"{heading}: {text}\n  {one}")
    stated = Path("crates/sva/specs/Examples.antt").read_text()
    there = [" ".join(s.split()) for s in re.findall(r"\(.* on [0-9 ∷\[\]]* gives [\w ∷\[\]]*\)", stated)]
    missing = [s for s in wanted if s not in there]
    extra = [s for k, s in enumerate(there) if s not in wanted or s in there[:k]]
    for s in missing:
        print("not stated:", s)
    for s in extra:
        print("not on the page, or stated twice:", s)
    print(f"{len(page)} examples, {wrong} wrong; {len(there)} statements, {len(missing)} missing, {len(extra)} more")
    sys.exit(1 if wrong or missing or extra else 0)


if __name__ == "__main__":
    main()
