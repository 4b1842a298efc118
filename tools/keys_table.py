#!/usr/bin/env python3
"""Cases for crates/keys_tests with their answers, from the rules in docs/KEYS.md alone.

    tools/keys_table.py FOLDER      writes FOLDER/stdin (the cases) and FOLDER/stdout (the answers)

A plan is described as a nondeterministic machine: for each column every form that its code can have (null, zero, a
text, a decimal of each class with each number of digits) as a row of sets of bytes. Bytes begin some key if the machine
can take them, and are a key if it can also stop behind them. The place of a refusal is looked for by its definition:
the first byte with which the bytes so far begin no key, else the number of bytes. Nothing here reads a key from its
front byte by byte with a decision at each.

The cases:
    check PLAN BYTES                  ok, or no 6 120, no 7 PLACE, no 5
    decimal SIGN EXPONENT DIGITS      the key in one ascending column, or no NUMBER
    column PLAN BYTES COLUMN ROOM     the value or the refusal, then the output, which was ROOM bytes EE
"-" stands for no bytes, no digits, no columns.
"""

import functools
import os
import random
import sys

# ---- the rules ----

MAX_KEY = 120
MOST = 240


def flip(bytes_):
    return bytes(255 - b for b in bytes_)


def mantissa(digits):
    return bytes([2 * d + 1 for d in digits[:-1]] + [2 * digits[-1]])


def code(value):
    """The code of a value in an ascending column: None, 0, (sign, exponent, digits), or the bytes of a text."""
    if value is None:
        return b"\x05"
    if value == 0:
        return b"\x15"
    if isinstance(value, bytes):
        return b"\x24" + value + b"\x00"
    sign, e, digits = value
    m = mantissa(digits)
    if sign == "-":
        if e >= 11:
            return bytes([0x08, 255 - e]) + flip(m)
        if e >= 0:
            return bytes([0x13 - e]) + flip(m)
        return bytes([0x14, -e]) + flip(m)
    if e >= 11:
        return bytes([0x22, e]) + m
    if e >= 0:
        return bytes([0x17 + e]) + m
    return bytes([0x16, 255 + e]) + m


def key(plan, record):
    assert len(plan) == len(record)
    return b"".join(code(v) if c == "a" else flip(code(v)) for c, v in zip(plan, record))


def decimal_answer(sign, e, digits):
    if not digits or max(digits) > 99 or digits[0] == 0 or digits[-1] == 0:
        return "no 1"
    if len(digits) > 16:
        return "no 2"
    if not -MOST <= e <= MOST:
        return "no 3"
    return code((sign, e, digits)).hex().upper()


# ---- the machine: each form of a code is a row of (set of bytes, may it repeat any number of times) ----


def once(values):
    return (frozenset(values), False)


def forms():
    yield [once([0x05])]
    yield [once([0x15])]
    yield [once([0x24]), (frozenset(range(1, 256)), True), once([0x00])]
    heads = [([once([0x08]), once(255 - e for e in range(11, MOST + 1))], True)]
    heads += [([once([0x13 - e])], True) for e in range(0, 11)]
    heads += [([once([0x14]), once(-e for e in range(-MOST, 0))], True)]
    heads += [([once([0x16]), once(255 - -e for e in range(-MOST, 0))], False)]
    heads += [([once([0x17 + e])], False) for e in range(0, 11)]
    heads += [([once([0x22]), once(e for e in range(11, MOST + 1))], False)]
    for head, negative in heads:
        for n in range(1, 17):
            rows = []
            for i in range(n):
                digits = range(1 if i in (0, n - 1) else 0, 100)
                values = [2 * d if i == n - 1 else 2 * d + 1 for d in digits]
                rows.append(once((255 - b for b in values) if negative else values))
            yield head + rows


ASCENDING = list(forms())
DESCENDING = [[(frozenset(255 - b for b in s), many) for s, many in form] for form in ASCENDING]


def forms_of(plan, column):
    return ASCENDING if plan[column] == "a" else DESCENDING


def settled(plan, states):
    """The states that are reached without a further byte: past what repeats, and from column to column."""
    todo, seen = list(states), set(states)
    while todo:
        column, f, i = todo.pop()
        more = []
        if f is None:
            if column < len(plan):
                more = [(column, g, 0) for g in range(len(forms_of(plan, column)))]
        elif i == len(forms_of(plan, column)[f]):
            more = [(column + 1, None, 0)]
        elif forms_of(plan, column)[f][i][1]:
            more = [(column, f, i + 1)]
        for state in more:
            if state not in seen:
                seen.add(state)
                todo.append(state)
    return seen


@functools.lru_cache(maxsize=1000)
def after(plan, bytes_):
    """The states in which the machine can be behind the bytes."""
    if not bytes_:
        return settled(plan, {(0, None, 0)})
    taken = set()
    for column, f, i in after(plan, bytes_[:-1]):
        if f is not None and i < len(forms_of(plan, column)[f]):
            values, many = forms_of(plan, column)[f][i]
            if bytes_[-1] in values:
                taken.add((column, f, i if many else i + 1))
    return settled(plan, taken)


def begins_some_key(plan, bytes_):
    return bool(after(plan, bytes_))


def is_key(plan, bytes_):
    return (len(plan), None, 0) in after(plan, bytes_)


def check_answer(plan, bytes_):
    if not 1 <= len(plan) <= 8:
        return "no 5"
    if len(bytes_) > MAX_KEY:
        return "no 6 120"
    for p in range(len(bytes_)):
        if not begins_some_key(plan, bytes_[: p + 1]):
            return f"no 7 {p}"
    return "ok" if is_key(plan, bytes_) else f"no 7 {len(bytes_)}"


def column_answer(plan, record, bytes_, column, room):
    """What reading a column answers; record is what the bytes are the key of, or None if they are no key."""
    kept = "EE" * room or "-"
    if not 1 <= len(plan) <= 8 or not 1 <= column <= len(plan):
        return f"no 5, {kept}"
    answer = check_answer(plan, bytes_)
    if answer != "ok":
        return f"{answer}, {kept}"
    assert key(plan, record) == bytes_
    value = record[column - 1]
    if value is None:
        return f"null, {kept}"
    if value == 0:
        return f"zero, {kept}"
    if isinstance(value, bytes):
        if len(value) > room:
            return f"no 8, {kept}"
        return f"text {len(value)}, {value.hex().upper() + 'EE' * (room - len(value)) or '-'}"
    sign, e, digits = value
    return f"{sign} {e} {','.join(map(str, digits))}, {kept}"


# ---- the cases ----


def shown(bytes_):
    return bytes_.hex().upper() or "-"


class Table:
    def __init__(self):
        self.lines = {}

    def check(self, plan, bytes_):
        self.lines.setdefault(f"check {plan or '-'} {shown(bytes_)}", check_answer(plan, bytes_))

    def decimal(self, sign, e, digits):
        listed = ",".join(map(str, digits)) or "-"
        self.lines.setdefault(f"decimal {sign} {e} {listed}", decimal_answer(sign, e, digits))

    def column(self, plan, record, bytes_, column, room):
        case = f"column {plan or '-'} {shown(bytes_)} {column} {room}"
        self.lines.setdefault(case, column_answer(plan, record, bytes_, column, room))


# Bytes of an ascending column: codes, and what is nearly one.
FRAGMENTS = """
05 15 1802 18C6 181964 17C602 1801 1800 18C8 18C9 18FF 1803 180300 180301 1803C8 1803FF 180302 1802C7 18C7C6
0BC639 0BFD 0BFE 0BFF 0B37 0B36 0B00 0BFCFF 0BFCFE 0BFCFD 0BFC 0BFC37 0BFC38
22 220A02 220B02 22F002 22F102 22FF02 220002 220B 220B01 220B00 22F0C8 22F003 220B0302
16 16FE02 16FF02 160F02 160E02 160002 160F 160F01 160FC8
14 1400FD 1401FD 14F0FD 14F1FD 14FFFD 1401FE 1401FF 140137 1401FC 1401FCFF
08 08F4FD 08F5FD 080FFD 080EFD 08FFFD 0800FD 080FFE 080F36
0902 09FD 1302 13FD 2102 21FD
24 2400 2441 244100 24FF00 240100 2441004100 24004100 24410000 244124
23 2300 00 01 02 03 04 06 07 25 26 40 7F 80 A0 C0 DA DB DD EA FA FE FF
0505 1515 180202 1805 0515
""".split()


def digit_runs():
    """Sixteen and seventeen digits, each byte that could end them."""
    for head, odd, ends in [("18", "03", "02 03 00 01 C8"), ("22F0", "C7", "C6 C7")]:
        for end in ends.split():
            for n in (15, 16):
                yield bytes.fromhex(head + odd * n + end)
    for head, odd, ends in [("0B", "FC", "FD FC FF FE"), ("1401", "38", "39 38")]:
        for end in ends.split():
            for n in (15, 16):
                yield bytes.fromhex(head + odd * n + end)


def random_value(rng):
    kind = rng.randrange(8)
    if kind == 0:
        return None
    if kind == 1:
        return 0
    if kind < 4:
        return bytes(rng.randrange(1, 256) for _ in range(rng.randrange(6)))
    n = rng.choice([1, 1, 2, 3, 16])
    digits = [rng.randrange(100) for _ in range(n)]
    digits[0] = digits[0] or 1
    digits[-1] = digits[-1] or 99
    e = rng.choice([-240, -1, 0, 1, 10, 11, 240, rng.randint(-240, 240)])
    return (rng.choice("+-"), e, digits)


def mutated(rng, bytes_):
    b = bytearray(bytes_)
    at = rng.randrange(len(b))
    kind = rng.randrange(6)
    if kind == 0:
        b[at] ^= 1 << rng.randrange(8)
    elif kind == 1:
        b[at] = rng.choice([0, 1, 5, 0x15, 0x24, 0xC7, 0xC8, 0xDB, 0xEA, 0xF0, 0xF1, 0xFA, 0xFE, 0xFF])
    elif kind == 2:
        del b[at]
    elif kind == 3:
        b.insert(at, rng.randrange(256))
    elif kind == 4:
        del b[at:]
    else:
        b.append(rng.choice([0, 2, 5, 0xFA, 0xFF]))
    return bytes(b)


def check_cases(t):
    for plan in ["a", "d", "aa", "dddddddd"]:
        t.check(plan, b"")
    for plan in ["", "aaaaaaaaa", "adadadadad"]:
        t.check(plan, b"\x05")
    first, second = code(("+", 1, [1])), code(b"A")
    for i, fragment in enumerate(FRAGMENTS):
        f = bytes.fromhex(fragment)
        t.check("a", f)
        t.check("d", flip(f))
        if i % 2 == 0:
            t.check("ad", first + flip(f))
        else:
            t.check("da", flip(second) + f)
    for f in digit_runs():
        t.check("a", f)
        t.check("d", flip(f))
    for fragment in ["15", "1802", "244100"]:
        t.check("d", bytes.fromhex(fragment))
        t.check("aaa", bytes.fromhex(fragment * 2))
        t.check("aaa", bytes.fromhex(fragment * 3))
        t.check("aaa", bytes.fromhex(fragment * 4))
    # lengths at the limit
    for n in (117, 118, 119, 120):
        t.check("a", b"\x24" + b"A" * n + b"\x00")
        t.check("a", b"\x24" + b"A" * n)
        t.check("d", flip(b"\x24" + b"A" * n + b"\x00"))
    t.check("a", b"\xff" * 120)
    t.check("a", b"\xff" * 121)
    t.check("aa", b"\x05\x24" + b"A" * 117 + b"\x00")
    t.check("aa", b"\x05\x24" + b"A" * 118 + b"\x00")
    t.check("aa", b"\x24" + b"A" * 118 + b"\x00")
    # 1 to 8 columns: whole, cut by a column, with one too many
    for n in range(1, 9):
        plan = "adaddada"[:n]
        record = [None, ("-", -1, [1]), b"ab", 0, ("+", 240, [10]), b"", ("-", 11, [1, 50]), ("+", -240, [99])][:n]
        whole = key(plan, record)
        t.check(plan, whole)
        t.check(plan, key(plan[:-1], record[:-1]))
        t.check(plan, whole + b"\x05")
        t.check(plan, whole[:-1])
    rng = random.Random(20261118)
    for _ in range(60):
        plan = "".join(rng.choice("ad") for _ in range(rng.randint(1, 8)))
        whole = key(plan, [random_value(rng) for _ in plan])
        if len(whole) <= MAX_KEY:
            assert check_answer(plan, whole) == "ok"
            t.check(plan, mutated(rng, whole))


def decimal_cases(t):
    for e, d in [(240, 10), (241, 1), (-240, 1), (-241, 10), (240, 99), (-241, 99), (241, 99)]:
        t.decimal("+", e, [d])
        t.decimal("-", e, [d])
    for e in [-239, -2, -1, 0, 1, 9, 10, 11, 12, 239, 2**31 - 1, -(2**31)]:
        t.decimal("+", e, [12, 50])
        t.decimal("-", e, [12, 50])
    t.decimal("+", 1, [1])
    t.decimal("+", 0, [1])
    t.decimal("-", 11, [1])
    for n in (15, 16, 17, 18):
        t.decimal("+", n, [99] * n)
        t.decimal("-", -n, [1] + [0] * (n - 2) + [1])
    for digits in [[], [0], [100], [255], [0, 1], [1, 0], [1, 100, 1], [1, 0, 1], [0] * 17, [1] + [0] * 16, [0, 0, 0]]:
        t.decimal("+", 0, digits)
    # of several faults the first by its number
    t.decimal("+", 241, [])
    t.decimal("-", 241, [100] * 17)
    t.decimal("-", 241, [1] * 17)
    t.decimal("+", -241, [1] * 16)


def column_cases(t):
    record = [None, 0, ("+", 1, [12, 50]), b"Ab", ("-", -240, [1]), b"", ("-", 240, [99] * 16), b"\x01\xff"]
    for plan in ["aaaaaaaa", "daddadad"]:
        whole = key(plan, record)
        for column in range(0, 10):
            t.column(plan, record, whole, column, 3)
        for room in (0, 1, 2):
            t.column(plan, record, whole, 4, room)
        t.column(plan, record, whole, 6, 0)
        for column in (1, 4, 8):
            t.column(plan, None, whole[:-1], column, 2)
            t.column(plan, None, whole + b"\x05", column, 0)
            t.column(plan, None, whole + b"\x05" * (121 - len(whole)), column, 1)
        t.column(plan, None, whole[:-1], 9, 2)
        t.column(plan, None, whole + b"\x05" * 121, 0, 2)
    long = b"z" * 118
    t.column("a", [long], code(long), 1, 118)
    t.column("a", [long], code(long), 1, 117)
    t.column("d", [long], flip(code(long)), 1, 119)
    t.column("a", None, b"", 1, 1)
    t.column("a", None, b"\x23", 1, 1)
    t.column("", None, b"\x05", 1, 1)
    t.column("aaaaaaaaa", None, b"\x05" * 9, 1, 1)
    rng = random.Random(8112026)
    for _ in range(16):
        plan = "".join(rng.choice("ad") for _ in range(rng.randint(1, 4)))
        record = [random_value(rng) for _ in plan]
        t.column(plan, record, key(plan, record), rng.randint(1, len(plan)), rng.randint(0, 6))


# Answers as docs/KEYS.md states them: the machine is held to them before it answers anything else.
STATED = [
    ("a", "", 0), ("a", "23", 0), ("a", "220A02", 1), ("a", "22F102", 1), ("a", "1400FD", 1), ("a", "18", 1),
    ("a", "1801", 1), ("a", "18C8", 1), ("a", "180300", 2), ("a", "18" + "03" * 16, 16), ("a", "1515", 1),
    ("a", "2441", 2), ("a", "24" + "41" * 119, 120), ("d", "05", 0), ("d", "E7FE", 1), ("d", "DBBE", 2),
    ("aa", "1802", 2),
]
WORKED = [
    (0, "15"), (("+", 1, [1]), "1802"), (("+", 1, [12, 50]), "181964"), (("+", 0, [1]), "1702"),
    (("-", -1, [1]), "1401FD"), (("+", 10, [10]), "2114"), (("+", 11, [1]), "220B02"), (("-", 11, [1]), "08F4FD"),
    (("+", 240, [10]), "22F014"), (("+", -240, [1]), "160F02"), (("+", 16, [99] * 16), "2210" + "C7" * 15 + "C6"),
]


def main():
    for plan, bytes_, place in STATED:
        assert check_answer(plan, bytes.fromhex(bytes_)) == f"no 7 {place}", (plan, bytes_)
    for value, bytes_ in WORKED:
        assert code(value) == bytes.fromhex(bytes_), value
        assert check_answer("a", code(value)) == "ok", value
        assert check_answer("d", flip(code(value))) == "ok", value
    t = Table()
    check_cases(t)
    decimal_cases(t)
    column_cases(t)
    folder = sys.argv[1]
    for name, lines in [("stdin", t.lines.keys()), ("stdout", t.lines.values())]:
        with open(os.path.join(folder, name), "w") as file:
            file.writelines(line + "\n" for line in lines)


if __name__ == "__main__":
    main()
