#!/usr/bin/env python3
"""What the program `playlist` answers, worked out from its rules alone.

It shares no code and no method with the program: words by one regular
expression, decimals as exact fractions, keys by long division.

    tools/playlist_expected.py < commands            prints the answers
    tools/playlist_expected.py --arguments WORD..    the same for arguments

Files are read in the folder it runs in; what is saved is only remembered.
"""
import os
import re
import sys
from fractions import Fraction

WORD = re.compile(rb'"[^"]*"|[^ "]+', re.S)
LINE = re.compile(rb'(?:"[^"]*"|[^ "]+)(?: (?:"[^"]*"|[^ "]+))*', re.S)
TENS = re.compile(rb'[+-]?(?=\.?[0-9])[0-9]*\.?[0-9]*(?:[eE][+-]?[0-9]{1,5})?')
PARTS = re.compile(rb'([+-])(-?[0-9]{1,3}):((?:[0-9]{1,3}(?:,[0-9]{1,3})*)?)')
HEX = re.compile(rb'(?:[0-9A-F]{2})*')


class Bad(Exception):
    """bad line"""


class No(Exception):
    """a refusal, with its number and the values beside it"""


def words_of(line):
    if not LINE.fullmatch(line):
        raise Bad
    return WORD.findall(line)


def centimal(amount):
    """Exponent E and base 100 digits of a positive fraction that has finitely many."""
    e = 0
    while amount >= 1:
        amount /= 100
        e += 1
    while amount * 100 < 1:
        amount *= 100
        e -= 1
    digits = []
    while amount:
        amount *= 100
        digits.append(int(amount))
        amount -= int(amount)
    return e, digits


def decimal(negative, e, digits):
    if not digits or max(digits) > 99 or digits[0] == 0 or digits[-1] == 0:
        raise No(1)
    if len(digits) > 16:
        raise No(2)
    if not -240 <= e <= 240:
        raise No(3)
    return ("decimal", negative, e, tuple(digits))


def tens(word):
    if len(word) > 64 or not TENS.fullmatch(word):
        raise Bad
    mantissa, _, exponent = word.lower().partition(b"e")
    power = int(exponent or b"0")
    whole, _, part = mantissa.lstrip(b"+-").partition(b".")
    number = int(whole + part)
    if number == 0:
        return ("decimal", False, None, ())
    power -= len(part)
    # An even power of ten only moves E, so large ones are set aside.
    aside = power // 2
    e, digits = centimal(Fraction(number) * 10 ** (power - 2 * aside))
    return decimal(word[:1] == b"-", e + aside, digits)


def value_of(word):
    if word == b"null":
        return ("null",)
    if word[:1] == b'"':
        return ("text", word[1:-1])
    if word[:1] == b"~":
        if not HEX.fullmatch(word[1:]):
            raise Bad
        return ("text", bytes.fromhex(word[1:].decode()))
    if b":" in word:
        m = PARTS.fullmatch(word)
        if not m:
            raise Bad
        digits = [int(d) for d in m[3].split(b",")] if m[3] else []
        return decimal(m[1] == b"-", int(m[2]), digits)
    return tens(word)


def code(value):
    if value[0] == "null":
        return b"\x05"
    if value[0] == "text":
        return b"\x24" + value[1] + b"\x00"
    _, negative, e, digits = value
    if not digits:
        return b"\x15"
    m = bytes(2 * d + 1 for d in digits[:-1]) + bytes([2 * digits[-1]])
    if e < 0:
        lead = bytes([0x16, 255 + e])
    elif e <= 10:
        lead = bytes([0x17 + e])
    else:
        lead = bytes([0x22, e])
    if not negative:
        return lead + m
    if e < 0:
        lead = bytes([0x14, -e])
    elif e <= 10:
        lead = bytes([0x13 - e])
    else:
        lead = bytes([0x08, 255 - e])
    return lead + bytes(255 - b for b in m)


def plan_of(word):
    if not re.fullmatch(rb"[ad]{1,8}", word):
        raise No(5)
    return word


def key(plan, values):
    if len(plan) != len(values):
        raise No(5)
    for column, value in enumerate(values, 1):
        if value[0] == "text" and 0 in value[1]:
            raise No(4, column)
    out = b""
    for letter, value in zip(plan, values):
        bytes_ = code(value)
        out += bytes(255 - b for b in bytes_) if letter == ord("d") else bytes_
    if len(out) > 120:
        raise No(6)
    return out


def shown(value):
    if value[0] == "null":
        return "null"
    if value[0] == "text":
        if re.fullmatch(rb"[ !#-~]*", value[1]):
            return '"' + value[1].decode() + '"'
        return "~" + value[1].hex().upper()
    _, negative, e, digits = value
    if not digits:
        return "0"
    all_digits = "".join("%02d" % d for d in digits)
    x = 2 * (e - len(digits))
    d = all_digits.lstrip("0")
    x += len(d) - len(d.rstrip("0"))
    d = d.rstrip("0")
    p = len(d) + x
    if 1 <= p <= 20:
        text = d + "0" * x if x >= 0 else d[:p] + "." + d[p:]
    elif -6 < p <= 0:
        text = "0." + "0" * -p + d
    else:
        text = d + "e" + str(x)
    return ("-" if negative else "") + text


class NoMore(Exception):
    """the byte at which no key goes on, or the end"""


def taker(data, start, flip):
    """Takes bytes from a place on, each of them one that may stand there."""
    at = start

    def take(allowed):
        nonlocal at
        if at == len(data):
            raise NoMore(at)
        byte = 255 - data[at] if flip else data[at]
        if byte not in allowed:
            raise NoMore(at)
        at += 1
        return byte

    return take, lambda: at


def read_value(data, start, flip):
    take, place = taker(data, start, flip)
    first = take({0x05, 0x15, 0x24, 0x08, 0x14, 0x16, 0x22} | set(range(0x09, 0x14)) | set(range(0x17, 0x22)))
    if first == 0x05:
        return ("null",), place()
    if first == 0x15:
        return ("decimal", False, None, ()), place()
    if first == 0x24:
        text = b""
        while True:
            byte = take(range(256))
            if byte == 0:
                return ("text", text), place()
            text += bytes([byte])
    negative = first < 0x15
    if first == 0x08:
        e = 255 - take(range(255 - 240, 255 - 10))
    elif first == 0x14:
        e = -take(range(1, 241))
    elif first == 0x16:
        e = take(range(255 - 240, 255)) - 255
    elif first == 0x22:
        e = take(range(11, 241))
    else:
        e = 0x13 - first if negative else first - 0x17
    digits = []
    while True:
        low = 2 if not digits else 1
        may = [b for b in range(low, 200) if len(digits) < 15 or b % 2 == 0]
        byte = take({255 - b for b in may} if negative else may)
        byte = 255 - byte if negative else byte
        digits.append(byte // 2)
        if byte % 2 == 0:
            return ("decimal", negative, e, tuple(digits)), place()


def read_key(plan, data):
    if len(data) > 120:
        raise No(6, 120)
    at, values = 0, []
    try:
        for letter in plan:
            value, at = read_value(data, at, letter == ord("d"))
            values.append(value)
        if at < len(data):
            raise NoMore(at)
    except NoMore as no:
        raise No(7, no.args[0])
    return values


def pairs_of(word):
    if not HEX.fullmatch(word):
        raise Bad
    return bytes.fromhex(word.decode())


def number_of(word, limit):
    if not re.fullmatch(rb"[0-9]{1,9}", word) or int(word) > limit:
        raise Bad
    return int(word)


def sums(page, data):
    a = (page + sum(data)) % 65535
    b = sum(place * byte for place, byte in enumerate(data, 1)) % 65535
    return bytes(divmod(a, 256)) + bytes(divmod(b, 256))


class Store:
    """An area cut into pages, under some seals."""

    def __init__(self, area, length, seals):
        self.area = area
        self.below = length
        self.seals = seals
        self.count = min(len(area) // length, 65535)
        self.length = length
        for _ in range(seals):
            if self.length < 4:
                self.length = self.count = 0
            else:
                self.length -= 4

    def place(self, p):
        if p >= self.count:
            raise No(9, p)
        return slice(p * self.below, (p + 1) * self.below)

    def page(self, p):
        bytes_ = bytes(self.area[self.place(p)])
        for _ in range(self.seals):
            bytes_, seal = bytes_[:-4], bytes_[-4:]
            if seal != sums(p, bytes_):
                raise No(10, p)
        return bytes_

    def put(self, p, bytes_):
        place = self.place(p)
        if len(bytes_) != self.length:
            raise No(8)
        for _ in range(self.seals):
            bytes_ += sums(p, bytes_)
        self.area[place] = bytes_


class BadState(Exception):
    """bad state"""


class BadFile(Exception):
    """bad file"""


def path_of(word):
    path = word[1:-1] if word[:1] == b'"' else word
    try:
        return path.decode("utf-8")
    except UnicodeDecodeError:
        raise BadFile


class Session:
    def __init__(self):
        self.day = None
        self.store = None
        self.saved = {}
        self.failed = False
        self.out = []

    def line(self, line):
        if line == b"" or line[:1] == b"#":
            return
        try:
            if self.day is None:
                self.command(line)
            elif line == b"end":
                self.end()
            else:
                self.row(line)
        except Bad:
            self.failed = True
            self.out.append("bad line")
        except (BadState, BadFile) as bad:
            self.failed = True
            self.out.append(bad.__doc__)
        except No as no:
            self.failed = True
            self.out.append(" ".join(["no"] + [str(a) for a in no.args]))

    def command(self, line):
        words = words_of(line)
        if words[0] == b"key" and len(words) >= 3:
            plan = plan_of(words[1])
            values = [value_of(w) for w in words[2:]]
            self.out.append("ok " + key(plan, values).hex().upper())
        elif words[0] == b"read" and len(words) == 3:
            plan = plan_of(words[1])
            values = read_key(plan, pairs_of(words[2]))
            self.out.append(" ".join(["ok"] + [shown(v) for v in values]))
        elif words[0] == b"column" and len(words) == 5:
            plan = plan_of(words[1])
            data = pairs_of(words[2])
            column = number_of(words[3], 999999999)
            room = number_of(words[4], 1000000)
            if not 1 <= column <= len(plan):
                raise No(5)
            value = read_key(plan, data)[column - 1]
            if value[0] == "text" and len(value[1]) > room:
                raise No(8)
            self.out.append("ok " + shown(value))
        elif words[0] == b"day" and len(words) == 2:
            self.day = (words[1], {})
        else:
            self.store_command(words)

    def store_command(self, words):
        if words[0] == b"image" and len(words) == 4:
            size = number_of(words[1], 100000000)
            length = number_of(words[2], 999999999)
            self.make(lambda: bytearray(size), length, number_of(words[3], 2))
        elif words[0] == b"load" and len(words) == 4:
            length = number_of(words[2], 999999999)
            self.make(lambda: self.load(words[1]), length, number_of(words[3], 2))
        elif words[0] == b"save" and len(words) == 2:
            area = self.open_store().area
            path = path_of(words[1])
            folder = os.path.dirname(path)
            if path == "" or "\0" in path or os.path.isdir(path) or (folder and not os.path.isdir(folder)):
                raise BadFile
            self.saved[path] = bytes(area)
            self.out.append("ok %d" % len(area))
        elif words[0] == b"page" and len(words) == 2:
            p = number_of(words[1], 999999999)
            self.out.append("ok " + self.open_store().page(p).hex().upper())
        elif words[0] == b"put" and len(words) == 3:
            p = number_of(words[1], 999999999)
            bytes_ = pairs_of(words[2])
            self.open_store().put(p, bytes_)
            self.out.append("ok")
        else:
            raise Bad

    def open_store(self):
        if self.store is None:
            raise BadState
        return self.store

    def load(self, word):
        path = path_of(word)
        if path in self.saved:
            return bytearray(self.saved[path])
        try:
            with open(path, "rb") as file:
                area = bytearray(file.read())
        except (OSError, ValueError):
            raise BadFile
        if len(area) > 100000000:
            raise BadFile
        return area

    def make(self, area, length, seals):
        if not 1 <= length <= 1024:
            raise No(11)
        self.store = Store(area(), length, seals)
        self.out.append("ok %d %d" % (self.store.count, self.store.length))

    def row(self, line):
        words = words_of(line)
        plan = plan_of(self.day[0])
        values = [value_of(w) for w in words]
        self.day[1][key(plan, values)] = values

    def end(self):
        if self.day is None:
            return
        rows = self.day[1]
        for k in sorted(rows):
            self.out.append(" ".join(["row", k.hex().upper()] + [shown(v) for v in rows[k]]))
        self.out.append("ok %d" % len(rows))
        self.day = None


def main():
    session = Session()
    if sys.argv[1:2] == ["--arguments"]:
        lines = [a.encode("utf-8", "surrogateescape") for a in sys.argv[2:]]
    else:
        lines = sys.stdin.buffer.read().split(b"\n")
    for line in lines:
        session.line(line)
    session.end()
    sys.stdout.write("".join(a + "\n" for a in session.out))


if __name__ == "__main__":
    main()
