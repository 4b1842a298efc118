#!/usr/bin/env python3
"""The sums of sealed pages, from the rule in docs/FORMAT.md alone.

Prints one line for each page that crates/stores_tests compares: its name, its number, A, B, and the four bytes
behind the data as one hexadecimal number, high byte first.
"""


def sums(page, data):
    a = (page + sum(data)) % 65535
    b = sum((j + 1) * byte for j, byte in enumerate(data)) % 65535
    return a, b


MIXED = [0x01, 0x80, 0xFF, 0x00, 0x7F, 0x10, 0xC8, 0x03]
LONG = [(37 * j + 11) % 256 for j in range(1020)]

PAGES = (
    [("zeros 8", p, [0] * 8) for p in (0, 1, 256, 65534)]
    + [("ff 8", p, [255] * 8) for p in (0, 7, 65534)]
    + [("mixed 8", p, MIXED) for p in (0, 300, 65000)]
    + [("ff 1020", p, [255] * 1020) for p in (0, 63)]
    + [("long 1020", p, LONG) for p in (5, 62)]
    + [("ff 256, 00", 0, [255] * 256 + [0]), ("ff 257", 0, [255] * 257)]
)

if __name__ == "__main__":
    for name, page, data in PAGES:
        a, b = sums(page, data)
        print(f"{name:11} page {page:5}  A {a:5}  B {b:5}  0x{a:04X}_{b:04X}")
