#!/usr/bin/env python3
"""The bytes of header pages, leaves and free pages, from the rules in docs/FORMAT.md alone.

Prints one line for each page that crates/layout_tests compares: its name and its bytes as hexadecimal pairs. Bits are laid out
as text, one character each, and read as bytes at the end.
"""

WIDTHS = [12, 3, 1, 16, 11, 3, 4, 8, 16, 16, 16, 32, 6]


def page(bits, cells, length):
    first = bytes(int(bits[i : i + 8], 2) for i in range(0, len(bits), 8))
    return (first + cells).ljust(length, b"\0")


def header(length, pages, page_len, levels, directions, root, first_free, free_pages, rows, edit=0):
    row = "".join("1" if d == "d" else "0" for d in directions).ljust(8, "0")
    fields = [2652, 1, edit, pages, page_len, levels, len(directions), int(row, 2), root, first_free, free_pages, rows, 0]
    return page("".join(f"{v:0{w}b}" for v, w in zip(fields, WIDTHS)), b"", length)


def other(length, kind, number, link, cells=b""):
    return page(f"{kind:02b}{number:014b}{link:016b}", cells, length)


def leaf(length, keys):
    return other(length, 1, len(keys), 0, b"".join(bytes([len(key)]) + key for key in keys))


PAGES = [
    ("header new", header(20, 48, 480, 1, "aaaa", 1, 2, 46, 0)),
    ("header one column", header(18, 2, 1020, 1, "d", 1, 0, 0, 7)),
    ("header large", header(22, 65535, 1024, 7, "adadaddd", 65534, 258, 513, 16909060)),
    ("header large, in an edit", header(22, 65535, 1024, 7, "adadaddd", 65534, 258, 513, 16909060, 1)),
    ("leaf empty", leaf(8, [])),
    ("leaf B", leaf(12, [b"B"])),
    ("leaf B D", leaf(12, [b"B", b"D"])),
    ("leaf B CE D", leaf(12, [b"B", b"CE", b"D"])),
    ("leaf CE D", leaf(12, [b"CE", b"D"])),
    ("leaf long keys", leaf(250, [bytes([1] * 120), bytes([2] * 120)])),
    ("free 300", other(7, 3, 0, 300)),
    ("free last", other(4, 3, 0, 0)),
]

if __name__ == "__main__":
    for name, data in PAGES:
        print(f"{name:25} {data.hex(' ')}")
