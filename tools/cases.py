#!/usr/bin/env python3
"""Writes the example sheets and the cases that the programs are run on.

A second implementation of the sheet format and of its listing, written apart from
the Rattle one, so that the stored outputs are not what our own program printed.
Run it from anywhere: python3 tools/cases.py
"""
import pathlib
import struct

ROOT = pathlib.Path(__file__).resolve().parent.parent


def sheet(mark, n, lines, forms):
    """The bytes of a sheet; lines have n + 1 numbers each, forms n."""
    forms_start = 16 + 4 * len(lines) * (n + 1)
    total = forms_start + 4 * len(forms) * n
    head = mark + struct.pack("<6H", n, len(lines), len(forms), 16, forms_start, total)
    numbers = [x for row in lines + forms for x in row]
    return head + struct.pack("<%di" % len(numbers), *numbers)


def patched(data, at, value, form="<H"):
    """The bytes with one field replaced."""
    size = struct.calcsize(form)
    return data[:at] + struct.pack(form, value) + data[at + size:]


def fault(data):
    """The refusal's number and byte, or None."""
    if len(data) < 16:
        return 1, len(data)
    if data[:4] not in (b"FRAC", b"REST"):
        return 2, 0
    n, m, q, at_lines, at_forms, total = struct.unpack("<6H", data[4:16])
    for at, value, low, high in ((4, n, 1, 12), (6, m, 0, 40), (8, q, 0, 40)):
        if not low <= value <= high:
            return 3, at
    start = 16 + 4 * m * (n + 1)
    for at, good in ((10, at_lines == 16), (12, at_forms == start), (14, total == start + 4 * q * n == len(data))):
        if not good:
            return 4, at
    for k in range(m * (n + 1) + q * n):
        at = 16 + 4 * k
        (x,) = struct.unpack("<i", data[at:at + 4])
        is_right = k < m * (n + 1) and k % (n + 1) == n
        if abs(x) > (1_000_000_000 if is_right else 1_000_000):
            return 7, at
    return None


def total_of(row):
    text = ""
    for k, c in enumerate(row, 1):
        if c == 0:
            continue
        size = "" if abs(c) == 1 else "%d " % abs(c)
        sign = ("-" if c < 0 else "") if not text else (" - " if c < 0 else " + ")
        text += "%s%sr%d" % (sign, size, k)
    return text or "0"


def listing(data):
    bad = fault(data)
    if bad:
        return "refused %d byte %d\n" % bad
    n, m, q = struct.unpack("<3H", data[4:10])
    numbers = list(struct.iter_unpack("<i", data[16:]))
    numbers = [x for (x,) in numbers]
    out = "%s %d %d %d\n" % (data[:4].decode(), n, m, q)
    for i in range(m):
        row = numbers[i * (n + 1):(i + 1) * (n + 1)]
        out += "line %d: %s = %d\n" % (i + 1, total_of(row[:n]), row[n])
    rest = numbers[m * (n + 1):]
    for i in range(q):
        out += "form %d: %s\n" % (i + 1, total_of(rest[i * n:(i + 1) * n]))
    return out


# laundry r1, boiler house r2, workshop r3: units given, less units taken, times the rates, are the own costs
CENTRES = sheet(
    b"FRAC", 3,
    [[900, -600, -30, 8100], [0, 4000, -100, 52000], [-20, -300, 1200, 30000]],
    [[500, 800, 60], [0, 250, 0], [1, 0, 0]],
)
TWO_RATES = sheet(b"FRAC", 2, [[2, -1, 3], [4, -2, 6], [4, -2, 7], [1, 1, 1]], [[1, 0], [1, -2]])
WIDEST = sheet(
    b"REST", 12,
    [[(-1) ** (i + j) * (i * 12 + j) * 2083 % 1_000_001 for j in range(12)] + [i * 25_000_000 - 500_000_000] for i in range(40)],
    [[(i * j) % 3 - 1 for j in range(12)] for i in range(40)],
)
SMALLEST = sheet(b"REST", 1, [], [])

EXAMPLES = {
    "centres.sheet": CENTRES,
    "two-rates.sheet": TWO_RATES,
    "widest.sheet": WIDEST,
    "smallest.sheet": SMALLEST,
    "refused.sheet": patched(CENTRES, 4, 13),
}

ONE = sheet(b"FRAC", 1, [[3, 5]], [[7]])
CASES = {
    "empty": b"",
    "one-byte": b"F",
    "fifteen": TWO_RATES[:15],
    "sixteen": SMALLEST,
    "header-alone": TWO_RATES[:16],
    "mark-lower": b"frac" + TWO_RATES[4:],
    "mark-near": b"FRAK" + TWO_RATES[4:],
    "mark-mixed": b"RESC" + TWO_RATES[4:],
    "mark-rest": b"REST" + TWO_RATES[4:],
    "n-0": patched(SMALLEST, 4, 0),
    "n-1": ONE,
    "n-12": sheet(b"FRAC", 12, [[1] * 12 + [12]], [[-1] * 12]),
    "n-13": sheet(b"FRAC", 13, [[1] * 14], []),
    "n-256": patched(ONE, 4, 256),
    "m-40": sheet(b"FRAC", 1, [[i, i] for i in range(40)], []),
    "m-41": sheet(b"FRAC", 1, [[i, i] for i in range(41)], []),
    "q-40": sheet(b"FRAC", 1, [], [[i] for i in range(40)]),
    "q-41": sheet(b"FRAC", 1, [], [[i] for i in range(41)]),
    "counts-before-layout": patched(patched(ONE, 8, 41), 10, 15),
    "first-count": patched(patched(ONE, 6, 41), 8, 41),
    "lines-15": patched(ONE, 10, 15),
    "lines-17": patched(ONE, 10, 17),
    "forms-less": patched(ONE, 12, 23),
    "forms-more": patched(ONE, 12, 25),
    "total-less": patched(ONE, 14, 27),
    "total-more": patched(ONE, 14, 29),
    "byte-more": ONE + b"\0",
    "byte-less": ONE[:-1],
    "total-fits-bytes": patched(ONE + b"\0", 14, 29),
    "layout-before-numbers": patched(patched(ONE, 10, 15), 16, 1_000_001, "<i"),
    "coefficient-top": patched(ONE, 16, 1_000_000, "<i"),
    "coefficient-over": patched(ONE, 16, 1_000_001, "<i"),
    "coefficient-bottom": patched(ONE, 16, -1_000_000, "<i"),
    "coefficient-under": patched(ONE, 16, -1_000_001, "<i"),
    "coefficient-least": patched(ONE, 16, -2**31, "<i"),
    "right-top": patched(ONE, 20, 1_000_000_000, "<i"),
    "right-over": patched(ONE, 20, 1_000_000_001, "<i"),
    "right-bottom": patched(ONE, 20, -1_000_000_000, "<i"),
    "right-under": patched(ONE, 20, -1_000_000_001, "<i"),
    "form-top": patched(ONE, 24, 1_000_000, "<i"),
    "form-over": patched(ONE, 24, 1_000_001, "<i"),
    "first-number": patched(patched(TWO_RATES, 28, -1_000_001, "<i"), 36, 2**31 - 1, "<i"),
    "last-number": patched(TWO_RATES, 76, 1_000_001, "<i"),
    "right-size-in-form": patched(TWO_RATES, 72, 999_999_999, "<i"),
    "signs": sheet(b"FRAC", 3, [[-3, 1, 0, -5], [0, 0, 0, 0], [0, -1, 1, 2], [1, -1, -1, 0], [-1, 0, -7, 1]], [[0, 0, 0], [0, 0, -1], [10, 0, 0]]),
    "two-rates": TWO_RATES,
    "centres": CENTRES,
    "widest": WIDEST,
}


def main():
    examples = ROOT / "examples"
    examples.mkdir(exist_ok=True)
    for name, data in EXAMPLES.items():
        (examples / name).write_bytes(data)

    view = ROOT / "crates" / "sheetview"
    (view / "stdin").write_bytes(TWO_RATES)
    (view / "stdout").write_text(listing(TWO_RATES))

    cases = ROOT / "crates" / "listcases"
    (cases / "data").mkdir(exist_ok=True)
    out = ""
    for name, data in CASES.items():
        (cases / "data" / name).write_bytes(data)
        out += "%s\n%s" % (name, listing(data))
    (cases / "args").write_text("".join(name + "\n" for name in CASES))
    (cases / "stdout").write_text(out)


if __name__ == "__main__":
    main()
