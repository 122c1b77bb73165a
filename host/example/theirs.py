#!/usr/bin/env python3
"""The other side of `mavunilai try`: reads one call a line and answers each with a line (docs/EXCHANGE.md).

    mavunilai try -- python3 host/example/theirs.py

Put your replica in the place of `replica`. The one below knows only how to open a book, so that `try` finds a
difference soon.
"""
import sys

# Where a reply or reading buffer stands among the words of a call.
LENT = {"move": 2, "read": 2, "fetch": 4, "observer-read": 2}


def parse(text):
    """The bytes of a literal: '-' for none, else pieces joined by '+', as 0304 or 00*221."""
    pieces = [] if text == "-" else [piece.split("*") for piece in text.split("+")]
    return b"".join(bytes.fromhex(piece[0]) * (int(piece[1]) if piece[1:] else 1) for piece in pieces)


def literal(data):
    return data.hex() or "-"


def replica(name, book, buffer, words):
    """Makes the call on two bytearrays and returns its answer in words; words are its other arguments as text."""
    if name != "open":
        return "part 0" if name.endswith("read") else "deny 1"
    n, own, heights = (int(word) for word in words[:3])
    weights, roll = parse(words[3]), parse(words[4])
    in_range = 1 <= n <= 16 and own < n and 1 <= heights <= 1000 and len(weights) == 2 * n and len(roll) == heights
    pairs = zip(weights[::2], weights[1::2])
    if not in_range or any(not 1 <= low + 256 * high <= 1000 for low, high in pairs) or any(s >= n for s in roll):
        return "deny 2"
    if len(book) != 576 + 880 * heights:
        return "deny 1"
    book[:] = bytes(len(book))
    book[0:8 + 2 * n] = bytes([n, own, 0, 0, 0, 0, 0, 3]) + weights
    book[40:43] = heights.to_bytes(2, "little") + bytes([1])
    book[576:576 + 16 * heights:16] = roll
    return "done"


for line in sys.stdin:
    words = line.split()
    name, book = words[0], bytearray(parse(words[1]))
    buffer = bytearray(parse(words[LENT[name]])) if name in LENT else None
    answer = replica(name, book, buffer, words[2:])
    lent = [book] if buffer is None else [book, buffer]
    print(answer, *map(literal, lent), flush=True)
