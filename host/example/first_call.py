#!/usr/bin/env python3
"""A first call from Python: a book for station 2 of 4, all of weight 1, three blank votes, and the moves that follow.

host/install PREFIX puts the shared object there; then: python3 host/example/first_call.py PREFIX/lib/libmavunilai.so
"""
import ctypes
import sys

library = ctypes.CDLL(sys.argv[1])


def call(name, *arguments):
    """Makes a call and gives its number: a buffer becomes a pointer and a length, a number stays one."""
    function = getattr(library, "mavunilai_" + name)
    function.restype, words = ctypes.c_uint64, []
    for argument in arguments:
        if isinstance(argument, int):
            words += [ctypes.c_uint64(argument)]
        else:
            words += [argument, ctypes.c_size_t(len(argument))]
    return function(*words)


def taken(number):
    """The bytes of a packed answer above the refusal; the program ends where the call was refused."""
    refusal, *rest = number.to_bytes(8, "little")
    if refusal:
        sys.exit(f"refused with {refusal}")
    return rest


if call("interface") != 7:
    sys.exit("the library is of another interface than this program")
book, reply = ctypes.create_string_buffer(576 + 880 * 3), ctypes.create_string_buffer(448)
weights, roll = bytes([1, 0] * 4), bytes([0, 1, 2])  # of a weight the low byte first
taken(call("open", book, 4, 2, 3, weights, roll))
for signer in range(3):
    fresh, *_ = taken(call("deliver", book, bytes([3, signer, 1]).ljust(224, b"\0")))
    print(f"blank vote of {signer}: {'fresh' if fresh else 'known'}")
while (move := taken(call("move", book, reply)))[0]:
    made, low, high, certificate, finalise, *_ = move
    print(f"move {made} at height {low + 256 * high}: certificate {certificate}, finalise {finalise}")
current, settled = (int.from_bytes(book.raw[at:at + 2], "little") for at in (42, 44))  # a new book is of edition 3
print(f"current height {current}, settled height {settled}")
