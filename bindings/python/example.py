#!/usr/bin/env python3
"""Verifies a proof from Python: example.py libtealmuze_c.so, made by `cc -shared -o libtealmuze_c.so -Wl,--whole-archive libtealmuze_c.a`."""
import ctypes
import sys


def number(value):
    return value.to_bytes(8, "little")


def step(what, label, *numbers):
    return bytes([what, len(label)]) + label + number(len(numbers)) + b"".join(map(number, numbers))


def called(function, *given):
    """Calls with as much room as is wanted, and returns the answer."""
    room = 0
    while True:
        answer = (ctypes.c_uint8 * max(room, 1))()
        wanted = function(*given, answer, ctypes.c_size_t(room))
        if wanted <= room:
            return bytes(answer[:wanted])
        room = wanted


library = ctypes.CDLL(sys.argv[1])
library.tealmuze_verify.restype = library.tealmuze_prove.restype = ctypes.c_size_t
description = bytes([0, 1, 1]) + b"c" + number(0) + number(2) + step(7, b"b", 2) + step(2, b"x")
asked = (description, ctypes.c_size_t(len(description)))
values = number(1) + b"\0" + number(2) + b"hi"
proved = called(library.tealmuze_prove, *asked, values, ctypes.c_size_t(len(values)))
proof = proved[9 : 9 + int.from_bytes(proved[1:9], "little")]
carried = (ctypes.c_uint64 * 1)()
told = called(library.tealmuze_verify, *asked, proof, ctypes.c_size_t(len(proof)), carried, ctypes.c_size_t(0))
print("accepted" if told[0] == 0 else told[9:].decode(), proof.hex())
sys.exit(told[0])
