#!/usr/bin/env python3
"""Prints the container of a compute shader with the forms that compilers write: types of every kind, abbreviations from BLOCKINFO for constants and
metadata, symbols before and behind the bodies, and two bodies. As Rust bytes for the tests of dxil_cli:

    python3 tools/make_varied.py
"""

import os
import sys

sys.path.insert(0, os.path.join(os.path.dirname(os.path.abspath(__file__)), "..", "bench"))

from records import Stream, container  # noqa: E402

CONSTANTS, FUNCTION, SYMBOLS, METADATA, TYPES = 11, 12, 14, 15, 17


def text(word):
    return [ord(c) for c in word]


def abbreviated(stream, number, write):
    stream.fixed(number, stream.width)
    write()


def varied():
    stream = Stream()
    stream.enter(8)
    stream.record(1, [1])
    stream.enter(0)
    # abbreviation 4 of constants: INTEGER with one vbr 8; abbreviation 5: SETTYPE with a fixed 5
    stream.record(1, [CONSTANTS])
    stream.define([("literal", 4), ("vbr", 8)])
    stream.define([("literal", 1), ("fixed", 5)])
    # abbreviation 4 of metadata: STRING as an array of char6 letters; abbreviation 5: NODE as an array of vbr 6
    stream.record(1, [METADATA])
    stream.define([("literal", 1), "array", "char6"])
    stream.define([("literal", 3), "array", ("vbr", 6)])
    stream.end()
    stream.enter(TYPES)
    # 0 void, 1 void (), 2 i32, 3 a pointer to 1, 4 float, 5 double, 6 label, 7 opaque, 8 half, 9 an array, 10 a vector, 11 metadata, 12 and 13 structures,
    # 14 a variadic function
    rows = [
        (1, [15]),
        (2, []),
        (21, [0, 0]),
        (7, [32]),
        (8, [1, 0]),
        (3, []),
        (4, []),
        (5, []),
        (19, text("name")),
        (6, [0]),
        (10, []),
        (11, [4, 2]),
        (12, [4, 4]),
        (16, []),
        (18, [0, 2, 4]),
        (19, text("s")),
        (20, [0, 9, 10]),
        (21, [1, 0, 2]),
    ]
    for code, fields in rows:
        stream.record(code, fields)
    stream.end()
    stream.enter(SYMBOLS)
    stream.record(1, [1] + text("main"))
    stream.end()
    # value 0 is a function with a body, and value 1 the entry
    stream.record(8, [3, 0, 0, 0])
    stream.record(8, [3, 0, 0, 0])
    stream.enter(CONSTANTS)
    abbreviated(stream, 5, lambda: stream.fixed(2, 5))
    # values 2 to 6
    for number in [6, 0, 8, 4, 1]:
        abbreviated(stream, 4, lambda: stream.vbr(2 * number, 8))
    stream.end()
    stream.enter(METADATA)

    def string(word):
        stream.fixed(4, stream.width)
        stream.vbr(len(word), 6)
        for letter in word:
            stream.fixed("abcdefghijklmnopqrstuvwxyz".index(letter), 6)

    def node(ids):
        stream.fixed(5, stream.width)
        stream.vbr(len(ids), 6)
        for number in ids:
            stream.vbr(number, 6)

    string("cs")
    stream.record(2, [2, 2])
    stream.record(2, [2, 3])
    node([1, 2, 3])
    stream.record(2, [3, 1])
    string("main")
    stream.record(2, [2, 4])
    stream.record(2, [2, 5])
    stream.record(2, [2, 6])
    node([7, 8, 9])
    node([8, 10])
    node([5, 6, 0, 0, 11])
    for name, number in [("dx.shaderModel", 3), ("dx.entryPoints", 11)]:
        stream.record(4, text(name))
        stream.record(10, [number])
    stream.end()
    # the first body has two blocks, the second one return
    stream.enter(FUNCTION)
    stream.record(1, [2])
    stream.record(11, [1])
    stream.record(10, [])
    stream.end()
    stream.enter(FUNCTION)
    stream.record(1, [1])
    stream.record(10, [])
    stream.end()
    stream.enter(SYMBOLS)
    stream.record(1, [0] + text("other"))
    stream.end()
    stream.end()
    return container(bytes(stream.done))


def main():
    content = varied()
    print(f"[u8; {len(content)}] = [")
    for at in range(0, len(content), 16):
        print("    " + ", ".join(f"0x{byte:02X}" for byte in content[at : at + 16]) + ",")
    print("];")


if __name__ == "__main__":
    main()
