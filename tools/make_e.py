#!/usr/bin/env python3
"""Writes e.dxbc, the container of an empty compute shader of 8, 4 and 1 threads a group.

Usage: make_e.py FILE

The bitcode is LLVM 3.7's, every record unabbreviated: records as (code, fields), blocks as (id, items).
"""

import struct
import sys

MAGIC = b"BC\xc0\xde"


class Bits:
    """A list of bits, the least significant of each byte first."""

    def __init__(self):
        self.bits = []

    def fixed(self, value, width):
        self.bits += [value >> i & 1 for i in range(width)]

    def vbr(self, value, width):
        top = 1 << (width - 1)
        while value >= top:
            self.fixed(value & (top - 1) | top, width)
            value >>= width - 1
        self.fixed(value, width)

    def align(self):
        self.bits += [0] * (-len(self.bits) % 32)

    def bytes(self):
        octets = range(0, len(self.bits), 8)
        return bytes(sum(self.bits[at + i] << i for i in range(8)) for at in octets)


class Block:
    def __init__(self, number, *items):
        self.number = number
        self.items = items


class Record:
    def __init__(self, code, *fields):
        self.code = code
        self.fields = fields


def text(code, string):
    return Record(code, *string.encode())


def write_record(out, width, record):
    out.fixed(3, width)
    for number in (record.code, len(record.fields), *record.fields):
        out.vbr(number, 6)


def write_block(out, outer, width, block):
    """`outer` is the width of abbreviation ids around the block, and `width` that in it."""
    out.fixed(1, outer)
    out.vbr(block.number, 8)
    out.vbr(width, 4)
    out.align()
    length_at = len(out.bits)
    out.fixed(0, 32)
    for item in block.items:
        if isinstance(item, Block):
            write_block(out, width, 4, item)
        else:
            write_record(out, width, item)
    out.fixed(0, width)
    out.align()
    words = (len(out.bits) - length_at - 32) // 32
    out.bits[length_at : length_at + 32] = [words >> i & 1 for i in range(32)]


MODULE = Block(
    8,
    Record(1, 1),
    # the types: void, a function without parameters, the 32-bit integer, a pointer to the function
    Block(17, Record(1, 4), Record(2), Record(21, 0, 0), Record(7, 32), Record(8, 1, 0)),
    Record(8, 1, 0, 0, 0),
    # the constants 6, 0, 4, 8 and 1, at twice their value
    Block(11, Record(1, 2), *(Record(4, field) for field in (12, 0, 8, 16, 2))),
    # the metadata: the shader model "cs" 6.0 and the entry point "main" with its thread counts
    Block(
        15,
        text(1, "cs"),
        Record(2, 2, 1),
        Record(2, 2, 2),
        Record(3, 1, 2, 3),
        Record(2, 3, 0),
        text(1, "main"),
        Record(2, 2, 3),
        Record(2, 2, 4),
        Record(2, 2, 5),
        Record(3, 8, 7, 9),
        Record(3, 7, 10),
        Record(3, 5, 6, 0, 0, 11),
        text(4, "dx.shaderModel"),
        Record(10, 3),
        text(4, "dx.entryPoints"),
        Record(10, 11),
    ),
    # the body: one block that returns
    Block(12, Record(1, 1), Record(10)),
)


def bitcode():
    out = Bits()
    for byte in MAGIC:
        out.fixed(byte, 8)
    write_block(out, 2, 3, MODULE)
    return out.bytes()


def container():
    code = bitcode()
    words = (len(code) + 24) // 4
    program = struct.pack("<II4sIII", 0x00050060, words, b"DXIL", 0x100, 16, len(code)) + code
    size = 36 + 8 + len(program)
    header = b"DXBC" + bytes(16) + struct.pack("<IIII", 1, size, 1, 36)
    return header + b"DXIL" + struct.pack("<I", len(program)) + program


if __name__ == "__main__":
    with open(sys.argv[1], "wb") as file:
        file.write(container())
