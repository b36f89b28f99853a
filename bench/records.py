#!/usr/bin/env python3
"""Writes containers for a speed test of the readers.

    python3 bench/records.py plain N OUT     N records of three fields in one module block, without an abbreviation
    python3 bench/records.py abbreviated N OUT     the same by an abbreviation
    python3 bench/records.py big OUT         a container of exactly 2^26 bytes within the limits of 2^22 records and 2^24 fields
    python3 bench/records.py blocks N OUT    N empty function blocks, after BLOCKINFO gave 1,000 abbreviations to them

With a further argument --bitcode FILE the bitcode alone is written too, for llvm-bcanalyzer.
"""

import struct
import sys

MAGIC = 0xDEC04342
MODULE, CONSTANTS, FUNCTION = 8, 11, 12
WIDTH = 4


class Bits:
    """Bits, the least significant of each byte first; whole words are moved to the bytes as they fill up."""

    def __init__(self):
        self.done = bytearray()
        self.rest = 0
        self.count = 0

    def fixed(self, value, width):
        self.rest |= value << self.count
        self.count += width
        if self.count >= 4096:
            self.flush()

    def flush(self):
        whole = self.count // 32 * 4
        self.done += (self.rest & ((1 << 8 * whole) - 1)).to_bytes(whole, "little")
        self.rest >>= 8 * whole
        self.count -= 8 * whole

    def vbr(self, value, width):
        top = 1 << (width - 1)
        while value >= top:
            self.fixed(value & (top - 1) | top, width)
            value >>= width - 1
        self.fixed(value, width)

    def align(self):
        self.fixed(0, -self.count % 32)
        self.flush()

    def words(self, content):
        """Whole words that were made before, at an aligned place."""
        self.flush()
        assert self.count == 0 and len(content) % 4 == 0
        self.done += content


class Stream(Bits):
    """A bitstream with blocks, whose lengths are put in at their ends."""

    def __init__(self):
        super().__init__()
        self.fixed(MAGIC, 32)
        self.width = 2
        self.open = []

    def enter(self, block, width=WIDTH):
        self.fixed(1, self.width)
        self.vbr(block, 8)
        self.vbr(width, 4)
        self.align()
        self.open.append((self.width, len(self.done)))
        self.fixed(0, 32)
        self.flush()
        self.width = width

    def end(self):
        self.fixed(0, self.width)
        self.align()
        self.width, place = self.open.pop()
        length = (len(self.done) - place - 4) // 4
        self.done[place : place + 4] = struct.pack("<I", length)

    def record(self, code, fields):
        self.fixed(3, self.width)
        self.vbr(code, 6)
        self.vbr(len(fields), 6)
        for field in fields:
            self.vbr(field, 6)

    def define(self, operands):
        """Operands: ('literal', n), ('fixed', n), ('vbr', n), 'array', 'char6' or 'blob'."""
        self.fixed(2, self.width)
        self.vbr(len(operands), 5)
        for operand in operands:
            if isinstance(operand, str):
                self.fixed(0, 1)
                self.fixed({"array": 3, "char6": 4, "blob": 5}[operand], 3)
            elif operand[0] == "literal":
                self.fixed(1, 1)
                self.vbr(operand[1], 8)
            else:
                self.fixed(0, 1)
                self.fixed({"fixed": 1, "vbr": 2}[operand[0]], 3)
                self.vbr(operand[1], 5)


def fields_of(index):
    return [index % 16, index % 4096, index]


def plain(count):
    stream = Stream()
    stream.enter(MODULE)
    for index in range(count):
        stream.record(9, fields_of(index))
    stream.end()
    return stream.done


def abbreviated(count):
    stream = Stream()
    stream.enter(MODULE)
    stream.define([("literal", 9), ("fixed", 4), ("fixed", 12), ("vbr", 6)])
    for index in range(count):
        first, second, third = fields_of(index)
        stream.fixed(4, stream.width)
        stream.fixed(first, 4)
        stream.fixed(second, 12)
        stream.vbr(third, 6)
    stream.end()
    return stream.done


def container(bitcode):
    """The bitcode as the one part of a container of shader model 6.0."""
    program = struct.pack("<II4sIII", 0x50060, 6 + len(bitcode) // 4, b"DXIL", 0x100, 16, len(bitcode))
    part = struct.pack("<4sI", b"DXIL", len(program) + len(bitcode)) + program
    size = 36 + len(part) + len(bitcode)
    head = b"DXBC" + bytes(16) + struct.pack("<HHIII", 1, 0, size, 1, 36)
    return head + part + bitcode


def passed_over(stream, words):
    """A block that is not read, with so many words of records and its end; it ends at a whole word."""
    stream.fixed(1, stream.width)
    stream.vbr(99, 8)
    stream.vbr(WIDTH, 4)
    stream.align()
    stream.fixed(words, 32)
    record = 3 | 9 << 4
    stream.words(struct.pack("<HH", record, record) * (words - 1) + bytes(4))


def big():
    """Arrays of 15 * 2^20 elements, then records without a field, then a block that fills the rest."""
    room = (1 << 26) - 68
    stream = Stream()
    stream.enter(MODULE)
    stream.define([("literal", 9), "array", ("fixed", 32)])
    passed_over(stream, 1)
    row = 1 << 20
    elements = struct.pack("<%dI" % row, *range(row))
    for _ in range(15):
        # the id and the count in ten chunks take two words
        stream.fixed(4, stream.width)
        for chunk in range(9):
            stream.fixed(row >> 5 * chunk & 31 | 32, 6)
        stream.fixed(0, 6)
        stream.words(elements)
    while len(stream.done) + stream.count // 8 < room - 4096:
        stream.record(9, [])
    passed_over(stream, 1)
    passed_over(stream, (room - len(stream.done)) // 4 - 3)
    stream.end()
    return stream.done


def blocks(count):
    stream = Stream()
    stream.enter(MODULE)
    stream.enter(0)
    stream.record(1, [FUNCTION])
    for index in range(1000):
        stream.define([("literal", index), ("vbr", 6)])
    stream.end()
    for _ in range(count):
        stream.enter(FUNCTION)
        stream.end()
    stream.end()
    return stream.done


def main(words):
    bitcode_file = None
    if "--bitcode" in words:
        at = words.index("--bitcode")
        bitcode_file = words[at + 1]
        words = words[:at] + words[at + 2 :]
    kinds = {"plain": plain, "abbreviated": abbreviated, "blocks": blocks}
    if len(words) == 3 and words[0] in kinds:
        bitcode, out = kinds[words[0]](int(words[1])), words[2]
    elif len(words) == 2 and words[0] == "big":
        bitcode, out = big(), words[1]
    else:
        sys.exit(__doc__)
    with open(out, "wb") as file:
        file.write(container(bytes(bitcode)))
    if bitcode_file:
        with open(bitcode_file, "wb") as file:
            file.write(bitcode)


if __name__ == "__main__":
    main(sys.argv[1:])
