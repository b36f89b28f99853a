#!/usr/bin/env python3
"""Prints where the records of the shader of profile_tests stand, and where they stand with each of its changes, by the layouts of the formats alone:

    python3 tools/profile_rows.py
"""

import os
import sys

sys.path.insert(0, os.path.join(os.path.dirname(os.path.abspath(__file__)), "..", "bench"))

from records import Stream  # noqa: E402

MODULE, CONSTANTS, FUNCTION, SYMBOLS, METADATA, TYPES = 8, 11, 12, 14, 15, 17


def text(word):
    return [ord(c) for c in word]


# 0 void, 1 void (), 2 i32, 3 i1, 4 i8, 5 a handle, 6 the parts of a load, 7 to 11 the operations' functions, 12 an array of 64 i32
types = [
    (1, [13]), (2, []), (21, [0, 0]), (7, [32]), (7, [1]), (7, [8]), (18, [0, 2]), (18, [0, 2, 2, 2, 2, 2]),
    (21, [0, 5, 2, 4, 2, 2, 3]), (21, [0, 6, 2, 5, 2, 2]), (21, [0, 0, 2, 5, 2, 2, 2, 2, 2, 2, 4]), (21, [0, 2, 2, 2]), (21, [0, 0, 2, 2]), (11, [64, 2]),
]
# the values 0 s, 1 main, 2 createHandle, 3 bufferLoad, 4 bufferStore, 5 threadIdInGroup, 6 barrier, 7 t
globals_ = [(7, [12, 14, 0]), (8, [1, 0, 0, 0]), (8, [7, 0, 1]), (8, [8, 0, 1]), (8, [9, 0, 1]), (8, [10, 0, 1]), (8, [11, 0, 1]), (7, [2, 14, 0])]
names = ["createHandle", "bufferLoad", "bufferStore", "threadIdInGroup", "barrier"]
symbols = [(1, [2 + n] + text("dx.op." + word)) for n, word in enumerate(names)]

# the values from 8 on: i32 6, 0, 1, 4, 64, 57, 68, 69, 95, 80, 9, 11, 200, undef; i8 1, 15, 0; i1 0
ints = [6, 0, 1, 4, 64, 57, 68, 69, 95, 80, 9, 11, 200]
constants = [(1, [2])] + [(4, [2 * n]) for n in ints] + [(3, []), (1, [4]), (4, [2]), (4, [30]), (2, []), (1, [3]), (2, [])]
value = {n: 8 + at for at, n in enumerate(ints)}
UNDEF, ONE, MASK, ZERO, FALSE, COUNT = 21, 22, 23, 24, 25, 26

metadata = [
    (1, text("cs")), (2, [2, value[6]]), (2, [2, value[0]]), (3, [1, 2, 3]), (2, [1, 1]), (1, text("main")), (2, [2, value[4]]), (2, [2, value[64]]), (2, [2, value[1]]),
    (3, [8, 9, 9]), (3, [7, 10]), (2, [2, value[11]]), (2, [3, FALSE]), (3, [3, 0, 0, 3, 3, 9, 12, 13, 13, 13, 0]), (3, [14]), (3, [0, 15, 0, 0]), (3, [5, 6, 0, 16, 11]),
    (4, text("dx.shaderModel")), (10, [3]), (4, text("dx.entryPoints")), (10, [16]),
]

# the values of the body
HANDLE, THREAD, LOADED, PART, PLACE, READ, LESS, SUM, WIDE, OLD, PAIR, FIRST, JOINED = range(COUNT, COUNT + 13)


def back(now, number):
    return (now - number) % 2**32


body = [
    (1, [4]),
    # handle of the row of class 1 and id 0; thread; the buffer at thread; its first part
    (34, [0, 0] + [back(HANDLE, n) for n in (2, value[57], ONE, value[0], value[0], FALSE)]),
    (34, [0, 0] + [back(THREAD, n) for n in (5, value[95], value[0])]),
    (34, [0, 0] + [back(LOADED, n) for n in (3, value[68], HANDLE, THREAD, UNDEF)]),
    (26, [back(PART, LOADED), 0]),
    # s[thread] is the part; a barrier; s[thread] again
    (43, [1, 12] + [back(PLACE, n) for n in (0, value[0], THREAD)]),
    (44, [back(READ, PLACE), back(READ, PART), 0, 0]),
    (34, [0, 0] + [back(READ, n) for n in (6, value[80], value[9])]),
    (20, [back(READ, PLACE), 2, 0, 0]),
    (28, [back(LESS, READ), back(LESS, THREAD), 36]),
    (11, [1, 2, back(SUM, LESS)]),
    # block 1
    (2, [back(SUM, READ), back(SUM, THREAD), 0]),
    (3, [back(WIDE, LESS), 2, 1]),
    (38, [back(OLD, PLACE), back(OLD, WIDE), 1, 0, 0, 0]),
    (46, [back(PAIR, PLACE), back(PAIR, OLD), back(PAIR, SUM), 0, 0, 0]),
    (26, [back(FIRST, PAIR), 0]),
    (11, [3]),
    # block 2
    (12, [2, back(JOINED, THREAD), 3, value[1], 3, value[4], 3]),
    # block 3
    (16, [2, 2 * back(JOINED, FIRST), 1, 2 * back(JOINED, READ), 2]),
    (34, [0, 0] + [back(JOINED + 1, n) for n in (4, value[69], HANDLE, THREAD, UNDEF, JOINED, UNDEF, UNDEF, UNDEF, ONE)]),
    (10, []),
]

tables = {TYPES: types, CONSTANTS: constants, METADATA: metadata, FUNCTION: body, MODULE: globals_, SYMBOLS: symbols}


def places(changes):
    """The bits of the body's records, with the records at some places of blocks replaced."""

    def rows(block):
        for place, row in enumerate(tables[block]):
            yield from changes.get((block, place), [row])

    stream = Stream()
    stream.enter(MODULE)
    stream.record(1, [1])
    bits = []

    def block(number):
        stream.enter(number)
        for code, fields in rows(number):
            if number == FUNCTION:
                bits.append(544 + len(stream.done) * 8 + stream.count)
            stream.record(code, fields)
        stream.end()

    block(TYPES)
    for code, fields in rows(MODULE):
        stream.record(code, fields)
    for number in (CONSTANTS, METADATA, SYMBOLS, FUNCTION):
        block(number)
    stream.end()
    return bits


def call(now, *numbers):
    return (34, [0, 0] + [back(now, n) for n in numbers])


def atomic(operation):
    """An atomic on the buffer in place of its store."""
    return {
        (TYPES, 0): [(1, [14])],
        (TYPES, 13): [(11, [64, 2]), (21, [0, 2, 2, 5, 2, 2, 2, 2, 2])],
        (MODULE, 4): [(8, [13, 0, 1])],
        (CONSTANTS, 8): [(4, [156])],
        (SYMBOLS, 2): [(1, [4] + text("dx.op.atomicBinOp"))],
        (FUNCTION, 19): [call(JOINED + 1, 4, value[69], HANDLE, value[operation], THREAD, UNDEF, UNDEF, JOINED)],
    }


# the rule, which record of the body breaks it, and what is changed; None where the profile is met
rows = [
    ("a truth value added to a number", "P1", 11, {(FUNCTION, 11): [(2, [back(SUM, READ), back(SUM, LESS), 0])]}),
    ("an operand that is no value of the body", "P1", 11, {(FUNCTION, 11): [(2, [back(SUM, READ), back(SUM, 40), 0])]}),
    ("the operation 13", "P2", 11, {(FUNCTION, 11): [(2, [back(SUM, READ), back(SUM, THREAD), 13])]}),
    ("a division of truth values", "P2", 11, {(FUNCTION, 11): [(2, [back(SUM, LESS), back(SUM, LESS), 3])]}),
    ("a truth value cut to a number", "P3", 12, {(FUNCTION, 12): [(3, [back(WIDE, LESS), 2, 0])]}),
    ("the predicate 42", "P4", 9, {(FUNCTION, 9): [(28, [back(LESS, READ), back(LESS, THREAD), 42])]}),
    ("a phi without an entry for block 2", "P5", 18, {(FUNCTION, 18): [(16, [2, 2 * back(JOINED, FIRST), 1])]}),
    ("an entry of a block that is no predecessor", "P5", 18, {(FUNCTION, 18): [(16, [2, 2 * back(JOINED, FIRST), 1, 2 * back(JOINED, READ), 2, 2 * back(JOINED, READ), 0])]}),
    ("two entries of one block that differ", "P5", 18, {(FUNCTION, 18): [(16, [2, 2 * back(JOINED, FIRST), 1, 2 * back(JOINED, READ), 2, 2 * back(JOINED, THREAD), 2])]}),
    ("two that are equal", None, 0, {(FUNCTION, 18): [(16, [2, 2 * back(JOINED, FIRST), 1, 2 * back(JOINED, READ), 2, 2 * back(JOINED, READ), 2])]}),
    ("a return of a value", "P6", 20, {(FUNCTION, 20): [(10, [1])]}),
    ("two equal cases", "P7", 17, {(FUNCTION, 17): [(12, [2, back(JOINED, THREAD), 3, value[1], 3, value[1], 3])]}),
    ("a case that is a truth value", "P7", 17, {(FUNCTION, 17): [(12, [2, back(JOINED, THREAD), 3, FALSE, 3, value[4], 3])]}),
    ("a switch on a constant", None, 0, {(FUNCTION, 17): [(12, [2, back(JOINED, value[1]), 3, value[1], 3, value[4], 3])]}),
    ("a switch on a truth value", "P1", 17, {(FUNCTION, 17): [(12, [2, back(JOINED, LESS), 3, value[1], 3, value[4], 3])]}),
    ("a branch to block 0", "P8", 16, {(FUNCTION, 16): [(11, [0])]}),
    ("an ALLOCA", "P9", 20, {(FUNCTION, 20): [(19, []), (10, [])]}),
    ("a first index of 1", "P10", 5, {(FUNCTION, 5): [(43, [1, 12] + [back(PLACE, n) for n in (0, value[1], THREAD)])]}),
    ("a variable of another space", "P10", 5, {(MODULE, 0): [(7, [12, 18, 0])]}),
    ("a groupshared array of 32,772 bytes", "P11", 5, {(TYPES, 13): [(11, [8193, 2])]}),
    ("one of 32,768", None, 0, {(TYPES, 13): [(11, [8192, 2])]}),
    ("one of 32,768 and a further variable that is loaded later", "P11", 8, {(TYPES, 13): [(11, [8192, 2])], (FUNCTION, 8): [(20, [back(READ, 7), 2, 0, 0])]}),
    ("one of 32,764 and that variable", None, 0, {(TYPES, 13): [(11, [8191, 2])], (FUNCTION, 8): [(20, [back(READ, 7), 2, 0, 0])]}),
    ("a groupshared variable without a GEP", None, 0, {(FUNCTION, 8): [(20, [back(READ, 0), 2, 0, 0])]}),
    ("a load of a truth value", "P12", 8, {(FUNCTION, 8): [(20, [back(READ, PLACE), 3, 0, 0])], (FUNCTION, 9): [(28, [back(LESS, THREAD), back(LESS, THREAD), 36])]}),
    ("the atomic operation 4", "P12", 13, {(FUNCTION, 13): [(38, [back(OLD, PLACE), back(OLD, WIDE), 4, 0, 0, 0])]}),
    ("a call of main", "P13", 7, {(FUNCTION, 7): [call(READ, 1)]}),
    ("an opcode of 8 bits", "P14", 7, {(FUNCTION, 7): [call(READ, 6, MASK, value[9])]}),
    ("the opcode 200", "P15", 7, {(FUNCTION, 7): [call(READ, 6, value[200], value[9])]}),
    ("the opcode 110", "P15", 7, {(CONSTANTS, 13): [(4, [220])], (FUNCTION, 7): [call(READ, 6, value[200], value[9])]}),
    ("the opcode 13 on a float", "P15", 19, {
        (TYPES, 0): [(1, [15])],
        (TYPES, 13): [(11, [64, 2]), (3, []), (21, [0, 13, 2, 13])],
        (MODULE, 4): [(8, [14, 0, 1])],
        (CONSTANTS, 8): [(4, [26])],
        (CONSTANTS, 13): [(1, [13]), (6, [0x3F800000]), (1, [2])],
        (SYMBOLS, 2): [(1, [4] + text("dx.op.unary.f32"))],
        (FUNCTION, 19): [call(JOINED + 1, 4, value[69], value[200])],
    }),
    ("a thread number by a function that gives nothing", "P16", 7, {(FUNCTION, 7): [call(READ, 6, value[95], value[0])]}),
    ("the barrier mode 0", "P17", 7, {(FUNCTION, 7): [call(READ, 6, value[80], value[0])]}),
    ("the barrier mode 16", "P17", 7, {(CONSTANTS, 11): [(4, [32])]}),
    ("the atomic operation 9 on a buffer", "P17", 19, atomic(9)),
    ("its operation 6", None, 0, atomic(6)),
    ("an undefined row id", "P17", 1, {(FUNCTION, 1): [call(HANDLE, 2, value[57], ONE, UNDEF, value[0], FALSE)]}),
    ("a mask of no part", "P17", 19, {(FUNCTION, 19): [call(JOINED + 1, 4, value[69], HANDLE, THREAD, UNDEF, JOINED, UNDEF, UNDEF, UNDEF, ZERO)]}),
    ("the row id 1", "P18", 1, {(FUNCTION, 1): [call(HANDLE, 2, value[57], ONE, value[1], value[0], FALSE)]}),
    ("a range of 4", "P19", 1, {(METADATA, 13): [(3, [3, 0, 0, 3, 3, 7, 12, 13, 13, 13, 0])]}),
    ("the second of two rows of one place", "P20", 20, {
        (METADATA, 14): [(3, [14, 18])],
        (METADATA, 20): [(10, [16]), (3, [9, 0, 0, 3, 3, 9, 12, 13, 13, 13, 0])],
        (FUNCTION, 20): [call(JOINED + 1, 2, value[57], ONE, value[1], value[0], FALSE), (10, [])],
    }),
    ("the same row again, by a handle that is not used", None, 0, {(FUNCTION, 20): [call(JOINED + 1, 2, value[57], ONE, value[0], value[0], FALSE), (10, [])]}),
    ("a store to a buffer that is read only", "P21", 19, {
        (METADATA, 15): [(3, [15, 0, 0, 0])],
        (FUNCTION, 1): [call(HANDLE, 2, value[57], ZERO, value[0], value[0], FALSE)],
    }),
    ("a load by a handle that is a load", "P21", 19, {(FUNCTION, 19): [call(JOINED + 1, 4, value[69], LOADED, THREAD, UNDEF, JOINED, UNDEF, UNDEF, UNDEF, ONE)]}),
    ("the part 4 of a load", "P22", 4, {(FUNCTION, 4): [(26, [back(PART, LOADED), 4])]}),
    ("two indices of a part", "P22", 4, {(FUNCTION, 4): [(26, [back(PART, LOADED), 0, 0])]}),
    ("the part 2 of an exchange", "P22", 15, {(FUNCTION, 15): [(26, [back(FIRST, PAIR), 2])]}),
    ("the part 3 of a load", None, 0, {(FUNCTION, 4): [(26, [back(PART, LOADED), 3])]}),
    ("no part of a load", None, 0, {(FUNCTION, 4): [(2, [back(PART, THREAD), back(PART, THREAD), 0])]}),
    ("a forward operand with its type", None, 0, {(FUNCTION, 11): [(2, [back(SUM, WIDE), 2, back(SUM, THREAD), 0])]}),
    ("with another type", "P1", 11, {(FUNCTION, 11): [(2, [back(SUM, WIDE), 3, back(SUM, THREAD), 0])]}),
    ("an undefined number", None, 0, {(FUNCTION, 11): [(2, [back(SUM, READ), back(SUM, UNDEF), 0])]}),
    ("a null truth value", "P1", 11, {(FUNCTION, 11): [(2, [back(SUM, READ), back(SUM, FALSE), 0])]}),
    ("a call that states its type", None, 0, {(FUNCTION, 7): [(34, [0, 32768, 11] + [back(READ, n) for n in (6, value[80], value[9])])]}),
    ("a constant place without a source type", None, 0, {
        (CONSTANTS, 13): [(12, [12, 0, 2, value[0], 2, value[1]])],
        (FUNCTION, 8): [(20, [back(READ, value[200]), 2, 0, 0])],
    }),
    ("one with a source type", None, 0, {
        (CONSTANTS, 13): [(20, [12, 12, 0, 2, value[0], 2, value[1]])],
        (FUNCTION, 8): [(20, [back(READ, value[200]), 2, 0, 0])],
    }),
    ("one whose index is no constant", "P10", 8, {
        (CONSTANTS, 13): [(12, [12, 0, 2, value[0], 2, THREAD])],
        (FUNCTION, 8): [(20, [back(READ, value[200]), 2, 0, 0])],
    }),
    ("a part that the mask of a raw load allows", None, 0, {
        (TYPES, 9): [(21, [0, 6, 2, 5, 2, 2, 4, 2])],
        (CONSTANTS, 7): [(4, [278])],
        (FUNCTION, 3): [call(LOADED, 3, value[68], HANDLE, THREAD, UNDEF, ONE, value[4])],
    }),
    ("one that it does not allow", "P22", 4, {
        (TYPES, 9): [(21, [0, 6, 2, 5, 2, 2, 4, 2])],
        (CONSTANTS, 7): [(4, [278])],
        (FUNCTION, 3): [call(LOADED, 3, value[68], HANDLE, THREAD, UNDEF, ONE, value[4])],
        (FUNCTION, 4): [(26, [back(PART, LOADED), 1])],
    }),
    ("of two rules at one record the lesser", "P1", 11, {(FUNCTION, 11): [(2, [back(SUM, READ), back(SUM, LESS), 13])]}),
    ("of two records the first", "P4", 9, {(FUNCTION, 9): [(28, [back(LESS, READ), back(LESS, THREAD), 42])], (FUNCTION, 11): [(2, [back(SUM, READ), back(SUM, LESS), 0])]}),
    ("nothing", None, 0, {}),
]


def many(count):
    """The bits of the calls of a body that names so many resources, each of a place of its own."""
    stream = Stream()
    stream.enter(MODULE)
    stream.record(1, [1])
    bits = []

    def block(number, rows):
        stream.enter(number)
        for code, fields in rows:
            if number == FUNCTION:
                bits.append(544 + len(stream.done) * 8 + stream.count)
            stream.record(code, fields)
        stream.end()

    block(TYPES, types)
    for code, fields in globals_:
        stream.record(code, fields)
    block(CONSTANTS, constants + [(1, [2])] + [(4, [2 * n]) for n in range(count)])
    # the items 13 + k are the ids, and 13 + count + k the rows
    ids = [(2, [2, COUNT + n]) for n in range(count)]
    items = [(3, [14 + n, 0, 0, 3, 14 + n, 9, 12, 13, 13, 13, 0]) for n in range(count)]
    lists = [(3, [14 + count + n for n in range(count)]), (3, [0, 14 + 2 * count, 0, 0]), (3, [5, 6, 0, 15 + 2 * count, 11])]
    names_ = [metadata[17], (10, [3]), metadata[19], (10, [15 + 2 * count])]
    block(METADATA, metadata[:13] + ids + items + lists + names_)
    block(SYMBOLS, symbols)
    calls = [call(COUNT + count + n, 2, value[57], ONE, COUNT + n, value[0], FALSE) for n in range(count)]
    block(FUNCTION, [(1, [1])] + calls + [(10, [])])
    stream.end()
    return bits


if __name__ == "__main__":
    print("the records of the body:", places({}))
    for count in (1024, 1025):
        bits = many(count)
        print(count, "resources: the first call", bits[1], "and the last", bits[count])
    for name, rule, record, changes in rows:
        print(name, rule, places(changes)[record] if rule else None, changes)
