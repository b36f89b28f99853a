#!/usr/bin/env python3
"""Prints the records of the shader of a loop that profile_tests reads to its program, by the layouts of the formats alone:

    python3 tools/loop_rows.py
"""


def text(word):
    return [ord(c) for c in word]


# 0 void, 1 void (), 2 i32, 3 i1, 4 i8, 5 a handle, 6 the parts of a load, 7 to 11 the operations' functions, 12 an array of 64 i32
types = [
    (1, [13]), (2, []), (21, [0, 0]), (7, [32]), (7, [1]), (7, [8]), (18, [0, 2]), (18, [0, 2, 2, 2, 2, 2]),
    (21, [0, 5, 2, 4, 2, 2, 3]), (21, [0, 6, 2, 5, 2, 2]), (21, [0, 0, 2, 5, 2, 2, 2, 2, 2, 2, 4]), (21, [0, 2, 2, 2]), (21, [0, 0, 2, 2]), (11, [64, 2]),
]
# the values 0 s, 1 main, 2 createHandle, 3 bufferLoad, 4 bufferStore, 5 threadIdInGroup, 6 barrier
globals_ = [(7, [12, 14, 0]), (8, [1, 0, 0, 0]), (8, [7, 0, 1]), (8, [8, 0, 1]), (8, [9, 0, 1]), (8, [10, 0, 1]), (8, [11, 0, 1])]
names = ["createHandle", "bufferLoad", "bufferStore", "threadIdInGroup", "barrier"]
symbols = [(1, [2 + n] + text("dx.op." + word)) for n, word in enumerate(names)]

# the values from 7 on: i32 numbers, an undefined one; i8 1; i1 0
ints = [6, 0, 1, 2, 4, 64, 57, 68, 69, 95, 80, 9, 11]
constants = [(1, [2])] + [(4, [2 * n]) for n in ints] + [(3, []), (1, [4]), (4, [2]), (1, [3]), (2, [])]
value = {n: 7 + at for at, n in enumerate(ints)}
UNDEF = 7 + len(ints)
ONE, FALSE, COUNT = UNDEF + 1, UNDEF + 2, UNDEF + 3

metadata = [
    (1, text("cs")), (2, [2, value[6]]), (2, [2, value[0]]), (3, [1, 2, 3]), (2, [1, 1]), (1, text("main")), (2, [2, value[4]]), (2, [2, value[64]]), (2, [2, value[1]]),
    (3, [8, 9, 9]), (3, [7, 10]), (2, [2, value[11]]), (2, [3, FALSE]), (3, [3, 0, 0, 3, 3, 9, 12, 13, 13, 13, 0]), (3, [14]), (3, [0, 15, 0, 0]), (3, [5, 6, 0, 16, 11]),
    (4, text("dx.shaderModel")), (10, [3]), (4, text("dx.entryPoints")), (10, [16]),
]

# the values of the body, in the order of its instructions
HANDLE, T, A, LOADED, X, P, D, C, BELOW, Q, Y, Z, OLD, SUM, E, GOES, LAST = range(COUNT, COUNT + 17)


def back(now, number):
    return (now - number) % 2**32


def signed(now, number):
    return 2 * (now - number) if number <= now else 2 * (number - now) + 1


def call(now, *numbers):
    return (34, [0, 0] + [back(now, n) for n in numbers])


body = [
    (1, [7]),
    # block 0
    call(HANDLE, 2, value[57], ONE, value[0], value[0], FALSE),
    call(T, 5, value[95], value[0]),
    (2, [back(A, T), back(A, value[2]), 7]),
    call(LOADED, 3, value[68], HANDLE, A, UNDEF),
    (26, [back(X, LOADED), 0]),
    (43, [1, 12] + [back(P, n) for n in (0, value[0], T)]),
    (44, [back(D, P), back(D, X), 0, 0]),
    call(D, 6, value[80], value[9]),
    (11, [1]),
    # block 1
    (16, [2, signed(D, value[1]), 0, signed(D, E), 5]),
    (28, [back(C, T), back(C, D), 35]),
    (11, [2, 3, back(BELOW, C)]),
    # block 2
    (2, [back(BELOW, T), back(BELOW, D), 1]),
    (43, [1, 12] + [back(Q, n) for n in (0, value[0], BELOW)]),
    (20, [back(Y, Q), 2, 0, 0]),
    (11, [3]),
    # block 3
    (16, [2, signed(Z, value[0]), 1, signed(Z, Y), 2]),
    call(OLD, 6, value[80], value[9]),
    (11, [4, 5, back(OLD, C)]),
    # block 4
    (20, [back(OLD, P), 2, 0, 0]),
    (2, [back(SUM, OLD), back(SUM, Z), 0]),
    (44, [back(E, P), back(E, SUM), 0, 0]),
    (11, [5]),
    # block 5
    call(E, 6, value[80], value[9]),
    (2, [back(E, D), back(E, value[1]), 7]),
    (28, [back(GOES, E), back(GOES, value[64]), 36]),
    (11, [1, 6, back(LAST, GOES)]),
    # block 6
    (20, [back(LAST, P), 2, 0, 0]),
    call(LAST + 1, 4, value[69], HANDLE, A, UNDEF, LAST, UNDEF, UNDEF, UNDEF, ONE),
    (10, []),
]

if __name__ == "__main__":
    for name, rows in (("TYPES", types), ("GLOBALS", globals_), ("CONSTANTS", constants), ("METADATA", metadata), ("SYMBOLS", symbols), ("BODY", body)):
        print(f"const {name}: [Row<'static>; {len(rows)}] = [")
        for code, fields in rows:
            print(f"    ({code}, &{fields}),")
        print("];\n")
    print("HANDLE, T, A, LOADED, X, P, D, C, BELOW, Q, Y, Z, OLD, SUM, E, GOES, LAST =", HANDLE, T, A, LOADED, X, P, D, C, BELOW, Q, Y, Z, OLD, SUM, E, GOES, LAST)
