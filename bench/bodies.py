#!/usr/bin/env python3
"""Writes containers of compute shaders for a speed test of the profile: each meets it, and has a body that is large in one way.

    python3 bench/bodies.py lines N OUT      a body of N instructions, N at most 32,768: sums, each of the one before
    python3 bench/bodies.py cases N OUT      a switch of N cases, N at most 65,536
    python3 bench/bodies.py entries N OUT    32 phis of N / 32 entries each, N at most 262,080: one for each of the blocks before them
    python3 bench/bodies.py rows N OUT       a body that names N rows of buffers, N at most 1,024, each by a handle and a load
    python3 bench/bodies.py loads N OUT      N loads of a part of a structured buffer, N at most 16,383
    python3 bench/bodies.py chain N OUT      N blocks, N at most 8,192, each of which goes to the next one
    python3 bench/bodies.py rings N OUT      loops within each other, of N blocks in all

`translate` translates each.
"""

import sys

from records import Stream, container


def text(word):
    return [ord(c) for c in word]


# the value of main, of the two operations, and of the constants of the module
MAIN, CREATE, LOAD = 0, 1, 2
NUMBERS = [6, 0, 1, 4, 11, 12, 57, 68]
UAV = 3 + len(NUMBERS)
FALSE = UAV + 1
COUNT = UAV + 2
VALUE = {number: 3 + at for at, number in enumerate(NUMBERS)}


def shader(declared, constants, body, rows=0, kind=11):
    """`body` are records, in which the constants of the body have the numbers from COUNT on. The kind of the rows is 11 (raw) or 12 (structured, of stride 4)."""
    stream = Stream()
    stream.enter(8)
    stream.record(1, [1])
    stream.enter(17)
    # 0 void, 1 void (), 2 i32, 3 i1, 4 i8, 5 a handle, 6 the parts of a load, 7 and 8 the functions of the operations
    for code, fields in [
        (2, []), (21, [0, 0]), (7, [32]), (7, [1]), (7, [8]), (18, [0, 2]), (18, [0, 2, 2, 2, 2, 2]), (21, [0, 5, 2, 4, 2, 2, 3]), (21, [0, 6, 2, 5, 2, 2]),
    ]:
        stream.record(code, fields)
    stream.end()
    for fields in [[1, 0, 0, 0], [7, 0, 1], [8, 0, 1]]:
        stream.record(8, fields)
    stream.enter(11)
    stream.record(1, [2])
    for number in NUMBERS:
        stream.record(4, [2 * number])
    stream.record(1, [4])
    stream.record(4, [2])
    stream.record(1, [3])
    stream.record(2, [])
    for number in range(rows):
        if number == 0:
            stream.record(1, [2])
        stream.record(4, [2 * number])
    stream.end()
    stream.enter(15)
    metadata(stream, rows, kind)
    stream.end()
    stream.enter(14)
    stream.record(1, [CREATE] + text("dx.op.createHandle"))
    stream.record(1, [LOAD] + text("dx.op.bufferLoad"))
    stream.end()
    stream.enter(12)
    stream.record(1, [declared])
    if constants:
        stream.enter(11)
        stream.record(1, [2])
        for number in constants:
            stream.record(4, [2 * number])
        stream.end()
    for code, fields in body:
        stream.record(code, fields)
    stream.end()
    stream.end()
    return stream.done


def metadata(stream, rows, kind):
    """The shader model, the entry of one thread, and rows of UAVs of this kind whose ids and lower bounds are the constants behind COUNT."""
    # a field of a node is the number of a record plus one, and 0 for none
    for code, fields in [
        (1, text("cs")), (2, [2, VALUE[6]]), (2, [2, VALUE[0]]), (3, [1, 2, 3]), (2, [1, MAIN]), (1, text("main")), (2, [2, VALUE[4]]), (2, [2, VALUE[1]]),
        (3, [8, 8, 8]), (3, [7, 9]), (2, [2, VALUE[kind]]), (2, [3, FALSE]), (3, [8, 7]),
    ]:
        stream.record(code, fields)
    first, tags = 13, 13 if kind == 12 else 0
    for number in range(rows):
        stream.record(2, [2, COUNT + number])
    for number in range(rows):
        # id, pointer, name, space, lower bound, range size, kind, coherent, counter, ordered, tags
        own = first + number + 1
        stream.record(3, [own, 0, 0, 3, own, 8, 11, 12, 12, 12, tags])
    lists = 0
    if rows:
        stream.record(3, [first + rows + number + 1 for number in range(rows)])
        stream.record(3, [0, first + 2 * rows + 1, 0, 0])
        lists = first + 2 * rows + 2
    stream.record(3, [5, 6, 0, lists, 10])
    entry = first + (2 * rows + 2 if rows else 0)
    stream.record(4, text("dx.shaderModel"))
    stream.record(10, [3])
    stream.record(4, text("dx.entryPoints"))
    stream.record(10, [entry])


def back(now, number):
    return (now - number) % 2**32


def lines(count):
    body = []
    for index in range(count - 1):
        now = COUNT + index
        body.append((2, [1 if index else back(now, VALUE[1]), back(now, VALUE[4]), 0]))
    return shader(1, [], body + [(10, [])])


def cases(count):
    now = COUNT + count
    pairs = []
    for index in range(count):
        pairs += [COUNT + index, 1 + index % 2]
    return shader(3, range(count), [(12, [2, back(now, VALUE[4]), 1] + pairs), (10, []), (10, [])])


def entries(count):
    before = count // 32
    now = COUNT + before - 1
    pairs = []
    for index in range(before - 1):
        pairs += [COUNT + index, 2 + index]
    body = [(12, [2, back(now, VALUE[4]), 1] + pairs)]
    body += [(11, [before + 1])] * before
    for index in range(32):
        fields = [2]
        for block in range(before):
            fields += [2 * (now + index - VALUE[1]), 1 + block]
        body.append((16, fields))
    return shader(before + 2, range(before - 1), body + [(10, [])])


def rows(count):
    body = []
    now = COUNT + count
    for index in range(count):
        body.append((34, [0, 0] + [back(now, n) for n in (CREATE, VALUE[57], UAV, COUNT + index, VALUE[0], FALSE)]))
        body.append((34, [0, 0] + [back(now + 1, n) for n in (LOAD, VALUE[68], now, VALUE[0], VALUE[0])]))
        now += 2
    return shader(1, [], body + [(10, [])], count)


def loads(count):
    now = COUNT + 1
    body = [(34, [0, 0] + [back(now, n) for n in (CREATE, VALUE[57], UAV, COUNT, VALUE[0], FALSE)])]
    handle = now
    for _ in range(count):
        now += 1
        body.append((34, [0, 0] + [back(now, n) for n in (LOAD, VALUE[68], handle, VALUE[0], VALUE[0])]))
        now += 1
        body.append((26, [1, 0]))
    return shader(1, [], body + [(10, [])], 1, 12)


def chain(count):
    return shader(count, [], [(11, [block + 1]) for block in range(count - 1)] + [(10, [])])


def rings(count):
    # heads 1 to m, each of which goes to the next; tails m + 1 to 2 m, of which each goes back to its head or on to the next; and a return
    loops = (count - 2) // 2
    body = [(11, [block + 1]) for block in range(loops + 1)]
    body += [(11, [1 + loops - tail, loops + 1 + tail, back(COUNT, FALSE)]) for tail in range(1, loops + 1)]
    return shader(len(body) + 1, [], body + [(10, [])])


def main(words):
    kinds = {"lines": lines, "cases": cases, "entries": entries, "rows": rows, "loads": loads, "chain": chain, "rings": rings}
    if len(words) != 3 or words[0] not in kinds:
        sys.exit(__doc__)
    with open(words[2], "wb") as file:
        file.write(container(bytes(kinds[words[0]](int(words[1])))))


if __name__ == "__main__":
    main(sys.argv[1:])
