#!/usr/bin/env python3
"""Writes containers of compute shaders for a speed test of the layers behind the bitstream. Each is the empty shader, made large in one way.

    python3 bench/layers.py types N OUT       N more types, each a pointer to the one before
    python3 bench/layers.py metadata N OUT    N more nodes of metadata, each of the one before
    python3 bench/layers.py constants N OUT   N more constants of the module
    python3 bench/layers.py phis N OUT        a body of N blocks behind the first, N at most 8,000; each has three phis of 11 entries, up to 262,144 in all
    python3 bench/layers.py records N OUT     N more constants of the body

`translate` reads all layers of each and translates it.
"""

import sys

from records import Stream, container


def text(word):
    return [ord(c) for c in word]


def shader(types=0, metadata=0, constants=0, body_constants=0, phis=0):
    stream = Stream()
    stream.enter(8)
    stream.record(1, [1])
    stream.enter(17)
    # 0 void, 1 void (), 2 i32, 3 a pointer to 1
    for code, fields in [(2, []), (21, [0, 0]), (7, [32]), (8, [1, 0])]:
        stream.record(code, fields)
    for index in range(types):
        stream.record(8, [3 + index, 0])
    stream.end()
    # value 0 is the function, then come the constants 6, 0, 1 and 4
    stream.record(8, [3, 0, 0, 0])
    stream.enter(11)
    stream.record(1, [2])
    for number in [6, 0, 1, 4]:
        stream.record(4, [2 * number])
    for index in range(constants):
        stream.record(4, [2 * (index % 1000)])
    stream.end()
    stream.enter(15)
    stream.record(1, text("cs"))
    stream.record(2, [2, 1])
    stream.record(2, [2, 2])
    stream.record(3, [1, 2, 3])
    stream.record(2, [3, 0])
    stream.record(1, text("main"))
    stream.record(2, [2, 4])
    stream.record(2, [2, 3])
    stream.record(3, [8, 8, 8])
    stream.record(3, [7, 9])
    stream.record(3, [5, 6, 0, 0, 10])
    for index in range(metadata):
        stream.record(3, [11 + index, 0])
    stream.record(4, text("dx.shaderModel"))
    stream.record(10, [3])
    stream.record(4, text("dx.entryPoints"))
    stream.record(10, [10])
    stream.end()
    stream.enter(12)
    stream.record(1, [1 + phis])
    if body_constants:
        stream.enter(11)
        stream.record(1, [2])
        for index in range(body_constants):
            stream.record(4, [2 * (index % 1000)])
        stream.end()
    if phis:
        # every block but the last goes on to the next one
        left = 262144
        for block in range(phis):
            stream.record(11, [block + 1])
            for _ in range(3):
                entries = min(left, 11)
                # each names the value before its own
                if entries:
                    stream.record(16, [2] + [2, block] * entries)
                left -= entries
    stream.record(10, [])
    stream.end()
    stream.end()
    return stream.done


def main(words):
    names = {"types": "types", "metadata": "metadata", "constants": "constants", "phis": "phis", "records": "body_constants"}
    if len(words) != 3 or words[0] not in names:
        sys.exit(__doc__)
    with open(words[2], "wb") as file:
        file.write(container(bytes(shader(**{names[words[0]]: int(words[1])}))))


if __name__ == "__main__":
    main(sys.argv[1:])
