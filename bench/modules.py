#!/usr/bin/env python3
"""Writes SPIR-V modules for a test of the checkers' speed and memory.

    python3 bench/modules.py chain N ADDS OUT    N selections one after the other, with ADDS additions in each block
    python3 bench/modules.py nested N OUT        N selections within each other, 1,023 at most
    python3 bench/modules.py loops N OUT         N loops one after the other, each of a header and a continue target
    python3 bench/modules.py switches N PAIRS OUT    N switches one after the other, of PAIRS cases each, each case with a block of its own
    python3 bench/modules.py path N OUT          N blocks, each of which branches to the next
    python3 bench/modules.py bare N OUT          N blocks that return at once and that nothing branches to
    python3 bench/modules.py constants N OUT     N constants
    python3 bench/modules.py names N OUT         N constants, each with a name of one letter
    python3 bench/modules.py returns N OUT       N returns and nothing else, which is refused
    python3 bench/modules.py loads N OUT         N loads and nothing else, which is refused
    python3 bench/modules.py strays N OUT        N blocks, each with a merge instruction too many, which is refused
    python3 bench/modules.py picks N PAIRS OUT   N blocks, each with a switch of PAIRS cases, that all go to the next block, which is refused
    python3 bench/modules.py labels N OUT        N labels and nothing else, which is refused
    python3 bench/modules.py functions N OUT     N function types that are not listed, which is refused
    python3 bench/modules.py marks N OUT         N ids with a decoration each, which are not defined: it is refused
    python3 bench/modules.py merges N OUT        N merge instructions and nothing else, which is refused
    python3 bench/modules.py fans N PAIRS OUT    N switches one after the other, whose PAIRS cases all go to one block

50,000 selections of 32 additions make a module of about 2^24 words.
"""

import array
import sys

VOID, FUNCTION_TYPE, MAIN, BOOL, TRUE, WORD, ONE = range(1, 8)
FIRST_FREE = 8
LABEL, BRANCH, BRANCH_IF, SWITCH, RETURN = 248, 249, 250, 251, 253
LOOP_MERGE, SELECTION_MERGE, ADD, LOAD = 246, 247, 128, 61
TYPE_FUNCTION, DECORATE, BLOCK = 33, 71, 2


class Module:
    """The words of a module with one function; ids are taken in order."""

    def __init__(self, constants=0, named=False):
        self.words = array.array("I", [0x07230203, 0x00010600, 0, 0, 0])
        self.bound = FIRST_FREE + constants
        for opcode, operands in [
            (17, [1]),
            (14, [0, 1]),
            (15, [5, MAIN, 0x6E69616D, 0]),
            (16, [MAIN, 17, 1, 1, 1]),
            *[(5, [FIRST_FREE + i, ord("a")]) for i in range(constants) if named],
            (19, [VOID]),
            (33, [FUNCTION_TYPE, VOID]),
            (20, [BOOL]),
            (41, [BOOL, TRUE]),
            (21, [WORD, 32, 0]),
            (43, [WORD, ONE, 1]),
            *[(43, [WORD, FIRST_FREE + i, i]) for i in range(constants)],
            (54, [VOID, MAIN, 0, FUNCTION_TYPE]),
        ]:
            self.put(opcode, *operands)

    def put(self, opcode, *operands):
        self.words.append((len(operands) + 1) << 16 | opcode)
        self.words.extend(operands)

    def take(self):
        self.bound += 1
        return self.bound - 1

    def add(self, count):
        before = ONE
        for _ in range(count):
            after = self.take()
            self.put(ADD, WORD, after, before, ONE)
            before = after

    def finish(self, out):
        self.put(56)
        self.words[3] = self.bound
        if sys.byteorder == "big":
            self.words.byteswap()
        with open(out, "wb") as file:
            self.words.tofile(file)


def chain(module, count, adds):
    label = module.take()
    for _ in range(count):
        then, merge = module.take(), module.take()
        module.put(LABEL, label)
        module.add(adds)
        module.put(SELECTION_MERGE, merge, 0)
        module.put(BRANCH_IF, TRUE, then, merge)
        module.put(LABEL, then)
        module.add(adds)
        module.put(BRANCH, merge)
        label = merge
    module.put(LABEL, label)
    module.put(RETURN)


def nested(module, count):
    merges = []
    label = module.take()
    for _ in range(count):
        then, merge = module.take(), module.take()
        module.put(LABEL, label)
        module.put(SELECTION_MERGE, merge, 0)
        module.put(BRANCH_IF, TRUE, then, merge)
        merges.append(merge)
        label = then
    for merge in reversed(merges):
        module.put(LABEL, label)
        module.put(BRANCH, merge)
        label = merge
    module.put(LABEL, label)
    module.put(RETURN)


def loops(module, count):
    label = module.take()
    for _ in range(count):
        header, again, merge = module.take(), module.take(), module.take()
        module.put(LABEL, label)
        module.put(BRANCH, header)
        module.put(LABEL, header)
        module.put(LOOP_MERGE, merge, again, 0)
        module.put(BRANCH_IF, TRUE, again, merge)
        module.put(LABEL, again)
        module.put(BRANCH, header)
        label = merge
    module.put(LABEL, label)
    module.put(RETURN)


def switches(module, count, pairs):
    label = module.take()
    for _ in range(count):
        merge = module.take()
        cases = [module.take() for _ in range(pairs)]
        module.put(LABEL, label)
        module.put(SELECTION_MERGE, merge, 0)
        module.put(SWITCH, ONE, merge, *[word for pair in enumerate(cases) for word in pair])
        for case in cases:
            module.put(LABEL, case)
            module.put(BRANCH, merge)
        label = merge
    module.put(LABEL, label)
    module.put(RETURN)


def path(module, count):
    label = module.take()
    for _ in range(count - 1):
        after = module.take()
        module.put(LABEL, label)
        module.put(BRANCH, after)
        label = after
    module.put(LABEL, label)
    module.put(RETURN)


def bare(module, count):
    for _ in range(count):
        module.put(LABEL, module.take())
        module.put(RETURN)


def strays(module, count):
    for _ in range(count):
        label = module.take()
        module.put(LABEL, label)
        module.put(SELECTION_MERGE, label, 0)
        module.put(RETURN)


def returns(module, count):
    for _ in range(count):
        module.put(RETURN)


def loads(module, count):
    for _ in range(count):
        module.put(LOAD, WORD, module.take(), ONE)


def picks(module, count, pairs):
    label = module.take()
    for _ in range(count):
        after = module.take()
        module.put(LABEL, label)
        module.put(SWITCH, ONE, after, *[word for i in range(pairs) for word in (i, after)])
        label = after
    module.put(LABEL, label)
    module.put(RETURN)


def labels(module, count):
    for _ in range(count):
        module.put(LABEL, module.take())


def functions(module, count):
    before = VOID
    for _ in range(count):
        after = module.take()
        module.put(TYPE_FUNCTION, after, before)
        before = after


def marks(module, count):
    for _ in range(count):
        module.put(DECORATE, module.take(), BLOCK)


def merges(module, count):
    for _ in range(count):
        module.put(SELECTION_MERGE, module.take(), 0)


def fans(module, count, pairs):
    label = module.take()
    for _ in range(count):
        case, merge = module.take(), module.take()
        module.put(LABEL, label)
        module.put(SELECTION_MERGE, merge, 0)
        module.put(SWITCH, ONE, merge, *[word for i in range(pairs) for word in (i, case)])
        module.put(LABEL, case)
        module.put(BRANCH, merge)
        label = merge
    module.put(LABEL, label)
    module.put(RETURN)


def main(words):
    kinds = {
        "chain": (chain, 2),
        "nested": (nested, 1),
        "loops": (loops, 1),
        "switches": (switches, 2),
        "path": (path, 1),
        "bare": (bare, 1),
        "constants": (bare, 1),
        "names": (bare, 1),
        "strays": (strays, 1),
        "returns": (returns, 1),
        "loads": (loads, 1),
        "picks": (picks, 2),
        "labels": (labels, 1),
        "functions": (functions, 1),
        "marks": (marks, 1),
        "merges": (merges, 1),
        "fans": (fans, 2),
    }
    if len(words) < 2 or words[0] not in kinds or len(words) != kinds[words[0]][1] + 2:
        sys.exit(__doc__)
    kind, numbers = words[0], [int(word) for word in words[1:-1]]
    if kind in ("constants", "names"):
        module = Module(numbers[0], kind == "names")
        bare(module, 1)
    else:
        module = Module()
        kinds[kind][0](module, *numbers)
    module.finish(words[-1])


main(sys.argv[1:])
