#!/usr/bin/env python3
"""Prints tables of a run of the gate, from the lines that bench/gate.sh wrote:

    python3 bench/gate.py OUT

The first table has, for each crate, the minute of the run at which its proof and that of its tests were done. The second has the
seconds that its must-fail edits took by the clock: the edits of one crate run on all processors, and the next crate's begin when they end.
"""

import re
import sys


def seconds(stamp):
    hours, minutes, rest = stamp.split(":")
    return 3600 * int(hours) + 60 * int(minutes) + int(rest)


def main():
    begin, last = None, None
    proofs, tests, edits = {}, {}, []
    for line in open(sys.argv[1], encoding="utf-8"):
        found = re.match(r"(\d\d:\d\d:\d\d) (.*)", line)
        if not found:
            continue
        now, text = seconds(found[1]), found[2]
        begin = now if begin is None else begin
        last = now + (86400 if now < begin else 0)
        if match := re.fullmatch(r"rt: (\w+) proved", text):
            proofs[match[1]] = last
        elif match := re.fullmatch(r"rt: (\w+): its tests are proved", text):
            tests[match[1]] = last
        elif match := re.fullmatch(r"rt: (\w+): trying its must-fail edits \((\d+)\)", text):
            edits.append((match[1], int(match[2]), last))
    print("| crate | proved at minute | its tests at minute |\n|---|---|---|")
    for crate, at in sorted(proofs.items(), key=lambda row: row[1]):
        test = f"{(tests[crate] - begin) / 60:.1f}" if crate in tests else ""
        print(f"| `{crate}` | {(at - begin) / 60:.1f} | {test} |")
    print("\n| crate | edits | seconds |\n|---|---|---|")
    starts = sorted([at for _, _, at in edits] + list(proofs.values()) + [last])
    rows = [(crate, count, min([end for end in starts if end > at], default=at) - at) for crate, count, at in edits]
    for crate, count, took in sorted(rows, key=lambda row: -row[2]):
        print(f"| `{crate}` | {count} | {took} |")


main()
