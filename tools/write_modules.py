#!/usr/bin/env python3
"""Writes a file for each module that lower_tests prints: a line has a name, a version and the words in hexadecimal.

Usage: lower_tests words | write_modules.py FOLDER
"""

import struct
import sys

for number, line in enumerate(sys.stdin):
    name, version, *words = line.split()
    with open(f"{sys.argv[1]}/{name}-{version}-{number}.spv", "wb") as file:
        file.write(struct.pack(f"<{len(words)}I", *(int(word, 16) for word in words)))
