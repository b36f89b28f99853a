#!/usr/bin/env python3
"""Asks whether the documents still say what the repository has. It fails, with one line for each fault, where

- a crate of crates.txt is missing in a table of README.md or docs/ARCHITECTURE.md, or a table has others or another order,
- a table names a function, a clause or a definition that its crate does not have,
- a document names, between backquotes, a crate, a file, a function or a definition that is nowhere in the repository,
- a rule or a limit that the program prints has no row in docs/RULES.md.

    tools/docs.py [ROOT]
"""

import pathlib
import re
import sys

DOCUMENTS = ["README.md", *(f"docs/{name}.md" for name in ("ARCHITECTURE", "RULES", "PROOFS", "DECISIONS", "CHANGING", "FIGURES"))]
TABLES = ["README.md", "docs/ARCHITECTURE.md"]
# the letters of the rules that are printed, each with its last number
RULES = {"C": 9, "B": 8, "Y": 4, "M": 11, "N": 9, "P": 22, "W": 9, "V": 15, "S": 12}
WORD = re.compile(r"^[A-Za-z_][A-Za-z0-9_]*$")
PATH = re.compile(r"^[A-Za-z0-9_.-]+(/[A-Za-z0-9_.-]+)+/?$")


class Repository:
    """The crates by storey, and the words of each crate's code, definitions and proofs."""

    def __init__(self, root):
        self.root = root
        self.storeys, self.below = [], {}
        for line in (root / "crates.txt").read_text().splitlines():
            if line.startswith("# "):
                self.storeys.append((line[2:], []))
            elif ":" in line:
                crate, below = line.split(":")
                self.storeys[-1][1].append(crate)
                self.below[crate] = below.split()
        self.crates = [crate for _, crates in self.storeys for crate in crates]
        self.words = {crate: words_under(root / "crates" / crate) for crate in self.crates}
        self.all_words = set(self.crates).union(*self.words.values())
        for place in ("tools", "bench", ".ci"):
            self.all_words |= words_under(root / place)
        self.all_words |= words_of((root / "Makefile").read_text())

    def tells(self, crates, name):
        """Whether one of the crates, or one that it stands on, has the name, or is called so."""
        stand_on = [other for crate in crates for other in (crate, *self.below[crate])]
        return name in stand_on or any(name in self.words.get(crate, ()) for crate in stand_on)

    def has_file(self, path):
        places = [self.root, self.root / "crates", *(self.root / "crates" / crate for crate in self.crates)]
        return any((place / path).exists() for place in places)


def words_of(text):
    return set(re.findall(r"[A-Za-z_][A-Za-z0-9_]*", text))


def words_under(place):
    found = set()
    for path in place.rglob("*"):
        if path.is_file() and "out" not in path.relative_to(place).parts:
            found.add(path.stem)
            if path.suffix in (".rt", ".antt", ".py", ".sh", ".edit", ""):
                found |= words_of(path.read_text(errors="ignore"))
    return found


def quoted(text):
    return re.findall(r"`([^`\n]+)`", re.sub(r"^```.*?^```", "", text, flags=re.M | re.S))


def rows(text):
    """The rows of the tables below each heading of the third rank, by heading."""
    found, heading = [], None
    for line in text.splitlines():
        if line.startswith("#"):
            heading = line[4:] if line.startswith("### ") else None
            if heading is not None:
                found.append((heading, []))
        elif heading is not None and line.startswith("| `"):
            found[-1][1].append([cell.strip() for cell in line.strip("|").split(" | ")])
    return found


def table_faults(repository, document, text):
    found = [(heading, lines) for heading, lines in rows(text) if heading in dict(repository.storeys)]
    named = [(heading, [name for line in lines for name in quoted(line[0])]) for heading, lines in found]
    if named != repository.storeys:
        for (heading, crates), (other, names) in zip(repository.storeys, named):
            if (heading, crates) != (other, names):
                yield f"{document}: under '{other}' stand {' '.join(names)}; crates.txt has under '{heading}' {' '.join(crates)}"
        if len(named) != len(repository.storeys):
            yield f"{document}: {len(named)} headings, but crates.txt has {len(repository.storeys)}"
    for _, lines in found:
        for line in lines:
            crates = quoted(line[0])
            for name in quoted(line[-1]):
                if WORD.match(name) and not repository.tells(crates, name):
                    yield f"{document}: {' '.join(crates)} has no '{name}'"


def name_faults(repository, document, text):
    for name in sorted(set(quoted(text))):
        if PATH.match(name) and not repository.has_file(name.rstrip("/")):
            yield f"{document}: no file '{name}'"
        if WORD.match(name) and name not in repository.all_words:
            yield f"{document}: nothing is called '{name}'"


def rule_faults(repository, text):
    for letter, last in RULES.items():
        for number in range(1, last + 1):
            if not re.search(rf"^\| {letter}{number} \|", text, re.M):
                yield f"docs/RULES.md: no row for {letter}{number}"
    answers = (repository.root / "crates/dx_run/specs/Answers.antt").read_text()
    for limit in re.findall(r'^limit_name \w+ = codes "([a-z-]+)"', answers, re.M):
        if f"\n| `{limit}` |" not in text:
            yield f"docs/RULES.md: no row for the limit {limit}"


def main():
    repository = Repository(pathlib.Path(sys.argv[1] if len(sys.argv) > 1 else "."))
    faults = []
    for document in DOCUMENTS:
        text = (repository.root / document).read_text()
        if document in TABLES:
            faults += table_faults(repository, document, text)
        if document == "docs/RULES.md":
            faults += rule_faults(repository, text)
        faults += name_faults(repository, document, text)
    print("\n".join(faults) if faults else f"documents: {len(repository.crates)} crates, as they stand")
    sys.exit(bool(faults))


if __name__ == "__main__":
    main()
