#!/usr/bin/env python3
"""Lists the definitions and lemmas of specs/ and proofs/ that nothing else names.

usage: unused.py

A name counts as used if a source of any crate has it outside its own declaration, which ends at the next empty line. An
import is no use, except of a name that it renames. The script leaves out the answers to goals, whose names the prover
gives, and computations on literals that are there to be read: `*Vectors.antt` and the names of ON_LITERALS. The exit
status is 1 if one is listed. It takes a second or two.
"""
import collections
import pathlib
import re
import sys

ROOT = pathlib.Path(__file__).resolve().parents[2]
ANSWERS = {"Answers.antt", "Invariants.antt", "Measures.antt", "Proof.antt"}
ON_LITERALS = {"zeros_and_their_check"}
WORD = re.compile(r"[^\s(){}\[\],;.:`\"]+")
COMMENT = re.compile(r"(^|\s)--(\s.*)?$")
IMPORT = re.compile(r"(?:unfoldable |pub |ghost )*use Rattle\.")
RENAMED = re.compile(r"([^\s{,]+) as [^\s,}]+")
HEAD = re.compile(r"( *)(?:(?:abbrev|unfoldable|pub) )*(record |data )?([^\s:({]+)(?: \{[^}]*\})?(?= )")


def without_imports(line):
    """A line, or if it is an import, the names that it renames."""
    return " ".join(RENAMED.findall(line)) if IMPORT.match(line) else line


def sources():
    """The lines of each source, without imports and without the comments of definitions and proofs."""
    for path in sorted(ROOT.glob("crates/*/*/**/*")):
        if path.suffix in (".rt", ".antt") and "out" not in path.relative_to(ROOT).parts:
            lines = [without_imports(line) for line in path.read_text().split("\n")]
            yield path, [COMMENT.sub("", line) if path.suffix == ".antt" else line for line in lines]


def declared(lines):
    """Each name that is declared, with its indentation and its first line."""
    for number, line in enumerate(lines):
        head = HEAD.match(line)
        if head and (head[2] or line[head.end():].startswith(" :")):
            yield head[3], head[1], number


def is_own(lines, number, name, indent, first):
    """Whether a line belongs to the declaration of a name: to its signature, its equations, or the lines below them."""
    end = first
    while end < len(lines) and lines[end].strip():
        end += 1
    head = HEAD.match(lines[number])
    is_equation = number > first and head is not None and head[1] == indent and head[3] == name
    return first <= number < end or is_equation and not lines[number - 1].endswith(" =")


def main():
    texts = dict(sources())
    places = collections.defaultdict(list)
    for path, lines in texts.items():
        for number, line in enumerate(lines):
            for word in set(WORD.findall(line)):
                places[word].append((path, number))
    unused = []
    for path, lines in texts.items():
        if path.suffix != ".antt" or path.name in ANSWERS or path.name.endswith("Vectors.antt"):
            continue
        for name, indent, first in declared(lines):
            if name in ON_LITERALS:
                continue
            if all(at == path and is_own(lines, number, name, indent, first) for at, number in places[name]):
                unused.append(f"{path.relative_to(ROOT)}:{first + 1} {name}")
    print("\n".join(unused) if unused else "nothing is unused")
    return 1 if unused else 0


if __name__ == "__main__":
    sys.exit(main())
