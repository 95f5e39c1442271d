#!/usr/bin/env python3
"""Checks that failures are made and files are opened only at the places that are listed here.

usage: places.py

No clause can say from the outside that memory ran out, or that a read or a write failed: a body that answers so above
some size meets each contract. So this script looks at the source. A failure may be made in three ways: by `impl
From<AllocError>`, which `?` uses on an allocation; from a failure of the same kind, in an arm of a `match`; and at one
of the places in check/gate/places.txt, each of which is a call that reads or writes, or an arm with its reason there. A
file of the system may be opened, made, changed or removed only at the places in there, too. So are the calls that make
the lines for a file that can't be read or written, and those that reserve memory by its size: one that reserves more
than is needed meets each contract, and runs out of memory.

A line of check/gate/places.txt is a file below crates/, a colon, and the text of a line of it, as often as it is found
there.

It also checks which functions are proved by hand, without the steps that Rattle writes for the code: the two that note
the reads of a source, and no other, since another one could note reads that weren't made.

Ends with 'N passed, M failed', and with status 1 if a place isn't listed, or a listed one isn't there.
"""
import re
import sys
from collections import Counter
from pathlib import Path

import crates

ROOT = Path(__file__).resolve().parents[2]
CRATES = tuple(name for name in crates.names() if name not in crates.OF_TESTS)
LISTED = Path(__file__).resolve().with_name('places.txt')
# The proofs by hand.
BY_HAND = ('crates/ubi_scan/proofs/trace/Trace/new/Proof.antt', 'crates/ubi_scan/proofs/trace/Trace/note/Proof.antt')
# What a failure of each kind is called.
KINDS = {
    'memory': re.compile(r'\b\w+::(Memory|OutOfMemory)\b|\b(AllocError|NO_MEMORY)\b|^(return )?3;?$'),
    'read': re.compile(r'\b\w+::(Read|Left|Right)\b'),
    'write': re.compile(r'\b\w+::Write\b'),
}
# What opens, makes, changes or removes a file.
OPENS = re.compile(
    r'\bFile::\w+\(|\bfs::(open|write|copy|rename|create\w*|remove\w*)\(|\bOpenOptions\b'
    r'|\.(open_file|create_dir\w*|remove_\w+|rename|copy|set_permissions|set_len|hard_link|symlink)\(')
# What makes the line of a file that fails, and what ends a file before its end.
ANSWERS = re.compile(r'\b(unread_line|unwritten_line|unread_file)\(|\bOk\(0\)')
# What reserves memory by its size.
RESERVES = re.compile(r'\b(from_elem|with_capacity|reserve\w*)\(')
# Lines that make nothing: those of types, contracts and imports.
MAKES_NOTHING = re.compile(
    r'^(pub(\(crate\))? )?(use|fn|struct|enum|impl|trait|type|ghost|requires|ensures)\b'
    r'|^\) -> |^\w+: (&(mut )?)?Result<')


def statements(path):
    """The lines of a file without comments, each with whether it is part of `impl From<AllocError>`."""
    from_memory = False
    for line in path.read_text().splitlines():
        text = line.split('//')[0].strip()
        if line.startswith('impl From<AllocError>'):
            from_memory = True
        elif line == '}':
            from_memory = False
        if text and not MAKES_NOTHING.match(text):
            yield text, from_memory


def makes_failure(text, from_memory):
    """Whether a line makes a failure in a way that has to be listed."""
    pattern, arrow, made = text.partition(' => ')
    if not arrow:
        pattern, made = '', text
    if 'unreachable!' in made or made.startswith('write!'):
        return False
    if from_memory and KINDS['memory'].search(made):
        return False
    return any(kind.search(made) and not kind.search(pattern) for kind in KINDS.values())


def places():
    """All places that have to be listed."""
    found = Counter()
    for crate in CRATES:
        for path in sorted((ROOT / 'crates' / crate / 'src').rglob('*.rt')):
            for text, from_memory in statements(path):
                looked_for = OPENS.search(text) or ANSWERS.search(text) or RESERVES.search(text)
                if looked_for or makes_failure(text, from_memory):
                    found[f'{path.relative_to(ROOT / "crates")}: {text}'] += 1
    return found


def by_hand():
    """All proofs by hand."""
    return Counter(str(path.relative_to(ROOT)) for path in (ROOT / 'crates').glob('*/proofs/**/Proof.antt'))


def main():
    lines = LISTED.read_text().splitlines()
    listed = Counter(line for line in lines if line and not line.startswith('#')) + Counter(BY_HAND)
    found = places() + by_hand()
    for place in found - listed:
        print(f'not listed: {place}')
    for place in listed - found:
        print(f'listed, and not there: {place}')
    failed = sum((found - listed).values()) + sum((listed - found).values())
    print(f'{sum((found & listed).values())} passed, {failed} failed')
    return 1 if failed else 0


if __name__ == '__main__':
    sys.exit(main())
