#!/usr/bin/env python3
"""Checks that the links of the documents lead somewhere, and that the paths in them exist.

usage: links.py [FOLDER]

It reads all *.md files below FOLDER, by default this repository, without their blocks of code, and checks

- each link and picture within the repository: its file has to exist, and its anchor has to be that of a heading, by
  GitHub's rule;
- each word in backticks that begins with the name of a folder at the top, such as docs/FORMAT.md: the path has to
  exist, relative to the top or to the document. A path with a * has to match a file. It skips what a build makes
  (out/), and placeholders: a part in capitals without an ending, or with other characters than those of names;
- each src/PATH in backticks right after the name of a crate, as `ubi_x`' `src/a.rt`, or right before it, as `src/a.rt`
  of `ubi_x`.

It prints each one that leads nowhere with its line. Ends with 'N passed, M failed', and with status 1 if some failed.
"""
import argparse
import re
import sys
from pathlib import Path
from urllib.parse import unquote

ROOT = Path(__file__).resolve().parents[2]
TOP = ('.ci', 'attacks', 'bench', 'c', 'check', 'completions', 'crates', 'docs', 'examples')
CODE = re.compile(r'(?<!`)(`+)(?!`)(.+?)(?<!`)\1(?!`)', re.DOTALL)
OF_CRATE = re.compile(
    r"`(?P<crate>ubi_\w+)`(?:'s?)?\s+`(?P<path>src/[\w./-]+)`"
    r"|`(?P<first>src/[\w./-]+)` of `(?P<then>ubi_\w+)`")
LINK = re.compile(r'\]\(\s*<?([^\s)>]+)>?(?:\s+"[^"]*")?\s*\)|^\s*\[[^\]]+\]:\s+(\S+)', re.MULTILINE)


def pages(top):
    """The documents, except those in folders that a build or git makes."""
    return sorted(path for path in top.rglob('*.md') if not {'out', '.git'} & set(path.relative_to(top).parts))


def without_blocks(text):
    """The lines of a document, with empty lines for those of blocks of code."""
    fence, lines = '', []
    for line in text.splitlines():
        mark = re.match(r' {0,3}(`{3,}|~{3,})', line)
        if mark and not fence:
            fence = mark[1]
        elif mark and mark[1].startswith(fence) and not line.strip(' `~'):
            fence, line = '', ''
        lines.append('' if fence else line)
    return lines


def anchors(path, known={}):
    """The anchors of a document: for each heading its words in lower case, joined by hyphens, and a number if it is
    repeated."""
    if path not in known:
        found = set(re.findall(r'<a (?:id|name)="([^"]+)"', path.read_text()))
        for line in without_blocks(path.read_text()):
            heading = re.match(r' {0,3}#{1,6}\s+(.*?)(?:\s+#+)?\s*$', line)
            if heading:
                words = re.sub(r'!?\[([^\]]*)\]\([^)]*\)', r'\1', heading[1])
                anchor = name = re.sub(r'[^\w\- ]', '', words.lower()).replace(' ', '-')
                count = 0
                while anchor in found:
                    count += 1
                    anchor = f'{name}-{count}'
                found.add(anchor)
        known[path] = found
    return known[path]


def paragraphs(lines):
    """The paragraphs and the rows of tables, each with the number of its first line."""
    start, held = 1, []
    for number, line in enumerate([*lines, ''], 1):
        row = line.lstrip().startswith('|')
        if held and (not line.strip() or row or re.match(r'\s*([-*]|\d+\.)\s', line)):
            yield start, '\n'.join(held)
            held = []
        if line.strip():
            if not held:
                start = number
            held.append(line)
        if row:
            yield start, '\n'.join(held)
            held = []


def links(path, text):
    """Each link of a paragraph within the repository, and whether it leads somewhere."""
    hidden = CODE.sub(lambda code: re.sub(r'[^\n]', '.', code[0]), text)
    for link in LINK.finditer(hidden):
        target = link[1] or link[2]
        if re.match(r'[a-z][a-z0-9+.-]*:|//', target):
            continue
        name, _, anchor = target.partition('#')
        to = path.parent / unquote(name) if name else path
        good = to.exists() and (not anchor or to.suffix == '.md' and anchor in anchors(to.resolve()))
        yield link.start(), f'the link {target}', good


def is_there(top, path, word):
    """Whether a path exists, relative to the top or to a document."""
    return any(any(folder.glob(word)) if '*' in word else (folder / word).exists() for folder in (top, path.parent))


def is_placeholder(part):
    """Whether a part of a path stands for a name."""
    return not re.fullmatch(r'[\w.*-]+', part) or re.fullmatch(r'[A-Z_]{2,}', part)


def paths(top, path, text):
    """Each path in backticks of a paragraph, and whether it exists."""
    for found in OF_CRATE.finditer(text):
        crate, name = found['crate'] or found['then'], found['path'] or found['first']
        yield found.start(), f'the path {name} of {crate}', (top / 'crates' / crate / name).exists()
    for code in CODE.finditer(text):
        for word in re.sub(r'(\.\w+):\d+(?:-\d+)?\b', r'\1', code[2]).split():
            word = word.rstrip('/,;')
            parts = word.removeprefix('./').split('/')
            if len(parts) < 2 or 'out' in parts or '..' in parts or any(map(is_placeholder, parts)):
                continue
            if parts[0] in TOP:
                yield code.start(), f'the path {word}', is_there(top, path, '/'.join(parts))


def main():
    words = argparse.ArgumentParser(description=__doc__, formatter_class=argparse.RawDescriptionHelpFormatter)
    words.add_argument('folder', nargs='?', type=Path, default=ROOT)
    top = words.parse_args().folder.resolve()
    passed = failed = 0
    for path in pages(top):
        for start, text in paragraphs(without_blocks(path.read_text())):
            for place, what, good in (*links(path, text), *paths(top, path, text)):
                passed, failed = passed + good, failed + (not good)
                if not good:
                    line = start + text.count('\n', 0, place)
                    print(f'failed: {path.relative_to(top)}:{line}: {what} leads nowhere')
    print(f'{passed} passed, {failed} failed')
    return 1 if failed or not passed else 0


if __name__ == '__main__':
    sys.exit(main())
