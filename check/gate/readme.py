#!/usr/bin/env python3
"""Runs the examples of README.md and of the documents that it leads to, and compares what they print. It also compares
the callers on the crates' front pages with those that are proved.

usage: readme.py [--tool PROGRAM]

An example is a line that begins with '$ ' in a block without a language, and the lines up to the next example or the
end of the block are what it prints. The shell runs the examples of a page in their order, at the top of the repository.
Without --tool the program is built first, unless it is built already; with it, PROGRAM replaces `./ubi_tool` in each
example. A front page is the comment at the head of a library's src/lib.rt, and the block in it has to be the code in
crates/ubi_uses/src below the lines `ghost use`. Ends with 'N passed, M failed', and with status 1 if some failed.
"""
import argparse
import shlex
import subprocess
import sys
from pathlib import Path

ROOT = Path(__file__).resolve().parents[2]
PAGES = ('README.md', 'docs/USE.md', 'docs/CHANGE.md', 'docs/AUDIT.md')
# The crates whose front pages show no caller.
WITHOUT_CALLER = (
    'ubi_uses', 'ubi_compare', 'ubi_probe', 'ubi_tests', 'ubi_files', 'ubi_json', 'ubi_map', 'ubi_dumps', 'ubi_reading',
    'ubi_writing', 'ubi_commands', 'ubi_command_tests', 'ubi_calls', 'ubi_c',
)


def blocks(text):
    """The lines of each block without a language."""
    block, language = None, None
    for line in text.splitlines():
        if line.startswith('```'):
            if block is None:
                block, language = [], line[3:]
            else:
                if not language:
                    yield block
                block = None
        elif block is not None:
            block.append(line)


def examples(text):
    """Each example, and what it has to print."""
    for block in blocks(text):
        command, wanted = None, []
        for line in block + ['$ ']:
            if line.startswith('$ '):
                if command:
                    yield command, wanted
                command, wanted = line[2:], []
            else:
                wanted.append(line)


def with_tool(command, tool):
    """An example with another program in place of ./ubi_tool."""
    return command if tool is None else command.replace('./ubi_tool ', f'{shlex.quote(str(Path(tool).resolve()))} ')


def front_pages():
    """Each library that has a caller, the block on its front page, and the proved caller."""
    for page in sorted((ROOT / 'crates').glob('*/src/lib.rt')):
        name = page.parents[1].name
        if name not in WITHOUT_CALLER:
            lines = [line[3:].removeprefix(' ') for line in page.read_text().splitlines() if line.startswith('//!')]
            caller = (ROOT / 'crates/ubi_uses/src' / f"{name.removeprefix('ubi_')}.rt").read_text()
            below = caller.rpartition('\nghost use ')[2].partition('\n')[2]
            yield name, next(blocks('\n'.join(lines)), None), below.strip('\n').splitlines()


def main():
    words = argparse.ArgumentParser(description=__doc__, formatter_class=argparse.RawDescriptionHelpFormatter)
    words.add_argument('--tool', help='the program; ./ubi_tool by default')
    words = words.parse_args()
    passed = failed = 0
    for command, wanted in (example for page in PAGES for example in examples((ROOT / page).read_text())):
        command = with_tool(command, words.tool)
        ran = subprocess.run(command, shell=True, cwd=ROOT, stdin=subprocess.DEVNULL, capture_output=True, text=True)
        if ran.stdout.splitlines() == wanted:
            passed += 1
        else:
            failed += 1
            print(f'failed: {command}\nprinted:\n{ran.stdout}{ran.stderr}and not:', *wanted, '', sep='\n')
    for name, shown, proved in front_pages():
        if shown == proved:
            passed += 1
        else:
            failed += 1
            print(f'failed: the front page of {name} isn\'t the caller in crates/ubi_uses')
    print(f'{passed} passed, {failed} failed')
    return 1 if failed or not passed else 0


if __name__ == '__main__':
    sys.exit(main())
