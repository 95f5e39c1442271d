#!/usr/bin/env python3
"""Makes the completions for bash and zsh and the manual page from the program's own help, or compares them with it.

usage: words.py [--tool PROGRAM] [--check]

It reads the commands, their arguments and options, and the texts beside them from `ubi_tool --help` and `ubi_tool
COMMAND --help`, and makes completions/ubi_tool.bash, completions/_ubi_tool and docs/ubi_tool.1 from these. With --check
it writes nothing, and prints each file that differs. Ends with 'N passed, M failed', and with status 1 if some failed.
"""
import argparse
import re
import subprocess
import sys
from pathlib import Path

ROOT = Path(__file__).resolve().parents[2]
# The day on which the form of the manual page was last changed.
DATE = '2026-11-28'
# Options whose value is a path.
PATHS = ('out', 'from', 'pages')


class Entry:
    """A command, an argument or an option: its name, the name of its value if it has one, and its text."""

    def __init__(self, name, value, text):
        self.name, self.value, self.text = name, value, text


class Help:
    """The help of a command: the text at its head, the usage, its sections of entries, and the lines below them."""

    def __init__(self, text):
        self.sections, self.below, section = {}, [], None
        head, _, rest = text.partition('\n\nUsage: ')
        self.about = head.strip()
        self.usage, _, rest = rest.partition('\n')
        for line in rest.splitlines():
            titled = re.fullmatch(r'(\w+):', line)
            entry = re.fullmatch(r' +(?:-\w, +)?(?:--)?<?([\w-]+)>?(?: <([\w.]+)>)?  +(.*)', line)
            if titled:
                section = self.sections.setdefault(titled[1], [])
            elif entry and section is not None and not self.below:
                section.append(Entry(*entry.groups()))
            elif line or self.below:
                section = None
                self.below.append(line)

    def options(self):
        """All options, without the help's own."""
        titles = [title for title in self.sections if title not in ('Commands', 'Arguments')]
        entries = [entry for title in titles for entry in self.sections[title]]
        return [entry for entry in entries if entry.name not in ('help', 'version')]


def help_of(tool, *command):
    """The help of the program, or of one of its commands."""
    ran = subprocess.run([tool, *command, '--help'], stdin=subprocess.DEVNULL, capture_output=True, text=True)
    return Help(ran.stderr.replace(f'Usage: {Path(tool).name} ', 'Usage: ubi_tool ', 1))


def version_of(tool):
    """The version that the program prints."""
    ran = subprocess.run([tool, '--version'], stdin=subprocess.DEVNULL, capture_output=True, text=True)
    return ran.stderr.strip()


def bash(commands):
    """The completion for bash: commands, then options, then files."""
    cases = ''.join(
        f"        {name}) words='{' '.join('--' + option.name for option in help.options())} --help' ;;\n"
        for name, help in commands.items())
    return f"""# Completion of ubi_tool for bash. Made by check/gate/words.py.
_ubi_tool() {{
    local word=${{COMP_WORDS[COMP_CWORD]}} words=
    COMPREPLY=()
    if [ "$COMP_CWORD" -eq 1 ]; then
        mapfile -t COMPREPLY < <(compgen -W '{' '.join(commands)} --help --version' -- "$word")
        return
    fi
    case ${{COMP_WORDS[1]}} in
{cases}    esac
    case $word in
        -*) mapfile -t COMPREPLY < <(compgen -W "$words" -- "$word") ;;
        *) mapfile -t COMPREPLY < <(compgen -f -- "$word") ;;
    esac
}}
complete -o filenames -F _ubi_tool ubi_tool ./ubi_tool
"""


def quoted(text):
    """A text for single quotes in the shell, with the special characters of _arguments escaped."""
    return re.sub(r'([\[\]:\\])', r'\\\1', text).replace("'", "'\\''")


def zsh(commands):
    """The completion for zsh, with the texts of the help."""
    names = ''.join(f"        '{quoted(name)}:{quoted(help.about)}'\n" for name, help in commands.items())
    cases = ''
    for name, help in commands.items():
        lines = [f"'--{option.name}[{quoted(option.text)}]:{option.value}:{'_files' if option.name in PATHS else ''}'"
                 for option in help.options()]
        lines += [f"'{place}:{quoted(argument.text)}:_files'"
                  for place, argument in enumerate(help.sections.get('Arguments', []), 1)]
        cases += f"        {name})\n            _arguments -s '--help[Print help]' \\\n                "
        cases += ' \\\n                '.join(lines) + ' ;;\n'
    return f"""#compdef ubi_tool
# Completion of ubi_tool for zsh. Made by check/gate/words.py.
_ubi_tool() {{
    local -a commands=(
{names}    )
    if (( CURRENT == 2 )); then
        _describe command commands
        return
    fi
    local command=$words[2]
    shift words
    (( CURRENT-- ))
    case $command in
{cases}    esac
}}
_ubi_tool "$@"
"""


def roff(text):
    """A text for the manual page, with the special characters of roff escaped."""
    text = text.replace('\\', '\\e').replace('-', '\\-')
    return re.sub(r"^([.'])", r'\\&\1', text, flags=re.MULTILINE)


def bold(name):
    """A name in bold type."""
    return f'\\fB{roff(name)}\\fR'


def usage(help):
    """The usage of a command: its name in bold type, and its words with the values in italics."""
    _, name, rest = help.usage.split(' ', 2)
    rest = re.sub(r'<([\w.]+)>', r'\\fI\1\\fR', roff(rest))
    return f'{bold(name)} {rest}'


def list_of(names):
    """A list in words."""
    return ', '.join(names[:-1]) + f' and {names[-1]}' if len(names) > 1 else ''.join(names)


def merged(commands, section):
    """The entries of all commands by name, in the order of their first appearance: for each its texts, with the names
    of their values and the commands that have them."""
    found = {}
    for name, help in commands.items():
        for entry in section(help):
            found.setdefault(entry.name, {}).setdefault((entry.value, entry.text), []).append(name)
    return found


def described(shown, texts):
    """An entry of the manual page. If commands have different texts for it, each text follows the names of its
    commands."""
    values = dict.fromkeys(value for value, _ in texts if value)
    in_italics = ', '.join(f'\\fI{roff(value)}\\fR' for value in values)
    page = f'.TP\n{bold(shown)}' + (' ' if values else '') + in_italics + '\n'
    if len(texts) == 1:
        return page + ''.join(f'{roff(text)}\n' for _, text in texts)
    lines = (f'For {list_of(names)}: {roff(text[0].lower() + text[1:])}.\n' for (_, text), names in texts.items())
    return page + ''.join(lines)


def manual(whole, commands, version):
    """The manual page: each option once."""
    page = f""".\\" The manual page of ubi_tool. Made by check/gate/words.py.
.TH UBI_TOOL 1 {DATE} "{version}" "User Commands"
.SH NAME
ubi_tool \\- {roff(whole.about[0].lower() + whole.about[1:])}
.SH SYNOPSIS
{bold('ubi_tool')} \\fICOMMAND\\fR [\\fIOPTIONS\\fR] \\fIFILE\\fR ...
.SH COMMANDS
"""
    for name, help in commands.items():
        page += f'.TP\n{usage(help)}\n{roff(help.about)}.\n.br\nOptions: '
        page += ', '.join(f'\\-\\-{roff(option.name)}' for option in help.options()) + '.\n'
    page += '.SH ARGUMENTS\n'
    for name, texts in merged(commands, lambda help: help.sections.get('Arguments', [])).items():
        page += described(name, texts)
    page += '.SH OPTIONS\n'
    for name, texts in merged(commands, Help.options).items():
        page += described(f'--{name}', texts)
    page += '.SH EXAMPLES AND EXIT STATUS\n.nf\n' + roff('\n'.join(whole.below).strip('\n')) + '\n.fi\n'
    return page


def main():
    words = argparse.ArgumentParser(description=__doc__, formatter_class=argparse.RawDescriptionHelpFormatter)
    words.add_argument('--tool', default=str(ROOT / 'ubi_tool'), help='the program; ./ubi_tool by default')
    words.add_argument('--check', action='store_true', help='compare, and write nothing')
    words = words.parse_args()
    whole = help_of(words.tool)
    names = [entry.name for entry in whole.sections.get('Commands', []) if entry.name != 'help']
    commands = {name: help_of(words.tool, name) for name in names}
    made = {'completions/ubi_tool.bash': bash(commands), 'completions/_ubi_tool': zsh(commands),
            'docs/ubi_tool.1': manual(whole, commands, version_of(words.tool))}
    failed = 0 if names else 1
    for name, text in made.items():
        path = ROOT / name
        if not words.check:
            path.parent.mkdir(exist_ok=True)
            path.write_text(text)
        elif not path.is_file() or path.read_text() != text:
            failed += 1
            print(f'failed: {name} differs from the help: run check/gate/words.py')
    print(f'{len(made) - min(failed, len(made))} passed, {failed} failed')
    return 1 if failed else 0


if __name__ == '__main__':
    sys.exit(main())
