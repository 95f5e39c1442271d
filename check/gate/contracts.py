"""Reads which names the contracts of a crate's public items hold, as rt fmt lays the items out.

An item is public if src/lib.rt exports it, with the methods and the ghost lines of exported types and traits, except
those of a trait that the crate keeps to itself. A program exports nothing: there an item is public if it has the word
`pub`.
"""
import os
import re

FN = re.compile(r"^\s*(?P<pub>pub )?(?:pub\(\w+\) )?(?:(?:const|unsafe) )*fn (?P<name>\w+)")
TYPE = re.compile(r"^(?P<pub>pub )?(?:unsafe )?(?:struct|enum|trait) (?P<name>\w+)")
IMPL = re.compile(r"^(?:unsafe )?impl(?:<.*?>)? (?:(?P<trait>[^{]*?) for )?&?(?P<name>\w+)")


def exports(folder):
    """The modules that a library exports, and the names, each after its module; None for a program."""
    path = os.path.join(folder, "lib.rt")
    if not os.path.exists(path):
        return None
    with open(path, encoding="utf-8") as file:
        text = file.read()
    names = set()
    for module, group, name in re.findall(r"^pub use (\w+)::(?:\{([^}]*)\}|(\w+));", text, re.M):
        names.update((module, word.strip()) for word in (group or name).split(",") if word.strip())
    return set(re.findall(r"^pub mod (\w+);", text, re.M)), names


def indent_of(line):
    return len(line) - len(line.lstrip())


def end_of(lines, start, indent):
    """The line that closes the item that begins at a line."""
    for at in range(start, len(lines)):
        if indent_of(lines[at]) == indent and lines[at].rstrip().endswith((";", "}")):
            return at
    return len(lines) - 1


def contract_end(lines, start, indent):
    """The line that opens a function's body, or that ends the function if it has none."""
    for at in range(start, len(lines)):
        line = lines[at].rstrip()
        if indent_of(line) <= indent and line.endswith(("{", "{}")) or line.endswith(";"):
            return at
    return len(lines) - 1


def members(block):
    """The functions of an impl or a trait, each with whether it has `pub` and with its contract, and the other
    lines."""
    functions, rest, at = [], [block[0]], 1
    while at < len(block):
        start = FN.match(block[at])
        if start:
            last = contract_end(block, at, 4)
            functions.append((bool(start["pub"]), block[at:last + 1]))
            at = (last if block[last].rstrip().endswith((";", "{}")) else end_of(block, last + 1, 4)) + 1
        else:
            rest.append(block[at])
            at += 1
    return functions, rest


def own_traits(folder, exported):
    """The traits that a library declares and doesn't export."""
    names = set()
    for name in os.listdir(folder) if exported else []:
        if name.endswith(".rt"):
            with open(os.path.join(folder, name), encoding="utf-8") as file:
                found = re.findall(r"^(?:pub )?trait (\w+)", file.read(), re.M)
            if name[:-3] not in exported[0]:
                names.update(word for word in found if (name[:-3], word) not in exported[1])
    return names


def public_parts(lines, module, exported, hidden):
    """The texts of the public contracts of a file, each with the `ghost use` lines that apply to it."""
    own = {item["name"] for item in map(TYPE.match, lines) if item and item["pub"]}

    def is_public(name, module=module):
        return exported is None or module in exported[0] or (module, name) in exported[1]

    def is_public_type(name):
        return name in own if exported is None else any(is_public(name, place) for place, _ in exported[1])

    uses = [line for line in lines if line.startswith("ghost use ")]
    at = 0
    while at < len(lines):
        function, kind, impl = FN.match(lines[at]), TYPE.match(lines[at]), IMPL.match(lines[at])
        if not (function or kind or impl) or lines[at].startswith(" "):
            at += 1
            continue
        last = end_of(lines, at, 0)
        if function:
            if function["pub"] and is_public(function["name"]):
                yield uses, lines[at:contract_end(lines, at, 0) + 1]
        elif is_public_type((kind or impl)["name"]) and not (impl and impl["trait"] in hidden):
            functions, rest = members(lines[at:last + 1])
            inside = uses + [line.strip() for line in rest if line.strip().startswith("ghost use ")]
            yield inside, [line for line in rest if not line.strip().startswith("ghost use ")]
            for has_pub, contract in functions:
                if has_pub or kind or impl["trait"]:
                    yield inside, contract
        at = last + 1


def public_contracts(root, crate, module=None):
    """The texts of the public contracts of a crate, or of one module, each with the `ghost use` lines that apply to
    it."""
    folder = os.path.join(root, "crates", crate, "src")
    exported = exports(folder)
    hidden = own_traits(folder, exported)
    for name in sorted(os.listdir(folder)):
        if name.endswith(".rt") and name != "tests.rt" and module in (None, name[:-3]):
            with open(os.path.join(folder, name), encoding="utf-8") as file:
                lines = file.read().splitlines()
            yield from public_parts(lines, name[:-3], exported, hidden)
