#!/usr/bin/env python3
"""Keeps what the proofs of a crate import in one module, proofs/Prelude.antt of the crate.

usage: prelude.py [--write] [CRATE ..]

The module names what the proofs of its crate take from the standard library, from the crates below and from the crate's
own specs/, and each file of proofs/ takes it from there, by one line. If two modules have the same name, the prelude
has the one that most files take, and the other files import theirs themselves. Files also import whole modules, and the
crate's own lemmas, themselves.

Without --write it lists the files that import a name without their prelude or one that they don't use, and those
preludes that have names which no file takes. The exit status is 1 if one is listed. With --write it mends them; run `rt
fmt` and `rt check` after it.
"""
import argparse
import collections
import pathlib
import re
import subprocess
import sys

ROOT = pathlib.Path(__file__).resolve().parents[2]
IMPORT = re.compile(r"use (Rattle\.[^{}]+)\.\{(.*)\}$")
HEADER = "-- The names that the proofs of this crate speak of, and where they come from."
# Crates with fewer files of proofs than this name what they import where they need it.
FEW = 12


def files_of(crate):
    """The files of a crate's proofs, except those that declare modules."""
    paths = sorted((crate / "proofs").rglob("*.antt"))
    return [path for path in paths if path.name not in ("Lib.antt", "Prelude.antt")]


def is_shared(module, crate):
    """Whether the names of a module go through the prelude: all but the crate's own lemmas and the keys of
    contracts."""
    return not module.startswith((f"Rattle.{crate.name}.proofs.", f"Rattle.{crate.name}.specs.contracts."))


def is_used(name, body):
    """Whether a text has a name, or each part of the name of an operator."""
    return all(part in body for part in name.rpartition(" as ")[2].split("◌"))


def wanted(crate, given):
    """How many files take each name from each module. For a name of their own prelude that is the module where it comes
    from."""
    takes = collections.defaultdict(collections.Counter)
    for path in files_of(crate):
        body = body_of(path.read_text())
        for module, names in imports(path):
            is_prelude = module == f"Rattle.{crate.name}.proofs.Prelude"
            for name in filter(lambda name: is_used(name, body), names):
                at = given.get(name.partition(" as ")[0]) if is_prelude else module
                if at and " as " not in name and is_shared(at, crate):
                    takes[name][at] += 1
    return takes


def body_of(text):
    """A file's text without its imports."""
    return "\n".join(line for line in text.split("\n") if not line.startswith("use "))


def imports(path):
    """The modules from which a file imports names, with the names."""
    for line in path.read_text().split("\n"):
        found = IMPORT.match(line)
        if found:
            yield found[1], found[2].split(", ")


def prelude_of(crate):
    """What a crate's prelude takes from each module."""
    path = crate / "proofs" / "Prelude.antt"
    lines = path.read_text().split("\n") if path.exists() else []
    found = [re.match(r"(?:unfoldable )?pub use (Rattle\.[^{}]+)\.\{(.*)\}$", line) for line in lines]
    return [(it[1], it[2].split(", ")) for it in found if it]


def sources_of(module, kit):
    """The texts that a module may have: std re-exports modules of core under its own name."""
    _, library, *parts = module.split(".")
    of_crate = ROOT / "crates" / library
    folders = [of_crate] if of_crate.is_dir() else [kit / library, kit / "core"]
    paths = [folder.joinpath(*parts).with_suffix(".antt") for folder in folders]
    return [path.read_text() for path in paths if path.exists()]


def can_be_opened(name, module, kit):
    """Whether a module lets proofs unfold a definition."""
    form = re.compile(r"^unfoldable pub (use .*\b)?" + re.escape(name) + r"(?= |,|\})", re.M)
    return any(form.search(text) for text in sources_of(module, kit))


def text_of(crate, chosen, kit):
    """The text of a crate's prelude."""
    groups = collections.defaultdict(list)
    for name, module in chosen.items():
        groups[module, can_be_opened(name, module, kit)].append(name)

    def order(item):
        (module, _), _ = item
        return not module.startswith("Rattle.std"), module.startswith(f"Rattle.{crate.name}."), item[0]

    lines = [HEADER]
    for (module, is_open), names in sorted(groups.items(), key=order):
        lines.append(f"{'unfoldable ' if is_open else ''}pub use {module}.{{{', '.join(sorted(names))}}}")
    return "\n".join(lines) + "\n"


def rewritten(path, crate, chosen, given):
    """A file's text with its imports taken from the prelude."""
    prelude, taken, kept = f"Rattle.{crate.name}.proofs.Prelude", [], []
    text = path.read_text()
    body = body_of(text)
    for line in text.split("\n"):
        found = IMPORT.match(line)
        if not found:
            kept.append(line)
            continue
        others = collections.defaultdict(list)
        for name in filter(lambda name: is_used(name, body), found[2].split(", ")):
            plain = name.partition(" as ")[0]
            module = given.get(plain, found[1]) if found[1] == prelude else found[1]
            if chosen.get(plain) != module:
                others[module].append(name)
            elif name not in taken:
                taken.append(name)
        kept += [f"use {module}.{{{', '.join(names)}}}" for module, names in others.items()]
    if taken:
        at = next((number for number, line in enumerate(kept) if line.startswith("use ")), None)
        if at is None:
            at = next(number for number, line in enumerate(kept) if not line.startswith("--"))
        kept.insert(at, f"use {prelude}.{{{', '.join(taken)}}}")
    return "\n".join(kept)


def mend(crate, kit):
    """A crate's prelude and its files, written anew: the texts of those files that change."""
    given = {name: module for module, names in prelude_of(crate) for name in names}
    takes = wanted(crate, given)
    chosen = {name: max(sorted(at), key=at.__getitem__) for name, at in takes.items()}
    texts = {path: rewritten(path, crate, chosen, given) for path in files_of(crate)}
    texts[crate / "proofs" / "Prelude.antt"] = text_of(crate, chosen, kit)
    node = crate / "proofs" / "Lib.antt"
    if "pub mod Prelude\n" not in node.read_text():
        texts[node] = node.read_text().rstrip("\n") + "\npub mod Prelude\n"
    return {path: text for path, text in texts.items() if not path.exists() or path.read_text() != text}


def main():
    words = argparse.ArgumentParser()
    words.add_argument("--write", action="store_true")
    words.add_argument("crates", nargs="*")
    asked = words.parse_args()
    doc = subprocess.run(["rt", "doc"], capture_output=True, text=True, check=True).stdout.strip()
    kit = pathlib.Path(doc).parent / "rattle"
    changed = {}
    for node in sorted((ROOT / "crates").glob("*/proofs/Lib.antt")):
        crate = node.parent.parent
        if (not asked.crates or crate.name in asked.crates) and len(files_of(crate)) >= FEW:
            changed.update(mend(crate, kit))
    for path, text in changed.items():
        print(path.relative_to(ROOT))
        if asked.write:
            path.write_text(text)
    return 0 if asked.write or not changed else 1


if __name__ == "__main__":
    sys.exit(main())
