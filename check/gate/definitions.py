#!/usr/bin/env python3
"""Prints the definitions that the promise rests on, each once and after those that it uses, and the contracts of its
calls.

usage: definitions.py [--files] [--down] [LAW ..]
       definitions.py --calls
       definitions.py --check

A law is named by crate, file and name, such as ubi_change.Planned.SurvivesCutsOf; the default is the headline
(ubi_commands.Headline.Headline) with the contracts of the calls that compute what it speaks of, which are printed last.
The script follows the names in a definition through the `use` lines of its file, as far as they lie in a folder specs/
of this repository; it doesn't print what the standard library defines. Then it lists the files, each after those that
it uses, with the number of lines of these definitions and of all its lines; then the files of src/ with the structs and
enums that the definitions name. With --files it prints these lists only. With --down each file comes before those that
it uses. The exit status is 1 if a name can't be followed.

With --calls it prints contracts only: those of these calls, and then those of the calls that the program makes in their
place, over files that it reads and writes piece by piece, with the call that `main` makes.

With --check it lists the files that the promise rests on, and those that all public contracts rest on. Definitions that
only private functions' contracts and proofs of one crate cite lie in specs/inner/. The exit status is 1 if a public
contract, a file above that folder or another crate reaches into it, if no public contract reaches a definition above it
and no other crate cites that, if a definition has the name of one in a crate that its own stands on, or if it has no
sentence before it.
"""
import os
import re
import sys

import contracts
import crates

ROOT = os.path.dirname(os.path.dirname(os.path.dirname(os.path.abspath(__file__))))
# The crates that have definitions, lowest first, and the program.
CRATES = tuple(name for name in crates.names() if name not in ("ubi_uses", "ubi_tests", "ubi_command_tests", "ubi_c"))
HEADLINE = ("ubi_commands", "Headline", "Headline")
# The calls that compute what the headline speaks of, by their files.
CALLS = (
    ("ubi_volume", "attached", "attach"),
    ("ubi_compose", "memory_image", "compose"),
    ("ubi_compose", "memory_image", "normalise"),
    ("ubi_same", "compared", "same"),
    ("ubi_change", "change", "plan_change"),
    ("ubi_change", "rename", "plan_rename"),
)
# The calls of the libraries that the program makes, over sources and writers, and the one that `main` makes.
# docs/PROVED.md says what `show`, `compose` and `build` read first.
PROGRAM_CALLS = (
    ("ubi_detect", "detect", "detect_from"),
    ("ubi_volume", "places", "attach_places"),
    ("ubi_volume", "surveyed", "survey_from"),
    ("ubi_volume", "extract", "write_places"),
    ("ubi_compose", "source_image", "normalise_to"),
    ("ubi_compare", "compare", "same_from"),
    ("ubi_compare", "compare", "diff_from"),
    ("ubi_compose", "built_image", "build_to"),
    ("ubi_change", "change", "plan_change_from"),
    ("ubi_change", "rename", "plan_rename_from"),
    ("ubi_change", "image_after", "write_after"),
    ("ubi_commands", "commands", "run_words"),
)
NAME = r"[^\s(){}.,;:λ→←∷≡×⊎]+"
# What a `use` line takes from a file of definitions: the crate, the file, and the names.
CITED = re.compile(r"\bRattle\.(ubi_\w+)\.specs\.([\w.]+)\.\{([^}]*)\}")
# The first line of a definition: its modifiers, and then its name with a colon, or a record or a family with its own. A
# level may come before the colon.
START = re.compile(
    r"^\s*(?:abbrev |unfoldable )?(?:pub )?"
    rf"(?:(?:record|data) (?P<kind>{NAME})|(?P<name>{NAME})(?: {NAME})*(?: \{{ℓ\}})? :(?!:))")
USE = re.compile(r"^(?:ghost )?use Rattle\.(ubi_\w+)\.specs\.([\w.]+?)(?:\.\{(.*)\}| as ([^\s;]+))?;?$")


def is_named(name, words, text):
    """Whether a text names a definition: by its word, or an operator by its signs, and `>>=` also by the word `do`."""
    if "◌" not in name:
        return name in words
    return all(part in text for part in name.split("◌")) or (name == "◌>>=◌" and "do" in words)


class Uses:
    """What `use` lines name."""

    def __init__(self, lines):
        self.uses, self.files = {}, {}
        for line in lines:
            use = USE.match(line)
            if use:
                self.take_use(*use.groups())

    def take_use(self, crate, name, names, alias):
        for used in (names or "").split(","):
            word = used.strip()
            if word:
                old, _, new = word.partition(" as ")
                self.uses[new or old] = (crate, name, old)
        if alias:
            self.files[alias] = (crate, name)

    def named_in(self, text):
        """The definitions that a text names."""
        for alias, word in re.findall(rf"\b({NAME})\.({NAME})", text):
            if alias in self.files:
                yield (*self.files[alias], word)
        words = set(re.findall(NAME, text))
        for word, used in self.uses.items():
            if is_named(word, words, text):
                yield used


class File(Uses):
    """The definitions of a file, each with its lines, and what its `use` lines name."""

    def __init__(self, crate, name):
        self.crate, self.name = crate, name
        with open(os.path.join(ROOT, path_of(crate, name)), encoding="utf-8") as file:
            lines = file.read().splitlines()
        super().__init__(lines)
        self.count, self.items, self.heads = len(lines), {}, {}
        item, comment, head = None, [], []
        for line in lines:
            if line.startswith("use ") or not line.strip():
                item = item if line.strip() else None
                comment = comment if line.strip() else []
            elif line.lstrip().startswith("--"):
                comment.append(line)
            elif line.startswith("module "):
                head, item = [line], "module"
            elif item == "module" and not START.match(line):
                head.append(line)
            else:
                item = self.take_line(line, item, comment, head)
                comment = []

    def take_line(self, line, item, comment, head):
        """Adds a line to the definition that it begins or continues. Returns the name of that definition."""
        indent = len(line) - len(line.lstrip())
        start = START.match(line)
        begins = start and (indent == 0 or (head and indent == 2 and item not in self.items_open(item)))
        if begins:
            item = start["kind"] or start["name"]
            self.items[item] = list(comment)
            self.heads[item] = head if indent else []
        if item in self.items:
            self.items[item].append(line)
        return item

    def items_open(self, item):
        """The definition whose fields or cases come next, if it has any."""
        lines = self.items.get(item, [])
        is_open = any(re.search(r"(record|data) .* where$", line) for line in lines) or self.is_family(lines)
        return {item} if is_open else set()

    @staticmethod
    def is_family(lines):
        return any(re.match(r"^\s*(pub )?(record|data) ", line) for line in lines)

    def names_in(self, item):
        text = "\n".join(line for line in self.heads[item] + self.items[item] if not line.lstrip().startswith("--"))
        yield from self.named_in(text)
        words = set(re.findall(NAME, text))
        for own in self.items:
            if own != item and own not in self.uses and is_named(own, words, text):
                yield (self.crate, self.name, own)


FILES = {}


def path_of(crate, name):
    return f"crates/{crate}/specs/{name.replace('.', '/')}.antt"


def file_of(crate, name):
    if (crate, name) not in FILES:
        FILES[crate, name] = File(crate, name)
    return FILES[crate, name]


def is_ours(crate, name):
    """Whether a file is one of definitions, and not one that is generated from the program's types and contracts."""
    return crate in CRATES and not name.startswith(("declared", "contracts"))


def follow(crate, name, item, seen, missing):
    """Puts a definition after all that it names."""
    if (crate, name, item) in seen or not is_ours(crate, name):
        return
    seen[crate, name, item] = False
    file = file_of(crate, name)
    if item not in file.items:
        # A case of a family, or a field of a record, is part of it.
        part = re.compile(rf"^\s+(pub )?{re.escape(item)} :")
        owners = [owner for owner, lines in file.items.items() if any(map(part.match, lines))]
        del seen[crate, name, item]
        if not owners:
            missing.append(f"{crate}.{name}.{item}")
        for owner in owners:
            follow(crate, name, owner, seen, missing)
        return
    for named in file.names_in(item):
        follow(*named, seen, missing)
    del seen[crate, name, item]
    seen[crate, name, item] = True


def rests_on(names):
    """The definitions that some rest on, each after those that it uses, and the names that can't be followed."""
    seen, missing = {}, []
    for name in names:
        follow(*name, seen, missing)
    return seen, missing


def in_order(files):
    """Files, each after those of them that it uses."""
    done = []

    def put(key):
        if key in files and key not in done:
            uses = list(FILES[key].uses.values()) + list(FILES[key].files.values())
            for crate, name, *_ in uses:
                if (crate, name) != key:
                    put((crate, name))
            done.append(key)

    for key in sorted(files, key=lambda key: (CRATES.index(key[0]), key[1])):
        put(key)
    return done


def ordered(seen, down):
    """The files of definitions, each after those of them that it uses, or before them."""
    files = in_order({name[:2] for name in seen})
    return files[::-1] if down else files


def texts_of(key, seen):
    """The texts of those definitions of a file that were seen."""
    file = FILES[key]
    return [text for item, text in file.items.items() if (*key, item) in seen]


def contract_of(crate, module, name):
    """The `use` lines that apply to the contract of a public function, and its lines."""
    for uses, lines in contracts.public_contracts(ROOT, crate, module):
        if re.match(rf"pub fn {name}\b", lines[0]):
            return uses, lines
    raise SystemExit(f"{crate} exports no {name} of {module}.rt")


def named_by(uses, lines):
    """The definitions that a contract names."""
    return set(Uses(uses).named_in("\n".join(line for line in lines if not line.strip().startswith("//"))))


def promise():
    """The headline, and the definitions that the contracts of the calls name."""
    return [HEADLINE, *sorted(set().union(*(named_by(*contract_of(*call)) for call in CALLS)))]


def types_of(seen):
    """The structs and enums that definitions name, by their files."""
    types = {}
    for crate, name, item in seen:
        for where, declared, _ in FILES[crate, name].names_in(item):
            if where in CRATES and declared.startswith("declared."):
                _, module, kind, *_ = declared.split(".")
                types.setdefault((CRATES.index(where), module), set()).add(kind)
    return types


def print_types(seen):
    for (crate, module), kinds in sorted(types_of(seen).items()):
        print(f"crates/{CRATES[crate]}/src/{module}.rt: {', '.join(sorted(kinds))}")


def print_contracts(calls=CALLS):
    parts, place = [], None
    for crate, module, name in calls:
        if (crate, module) != place:
            place = crate, module
            parts.append(f"crates/{crate}/src/{module}.rt")
        parts.append("\n".join(line for line in contract_of(crate, module, name)[1] if line != "{"))
    print("\n\n".join(parts))


def print_definitions(seen, down):
    for key in ordered(seen, down):
        print(path_of(*key) + "\n\n" + "\n\n".join("\n".join(text) for text in texts_of(key, seen)) + "\n")


def print_files(seen, down=False):
    files = ordered(seen, down)
    counts = [sum(map(len, texts_of(key, seen))) for key in files]
    for key, count in zip(files, counts):
        print(f"{path_of(*key)} {count} of {FILES[key].count}")
    print(f"{len(files)} files, {sum(counts)} of {sum(FILES[key].count for key in files)} lines")


def all_files(crate):
    folder = os.path.join(ROOT, "crates", crate, "specs")
    for where, _, names in os.walk(folder):
        for name in sorted(names):
            if name.endswith(".antt") and name not in ("Lib.antt", "inner.antt"):
                yield os.path.relpath(os.path.join(where, name), folder)[:-len(".antt")].replace(os.sep, ".")


def is_inner(name):
    return name.startswith("inner.")


def cited_beyond():
    """The definitions that another crate cites in its sources, definitions or proofs."""
    cited = set()
    for crate in CRATES:
        for part in ("src", "specs", "proofs"):
            for where, _, names in os.walk(os.path.join(ROOT, "crates", crate, part)):
                for name in names:
                    if name.endswith((".rt", ".antt")):
                        with open(os.path.join(where, name), encoding="utf-8") as file:
                            for of, module, items in CITED.findall(file.read()):
                                if of != crate:
                                    cited |= {(of, module, item.strip()) for item in items.split(",")}
    return cited


def misplaced(public):
    """The definitions that lie in the wrong folder, given those that public contracts reach."""
    beyond = cited_beyond()
    for crate, name, item in public:
        if is_inner(name):
            yield f"{crate}.{name}.{item} is reached by a public contract"
    for crate, name, item in sorted(beyond):
        if is_inner(name):
            yield f"{crate}.{name}.{item} is cited by another crate"
    for crate in CRATES:
        for name in all_files(crate):
            file = file_of(crate, name)
            if is_inner(name):
                continue
            for used in sorted({used[:2] for used in [*file.uses.values(), *file.files.values()] if is_inner(used[1])}):
                yield f"{crate}.{name} uses {used[0]}.{used[1]}"
            for item in file.items:
                if (crate, name, item) not in public and (crate, name, item) not in beyond:
                    yield f"{crate}.{name}.{item} is reached by no public contract, and cited by no other crate"


def twins():
    """The definitions whose name another one has, in a crate that theirs stands on."""
    below, named = {name: crates.below(name) for name in CRATES}, {}
    for crate in CRATES:
        for name in all_files(crate):
            for item in file_of(crate, name).items:
                named.setdefault(item, set()).add((crate, name))
    for item, places in sorted(named.items()):
        for crate, name in sorted(places):
            for under, other in sorted(places):
                if under in below[crate]:
                    yield f"{crate}.{name}.{item} has the name of one in {under}.{other}"


def unsaid():
    """The definitions that have no sentence before them."""
    for crate in CRATES:
        for name in all_files(crate):
            for item, lines in file_of(crate, name).items.items():
                if not lines[0].lstrip().startswith("--"):
                    yield f"{crate}.{name}.{item} has no sentence before it"


def check():
    """Prints what the promise and all public contracts rest on. Returns what is wrong with that."""
    promised, missing = rests_on(promise())
    cited = set()
    for crate in CRATES:
        for uses, lines in contracts.public_contracts(ROOT, crate):
            cited |= named_by(uses, lines)
    public, more = rests_on(sorted(cited))
    print("The promise rests on")
    print_files(promised)
    print("\nAll public contracts rest on")
    print_files(public)
    lost = [f"{name} can't be followed" for name in missing + more]
    return [*lost, *misplaced(public), *twins(), *unsaid()]


def print_laws(words):
    """Prints what laws, or the promise, rest on. Returns what is wrong with that."""
    laws = [tuple(re.match(r"(\w+)\.(.*)\.(\S+)$", word).groups()) for word in words if not word.startswith("--")]
    seen, missing = rests_on(laws or promise())
    if "--files" not in words:
        print_definitions(seen, "--down" in words)
        if not laws:
            print_contracts()
            print()
    print_files(seen, "--down" in words)
    print_types(seen)
    return [f"{name} can't be followed" for name in missing]


def main():
    words, wrong = sys.argv[1:], []
    if words == ["--check"]:
        wrong = check()
    elif words == ["--calls"]:
        print_contracts(CALLS + PROGRAM_CALLS)
    else:
        wrong = print_laws(words)
    for line in wrong:
        print(line, file=sys.stderr)
    sys.exit(1 if wrong else 0)


if __name__ == "__main__":
    main()
