#!/usr/bin/env python3
"""Compares the program's answers as JSON (--format json) with its lines, for random images.

usage: json_answers.py [--seed N] [--count N] [--pairs N] [--first N] [--dir FOLDER] [--tool PROGRAM]

The images are those of fuzz.py: with all kinds of volumes and states, accepted and refused, in a file with anything
around them, now and then with another image after them, cut, with bad eraseblocks, or no image at all. `geometry`,
`list` and `check` read each in both formats, with the numbers of a geometry, with wrong ones and with none, parts of
the file that exist or don't, with out-of-band bytes, and a file that doesn't exist. The exit status has to be the same.
The object has to be one line, which Python's json reads; written with sorted keys and no space it has to be that line
again, and no key may appear twice. The script makes the lines from the object, by the table of docs/FORMAT.md, and they
have to be the printed ones.

`same` and `diff` read pairs of images of diff.py likewise, in both orders, and files that don't exist; the objects of
both have to agree on whether the images mean the same.

By default there are 500 images of the seed 1, and 500 pairs (--pairs). Without --tool the program is built first,
unless it is built already. The last line is 'N passed, M failed', and the exit status is 0 if none failed; an image
that failed can be made again by giving its number to --first.
"""
import json
import subprocess

from diff import KINDS, Pair
from fuzz import SIZES, Failure, Lister, Maker, Mutator, built, either, finish, options, renumbered, run_cases

# The words of the states, in the order of the lines.
STATES = ("blank", "free", "table", "used", "stale", "orphan", "dropped", "corrupt", "garbage")
# The words of the numbers of a cause, in the order of its line.
NUMBERS = ("block", "peb", "volume", "earlier", "slot", "next_slot", "rest", "vid", "data")


def unique(pairs):
    """The object of these members, no two of which may have the same key."""
    if len(dict(pairs)) != len(pairs):
        raise Failure(f"a key is twice in {pairs}")
    return dict(pairs)


def cause_line(cause):
    """The line of a cause."""
    numbers = [f"{'slot' if word == 'next_slot' else word}={cause[word]}" for word in NUMBERS if word in cause]
    if set(cause) - set(NUMBERS) - {"code", "cause", "fault"}:
        raise Failure(f"{cause} has a word that no line has")
    fault = [cause["fault"]] if "fault" in cause else []
    return " ".join(["refused", cause["code"], cause["cause"], *numbers, *fault]) + "\n"


def numbers_under(answer, *words):
    """The numbers under these words, which may not be truth values or strings."""
    if any(type(answer[word]) is not int for word in words):
        raise Failure(f"{answer} has no number under one of {words}")
    return [answer[word] for word in words]


# What is on either side of a difference, by what differs: numbers, or a word.
SIDES = {
    **dict.fromkeys(("reserved", "alignment", "bytes"), lambda answer: numbers_under(answer, "left", "right")),
    "flags": lambda answer: [f"{number:02x}" for number in numbers_under(answer, "left", "right")],
    "kind": lambda answer: either_word(answer, KINDS.values()),
    "contents": lambda answer: either_word(answer, ("updating", "damaged", "whole")),
    "name": lambda answer: [answer["left"], answer["right"]],
}
# The members of a difference, if they aren't those of both sides.
MEMBERS = {"image_seq": {"left", "right"}, "volume": {"id", "only"}, "lebs": {"first", "id", "last"}}


def either_word(answer, words):
    """The words of both sides, each one of these."""
    if not {answer["left"], answer["right"]} <= set(words):
        raise Failure(f"{answer} has another word than {words}")
    return [answer["left"], answer["right"]]


def difference_line(answer):
    """The line of a difference."""
    what = answer["what"]
    if set(answer) != {"what"} | MEMBERS.get(what, {"id", "left", "right"}):
        raise Failure(f"{answer} is no difference")
    if what == "image_seq":
        left, right = numbers_under(answer, "left", "right")
        return f"seq left={left} right={right}\n"
    (number,) = numbers_under(answer, "id")
    if what == "volume":
        if answer["only"] not in ("left", "right"):
            raise Failure(f"{answer} has no side")
        return f"volume {number} only {answer['only']}\n"
    if what == "lebs":
        first, last = numbers_under(answer, "first", "last")
        return f"volume {number} lebs {first if first == last else f'{first}-{last}'}\n"
    left, right = SIDES[what](answer)
    return f"volume {number} {what} left={left} right={right}\n"


def comparison_lines(answer, command):
    """The lines of `same` or `diff`."""
    members = {"same"} if command == "same" else {"differences", "same"}
    if set(answer) != members or type(answer["same"]) is not bool:
        raise Failure(f"{answer} is no answer of {command}")
    lines = map(difference_line, answer.get("differences", []))
    return "".join(lines) + ("same\n" if answer["same"] else "different\n")


def check_lines(answer):
    """The lines of `check`."""
    if answer["accepted"] is not True or set(answer["states"]) != set(STATES):
        raise Failure(f"{answer} is no answer of check")
    numbers = [
        ("blocks", answer["blocks"]),
        *((state, answer["states"][state]) for state in STATES),
        ("top sqnum", answer["top_sqnum"]),
        ("image seq", answer["image_seq"]),
        ("mean counter", answer["mean_counter"]),
    ]
    return "".join(f"{word} {number}\n" for word, number in numbers) + "accepted\n"


def volume_line(volume):
    """The line of a volume."""
    amounts = [f"{word}={volume[word]}" for word in ("bytes", "lebs") if word in volume]
    amounts += [volume["state"]] if "state" in volume else []
    if len(amounts) != 1 or len(volume) != 8:
        raise Failure(f"{volume} is no volume")
    numbers = " ".join(f"{word}={volume[word]}" for word in ("reserved", "alignment", "usable"))
    return (f"volume {volume['id']} {volume['kind']} {numbers} flags={volume['flags']:02x} "
        f"{amounts[0]} name={volume['name']}\n")


def list_lines(answer):
    """The lines of `list`."""
    sizes = answer["geometry"]
    numbers = " ".join(f"{word}={sizes[word]}" for word in ("peb", "page", "vid", "data", "leb", "slots", "pebs"))
    return f"geometry {numbers}\n{''.join(map(volume_line, answer['volumes']))}volumes {len(answer['volumes'])}\n"


def geometry_lines(answer, size, is_cut):
    """The lines of `geometry` for a file of so many bytes; IS_CUT: the words give the length of a part."""
    lines, several = [], {"length", "start"}
    if set(answer) != {"geometries", "images"} or any(set(image) != several for image in answer["images"]):
        raise Failure(f"{answer} is no answer of geometry")
    for one in answer["geometries"]:
        line = f"--peb {one['peb']} --page {one['page']} --vid {one['vid']} --data {one['data']}"
        line += f" --oob {one['oob']}" if one["oob"] else ""
        is_whole = (one["start"], one["length"]) == (0, size) and not is_cut
        lines.append(line + ("" if is_whole else f" --start {one['start']} --length {one['length']}") + "\n")
    lines += (f"--start {one['start']} --length {one['length']}\n" for one in answer["images"])
    return "".join(lines)


class Asker:
    """Asks the program in both formats."""

    def __init__(self, rng, tool):
        self.rng, self.tool = rng, tool

    def run(self, words):
        """What is printed, and the exit status."""
        ran = subprocess.run([self.tool, *words], capture_output=True)
        return ran.stdout, ran.returncode

    def parsed(self, words, line):
        """The object of a line."""
        text = line.decode()
        if not text.endswith("\n") or min(text[:-1]) < " ":
            raise Failure(f"{words}: {text!r} is no line")
        answer = json.loads(text, object_pairs_hook=unique)
        if json.dumps(answer, sort_keys=True, separators=(",", ":"), ensure_ascii=False) + "\n" != text:
            raise Failure(f"{words}: {text!r} isn't the shortest text of its object")
        return answer

    def refused_lines(self, words, cause):
        """The line of a cause, which names a side if two images are compared."""
        cause = dict(cause)
        side = cause.pop("side") + " " if words[0] in ("same", "diff") else ""
        if side not in ("", "left ", "right "):
            raise Failure(f"{words}: there is no side {side}")
        return side + cause_line(cause)

    def lines(self, words, answer):
        """The lines of an object that is an answer of the command."""
        raise NotImplementedError

    def compare(self, words):
        """Compares both answers to words. Returns the object."""
        plain, status = self.run(words + self.rng.choice(([], ["--format", "text"])))
        line, as_json = self.run(words + ["--format", "json"])
        if as_json != status:
            raise Failure(f"{words}: ends with {as_json} as JSON, and with {status} in lines")
        answer = self.parsed(words, line)
        if "error" in answer:
            lines = answer["error"] + "\n"
        elif "refused" in answer:
            lines = self.refused_lines(words, answer["refused"])
        else:
            lines = self.lines(words, answer)
        is_alone = "error" in answer or "refused" in answer
        if "geometry" in answer and set(answer) != {"geometry", "volumes"} or is_alone and len(answer) != 1:
            raise Failure(f"{words}: {answer} has more than an answer")
        if lines.encode() != plain:
            raise Failure(f"{words}: {answer} says {lines!r}, and {plain!r} is printed")
        return answer


class Case(Asker):
    """An image, and what is asked about it."""

    def __init__(self, rng, tool, folder):
        super().__init__(rng, tool)
        maker = Maker(rng, SIZES)
        self.geometry = maker.geometry
        image = Mutator(rng, self.geometry, (0, 1, 1, 2, 3)).mutate(maker.blocks)
        bad = Lister(rng, self.geometry, image).bad()[1] if rng.random() < 0.3 else None
        self.bad = [] if bad is None else either(rng, "--bad", bad)
        self.oob = rng.choice((0, 0, 0, 16, 64))
        page = self.geometry.page
        pages = b"".join(image[at:at + page] + rng.randbytes(self.oob) for at in range(0, len(image), page))
        self.before = rng.randbytes(rng.choice((0, 0, 64, 1024, 700)))
        self.file = self.before + pages + rng.randbytes(rng.choice((0, 0, 1, 3000)))
        if rng.random() < 0.2:
            number = rng.randrange(1, 2**32)
            again = b"".join(renumbered(block, number) for block in Maker(rng, SIZES).blocks)
            self.file += bytes(-len(self.file) % 64) + again
        if rng.random() < 0.1:
            self.file = rng.choice((b"", bytes(4096), self.file[:rng.randrange(len(self.file) + 1)]))
        self.length, self.path = len(pages), f"{folder}/file"
        with open(self.path, "wb") as file:
            file.write(self.file)

    def lines(self, words, answer):
        if words[0] == "geometry":
            return geometry_lines(answer, len(self.file), "--length" in words)
        return (check_lines if words[0] == "check" else list_lines)(answer)

    def look(self):
        """Compares each answer. Returns whether the image was accepted with some words."""
        g, rng, sizes = self.geometry, self.rng, self.geometry.words()
        part = ["--start", str(len(self.before)), "--length", str(self.length)]
        oob = ["--oob", str(self.oob)] if self.oob else []
        other = ["--start", str(rng.choice((0, 1, len(self.file), len(self.file) + 1, 2**63 - 1)))]
        wrong = ["--peb", str(g.peb), "--page", str(rng.choice((0, 63, 65, 131072, g.page * 2)))]
        accepted = False
        for command in ("check", "list"):
            wrong_oob = sizes + part + ["--oob", "7"]
            for words in (sizes + part + oob, sizes + oob, part, [], other, sizes + other, wrong_oob, wrong):
                accepted |= "accepted" in self.compare([command, self.path, *words, *self.bad])
            self.compare([command, self.path + ".gone", *rng.choice((sizes, []))])
        for words in (part, [], other):
            self.compare(["geometry", self.path, *words])
        self.compare(["geometry", self.path + ".gone"])
        return accepted


class Sides(Asker):
    """Two images, and what is asked about both."""

    def __init__(self, rng, tool, folder):
        super().__init__(rng, tool)
        pair = Pair(rng, tool, folder, Maker(rng))
        self.geometry = pair.geometry
        self.paths = [pair.put(name, data) for name, data in zip(("left", "right"), pair.files)]

    def lines(self, words, answer):
        return comparison_lines(answer, words[0])

    def compare_both(self, words):
        """Compares the answers of both commands to words, which have to agree. Returns whether the images were
        compared."""
        same, diff = (self.compare([command, *words]) for command in ("same", "diff"))
        if {word: value for word, value in diff.items() if word != "differences"} != same:
            raise Failure(f"{words}: `same` says {same}, and `diff` {diff}")
        if "differences" in diff and diff["same"] != (not diff["differences"]):
            raise Failure(f"{words}: {diff} contradicts itself")
        return "same" in same

    def look(self):
        """Compares each answer. Returns whether both images are accepted."""
        g, rng, sizes = self.geometry, self.rng, self.geometry.words()
        left, right = self.paths
        compared = [self.compare_both([*paths, *sizes]) for paths in ((left, right), (right, left))]
        part = ["--start", str(rng.choice((0, g.peb, 1, 2**40)))]
        wrong = ["--peb", str(g.peb), "--page", str(rng.choice((0, 63, 65, 131072, g.page * 2)))]
        for words in (
            [left, right],
            [right, left, *part],
            [left, right, *sizes, *part],
            [right, left, *wrong],
            [left, left, *rng.choice((sizes, []))],
            [left, right + ".gone", *rng.choice((sizes, []))],
            [left + ".gone", right, *rng.choice((sizes, []))],
        ):
            self.compare_both(words)
        return all(compared)


def main():
    words = options(__doc__, 500, pairs=500)
    tool = built(words.tool)
    answers, failed = run_cases(words, {
        "json ": (lambda rng, folder: Case(rng, tool, folder).look(), words.count),
        "pair ": (lambda rng, folder: Sides(rng, tool, folder).look(), words.pairs),
    })
    print(f"{sum(answers)} accepted")
    finish(len(answers), failed)


if __name__ == "__main__":
    main()
