"""A text with each form of line, and each way in which it is refused: the family `texts` of hostile.py.

A case is a text, the number of spare eraseblocks that is asked for, and what is expected: the line of a refusal, or the
lines that `list` prints for the volumes.
"""
import functools
import itertools

from rules import Geometry

GEOMETRY = Geometry(1024, 64, 64, 128, 1048576)
USABLE = 896
# Line 1 is the first. Faults are made in line 9 and all below except 12, one of each form.
TEXT = (
    "# A right text.",
    "volume 0 dynamic 20 1 00 root",
    "leb 0 0 4141",
    "volume 1 static 3 1 00 kernel",
    "bytes 1 27051956",
    "volume 4 static 1 1 00 gone",
    "damaged 4",
    "",
    "volume 3 dynamic 2 1 00 a\\x20name",
    "leb 0 7 ff00",
    "bytes 1 00ff",
    "volume 2 static 1 1 00 broken",
    "damaged 2",
    "updating 3",
)
LISTED = (
    "volume 0 dynamic reserved=20 alignment=1 usable=896 flags=00 lebs=2 name=root",
    "volume 1 static reserved=3 alignment=1 usable=896 flags=00 bytes=6 name=kernel",
    "volume 2 static reserved=1 alignment=1 usable=896 flags=00 damaged name=broken",
    "volume 3 dynamic reserved=2 alignment=1 usable=896 flags=00 updating name=a\\x20name",
    "volume 4 static reserved=1 alignment=1 usable=896 flags=00 damaged name=gone",
)
# The causes: those of one line in their order, and then those of the volumes together.
CAUSES = (
    "P1 Word", "P2 Number", "P3 Hex", "P4 Name", "P5 Order", "P6 Record NotEmpty", "P6 Record Negative",
    "P6 Record Alignment", "P6 Record AlignmentPage", "P7 Twice", "P8 Long", "M1", "M4", "M5", "M6", "C1",
)
# The line of each form; for each of its words, counted from 0, what breaks which rule.
NO_NUMBERS = ("x", "00", "01", "+1", "-1", "1.", "0x1", "1e1", "4294967296", "18446744073709551616")
NO_HEX = ("f", "fff", "fg", "0xff", "f.")
OF_WORDS = {
    9: {
        1: {"P2 Number": NO_NUMBERS, "P5 Order": ("1", "4")},
        2: {"P1 Word": ("Static", "DYNAMIC", "0")},
        3: {"P2 Number": NO_NUMBERS, "P6 Record NotEmpty": ("0",), "P6 Record Negative": ("2147483648", "4294967295")},
        4: {"P2 Number": NO_NUMBERS, "P6 Record Negative": ("2147483648", "4294967295"),
            "P6 Record Alignment": ("0", "897", "960", "2147483647"), "P6 Record AlignmentPage": ("2", "63", "895")},
        5: {"P3 Hex": ("0", "000", "0000", "0g", "0x")},
        6: {"P4 Name": ("\\", "a\\", "\\x", "\\x4", "\\x4g", "\\X41", "\\x00", "a\\x00b", "\\n", 128 * "a",
            128 * "\\xff")},
    },
    10: {
        1: {"P2 Number": NO_NUMBERS, "P5 Order": ("1", "2", "4", "5", "4294967295")},
        2: {"P2 Number": NO_NUMBERS, "P7 Twice": ("0",)},
        3: {"P3 Hex": NO_HEX, "P8 Long": ((USABLE + 1) * "ff", 2 * USABLE * "00")},
    },
    11: {1: {"P2 Number": NO_NUMBERS, "P5 Order": ("0", "2", "3", "4", "5")}, 2: {"P3 Hex": NO_HEX}},
    13: {1: {"P2 Number": NO_NUMBERS, "P5 Order": ("0", "1", "3", "4", "5")}},
    14: {1: {"P2 Number": NO_NUMBERS, "P5 Order": ("0", "1", "2", "4", "5")}},
}
# What makes any line a P1: a function from the line to the line that it becomes.
OF_LINES = (
    lambda line: " " + line,
    lambda line: line + " ",
    lambda line: line.replace(" ", "  ", 1),
    lambda line: line.replace(" ", "\t", 1),
    lambda line: line + "\r",
    lambda line: line + "\0",
    lambda line: line + "\x7F",
    lambda line: line + "\x80",
    lambda line: line + " 1",
    lambda line: line.rpartition(" ")[0],
    lambda line: line[0].upper() + line[1:],
    lambda line: " # " + line,
)
# Volumes that have no meaning together: other lines, and what is printed. Volumes are counted by their lines.
TOGETHER = (
    ({12: "volume 5 static 1 1 00 broken", 13: "damaged 5"}, "M1 IdRange item=4"),
    ({12: "volume 4294967295 static 1 1 00 broken", 13: "damaged 4294967295"}, "M1 IdRange item=4"),
    ({9: "volume 3 dynamic 2 1 00 root"}, "M4 SameName item=3 earlier=0"),
    ({9: "volume 3 dynamic 2 1 00 \\x72oot"}, "M4 SameName item=3 earlier=0"),
    ({6: "volume 4 static 2147483647 1 00 gone"}, "M5 NoSpace"),
    ({6: "volume 4 static 1048549 1 00 gone"}, "M5 NoSpace"),
    ({2: "volume 0 dynamic 7 1 00 root"}, "M6 ContentRange item=0"),
    ({3: "leb 0 20 ff"}, "M6 ContentRange item=0"),
    ({3: "leb 0 4294967295 ff"}, "M6 ContentRange item=0"),
    ({5: "bytes 1 " + (3 * USABLE - 1) * "aa"}, "M6 ContentRange item=1"),
)


class Fault:
    """What is wrong with one line, or with the volumes together: its rank, its line, and how lines are changed for
    it."""

    def __init__(self, line, cause, change, place=None):
        self.line, self.cause, self.change, self.place = line, cause, change, place
        self.rank = (line, CAUSES.index(cause if line in OF_WORDS else cause[:2]))
        number, name, *rest = cause.split()
        place_of_line = [f"line={line}"] if line in OF_WORDS else []
        self.printed = " ".join(("refused", number, name, *place_of_line, *rest)) + "\n"


def with_word(line, place, word):
    words = line.split(" ")
    return " ".join((*words[:place], word, *words[place + 1 :]))


def faults():
    """Each fault of one line, and each of the volumes together."""
    for line, places in OF_WORDS.items():
        for place, causes in places.items():
            for cause, words in causes.items():
                for word in words:
                    change = functools.partial(with_word, place=place, word=word)
                    yield Fault(line, cause, {line: change}, place)
        for change in OF_LINES:
            yield Fault(line, "P1 Word", {line: change})
    for lines, cause in TOGETHER:
        yield Fault(len(TEXT) + 1, cause, {line: lambda _, new=new: new for line, new in lines.items()})


def changed(*some):
    """The text with some faults; those of whole lines are made last."""
    lines = list(TEXT)
    for fault in sorted(some, key=lambda fault: fault.place is None):
        for line, change in fault.change.items():
            lines[line - 1] = change(lines[line - 1])
    return as_bytes(lines)


def as_bytes(lines, end="\n"):
    return ("\n".join(lines) + end).encode("latin-1")


def representatives():
    """One fault for each line, place and cause, and all faults of the volumes together."""
    seen = set()
    for fault in faults():
        key = (fault.line, fault.place, fault.cause)
        if key not in seen:
            seen.add(key)
            yield fault


def are_apart(one, other):
    """Whether two faults don't change one line, or change different words of it."""
    return not set(one.change) & set(other.change) or (one.line == other.line in OF_WORDS and one.place != other.place)


def refused():
    """Each fault, each pair of them, and each with more spares than the device has room for."""
    yield as_bytes(TEXT), 1048570, "refused C1 TooMany\n"
    for fault in faults():
        yield changed(fault), 0, fault.printed
    for fault in representatives():
        yield changed(fault), 4294967295, fault.printed
    for one, other in itertools.combinations(representatives(), 2):
        if are_apart(one, other):
            yield changed(one, other), 0, min(one, other, key=lambda fault: fault.rank).printed


def of_bytes():
    """Each byte in place of the space of a line, in a name, in a remark, and after the last line."""
    for byte in range(256):
        char = chr(byte)
        front, back = as_bytes(("volume 0 dynamic 1 1 00",), ""), b"root"
        yield front + bytes([byte]) + back, 0, (f"{SMALL}root",) if char == " " else "refused P1 Word line=1\n"
        plain = 0x21 <= byte <= 0x7E and char != "\\"
        in_name = "P4 Name" if char == "\\" else "P1 Word"
        ends = {"\n": (f"{SMALL}r",), " ": None}
        if char not in ends:
            yield front + b" r" + bytes([byte]), 0, (f"{SMALL}r{char}",) if plain else f"refused {in_name} line=1\n"
        yield b"#" + bytes([byte]) + b"\n" + front + b" r", 0, (f"{SMALL}r",)
        for digits in (f"{byte:02x}", f"{byte:02X}"):
            shown = char if plain else f"\\x{byte:02x}"
            yield front + b" r\\x" + digits.encode(), 0, (f"{SMALL}r{shown}",) if byte else "refused P4 Name line=1\n"


SMALL = "volume 0 dynamic reserved=1 alignment=1 usable=896 flags=00 lebs=0 name="


def right():
    """Texts that are composed: without the last newline, with empty lines and remarks, without any line, and at the
    limits."""
    yield as_bytes(TEXT), 0, LISTED
    yield as_bytes(TEXT, ""), 0, LISTED
    yield as_bytes(TEXT, "\n\n\n# "), 0, LISTED
    yield as_bytes(sum((("", "#", line) for line in TEXT), ())), 0, LISTED
    yield b"", 0, ()
    yield b"\n", 0, ()
    yield b"#", 0, ()
    heading = "volume 0 {} {} {} {} {}"
    alignments = {"1": 896, "64": 896, "128": 896, "320": 640, "512": 512, "832": 832, "896": 896}
    for alignment, usable in alignments.items():
        for flags in ("00", "01", "02", "fF", "Ff"):
            numbers = f"alignment={alignment} usable={usable} flags={flags.lower()}"
            whole = usable * "5A"
            dynamic = heading.format("dynamic", 1, alignment, flags, "n")
            static = heading.format("static", 2, alignment, flags, "n")
            yield as_bytes((f"{dynamic}{126 * 'n'}", f"leb 0 0 {whole}")), 0, (
                f"volume 0 dynamic reserved=1 {numbers} lebs=1 name={127 * 'n'}",)
            yield as_bytes((static, f"bytes 0 {whole}{whole}")), 0, (
                f"volume 0 static reserved=2 {numbers} bytes={2 * usable} name=n",)
            yield as_bytes((static, f"bytes 0 {whole}", f"bytes 0 {whole}00")), 0, "refused M6 ContentRange item=0\n"
            yield as_bytes((dynamic, f"leb 0 0 {whole}00")), 0, "refused P8 Long line=2\n"
    for kind, count in (("dynamic", "lebs=0"), ("static", "bytes=0")):
        yield as_bytes((heading.format(kind, 1048574, 1, "00", "n"),)), 0, (
            f"volume 0 {kind} reserved=1048574 alignment=1 usable=896 flags=00 {count} name=n",)
        yield as_bytes((heading.format(kind, 1048575, 1, "00", "n"),)), 0, "refused M5 NoSpace\n"
        yield as_bytes((heading.format(kind, 2147483647, 1, "00", "n"),)), 0, "refused M5 NoSpace\n"
    # A LEB that is all 0xFF counts as given by its line, but takes no eraseblock.
    blank = heading.format("dynamic", 1, 1, "00", "n")
    yield as_bytes((blank, "leb 0 0 ff")), 0, (f"{SMALL}n",)
    yield as_bytes((blank, "leb 0 0 ff", "leb 0 0 ff")), 0, "refused P7 Twice line=3\n"
    yield as_bytes((blank, "leb 0 0 ff", "updating 0")), 0, "refused P5 Order line=3\n"
    yield as_bytes((blank, "leb 0 1 ff")), 0, "refused M6 ContentRange item=0\n"


def texts():
    yield from right()
    yield from of_bytes()
    yield from refused()
