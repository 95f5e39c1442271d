#!/usr/bin/env python3
"""Runs the script of pages of `map` in node, without a browser, and compares what it shows with the page's data.

usage: frame.py [--tool PROGRAM]

`apt-get install nodejs` installs node. The script gets a document that notes what is drawn and written. The pages are
those of an accepted image, of a refused one, of one with hostile names, and of one whose headers have each field. It
compares, for each eraseblock: its place, colour and letter in each mode, the fields of its headers when it is clicked,
and the frames around those that are marked or chosen; and the legends with their counts, the tables, the verdict and
the sizes. What has to be there is worked out from the data of the page, which maps.py checks. If there is no node,
nothing is tried, and a line says so. The last line is 'N passed, M failed', and the exit status is 0 if none failed.
"""
import argparse
import json
import math
import random
import re
import shutil
import subprocess
import sys
import tempfile

import rules
from fuzz import built
from pages import cases
from rules import LAYOUT, Geometry, Record

# The document that the script gets. It has no layout: the canvas stands at 0, 0, in a room of 1,000 pixels.
DOCUMENT = r"""
const fs = require("fs"), vm = require("vm");
const [page, wanted] = [fs.readFileSync(process.argv[2], "utf8"), JSON.parse(process.argv[3])];
const script = /<script>\n([\s\S]*?)<\/script>/.exec(page)[1], data = /id="data">([\s\S]*?)<\/script>/.exec(page)[1];
let drawn = [];
const pen = {
  scale() {}, fillRect(x, y, w, h) { drawn.push(["fill", x, y, w, h, this.fillStyle]); },
  fillText(text, x, y) { drawn.push(["text", text, x, y, this.fillStyle]); },
  strokeRect(x, y, w, h) { drawn.push(["frame", x, y, w, h, this.strokeStyle, this.lineWidth]); },
};
class Element {
  constructor(name) {
    Object.assign(this, { name, own: "", children: [], style: {}, className: "", attributes: {}, isGone: false });
    this.clientWidth = 1032;
  }
  get textContent() { return this.own + this.children.map((one) => one.textContent ?? one).join(""); }
  set textContent(text) { this.own = String(text); this.children = []; }
  append(...more) { this.children.push(...more); }
  replaceChildren(...more) { this.own = ""; this.children = more; }
  setAttribute(name, value) { this.attributes[name] = String(value); }
  get parentElement() { return new Element("parent"); }
  getContext() { return pen; }
  getBoundingClientRect() { return { left: 0, top: 0 }; }
  remove() { this.isGone = true; }
}
const known = {}, root = { dataset: {} };
const document = {
  getElementById(id) {
    if (!page.includes(`id="${id}"`)) throw Error("no " + id);
    return known[id] ??= new Element(id);
  },
  createElement: (name) => new Element(name), documentElement: root,
};
document.getElementById("data").textContent = data;
const window = { devicePixelRatio: 1 };
vm.runInNewContext(script, { document, window, addEventListener() {}, console });
const text = (id) => known[id] ? known[id].textContent : "";
const texts = (elements) => elements.map((one) => one.textContent);
const cells = (id) => known[id].children.map((one) =>
  one.name === "table" ? one.children.map((line) => texts(line.children)) : one.textContent);
const noted = {
  first: [text("which"), text("headers")], verdict: [text("verdict"), known.verdict.className],
  sizes: text("sizes"), count: text("count"),
};
noted.modes = texts(known.modes.children);
noted.shown = {};
for (const name of noted.modes) {
  drawn = [];
  known.modes.children.find((one) => one.textContent === name).onclick();
  const legend = known.legend.children.map((item) => {
    const [square, kind, count] = item.children;
    return [square.textContent, square.style.background, square.style.color, kind, count.textContent];
  });
  const pressed = texts(known.modes.children.filter((one) => one.attributes["aria-pressed"] === "true"));
  noted.shown[name] = { drawn, legend, pressed };
}
noted.clicked = wanted.map(([p, x, y]) => {
  drawn = [];
  known.grid.onclick({ clientX: x, clientY: y });
  return [text("which"), text("headers"), drawn.filter(([what]) => what === "frame")];
});
noted.keys = ["ArrowLeft", "ArrowUp", "ArrowRight", "ArrowDown"].map((key) => {
  known.grid.onkeydown({ key, preventDefault() {} });
  return text("which");
});
noted.gone = ["volumes", "counts"].filter((id) => known[id] && known[id].isGone);
noted.tables = noted.gone.length ? [] : [cells("volumes"), cells("counts")];
noted.drawn = root.dataset.drawn;
console.log(JSON.stringify(noted));
"""
# A letter's name, the colour of its eraseblock, and that of the letter.
STATES = {
    "t": ("table", "#7b4fbf", "#fff"), "u": ("used", "#2f7dd1", "#fff"), "v": ("volume", "#2f7dd1", "#fff"),
    "s": ("stale", "#e0a13b", "#000"), "o": ("orphan", "#d9573f", "#fff"), "d": ("dropped", "#a8763e", "#fff"),
    "f": ("free", "#bfe3c8", "#000"), "b": ("blank", "#e4e7e9", "#000"), "c": ("corrupt", "#1c1c1c", "#fff"),
    "g": ("garbage", "#8c2f5b", "#fff"), "!": ("at fault", "#ff2d1a", "#000"),
}
VOLUMES = "#2f7dd1 #2e9e6b #d98324 #b0479a #4aa6b5 #8a7a2c #d15b6b #5f6fd6 #74a33a #a8763e".split()


class Block:
    """An eraseblock of the data: the states and the bytes of its headers."""

    def __init__(self, text):
        (_, self.ec, first), (_, self.vid, second) = (f"{line} ".split(" ")[:3] for line in text.splitlines())
        self.digits = first, second
        self.first, self.second = bytes.fromhex(first), bytes.fromhex(second)
        self.counter = self.number(0, 8, 16) if self.ec == "valid" else None
        self.volume = self.number(1, 8, 12) if self.vid == "valid" else None

    def number(self, header, first, last):
        return int.from_bytes((self.first, self.second)[header][first:last], "big")

    def lines(self, letter, notes):
        """What is shown of it when it is clicked."""
        yield from [f"state      {STATES[letter][0]}"] if notes is None else notes
        yield from ("", f"erase counter header: {self.ec}")
        if self.counter is not None:
            yield f"counter    {self.counter}"
            yield f"vid offset {self.number(0, 16, 20)}"
            yield f"data at    {self.number(0, 20, 24)}"
            yield f"image seq  {self.number(0, 24, 28)}"
        if self.ec != "blank":
            yield self.digits[0]
        yield from ("", f"volume identifier header: {self.vid}")
        if self.volume is not None:
            is_static, is_copy = self.second[5] == 2, self.second[6] == 1
            yield f"volume     {'the volume table' if self.volume == LAYOUT else self.volume}"
            yield f"LEB        {self.number(1, 12, 16)}"
            yield f"kind       {'static' if is_static else 'dynamic'}"
            yield f"sequence   {self.number(1, 40, 48)}"
            if is_copy or is_static:
                yield f"data       {self.number(1, 20, 24)} bytes, CRC 0x{self.digits[1][64:72]}"
            yield from ["a copy"] if is_copy else []
            yield from [f"used LEBs  {self.number(1, 24, 28)}"] if is_static else []
        if self.vid != "blank":
            yield self.digits[1]


def kinds(data, blocks):
    """For each mode: the name, colour, letter's colour, letter and rank of each eraseblock."""
    counters = [block.counter for block in blocks if block.counter is not None]
    most = max([1, *counters])

    def by_volume(block):
        if block.volume is None:
            return "no volume", "#e4e7e9", "#000", "", None
        if block.volume == LAYOUT:
            return "volume table", "#7b4fbf", "#fff", "t", None
        return f"volume {block.volume}", VOLUMES[block.volume % 10], "#fff", str(block.volume), None

    def by_wear(block):
        if block.counter is None:
            return "no counter", "#e4e7e9", "#000", "", -1
        part = block.counter / most
        step = min(9, math.floor(10 * part))
        colour = [210 - 200 * part, 74 - 32 * part]
        return f"{math.ceil(step * most / 10)} and more", colour, "#000" if part < 0.5 else "#fff", str(step), step

    return {
        "state": [(*STATES[letter], letter, None) for letter in data["states"]],
        "volume": [by_volume(block) for block in blocks],
        "wear": [by_wear(block) for block in blocks],
    }


def is_colour(shown, wanted):
    """Whether a colour is the wanted one, which is a word, or the hue and the lightness."""
    if isinstance(wanted, str):
        return shown == wanted
    found = re.fullmatch(r"hsl\(([\d.e-]+) 70% ([\d.]+)%\)", shown)
    return bool(found) and all(abs(float(found[k + 1]) - wanted[k]) < 1e-6 for k in range(2))


def layout(count):
    """The side of an eraseblock, and how many stand in a row."""
    cell = 3 if count > 40000 else 5 if count > 9000 else 8 if count > 2500 else 14 if count > 400 else 24
    columns = 1000 // cell
    return cell, columns - columns % 32 if columns >= 64 else columns


def frame_of(p, cell, columns, colour, width, beyond):
    side = max(cell, 5) + 2 * beyond - width
    left, top = (at * cell - beyond + width / 2 for at in (p % columns, p // columns))
    return ["frame", left, top, side, side, colour, width]


def mode_faults(name, shown, all_kinds, cell, columns, frames):
    """What is wrong with what a mode shows."""
    yield f"{name} isn't the mode that is pressed", shown["pressed"] == [name]
    fills = [line[1:] for line in shown["drawn"] if line[0] == "fill"]
    gap = 1 if cell > 4 else 0
    places = [[p % columns * cell, p // columns * cell, cell - gap, cell - gap] for p in range(len(all_kinds))]
    is_right = [fill[:4] for fill in fills] == places
    yield f"{name}: eraseblocks have other places", is_right
    wrong = [p for p, (fill, kind) in enumerate(zip(fills, all_kinds)) if not is_colour(fill[4], kind[1])]
    yield f"{name}: the colours of {wrong[:5]}", not wrong
    middle = (cell - gap) / 2
    texts = [["text", kind[3], place[0] + middle, place[1] + middle + 1, kind[2]]
        for place, kind in zip(places, all_kinds) if kind[3] and cell >= 12]
    found = [line for line in shown["drawn"] if line[0] == "text"]
    unlike = [pair for pair in zip(found, texts) if pair[0] != pair[1]]
    yield f"{name}: the letters differ: {unlike[:3]}", found == texts
    yield f"{name}: the frames", [line for line in shown["drawn"] if line[0] == "frame"] == frames
    counts, firsts = {}, {}
    for kind in all_kinds:
        counts[kind[0]] = counts.get(kind[0], 0) + 1
        firsts.setdefault(kind[0], kind)
    legend = [(letter, ink, kind, int(count)) for letter, _, ink, kind, count in shown["legend"]]
    wanted = [(kind[3], kind[2], word, counts[word]) for word, kind in firsts.items()]
    wanted.sort(key=lambda line: firsts[line[2]][4] if name == "wear" else -line[3])
    yield f"{name}: the legend {legend}, not {wanted}", legend == wanted[:40]
    wrong = [line for line in shown["legend"] if line[3] in firsts and not is_colour(line[1], firsts[line[3]][1])]
    yield f"{name}: the legend's colours {wrong}", not wrong


def reads(volume):
    if "bytes" in volume:
        return f"{volume['bytes']} bytes"
    return f"{volume['lebs']} LEBs that aren't blank" if "lebs" in volume else volume["state"]


def faults(data, blocks, noted, wanted):
    """What may be wrong with a page, and whether it isn't."""
    count, refused = len(blocks), data.get("refusal", {}).get("refused")
    cell, columns = layout(count)
    marked = [refused[key] for key in ("block", "earlier") if key in refused] if refused else []
    marks = [frame_of(p, cell, columns, *way) for p in marked for way in (("#fff", 5, 4), ("#c00", 3, 3))]

    def chosen(p):
        return [frame_of(p, cell, columns, *way) for way in (("#fff", 3, 1), ("#000", 1, 0))] + marks

    def lines(p):
        notes = None
        if refused:
            notes = ["the image is refused because of this eraseblock"] if refused.get("block") == p else []
            if refused.get("earlier") == p:
                notes = [f"the image is refused because of this eraseblock and {refused['block']}"]
        return "\n".join(blocks[p].lines(data["states"][p], notes)).strip()

    yield "it isn't drawn to the end", noted["drawn"] == "yes"
    yield f"the modes {noted['modes']}", noted["modes"] == ["state", "volume", "wear"]
    all_kinds = kinds(data, blocks)
    for name in noted["modes"]:
        frames = chosen(marked[0]) if marked else []
        yield from mode_faults(name, noted["shown"][name], all_kinds[name], cell, columns, frames)
    for (p, _, _), (which, text, frames) in zip(wanted, noted["clicked"]):
        yield f"a click on {p} shows {which}", which == f"Eraseblock {p}"
        yield f"a click on {p} shows {text!r}, not {lines(p)!r}", text == lines(p)
        yield f"the frames of {p}: {frames}", frames == chosen(p)
    at, keys = wanted[-1][0], []
    for step in (-1, -columns, 1, columns):
        at = at + step if 0 <= at + step < count else at
        keys.append(f"Eraseblock {at}")
    yield f"the keys lead to {noted['keys']}, not {keys}", noted["keys"] == keys
    sizes = data["geometry"] if refused else data["list"]["geometry"]
    text = (f"eraseblocks of {sizes['peb']} bytes, pages of {sizes['page']}, headers at 0 and {sizes['vid']}, "
            f"data from {sizes['data']} on")
    yield f"the sizes {noted['sizes']!r}", noted["sizes"] == text
    yield f"the count {noted['count']}", noted["count"] == str(count)
    if refused:
        more = [f"{key} {value}" for key, value in refused.items() if key not in ("code", "cause")]
        verdict = ", ".join([f"Refused: {refused['code']} {refused['cause']}", *more])
        yield f"the verdict {noted['verdict']}", noted["verdict"] == [verdict, "bad"]
        yield "there are tables of a refused image", noted["gone"] == ["volumes", "counts"]
        yield f"first {noted['first']}", noted["first"] == [f"Eraseblock {marked[0]}", lines(marked[0])]
        return
    yield f"the verdict {noted['verdict']}", noted["verdict"] == ["Accepted", "good"]
    head = ["id", "name", "kind", "reserved LEBs", "bytes of each", "reads", "alignment", "flags"]
    rows = [[volume[key] if key != "reads" else reads(volume)
        for key in ("id", "name", "kind", "reserved", "usable", "reads", "alignment", "flags")]
        for volume in data["list"]["volumes"]]
    check = data["check"]
    counts = check["states"]
    last = {"mean counter": "mean_counter", "top sequence number": "top_sqnum", "image sequence number": "image_seq"}
    tables = [["Volumes", [head, *rows]],
        ["Counts", [[*counts, *last], [*counts.values(), *(check[key] for key in last.values())]]]]
    shown = [[title, [list(map(str, line)) for line in table]] for title, table in tables]
    yield f"the tables {noted['tables']}, not {shown}", noted["tables"] == shown


def main():
    words = argparse.ArgumentParser(description=__doc__, formatter_class=argparse.RawDescriptionHelpFormatter)
    words.add_argument("--tool")
    words.add_argument("--node", default="node", help="the program that runs the script; node by default")
    words.add_argument("--page", action="append", help="a page that is tried in place of those of the program")
    words = words.parse_args()
    if shutil.which(words.node) is None:
        print(f"nothing was tried: there is no {words.node}\n0 passed, 0 failed")
        return 0
    passed = failed = 0
    with tempfile.TemporaryDirectory() as folder:
        with open(f"{folder}/document.js", "w", encoding="ascii") as file:
            file.write(DOCUMENT)
        for name, path in pages_of(words, folder):
            with open(path, encoding="ascii") as file:
                data = json.loads(re.search(r'id="data">(.*?)</script>', file.read(), re.S)[1])
            blocks = [Block(text) for text in data["blocks"]]
            cell, columns = layout(len(blocks))
            wanted = [(p, (p % columns + 0.5) * cell, (p // columns + 0.5) * cell) for p in range(len(blocks))]
            ran = subprocess.run([words.node, f"{folder}/document.js", path, json.dumps(wanted)], capture_output=True)
            if ran.returncode != 0:
                wrong = [f"node ends with {ran.returncode}: {ran.stderr.decode()[:300]}"]
            else:
                wrong = [what for what, holds in faults(data, blocks, json.loads(ran.stdout), wanted) if not holds]
            for what in wrong[:5]:
                print(f"{name}: {what[:400]}")
            passed, failed = passed + (not wrong), failed + bool(wrong)
    print(f"{passed} passed, {failed} failed")
    return 1 if failed else 0


def each_field():
    """An image whose headers have each field: a static volume, copies, large numbers, and a volume that is dropped."""
    geometry, rng = Geometry(2048, 256, 256, 512, 64), random.Random(2)
    records = {3: Record(4, 1, 1, 0, b"dynamic", 1), 7: Record(2, 1, 2, 0, b"static", 0)}
    data, table = rng.randbytes(300), rules.put_table(geometry, records)
    vids = (
        (rules.Vid(1, 0, 5, LAYOUT, 0, 0, 0, 0, 0, 1), table), (rules.Vid(1, 0, 5, LAYOUT, 1, 0, 0, 0, 0, 2), table),
        (rules.Vid(2, 0, 0, 7, 0, 300, 1, 0, rules.crc(data), 2**53 + 1), data),
        (rules.Vid(1, 1, 0, 3, 2, 200, 0, 0, rules.crc(data[:200]), 2**63 + 9), data),
        (rules.Vid(1, 0, 0, 3, 2, 0, 0, 0, 0, 2**40 + 5), b""), (rules.Vid(1, 0, 0, 3, 9, 0, 0, 0, 0, 77), b""),
        (rules.Vid(1, 0, 1, LAYOUT + 1, 0, 0, 0, 0, 0, 2**32 + 1), b""),
    )
    counters = iter((0, 5, 2**31 - 1, 2**30, 9, 10, 11))
    blocks = [rules.put_block(geometry, rules.put_ec(geometry, next(counters), 0xFEDCBA98), rules.put_vid(vid), content)
        for vid, content in vids]
    return geometry, [*blocks, b"\xFF" * 2048, rules.put_block(geometry, rules.put_ec(geometry, 1), b"x" * 64)]


def pages_of(words, folder):
    """The names and the paths of the pages."""
    if words.page:
        yield from ((path, path) for path in words.page)
        return
    tool = built(words.tool)
    small = [case[:3] for case in cases() if len(case[2]) <= 1000]
    for name, geometry, blocks in (*small, ("fields", *each_field())):
        path, page = f"{folder}/image", f"{folder}/{name}.html"
        with open(path, "wb") as file:
            file.write(b"".join(blocks))
        subprocess.run([tool, "map", path, *geometry.words(), "--out", page], stdout=subprocess.DEVNULL)
        yield name, page


if __name__ == "__main__":
    sys.exit(main())
