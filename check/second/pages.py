#!/usr/bin/env python3
"""Opens pages of `map` in a real browser, headless Chromium, and tries them.

usage: pages.py [--tool PROGRAM] [--picture FILE]

`apt-get install chromium` installs the browser. The pages are those of an accepted image, of a refused one, of images
with 65,536 and 8,192 eraseblocks, and of one with hostile names, among them one that would end a script. A script that
is added at the end of each page clicks eraseblocks, presses the arrow keys and the buttons, and notes what is shown.
Each page has to be drawn, in the size that its rows need; a click has to show the headers that the data have for that
eraseblock; a refused image has to show its cause and the eraseblock at fault; nothing may be thrown, and nothing may be
asked of any network or file. 8,192 eraseblocks have to be drawn in half a second.

With --picture one page is drawn into a file. The last line is 'N passed, M failed', and the exit status is 0 if none
failed.
"""
import argparse
import json
import os
import random
import re
import struct
import subprocess
import sys
import tempfile

import rules
from fuzz import built
from rules import Geometry, Record

BROWSER = [
    "chromium", "--headless", "--no-sandbox", "--disable-gpu", "--hide-scrollbars", "--virtual-time-budget=60000",
]
# What is noted: errors from the beginning on, and then what a user sees.
WATCH = '<script>window.thrown = []; window.onerror = (message) => { window.thrown.push(message); };</script>'
TRY = """<script>
(() => {
  const grid = document.getElementById("grid"), place = grid.getBoundingClientRect(), noted = { clicked: {} };
  noted.first = document.getElementById("headers").textContent;
  const middle = (p) => ({
    clientX: place.left + (p % columns + 0.5) * cell,
    clientY: place.top + (Math.floor(p / columns) + 0.5) * cell,
  });
  for (const p of WANTED) {
    grid.dispatchEvent(new MouseEvent("click", middle(p)));
    noted.clicked[p] = [document.getElementById("which").textContent, document.getElementById("headers").textContent];
  }
  grid.dispatchEvent(new KeyboardEvent("keydown", { key: "ArrowLeft" }));
  noted.key = document.getElementById("which").textContent;
  const begun = performance.now();
  draw();
  noted.drawing = performance.now() - begun;
  noted.legends = [...document.querySelectorAll("#modes button")].map((_, k) => {
    document.querySelectorAll("#modes button")[k].click();
    return document.getElementById("legend").textContent;
  });
  noted.verdict = document.getElementById("verdict").textContent;
  noted.names = [...document.querySelectorAll("#volumes td:nth-child(2)")].map((td) => td.textContent);
  noted.size = [grid.clientWidth / cell, grid.clientHeight / cell];
  noted.inked = new Set(grid.getContext("2d").getImageData(0, 0, grid.width, grid.height).data).size > 4;
  noted.asked = performance.getEntriesByType("resource").map((entry) => entry.name);
  noted.thrown = window.thrown;
  noted.drawn = document.documentElement.dataset.drawn;
  const out = document.createElement("pre");
  out.id = "noted";
  out.textContent = JSON.stringify(noted);
  document.body.append(out);
})();
</script>"""


def filler(geometry, rng, records, sqnum):
    """An eraseblock that holds no contents of a volume: mostly a free one, or one that is older than others."""
    kind, ec = rng.random(), rules.put_ec(geometry, rng.randrange(400))
    if kind < 0.6:
        return rules.put_block(geometry, ec)
    if kind < 0.8:
        number = rng.choice(list(records))
        vid = rules.Vid(1, 0, 0, number, rng.randrange(records[number].reserved), 0, 0, 0, 0, sqnum)
        return rules.put_block(geometry, ec, rules.put_vid(vid))
    block = rules.put_block(geometry, ec)
    at = rng.choice((0, geometry.vid))
    return b"\xFF" * geometry.peb if kind < 0.9 else block[:at] + rng.randbytes(64) + block[at + 64:]


def image(geometry, records, count, rng):
    """An image with these volumes, whose LEBs are all mapped, with wear, in any order, and with others up to that
    count."""
    blocks = []
    table = rules.put_table(geometry, records)
    for copy in range(2):
        vid = rules.put_vid(rules.Vid(1, 0, 5, rules.LAYOUT, copy, 0, 0, 0, 0, copy + 1))
        blocks.append(rules.put_block(geometry, rules.put_ec(geometry, rng.randrange(400)), vid, table))
    for number, record in records.items():
        for lnum in range(record.reserved):
            vid = rules.put_vid(rules.Vid(1, 0, 0, number, lnum, 0, 0, 0, 0, count + len(blocks)))
            ec = rules.put_ec(geometry, rng.randrange(400))
            blocks.append(rules.put_block(geometry, ec, vid, rng.randbytes(16)))
    while len(blocks) < count:
        blocks.append(filler(geometry, rng, records, len(blocks)))
    rng.shuffle(blocks)
    return blocks


def cases():
    """The name of each page, its image, and whether it is refused."""
    rng, small = random.Random(1), Geometry(512, 64, 64, 128, 70000)

    def of(reserved, *names):
        return {k: Record(reserved, 1, 1, 0, name, 0) for k, name in enumerate(names)}

    geometry = Geometry(2048, 512, 512, 1024, 4096)
    accepted = image(geometry, of(120, b"kernel", b"rootfs", b"data"), 500, rng)
    yield "accepted", geometry, accepted, False
    # Two eraseblocks of one LEB with one sequence number.
    twice = list(accepted)
    twice[next(k for k, block in enumerate(twice) if block[512:516] != b"UBI!")] = next(
        block for block in accepted if block[512:516] == b"UBI!" and struct.unpack(">I", block[520:524])[0] == 1)
    yield "refused", geometry, twice, True
    hostile = of(1, b"</script><script>throw 1</script>", b"<img src=x onerror=alert(1)>")
    yield "hostile", small, image(small, hostile, 12, rng), False
    yield "8192", small, image(small, of(4000, b"a"), 8192, rng), False
    yield "65536", small, image(small, of(30000, b"a", b"b"), 65536, rng), False


def tried(folder, name, page, wanted):
    """What is noted about a page in the browser, and how many lines its console has."""
    path, script = f"{folder}/{name}.html", TRY.replace("WANTED", json.dumps(wanted))
    with open(path, "w", encoding="ascii") as file:
        file.write(page.replace("<head>", "<head>" + WATCH, 1).replace("</body>", script + "</body>", 1))
    command = [*BROWSER, "--enable-logging=stderr", "--dump-dom", f"file://{path}"]
    run = subprocess.run(command, capture_output=True, text=True, timeout=300)
    noted = re.search(r'<pre id="noted">(.*?)</pre>', run.stdout, re.S)
    text = noted[1].replace("&lt;", "<").replace("&gt;", ">").replace("&amp;", "&") if noted else "null"
    return json.loads(text), run.stderr.count("CONSOLE")


def faults(name, blocks, data, noted, console, wanted, is_refused):
    """What is wrong with a page."""
    if noted is None:
        return ["it isn't drawn"]
    columns, rows = noted["size"]
    is_whole = columns * rows >= len(blocks) > columns * (rows - 1)
    says_refused = noted["verdict"].startswith("Refused: ")
    wrong = [
        ("it isn't drawn whole", noted["drawn"] == "yes" and noted["inked"] and is_whole),
        (f"it throws {noted['thrown']}", not noted["thrown"] and console == 0),
        (f"it asks for {noted['asked']}", not noted["asked"]),
        (f"the key shows {noted['key']}", noted["key"] == f"Eraseblock {max(wanted[-1] - 1, 0)}"),
        ("a legend is empty", all(noted["legends"]) and len(noted["legends"]) == 3),
        (f"it says {noted['verdict']}", says_refused == is_refused and ("refusal" in data) == is_refused),
    ]
    for p in wanted:
        which, shown = noted["clicked"][str(p)]
        ec, vid = (line.split(" ") for line in data["blocks"][p].splitlines())
        digits = [words[2] for words in (ec, vid) if words[1] != "blank"]
        states = [f"erase counter header: {ec[1]}", f"volume identifier header: {vid[1]}"]
        is_right = which == f"Eraseblock {p}" and all(text in shown for text in digits + states)
        wrong.append((f"a click on {p} shows {which}: {shown}", is_right))
    if is_refused:
        cause = data["refusal"]["refused"]
        is_first = "the image is refused because of this eraseblock" in noted["first"]
        wrong.append((f"the eraseblock at fault isn't shown first, but {noted['first']}", is_first))
        wrong.append((f"it says {noted['verdict']}", all(str(value) in noted["verdict"] for value in cause.values())))
    else:
        names = [volume["name"] for volume in data["list"]["volumes"]]
        wrong.append((f"it has the names {noted['names']}", noted["names"] == names))
    if name == "8192":
        wrong.append((f"it is drawn in {noted['drawing']:.0f} ms", noted["drawing"] < 500))
    return [what for what, holds in wrong if not holds]


def main():
    words = argparse.ArgumentParser(description=__doc__, formatter_class=argparse.RawDescriptionHelpFormatter)
    words.add_argument("--tool")
    words.add_argument("--picture", help="a file for the picture of the first page")
    words = words.parse_args()
    tool, passed, failed = built(words.tool), 0, 0
    with tempfile.TemporaryDirectory() as folder:
        for name, g, blocks, is_refused in cases():
            path, page = f"{folder}/image", f"{folder}/page.html"
            with open(path, "wb") as file:
                file.write(b"".join(blocks))
            subprocess.run([tool, "map", path, *g.words(), "--out", page], stdout=subprocess.DEVNULL)
            with open(page, encoding="ascii") as file:
                text = file.read()
            data = json.loads(re.search(r'id="data">(.*?)</script>', text, re.S)[1])
            wanted = [0, len(blocks) // 2, len(blocks) - 1]
            noted, console = tried(folder, name, text, wanted)
            wrong = faults(name, blocks, data, noted, console, wanted, is_refused)
            for what in wrong:
                print(f"{name}: {what}")
            passed, failed = passed + (not wrong), failed + bool(wrong)
            if noted:
                print(f"{name}: {len(blocks)} eraseblocks drawn in {noted['drawing']:.0f} ms")
            if words.picture and name == "accepted":
                with open(page, "w", encoding="ascii") as file:
                    file.write(text.replace("</body>", "<script>choose(12);</script></body>", 1))
                picture = f"--screenshot={os.path.abspath(words.picture)}"
                command = [*BROWSER, "--window-size=1240,660", picture, f"file://{page}"]
                subprocess.run(command, stderr=subprocess.DEVNULL)
    print(f"{passed} passed, {failed} failed")
    sys.exit(1 if failed else 0)


if __name__ == "__main__":
    main()
