#!/usr/bin/env python3
"""Cuts random updates of whole volumes after many of their steps, and lets Linux's own UBI attach what each cut leaves.

usage: cuts.py --tool PROGRAM [--plans N] [--cuts N] [--whole N] [--seed N] [--first N] [--only-whole] [--keep]
               [--dir FOLDER] [--kernel FOLDER] [--limit SECONDS]

A Linux runs in an emulated machine, with a NAND chip that its module nandsim simulates: eraseblocks of 128 KiB, pages
of 2 KiB, sub-pages of 512 bytes. `ubinize` makes a random image, with the second header in page 0 or in a page of its
own: one or two UBIFS of random files, static volumes, and dynamic ones with any bytes. The machine writes it to the
chip, which may have bad eraseblocks, and dumps the chip: at once, so that the eraseblocks behind the image are blank;
or after `ubiformat`; or after the kernel has attached and detached it, so that each eraseblock has a header, and maybe
has written to a UBIFS. The volumes may reserve all that UBI leaves to them, and one may have grown by itself.

For each dump `update` plans one to four edits: a UBIFS or another volume gets other contents, two volumes exchange
their names, one is removed and another takes its name, volumes get other names and sizes. Some plans take each
eraseblock that may be taken. `update --stop K` then writes the image after K steps, for many K: for none, all, those
around the commit point and where the copies of the table differ, and others between. The machine writes each of these
to the chip; pages that are 0xFF throughout stay unprogrammed. The kernel attaches the chip, and the machine tells what
the kernel has: the name of each volume, its kind, its size, and the hash of its contents, and the hash of the files of
each UBIFS that is meant, which it mounts. All of it has to be the old before the commit point, and the new from it on.
This script works out both from what it has put into the volumes and from the edits, not from the plan. Of a UBIFS to
which the kernel has written the old is what the kernel has read before the dump. The commit point is the step before
the first copy of the old table is erased.

Two cuts of each plan are planned again with the same words, one as it is, and one as the kernel leaves it after it has
attached the chip. The first plans (--whole) are carried out as a whole in the machine, by carry_out.sh with mtd-utils,
on a chip with two bad eraseblocks, from the dump that was made there. Then the chip has to hold what `update` wrote,
the kernel has to read the new, and a file that is written to the UBIFS has to be there when it is attached again.

By default there are 10 plans (--plans) of the seed 1 (--seed), with 100 cuts (--cuts) of each, or all if it has fewer
steps, and 2 whole ones (--whole); --first is the number of the first plan, and with --only-whole no cut is tried. The
files lie in a new folder below FOLDER (/tmp by default), which is removed afterwards, unless --keep is given. The
machine has one processor. A command that takes it longer than the limit (--limit, 1,800 seconds) ends the machine,
which is a failure, and a new one is started.

It needs these packages of Debian, and no root: qemu-system-x86, mtd-utils, busybox-static, and linux-image-amd64. The
kernel needn't be installed: it is also taken from a FOLDER (--kernel) to which `dpkg-deb -x` has unpacked its package.
The last line is 'N passed, M failed', and the exit status is 0 if none failed. What the kernel has warned of is printed
before it.
"""
import argparse
import collections
import contextlib
import dataclasses
import glob
import gzip
import hashlib
import lzma
import os
import random
import re
import shlex
import shutil
import stat
import subprocess
import sys
import tempfile
import threading
import time

ROOT = os.path.dirname(os.path.dirname(os.path.dirname(os.path.abspath(__file__))))
PEB, PAGE, SUB = 131072, 2048, 512
# The chip: 512 eraseblocks, of which the first ones are the partition that is used.
CHIP = "id_bytes=0x20,0xa2,0x00,0x15"
# How many eraseblocks UBI keeps for itself: those of the table, and two more. And how many of a chip of that size may
# go bad: when a volume grows by itself, UBI keeps as many free, less those that are bad.
OWN, MAY_GO_BAD = 4, 10
# The most LEBs of a UBIFS; fewer than the least one can't be mounted.
MOST_LEBS, LEAST_LEBS = 24, 20
LAYOUT = 0x7FFFEFFF
NAMES = ("rootfs", "rootfs_b", "kernel", "boot", "data", "my data", "a=b", "calibration", "x" * 127, "config")
WAYS = ("attached", "written", "formatted")

# What the machine has: modules, with those that they need, and tools besides busybox.
MODULES = ("virtio_pci", "9pnet_virtio", "9p", "nandsim", "ubi", "lzo", "deflate", "zstd", "ubifs")
TOOLS = (
    "flash_erase", "mtdinfo", "nanddump", "nandflipbits", "nandtest", "nandwrite", "ubiattach", "ubidetach",
    "ubiformat", "ubinfo", "ubirename",
)
# The first program of the machine. It shares the folder /host with this script, reads lines of shell from the serial
# console, carries them out there, and prints their status. All that is printed on the console comes from them.
INIT = r"""#!/bin/busybox sh
export PATH=/tools:/bin
/bin/busybox --install -s /bin
mount -t proc none /proc
mount -t sysfs none /sys
mount -t devtmpfs none /dev
mount -t tmpfs none /tmp
while read -r module words; do insmod "/modules/$module.ko" $words; done < /modules/order
mount -t 9p -o trans=virtio,version=9p2000.L,msize=262144 host /host
cd /host
stty raw -echo

# Makes the simulated chip anew, whose partition has so many eraseblocks.
chip() { # COUNT WORD..
  count=$1
  shift
  if [ -d /sys/module/nandsim ]; then rmmod nandsim; fi
  insmod /modules/nandsim.ko parts="$count" "$@"
}

# Writes an image of the whole chip to it. Pages that are 0xFF throughout stay as they were erased.
put() { # IMAGE
  cp "$1" /tmp/image && flash_erase -q /dev/mtd0 0 0 > /dev/null && nandwrite -q -k -N /dev/mtd0 /tmp/image
}

# Writes an eraseblock to the chip, in the same way.
put_block() { # P FILE
  flash_erase -q -N /dev/mtd0 $(($1 * 131072)) 1 > /dev/null && nandwrite -q -k -N -s $(($1 * 131072)) /dev/mtd0 "$2"
}

# Writes an eraseblock with the out-of-band bytes behind each page.
put_raw() { # P FILE
  flash_erase -q -N /dev/mtd0 $(($1 * 131072)) 1 > /dev/null && nandwrite -q -n -o -N -s $(($1 * 131072)) /dev/mtd0 "$2"
}

# Reads an eraseblock with the out-of-band bytes behind each page.
get_raw() { # P FILE
  nanddump -q -n -o --bb=dumpbad -s $(($1 * 131072)) -l 131072 -f "$2" /dev/mtd0
}

# Dumps the whole chip, with 0xFF in the place of bad eraseblocks.
dump() { # FILE
  nanddump -q --bb=padbad -f "$1" /dev/mtd0
}

# Attaches the chip.
attach() { # OFFSET
  ubiattach -p /dev/mtd0 -O "$1" > /tmp/said 2>&1
}

# Prints what an attached volume is, and the hash of its contents.
tell_volume() { # FOLDER
  for field in name type reserved_ebs alignment upd_marker corrupted data_bytes; do
    IFS= read -r "$field" < "$1/$field"
  done
  hash=$(sha256sum < "/dev/${1##*/}")
  printf '%s;' "volume $name $type $reserved_ebs $alignment $upd_marker $corrupted $data_bytes ${hash%% *}"
}

# Prints the hash of the paths and the files of a UBIFS.
tell_files() { # NAME
  if mount -t ubifs -o ro "ubi0:$1" /mnt 2> /tmp/said; then
    hash=$(cd /mnt && { find . | sort; find . -type f | sort | xargs -r sha256sum; } | sha256sum)
    umount /mnt
    printf '%s;' "files $1 ${hash%% *}"
  else
    printf '%s;' "files $1 $(tr '\n' ' ' < /tmp/said)"
  fi
}

# Attaches the chip, tells of its volumes, and of the UBIFS with these names, in one line, and detaches it. The next
# lines are those of the kernel's log that warn.
look() { # OFFSET NAME..
  dmesg -c > /dev/null
  if attach "$1"; then
    shift
    for folder in /sys/class/ubi/ubi0_*; do tell_volume "$folder"; done
    for name; do tell_files "$name"; done
    ubidetach -p /dev/mtd0 > /tmp/said 2>&1 || printf '%s;' "it can't be detached"
  else
    printf '%s;' "it can't be attached"
  fi
  echo
  dmesg -c -r | sed -n 's/^<[0-4]>\[ *[0-9.]*\] \([uU][bB][iI]\|mtd\|nand\|\[nandsim\)/\1/p'
}

# Attaches the chip until UBI has given each eraseblock a header; exchanges a name there and back if one is given.
settle() { # OFFSET [NAME]
  attach "$1" || return
  if [ $# -gt 1 ]; then
    /tools/ubirename /dev/ubi0 "$2" "not $2" && /tools/ubirename /dev/ubi0 "not $2" "$2" || return
  fi
  sleep 1
  ubidetach -p /dev/mtd0
}

# Writes files to a UBIFS of the chip, and reads one after the chip has been attached again.
use() { # OFFSET NAME
  attach "$1" && mount -t ubifs "ubi0:$2" /mnt && head -c 20000 /dev/urandom > /mnt/more && sync || return
  echo "a file" > /mnt/new && sync && rm /mnt/more && umount /mnt && ubidetach -p /dev/mtd0 || return
  attach "$1" && mount -t ubifs "ubi0:$2" /mnt && cat /mnt/new && umount /mnt && ubidetach -p /dev/mtd0
}

# Copies the contents of a volume with a UBIFS to a file, and prints the hash of its files.
fetch() { # OFFSET NAME FILE
  attach "$1" || return
  for folder in /sys/class/ubi/ubi0_*; do
    IFS= read -r name < "$folder/name"
    [ "$name" != "$2" ] || cat "/dev/${folder##*/}" > "$3"
  done
  tell_files "$2"
  ubidetach -p /dev/mtd0
}

echo ready
while IFS= read -r line; do
  eval "$line" 2>&1 < /dev/null
  echo "=done= $?"
done
"""
DONE = "=done= "


class Failure(Exception):
    """What is wrong with a case."""


def expect(is_right, what):
    if not is_right:
        raise Failure(what)


# The machine.


def path_of(program):
    """Where a program is, also one that only root has in the path."""
    path = shutil.which(program, path=f"{os.environ.get('PATH', '')}:/usr/sbin:/sbin:/usr/bin:/bin")
    if path is None:
        sys.exit(f"there is no {program}: see the packages that --help names")
    return path


def kernel_of(folder):
    """The newest kernel of a folder that has the module of simulated chips: its file, and its folder of modules."""
    found = glob.glob(os.path.join(glob.escape(folder), "lib/modules/*/kernel/drivers/mtd/nand/raw/nandsim.ko*"))
    releases = [os.path.relpath(path, os.path.join(folder, "lib/modules")).split(os.sep)[0] for path in found]
    numbers = {release: [int(part) for part in re.findall(r"\d+", release)] for release in releases}
    for release in sorted(numbers, key=numbers.get, reverse=True):
        kernel = os.path.join(folder, "boot", f"vmlinuz-{release}")
        if os.path.exists(kernel):
            return kernel, os.path.join(folder, "lib/modules", release)
    sys.exit(f"{folder} has no kernel with nandsim: see the packages that --help names, and --kernel")


def read_module(path):
    """The bytes of a module, which may be compressed."""
    opened = {".xz": lzma.open, ".gz": gzip.open}.get(os.path.splitext(path)[1], open)
    with opened(path, "rb") as file:
        return file.read()


def modules_of(folder, ubi=None):
    """The modules of the machine, each after those that it needs: names, and their bytes. Those that the kernel has
    built in are left out. UBI may be another one, for which the kernel's UBIFS isn't built."""
    paths, order = {}, {}
    for path in glob.glob(os.path.join(glob.escape(folder), "kernel/**/*.ko*"), recursive=True):
        paths[os.path.basename(path).partition(".")[0].replace("-", "_")] = path

    if ubi:
        paths["ubi"] = ubi
        del paths["ubifs"]

    def add(name):
        if name in paths and name not in order:
            module = read_module(paths[name])
            needs = re.search(rb"\0depends=([^\0]*)\0", module)
            for other in needs[1].decode().replace("-", "_").split(",") if needs else ():
                add(other)
            order[name] = module

    for name in MODULES:
        add(name)
    return order


def libraries_of(programs):
    """The paths of the libraries that programs load."""
    words = ["ldd", *programs]
    listed = subprocess.run(words, capture_output=True, text=True, check=True).stdout
    return sorted(set(re.findall(r"(/\S+) \(0x", listed)))


def entry(name, mode, data=b"", device=(0, 0)):
    """A file of an archive from which Linux makes its first file system."""
    numbers = (0, mode, 0, 0, 1, 0, len(data), 0, 0, *device, len(name) + 1, 0)
    header = b"070701" + b"".join(b"%08X" % number for number in numbers) + name.encode() + b"\0"
    return header + bytes(-len(header) % 4) + data + bytes(-len(data) % 4)


def first_files(modules):
    """The archive: the first program, busybox, the tools with their libraries, and the modules."""
    tools = {f"tools/{tool}": path_of(tool) for tool in TOOLS}
    loaded = {path.lstrip("/"): path for path in libraries_of(tools.values())}
    # UBI takes this word only if it is built for fastmaps.
    words = {name: " fm_autoconvert=1" if b"fm_autoconvert" in module else "" for name, module in modules.items()}
    order = "".join(f"{name}{words[name]}\n" for name in modules if name != "nandsim")
    files = {"init": INIT.encode(), "modules/order": order.encode()}
    files |= {f"modules/{name}.ko": module for name, module in modules.items()}
    files |= {name: read(path) for name, path in {"bin/busybox": path_of("busybox"), **tools, **loaded}.items()}
    folders = {"proc", "sys", "dev", "tmp", "host", "mnt"}
    for name in files:
        while name := os.path.dirname(name):
            folders.add(name)
    entries = [entry(name, stat.S_IFDIR | 0o755) for name in sorted(folders)]
    entries += [entry("dev/console", stat.S_IFCHR | 0o600, device=(5, 1))]
    entries += [entry(name, stat.S_IFREG | 0o755, data) for name, data in files.items()]
    return b"".join((*entries, entry("TRAILER!!!", 0)))


class Machine:
    """The emulated machine, which shares a folder with this script. It is started when it is needed, and started anew
    if it has ended."""

    def __init__(self, kernel, first, share, limit):
        self.share, self.limit, self.process, self.chip = share, limit, None, None
        self.words = [
            path_of("qemu-system-x86_64"), "-accel", "tcg", "-cpu", "max", "-smp", "1", "-m", "512", "-nodefaults",
            "-display", "none", "-no-reboot", "-serial", "stdio", "-kernel", kernel, "-initrd", first,
            "-append", "console=ttyS0 loglevel=1 panic=-1 oops=panic",
            "-virtfs", f"local,path={share.replace(',', ',,')},mount_tag=host,security_model=none,multidevs=remap",
        ]

    def start(self):
        pipes = {"stdin": subprocess.PIPE, "stdout": subprocess.PIPE, "stderr": subprocess.STDOUT}
        self.process = subprocess.Popen(self.words, encoding="utf-8", errors="replace", **pipes)
        with self.limited():
            said = self.read_until(lambda line: line == "ready\n")
        expect(not said.strip(), f"the machine starts with {said!r}")
        if self.chip:
            self.run(self.chip)

    def stop(self):
        if self.process:
            self.process.kill()
            self.process.communicate()
            self.process = None

    @contextlib.contextmanager
    def limited(self):
        """Ends the machine if what is done takes too long."""
        timer = threading.Timer(self.limit, self.process.kill)
        timer.start()
        try:
            yield
        finally:
            timer.cancel()

    def read_until(self, is_last):
        """What the machine prints before the line that is asked for, which is left in `last`."""
        lines = []
        for line in self.process.stdout:
            if is_last(line):
                self.last = line
                return "".join(lines)
            lines.append(line)
        self.stop()
        raise Failure(f"the machine has ended, or took longer than {self.limit} s: {''.join(lines)[-2000:]}")

    def ask(self, line):
        """Carries out a line of shell. Returns what is printed, and the status."""
        if self.process is None:
            self.start()
        with self.limited():
            self.process.stdin.write(f"{line}\n")
            self.process.stdin.flush()
            text = self.read_until(lambda line: DONE in line)
        rest, _, status = self.last.rpartition(DONE)
        return text + rest, int(status)

    def run(self, line):
        """The same for a line that has to have the status 0. Returns what is printed."""
        text, status = self.ask(line)
        expect(status == 0, f"{line} has the status {status}: {text[-2000:]}")
        return text

    def make_chip(self, count, bad, *more):
        """Makes a simulated chip, with so many eraseblocks in its partition."""
        words = [f"badblocks={','.join(map(str, bad))}"] if bad else []
        self.chip = " ".join(["chip", str(count), CHIP, *words, *more])
        self.run(self.chip)


# Volumes and images.


@dataclasses.dataclass(frozen=True)
class Volume:
    """A volume: what it is, the bytes that were put into it, and if these are a UBIFS, the hash of its files, and the
    least size that it may get."""

    name: str
    kind: str
    reserved: int
    alignment: int
    data: bytes
    files: str | None = None
    least: int = 1

    def usable(self, leb):
        return leb - leb % self.alignment

    def lebs(self, leb):
        """How many LEBs the bytes need."""
        return -(-len(self.data) // self.usable(leb))

    def written(self, leb):
        """How many LEBs an update writes: of a dynamic volume those that aren't blank."""
        if self.kind == "static":
            return self.lebs(leb)
        usable = self.usable(leb)
        return sum(bool(self.data[at : at + usable].strip(b"\xFF")) for at in range(0, len(self.data), usable))

    def told(self, leb):
        """What the machine tells of the volume."""
        size = len(self.data) if self.kind == "static" else self.reserved * self.usable(leb)
        digest = hashlib.sha256(self.data.ljust(size, b"\xFF")).hexdigest()
        yield f"volume {self.name} {self.kind} {self.reserved} {self.alignment} 0 0 {size} {digest}"
        if self.files is not None:
            yield f"files {self.name} {self.files}"


def shown(name):
    """A name as the words of the program have it."""
    return "".join(one if "!" <= one <= "~" and one not in "\\=" else f"\\x{ord(one):02x}" for one in name)


def read(path):
    with open(path, "rb") as file:
        return file.read()


def write(path, data):
    with open(path, "wb") as file:
        file.write(data)


def run(words, what):
    """Runs a program, which must have the status 0. Returns what it prints."""
    ran = subprocess.run(words, stdin=subprocess.DEVNULL, capture_output=True, text=True)
    expect(ran.returncode == 0, f"{what} fails: {ran.stdout[-500:]}{ran.stderr[-500:]}")
    return ran.stdout


def random_bytes(rng, size):
    """Some bytes, which now and then repeat themselves."""
    if rng.random() < 0.7:
        return rng.randbytes(size)
    return b"".join(b"%d\n" % (rng.random() * 9) * 99 for _ in range(size // 198 + 1))[:size]


def fill_folder(rng, folder):
    """Puts random files into a folder."""
    for number in range(rng.randrange(1, 13)):
        path = os.path.join(folder, rng.choice(("", "etc", "usr/bin", "usr/lib")), f"file{number}")
        os.makedirs(os.path.dirname(path), exist_ok=True)
        write(path, random_bytes(rng, rng.choice((0, 1, 4096, *(rng.randrange(90000) for _ in range(5))))))
    os.symlink("file0", os.path.join(folder, "link"))


def hash_of_files(folder):
    """The hash that the machine tells of the files of a folder."""
    paths, files = ["."], []
    for at, inside, names in os.walk(folder):
        paths += [os.path.join(".", os.path.relpath(os.path.join(at, name), folder)) for name in (*inside, *names)]
        files += [os.path.join(at, name) for name in names if not os.path.islink(os.path.join(at, name))]
    lines = [*sorted(paths)]
    for path in sorted(files):
        lines.append(f"{hashlib.sha256(read(path)).hexdigest()}  ./{os.path.relpath(path, folder)}")
    return hashlib.sha256("".join(f"{line}\n" for line in lines).encode()).hexdigest()


class Contents:
    """Makes what is put into volumes."""

    def __init__(self, rng, leb, folder):
        self.rng, self.leb, self.folder = rng, leb, folder

    def file_system(self):
        """The bytes of a UBIFS, and the hash of its files."""
        path = os.path.join(self.folder, "ubifs")
        with tempfile.TemporaryDirectory(dir=self.folder) as files:
            os.chmod(files, 0o755)
            fill_folder(self.rng, files)
            words = ["-m", PAGE, "-e", self.leb, "-c", MOST_LEBS]
            words += ["-x", self.rng.choice(("lzo", "zlib", "zstd", "none"))]
            words += ["-F"] if self.rng.random() < 0.3 else []
            run([path_of("mkfs.ubifs"), *map(str, words), "-r", files, "-o", path], "mkfs.ubifs")
            return read(path), hash_of_files(files)

    def some_bytes(self, most):
        """Bytes with blank parts here and there, so many at most."""
        parts, size = [], self.rng.randrange(1, most + 1)
        while sum(map(len, parts)) < size:
            part = self.rng.choice((1, 1000, PAGE, 20 * PAGE, self.leb, self.rng.randrange(1, 2 * self.leb)))
            parts.append(random_bytes(self.rng, part) if self.rng.random() < 0.7 else b"\xFF" * part)
        return b"".join(parts)[:size]

    def sparse(self, volume, lebs):
        """Bytes for so many LEBs of a volume, of which only the first byte of each isn't blank."""
        return bytes([self.rng.randrange(255)]).ljust(volume.usable(self.leb), b"\xFF") * lebs

    def new(self, volume):
        """Other contents for a volume: the volume that it is then. A static one may be empty."""
        if volume.files is not None:
            data, files = self.file_system()
            return dataclasses.replace(volume, data=data, files=files)
        most = min(volume.reserved, 3) * volume.usable(self.leb)
        data = b"" if volume.kind == "static" and self.rng.random() < 0.1 else self.some_bytes(most)
        return dataclasses.replace(volume, data=data)


class Device:
    """A chip and an image for it: its volumes by name, and the numbers of its bad eraseblocks."""

    def __init__(self, rng, number, folder, is_whole):
        self.rng, self.vid, self.way = rng, (SUB, PAGE)[number % 2], WAYS[number % 3]
        self.is_tight = number % 5 == 0
        self.data = self.vid + SUB + PAGE - 1 & -PAGE
        self.leb = PEB - self.data
        self.contents = Contents(rng, self.leb, folder)
        names = iter(rng.sample(NAMES, len(NAMES)))
        kinds = [self.file_system] * rng.choice((1, 1, 2)) + [self.static] * rng.randrange(1, 3)
        kinds += [self.dynamic] * rng.randrange(0 if len(kinds) > 2 else 1, 3)
        self.volumes = {name: kind(name) for kind, name in zip(kinds, names)}
        self.grows, self.used = None, []
        self.choose_blocks(is_whole)

    def choose_blocks(self, is_whole):
        """Chooses how many eraseblocks the partition has and which are bad. Maybe a volume reserves the rest; of a
        tight chip it also has many LEBs."""
        rng, bad, last = self.rng, 2 if is_whole else self.rng.choice((0, 0, 1, 2)), list(self.volumes)[-1]
        if self.is_tight:
            data = self.contents.sparse(self.volumes[last], MOST_LEBS)
            self.volumes[last] = dataclasses.replace(self.volumes[last], reserved=MOST_LEBS, data=data)
        least = max(64, self.reserved() + self.mapped() // 2 + OWN + bad + 8)
        self.count = rng.randrange(least, max(least, 100) + 1)
        self.bad = sorted(rng.sample(range(self.count), bad))
        self.good = self.count - bad
        if self.is_tight or self.volumes[last].files is None and rng.random() < 0.5:
            self.grows = last if self.way == "attached" else None
            kept = MAY_GO_BAD - bad if self.grows else 0
            more = self.good - OWN - kept - self.reserved()
            volume = self.volumes[last]
            self.grown = volume.reserved
            self.volumes[last] = dataclasses.replace(volume, reserved=volume.reserved + max(0, more))

    def reserved(self):
        return sum(volume.reserved for volume in self.volumes.values())

    def mapped(self):
        return sum(volume.lebs(self.leb) for volume in self.volumes.values())

    def file_system(self, name):
        data, files = self.contents.file_system()
        reserved = max(self.rng.randrange(LEAST_LEBS, MOST_LEBS + 1), len(data) // self.leb)
        return Volume(name, "dynamic", reserved, 1, data, files, LEAST_LEBS)

    def static(self, name):
        return self.with_bytes(name, "static", 1)

    def dynamic(self, name):
        return self.with_bytes(name, "dynamic", self.rng.choice((1, 1, PAGE, 4 * PAGE)))

    def with_bytes(self, name, kind, alignment):
        data = self.contents.some_bytes(self.rng.randrange(1, 4) * (self.leb - self.leb % alignment))
        volume = Volume(name, kind, 1, alignment, data)
        return dataclasses.replace(volume, reserved=volume.lebs(self.leb) + self.rng.randrange(3))

    def make_image(self, folder, path):
        """Lets `ubinize` make the image."""
        sections, numbers = [], self.rng.sample(range(12), len(self.volumes))
        self.numbers = dict(zip(self.volumes, numbers))
        for number, volume in zip(numbers, self.volumes.values()):
            source = os.path.join(folder, f"volume{number}")
            write(source, volume.data)
            reserved = self.grown if volume.name == self.grows else volume.reserved
            sections += [
                f"[section{number}]", "mode=ubi", f"image={source}", f"vol_id={number}", f"vol_type={volume.kind}",
                f"vol_size={reserved * self.leb}", f"vol_name={volume.name}", f"vol_alignment={volume.alignment}",
                *(["vol_flags=autoresize"] if volume.name == self.grows else []),
            ]
        config = os.path.join(folder, "config")
        write(config, "".join(f"{line}\n" for line in sections).encode())
        words = ["-o", path, "-p", PEB, "-m", PAGE, "-s", SUB, "-O", self.vid, "-e", self.rng.randrange(9), config]
        run([path_of("ubinize"), *map(str, words)], "ubinize")

    def words(self):
        """The words that say how the program reads the dump."""
        sizes = ("--peb", PEB, "--page", PAGE, "--vid", self.vid, "--data", self.data)
        return [*map(str, sizes), "--bad", ",".join(map(str, self.bad))]

    def blank_words(self):
        """Maybe the words that keep blank eraseblocks, if those are only the bad ones."""
        return ["--blank", "keep"] if self.way != "written" and self.rng.random() < 0.5 else []


# Edits.


class Edits:
    """Random edits of the volumes of a device: the words that ask for them, and what the volumes are then, by the names
    that they have had."""

    def __init__(self, rng, number, device, folder):
        self.rng, self.device, self.folder, self.words = rng, device, folder, []
        self.new = dict(device.volumes)
        self.renamed, self.sized, self.replaced, self.kinds = set(), set(), set(), []
        # How many more eraseblocks may be reserved, and how many may be written.
        self.room = device.good - OWN - device.reserved()
        self.free = device.good - device.mapped() - 4
        ways = (self.write_files, self.write_bytes, self.exchange, self.take, self.resize, self.write_any, self.rename)
        self.edit(ways[number % 5])
        for _ in range(rng.randrange(3 if device.is_tight else 4)):
            self.edit(rng.choice(ways))
        if device.is_tight:
            self.edit(self.fill)
        while not self.words:
            self.edit(rng.choice(ways))
        rng.shuffle(self.words)

    def edit(self, way):
        """Does an edit, if there is a volume for it."""
        if way():
            self.kinds.append(way.__name__.replace("_", " "))

    def one(self, is_one=lambda volume: True, untouched=()):
        """The old name of a volume that is still there, of those that weren't touched so far in some ways; or None."""
        touched = set().union(*untouched)
        names = [name for name, volume in self.new.items() if name not in touched and is_one(volume)]
        return self.rng.choice(names) if names else None

    def unused(self):
        """A name that no volume has or had."""
        taken = self.new.keys() | self.device.volumes | {volume.name for volume in self.new.values()}
        return self.rng.choice([name for name in NAMES if name not in taken] or ["new"])

    def set(self, old, **fields):
        self.new[old] = dataclasses.replace(self.new[old], **fields)

    def word(self, option, old, value=""):
        self.words.append([option, f"{shown(old)}{value}"])

    def write_files(self):
        return self.write(lambda volume: volume.files is not None)

    def write_bytes(self):
        return self.write(lambda volume: volume.kind == "static")

    def write_any(self):
        return self.write(lambda volume: True)

    def write(self, is_one):
        """Gives a volume other contents."""
        old = self.one(is_one, (self.replaced, self.sized))
        if old is None:
            return False
        return self.put(old, self.device.contents.new(self.new[old]))

    def fill(self):
        """Gives a volume so many LEBs that each eraseblock is taken that may be. Not if a UBIFS is used, since it isn't
        known how many LEBs that has."""
        untouched = (self.replaced, self.sized)
        old = self.one(lambda volume: volume.files is None and 0 < self.free <= volume.reserved, untouched)
        if old is None or self.device.used:
            return False
        data = self.device.contents.sparse(self.new[old], self.free)
        return self.put(old, dataclasses.replace(self.new[old], data=data))

    def put(self, old, volume):
        """Replaces a volume by another one, if there is room."""
        needed = volume.written(self.device.leb)
        if needed > self.free or volume.lebs(self.device.leb) > volume.reserved:
            return False
        self.free -= needed
        self.new[old] = volume
        self.replaced.add(old)
        path = os.path.join(self.folder, f"new{len(self.words)}")
        write(path, volume.data)
        self.word("--write", old, f"={path}")
        return True

    def rename(self):
        """Gives a volume a name that none has."""
        old = self.one(untouched=(self.renamed,))
        if old is None:
            return False
        self.give_name(old, self.unused())
        return True

    def give_name(self, old, name):
        self.set(old, name=name)
        self.renamed.add(old)
        self.word("--rename", old, f"={shown(name)}")

    def exchange(self):
        """Exchanges the names of two volumes, of the same kind if there are such ones."""
        one = self.one(untouched=(self.renamed,))
        if one is None:
            return False
        untouched = (self.renamed, {one})
        other = self.one(lambda volume: (volume.files is None) == (self.new[one].files is None), untouched)
        other = other or self.one(untouched=untouched)
        if other is None:
            return False
        self.give_name(one, other)
        self.give_name(other, one)
        return True

    def take(self):
        """Removes a volume, whose name another one takes."""
        gone = self.one(untouched=(self.renamed, self.sized, self.replaced))
        heir = self.one(untouched=(self.renamed, {gone}))
        if gone is None or heir is None:
            return False
        del self.new[gone]
        self.word("--remove", gone)
        self.give_name(heir, gone)
        return True

    def resize(self):
        """Gives a volume another size. It keeps the LEBs that it has."""
        old = self.one(untouched=(self.sized, self.replaced))
        if old is None:
            return False
        volume = self.new[old]
        sizes = range(max(volume.least, volume.lebs(self.device.leb)), volume.reserved + self.room + 1)
        sizes = [size for size in sizes if size != volume.reserved]
        if not sizes:
            return False
        size = self.rng.choice(sizes)
        self.room -= max(0, size - volume.reserved)
        self.sized.add(old)
        self.set(old, reserved=size)
        self.word("--resize", old, f"={size * volume.usable(self.device.leb) - self.rng.randrange(100)}")
        if self.rng.random() < 0.3:
            self.write_sized(old)
        return True

    def write_sized(self, old):
        """Gives a volume that has got another size other contents too."""
        self.sized.discard(old)
        if not self.write(lambda volume: volume is self.new[old]):
            self.sized.add(old)


# Plans.


def commit_point(device, image, lines):
    """After how many of the steps of a plan the new table is written: those before the eraseblock with the first copy
    of the old one is erased."""
    copies = {}
    for p in range(device.count):
        header = image[p * PEB + device.vid : p * PEB + device.vid + 64]
        if header[:4] == b"UBI!" and int.from_bytes(header[8:12], "big") == LAYOUT and header[12:16] == bytes(4):
            copies[int.from_bytes(header[40:48], "big")] = p
    return lines.index(f"erase block={copies[max(copies)]}")


def chosen_cuts(rng, commit, steps, count):
    """Which cuts are tried: none, all, those around the commit point, and others, spread over the steps."""
    around = (0, steps, commit - 1, commit, commit + 1, commit + 2, commit + 3, steps - 1, steps - 2, steps - 3)
    chosen = {k for k in around if 0 <= k <= steps}
    rest = [k for k in range(steps + 1) if k not in chosen]
    more, first = min(len(rest), max(0, count - len(chosen))), rng.randrange(len(rest) + 1)
    return sorted(chosen | {rest[(n * len(rest) // more + first) % len(rest)] for n in range(more)})


class Plan:
    """A random image, edits of it, and the plan that the program makes from the dump of the chip."""

    def __init__(self, bench, number, seed, is_whole):
        self.rng = random.Random(f"{seed} {number}")
        self.bench, self.machine = bench, bench.machine
        self.device = Device(self.rng, number, bench.folder, is_whole)
        self.dump()
        self.edits = Edits(self.rng, number, self.device, bench.folder)
        self.words = [word for words in self.edits.words for word in words] + self.device.blank_words()
        self.make()

    def path(self, name):
        """A file of the folder that is shared with the machine."""
        return os.path.join(self.machine.share, name)

    def dump(self):
        """Writes the image to the chip, as a user does, and dumps the chip."""
        device = self.device
        device.make_image(self.bench.folder, self.path("image"))
        self.machine.make_chip(device.count, device.bad)
        if device.way == "formatted":
            self.machine.run(f"ubiformat /dev/mtd0 -y -q -s {SUB} -O {device.vid} -f image")
        else:
            self.machine.run("nandwrite -q -k /dev/mtd0 image")
        if device.way == "attached":
            self.settle()
            self.use()
        self.machine.run("dump dump.img")
        expect(device.way == "written" or self.is_settled(), "an eraseblock has no header")

    def settle(self):
        """Lets the kernel attach the chip until each eraseblock has a header."""
        name = self.rng.choice(list(self.device.volumes))
        is_short = len(name) <= 100
        words = [shlex.quote(name)] if is_short and self.rng.random() < 0.5 else []
        for _ in range(10):
            self.machine.run(" ".join(["settle", str(self.device.vid), *words]))
            self.machine.run("dump dump.img")
            if self.is_settled():
                return
            words = []

    def use(self):
        """Maybe lets the kernel write to each UBIFS: then its contents are those that the kernel reads. It fills the
        volume from then on, and so may only grow."""
        for name, volume in self.device.volumes.items():
            if volume.files is not None and not self.device.is_tight and self.rng.random() < 0.7:
                words = f"{self.device.vid} {shlex.quote(name)}"
                expect(self.machine.run(f"use {words}") == "a file\n", "a file that was written isn't read")
                told = self.machine.run(f"fetch {words} used.img").strip(";\n")
                fields = {"data": read(self.path("used.img")).rstrip(b"\xFF"), "files": told.split(" ")[-1]}
                self.device.volumes[name] = dataclasses.replace(volume, **fields, least=volume.reserved)
                self.device.used.append(name)

    def is_settled(self):
        image, bad = read(self.path("dump.img")), self.device.bad
        return all(image[p * PEB : p * PEB + 4] == b"UBI#" for p in range(self.device.count) if p not in bad)

    def update(self, image, *more):
        """What the program prints for the edits of an image."""
        words = [self.bench.tool, "update", self.path(image), *self.words, *self.device.words(), *more]
        return run(words, " ".join(map(shlex.quote, words)))

    def make(self):
        """Makes the plan of the dump."""
        text = self.update("dump.img", "--out", self.path("new.img"), "--pages", self.path("new.pages"))
        write(self.path("new.plan"), text.encode())
        lines = [line for line in text.splitlines() if not line.startswith("volume ")]
        expect(lines[0] == f"steps {len(lines) - 1}", f"a plan begins with {lines[0]}")
        self.steps, self.erases = len(lines) - 1, {k for k, line in enumerate(lines) if line.startswith("erase ")}
        self.commit = commit_point(self.device, read(self.path("dump.img")), lines[1:])

    def cuts(self, count):
        return chosen_cuts(self.rng, self.commit, self.steps, count)

    def expected(self, is_new):
        """What the machine has to tell of the old, or of the new, and the names of the UBIFS that are mounted."""
        volumes = (self.edits.new if is_new else self.device.volumes).values()
        told = sorted(line for volume in volumes for line in volume.told(self.device.leb))
        return told, [volume.name for volume in volumes if volume.files is not None]

    def look(self, is_new):
        """Lets the kernel attach the chip. It has to have the old, or the new."""
        told, names = self.expected(is_new)
        text = self.machine.run(" ".join(["look", str(self.device.vid), *map(shlex.quote, names)]))
        line, *warnings = text.splitlines()
        self.bench.warn(warnings)
        seen = sorted(part for part in line.split(";") if part)
        if seen != told:
            more, less = (sorted(set(one) - set(other)) for one, other in ((seen, told), (told, seen)))
            is_other = seen == self.expected(not is_new)[0]
            meant = f"the {'new' if is_new else 'old'} is meant" + (", and the other one is read" if is_other else "")
            raise Failure(f"{meant}: the kernel has {more} and not {less}; {' / '.join(warnings[-40:])}")

    def try_cut(self, k):
        """Writes the image after K steps to the chip, and looks at it."""
        self.update("dump.img", "--stop", str(k), "--out", self.path("cut.img"))
        self.machine.run("put cut.img")
        if k in (0, self.steps):
            self.machine.run("dump held.img && cmp held.img cut.img")
        self.look(k >= self.commit)

    def cut_to_continue(self):
        """A cut before the commit point that leaves no eraseblock blank, as those may be kept."""
        return self.rng.choice([k for k in range(self.commit) if k not in self.erases])

    def try_again(self, k, is_attached):
        """Plans the same edits again from a cut, as it is or as the kernel leaves it."""
        self.update("dump.img", "--stop", str(k), "--out", self.path("cut.img"))
        if is_attached:
            self.machine.run("put cut.img")
            self.look(False)
            self.machine.run("dump cut.img")
        self.update("cut.img", "--out", self.path("again.img"))
        self.machine.run("put again.img")
        self.look(True)

    def try_whole(self):
        """Carries out the plan in the machine, on the chip that was dumped."""
        shutil.copy(os.path.join(ROOT, "carry_out.sh"), self.path("carry_out.sh"))
        words = f"-d dump.img /dev/mtd0 new.plan new.pages {PEB} {PAGE}"
        self.machine.run(f"sh carry_out.sh -c {words}")
        self.machine.run("dump held.img && cmp held.img dump.img")
        said = self.machine.run(f"sh carry_out.sh {words}")
        expect(said.endswith(f"\ndone: {self.steps} steps\n"), f"carry_out.sh ends with {said[-500:]}")
        self.machine.run("dump held.img && cmp held.img new.img")
        self.look(True)
        for name in self.expected(True)[1]:
            said = self.machine.run(f"use {self.device.vid} {shlex.quote(name)}")
            expect(said == "a file\n", f"the file that was written to {name} has {said!r}")

    def __str__(self):
        device, bad = self.device, ",".join(map(str, self.device.bad)) or "none"
        chip = f"{device.count} eraseblocks, bad {bad}, second header at {device.vid}, {device.way}"
        chip += ", used" if device.used else ""
        kinds = ", ".join(self.edits.kinds)
        words = " ".join(self.words).replace(f"{self.bench.folder}{os.sep}", "").replace("x" * 127, "x..x")
        return f"{chip}; {kinds}: {words}; {self.steps} steps, commit point {self.commit}"


class Bench:
    """The program, the machine, the folder of their files, and the counts of what passed and failed."""

    def __init__(self, words, folder):
        self.words, self.folder, self.tool = words, folder, os.path.abspath(words.tool)
        self.passed, self.failed, self.warnings = 0, 0, collections.Counter()
        share, first = os.path.join(folder, "share"), os.path.join(folder, "first")
        os.mkdir(share)
        kernel, modules = kernel_of(words.kernel)
        write(first, first_files(modules_of(modules, getattr(words, "ubi", None))))
        self.machine = Machine(kernel, first, share, words.limit)

    def warn(self, lines):
        """Counts lines of the kernel's log, as one if they differ in numbers alone."""
        self.warnings.update(re.sub(r"(?<!#)\b(0x[0-9a-f]+|\d+)\b", "N", line) for line in lines)

    def attempt(self, name, call):
        """Makes a call, which fails or passes. Returns whether it has passed."""
        try:
            call()
        except Failure as failure:
            print(f"{name}: {failure}", flush=True)
            self.failed += 1
            self.keep(name)
            return False
        self.passed += 1
        return True

    def keep(self, name):
        """Keeps a copy of what the machine was given, if files are kept."""
        if self.words.keep:
            shutil.copytree(self.machine.share, os.path.join(self.folder, name.replace(" ", "_")), dirs_exist_ok=True)

    def try_plan(self, number):
        began, failed, is_whole = time.monotonic(), self.failed, number < self.words.whole
        name, plans = f"plan {number} of seed {self.words.seed}", []
        self.attempt(f"{name}, its making", lambda: plans.append(Plan(self, number, self.words.seed, is_whole)))
        if not plans:
            return
        [plan] = plans
        print(f"{name}: {plan}", flush=True)
        if is_whole:
            self.attempt(f"{name}, as a whole", plan.try_whole)
            print(f"  as a whole: {time.monotonic() - began:.0f} s", flush=True)
        cuts = [] if self.words.only_whole else plan.cuts(self.words.cuts)
        for k in cuts:
            self.attempt(f"{name}, cut {k}", lambda: plan.try_cut(k))
        if cuts:
            for is_attached, how in ((False, "as it is"), (True, "after it was attached")):
                k = plan.cut_to_continue()
                self.attempt(f"{name}, cut {k} planned again {how}", lambda: plan.try_again(k, is_attached))
        print(f"  {len(cuts)} cuts, {self.failed - failed} failed, {time.monotonic() - began:.0f} s", flush=True)


def options(usage, **numbers):
    """The options of a script that uses a bench, with numbers and what they are by default; more can be added."""
    words = argparse.ArgumentParser(description=usage, formatter_class=argparse.RawDescriptionHelpFormatter)
    words.add_argument("--tool", required=True, help="the program")
    for name, number in numbers.items():
        words.add_argument(f"--{name}", type=int, default=number)
    words.add_argument("--keep", action="store_true")
    words.add_argument("--dir", default="/tmp")
    words.add_argument("--kernel", default="/", help="the folder with boot and lib/modules")
    return words


def run_bench(words, attempts):
    """Lets ATTEMPTS use a bench, ends its machine, prints the lines that ATTEMPTS returns, what the kernel has warned of
    and how many passed and failed, and ends the script."""
    folder = tempfile.mkdtemp(dir=words.dir)
    bench, lines = Bench(words, folder), []
    try:
        lines = attempts(bench) or []
    finally:
        bench.machine.stop()
        if words.keep:
            print(f"the files are in {folder}")
        else:
            shutil.rmtree(folder)
    for line in lines:
        print(line)
    for line, count in sorted(bench.warnings.items()):
        print(f"{count:>6} times the kernel: {line}")
    print(f"{bench.passed} passed, {bench.failed} failed")
    sys.exit(1 if bench.failed else 0)


def main():
    words = options(__doc__, plans=10, cuts=100, whole=2, seed=1, first=0, limit=1800)
    words.add_argument("--only-whole", action="store_true")
    words = words.parse_args()

    def attempts(bench):
        for number in range(words.first, words.first + words.plans):
            bench.try_plan(number)

    run_bench(words, attempts)


if __name__ == "__main__":
    main()
