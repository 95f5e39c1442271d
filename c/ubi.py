"""UBI images in memory: the proved core of ubi_tool, through ctypes.

    import ubi

    image = open("dump.bin", "rb").read()
    library = ubi.Library()
    sizes = library.geometry(image)[0].sizes
    print(library.list(sizes, image))
    kernel = library.read(sizes, image, 0)

`c/build.sh` makes the shared object that this module loads, and install.sh installs both. An image is any object whose
bytes lie in one piece, such as bytes, a bytearray or an mmap; it is not copied, and must not be written while a call
runs. A call raises Refused with the cause if ubi_tool would print a line with `refused`; Limit if the sizes are no
geometry; and MemoryError if memory runs out. ubi.h and docs/C.md say more.
"""
import contextlib
import ctypes
import os
import re
from dataclasses import dataclass

# The greatest number of eraseblocks that a device can have: for Sizes, if the number isn't known.
MOST_PEBS = 1048576
DONE, REFUSED, LIMIT, NO_MEMORY = range(4)
# The room that most answers in lines need.
ROOM = 4096
# An answer that is a refusal: the side, for two images, and the cause.
REFUSAL = re.compile(rb"(?:(left|right) )?refused (.*)\n")


class Refused(ValueError):
    """An image, a volume or an edit is refused. `cause` is the cause, such as 'S8 SameSqnum block=57 earlier=12', and
    `side` is 'left' or 'right' if one of two images is refused."""

    def __init__(self, cause, side=None):
        self.cause, self.side = cause, side
        super().__init__(f"{side} refused {cause}" if side else f"refused {cause}")


class Limit(ValueError):
    """The sizes are no geometry. `cause` is the first limit that they break, such as 'G1 Page'."""

    def __init__(self, cause):
        self.cause = cause
        super().__init__(f"refused {cause}")


class Sizes(ctypes.Structure):
    """The numbers of a geometry: the bytes of an eraseblock and of a page, the offsets of the volume-identifier header
    and of the data in an eraseblock, and the number of eraseblocks of the device."""

    _fields_ = [(name, ctypes.c_uint32) for name in ("peb_size", "page", "vid_offset", "data_offset", "pebs")]

    def __init__(self, peb_size, page, vid_offset, data_offset, pebs=MOST_PEBS):
        super().__init__(*(_number(number) for number in (peb_size, page, vid_offset, data_offset, pebs)))

    def __repr__(self):
        return f"Sizes({', '.join(f'{name}={getattr(self, name)}' for name, _ in self._fields_)})"


@dataclass(frozen=True)
class Found:
    """A geometry that a dump's own headers give: its sizes, the number of out-of-band bytes after each page, and the
    part of the bytes that is the image."""

    sizes: Sizes
    oob: int
    start: int
    length: int


@dataclass(frozen=True)
class Step:
    """A step of a plan: for an erase `page` and `data` are None; otherwise `data` are the bytes that page `page` of
    `block` gets."""

    block: int
    page: int | None = None
    data: bytes | None = None


@dataclass(frozen=True)
class Rename:
    """An edit: the volume `name` gets the name `new`. Here and in the other edits names are bytes, or strings as `list`
    shows names, and `name` is that of a volume in the image."""

    name: str | bytes
    new: str | bytes

    def _line(self):
        return b"rename " + _name(self.name) + b"=" + _shown(self.new), None


@dataclass(frozen=True)
class Resize:
    """An edit: the volume `name` gets room for `size` bytes, which is a number, or a string such as '64KiB'."""

    name: str | bytes
    size: int | str

    def _line(self):
        return b"resize " + _name(self.name) + b"=" + str(self.size).encode("ascii"), None


@dataclass(frozen=True)
class Remove:
    """An edit: the volume `name` is removed."""

    name: str | bytes

    def _line(self):
        return b"remove " + _shown(self.name), None


@dataclass(frozen=True)
class Write:
    """An edit: the contents of the volume `name` are `data`, an object whose bytes lie in one piece."""

    name: str | bytes
    data: bytes

    def _line(self):
        return b"write %s=%d" % (_name(self.name), memoryview(self.data).nbytes), self.data


class _Buffer(ctypes.Structure):
    """A Py_buffer of CPython."""

    _fields_ = [
        ("buf", ctypes.c_void_p), ("obj", ctypes.py_object), ("len", ctypes.c_ssize_t),
        ("itemsize", ctypes.c_ssize_t), ("readonly", ctypes.c_int), ("ndim", ctypes.c_int),
        ("format", ctypes.c_char_p), ("shape", ctypes.c_void_p), ("strides", ctypes.c_void_p),
        ("suboffsets", ctypes.c_void_p), ("internal", ctypes.c_void_p),
    ]


# The address that is passed for no bytes.
_NOTHING = ctypes.create_string_buffer(1)


@contextlib.contextmanager
def _bytes_of(data):
    """The address and the number of an object's bytes, while the object is held."""
    view = _Buffer()
    ctypes.pythonapi.PyObject_GetBuffer(ctypes.py_object(data), ctypes.byref(view), 0)
    try:
        yield ctypes.c_void_p(view.buf or ctypes.addressof(_NOTHING)), ctypes.c_size_t(view.len)
    finally:
        ctypes.pythonapi.PyBuffer_Release(ctypes.byref(view))


def _number(number):
    """A number that fits 32 bits."""
    if not 0 <= number < 2**32:
        raise ValueError(f"{number} is no number of 32 bits")
    return number


def _checked(sizes):
    """The same sizes, if they are sizes."""
    if not isinstance(sizes, Sizes):
        raise TypeError(f"{sizes!r} is no Sizes")
    return sizes


def _block(sizes, image):
    """The bytes of an eraseblock: no more than the image has, whatever the sizes say."""
    return min(_checked(sizes).peb_size, memoryview(image).nbytes)


def _shown(name):
    """A name as the calls take it: one that is bytes is shown byte by byte."""
    return name.encode("ascii") if isinstance(name, str) else "".join(rf"\x{byte:02x}" for byte in name).encode()


def _name(name):
    """The same for the name of a volume that ends at the first `=` of a line."""
    return _shown(name).replace(b"=", rb"\x3d")


def _text_of(edits):
    """The lines that ask for edits, and the contents that they write."""
    lines, contents = [], []
    for edit in edits:
        if not isinstance(edit, (Rename, Resize, Remove, Write)):
            raise TypeError(f"{edit!r} is no edit")
        line, data = edit._line()
        if b"\n" in line:
            raise ValueError(f"{edit!r} has a line feed")
        lines.append(line + b"\n")
        contents += [] if data is None else [data]
    return b"".join(lines), contents[0] if len(contents) == 1 else b"".join(contents)


def _spared_of(bad, keep_blank):
    """What a plan spares, as C takes it."""
    numbers = [_number(block) for block in bad]
    return [(ctypes.c_uint32 * max(len(numbers), 1))(*numbers), ctypes.c_size_t(len(numbers)), bool(keep_blank)]


# What the calls take, as ubi.h declares it.
_SIZES, _NUMBER = (ctypes.POINTER(Sizes),), (ctypes.c_uint32,)
_IMAGE = (ctypes.c_void_p, ctypes.c_size_t)
_SPARED = (ctypes.c_void_p, ctypes.c_size_t, ctypes.c_bool)
_ROOM = (ctypes.c_void_p, ctypes.c_size_t, ctypes.POINTER(ctypes.c_size_t))
_CALLS = {
    "geometry": _IMAGE + _ROOM,
    **dict.fromkeys(("check", "list", "map", "normalise"), _SIZES + _IMAGE + _ROOM),
    **dict.fromkeys(("show", "read"), _SIZES + _IMAGE + _NUMBER + _ROOM),
    **dict.fromkeys(("same", "diff"), _SIZES + _IMAGE + _IMAGE + _ROOM),
    "change": _SIZES + _IMAGE + _SPARED + _NUMBER + _NUMBER + _IMAGE + _ROOM + _ROOM,
    "rename": _SIZES + _IMAGE + _SPARED + _NUMBER + _IMAGE + _ROOM + _ROOM,
    "update": _SIZES + _IMAGE + _SPARED + _IMAGE + _IMAGE + _ROOM + _ROOM,
}


class _Room:
    """A buffer for an answer."""

    def __init__(self, size):
        self.bytes, self.size, self.len = ctypes.create_string_buffer(max(size, 1)), size, ctypes.c_size_t()

    def words(self):
        return self.bytes, ctypes.c_size_t(self.size), ctypes.byref(self.len)

    def has_all(self):
        return self.len.value <= self.size

    def taken(self):
        # ctypes.string_at cuts a length to 31 bits.
        return memoryview(self.bytes)[:self.len.value].tobytes()


def _path():
    """The path of the shared object: where c/build.sh puts it, if it is there; otherwise where install.sh does, from
    share/ubi_tool."""
    here = os.path.dirname(os.path.realpath(__file__))
    built = os.path.join(here, "out", "libubi.so")
    return built if os.path.isfile(built) else os.path.normpath(os.path.join(here, "..", "..", "lib", "libubi.so"))


class Library:
    """The calls of a shared object that c/build.sh has made. If no path is given, that is the one in c/out, or the
    installed one."""

    def __init__(self, path=None):
        self._library = ctypes.CDLL(path or _path())
        for name, takes in _CALLS.items():
            call = getattr(self._library, f"ubi_{name}")
            call.argtypes, call.restype = takes, ctypes.c_uint32

    def _call(self, name, sizes, images, spared, numbers, given, rooms):
        """The status, with the answers in rooms; calls once more if one of them is too small. Raises Limit and
        MemoryError."""
        call = getattr(self._library, f"ubi_{name}")
        with contextlib.ExitStack() as held:
            before, after = (
                [word for data in some for word in held.enter_context(_bytes_of(data))] for some in (images, given))
            words = [] if name == "geometry" else [ctypes.byref(_checked(sizes))]
            words += before + spared + [ctypes.c_uint32(_number(n)) for n in numbers] + after
            while True:
                status = call(*words, *(word for room in rooms for word in room.words()))
                if status == NO_MEMORY:
                    raise MemoryError(f"ubi_{name}")
                if all(room.has_all() for room in rooms):
                    answers = [room.taken() for room in rooms]
                    if status == LIMIT:
                        raise Limit(REFUSAL.fullmatch(answers[0])[2].decode("ascii"))
                    return status, answers
                rooms = [room if room.has_all() else _Room(room.len.value) for room in rooms]

    def _answer(self, name, sizes, images, numbers=(), given=(), rooms=None, spared=()):
        """The answers of a call that is done; raises Refused if it is refused."""
        status, answers = self._call(name, sizes, images, list(spared), numbers, given, rooms or [_Room(ROOM)])
        refusal = REFUSAL.fullmatch(answers[0]) if status == REFUSED else None
        if refusal:
            side, cause = refusal.groups()
            raise Refused(cause.decode("ascii"), side and side.decode("ascii"))
        return answers

    def geometry(self, image):
        """The geometries that the headers of a dump give, most likely one: a list of Found. Raises Refused if none can
        be found. A dump that holds several images has a Found for the first; cut the others out to read them."""
        found = []
        for line in self._answer("geometry", None, [image])[0].decode("ascii").splitlines():
            values = {name: int(number) for name, number in re.findall(r"--(\w+) (\d+)", line)}
            if "peb" not in values:
                continue
            sizes = Sizes(values["peb"], values["page"], values["vid"], values["data"])
            found.append(Found(sizes, values.get("oob", 0), values.get("start", 0), values.get("length", len(image))))
        return found

    def check(self, sizes, image):
        """The lines that `ubi_tool check` prints: the number of eraseblocks in each state, and the numbers of the
        image."""
        return self._answer("check", sizes, [image])[0].decode("ascii")

    def list(self, sizes, image):
        """The lines that `ubi_tool list` prints: the sizes of the device, and a line for each volume."""
        return self._answer("list", sizes, [image])[0].decode("ascii")

    def show(self, sizes, image, block):
        """The lines that `ubi_tool show` prints: the two headers of an eraseblock."""
        return self._answer("show", sizes, [image], [block])[0].decode("ascii")

    def map(self, sizes, image):
        """The lines that `ubi_tool map` prints: a letter for each eraseblock. An image that is refused has them too,
        and then the cause."""
        return self._call("map", sizes, [image], [], (), (), [_Room(ROOM)])[1][0].decode("ascii")

    def read(self, sizes, image, number):
        """The bytes of the volume with this number."""
        return self._answer("read", sizes, [image], [number], rooms=[_Room(len(image))])[0]

    def normalise(self, sizes, image):
        """The normal image: one that means the same, and is the same for all images that do."""
        return self._answer("normalise", sizes, [image], rooms=[_Room(len(image) + 2 * _block(sizes, image))])[0]

    def same(self, sizes, left, right):
        """Whether two images mean the same."""
        return self._answer("same", sizes, [left, right])[0] == b"same\n"

    def diff(self, sizes, left, right):
        """The differences of two images: the lines that `ubi_tool diff` prints without the last; none if the images
        mean the same."""
        return self._answer("diff", sizes, [left, right])[0].decode("ascii").splitlines()[:-1]

    def change(self, sizes, image, number, lnum, data, bad=(), keep_blank=False):
        """The steps that give the logical eraseblock `lnum` of the dynamic volume `number` new bytes: a list of Step.
        `bad` has the numbers of the chip's bad eraseblocks: no step works on one of them, and each reads 0xFF. If
        `keep_blank` is true, no step works on an eraseblock that is blank throughout either."""
        return self._plan("change", sizes, image, _spared_of(bad, keep_blank), [number, lnum], [data])[1]

    def rename(self, sizes, image, number, name, bad=(), keep_blank=False):
        """The steps that give the volume `number` a new name, which is bytes, or a string as `list` shows names: a list
        of Step. `bad` and `keep_blank` are those of `change`."""
        return self._plan("rename", sizes, image, _spared_of(bad, keep_blank), [number], [_shown(name)])[1]

    def update(self, sizes, image, edits, bad=(), keep_blank=False):
        """The plan of edits of whole volumes, which are done all in one step and in this order: Rename, Resize, Remove
        and Write. Returns a list of the lines of the volumes that are written, such as
        'volume 2 replaces 0 lebs=3 name=kernel', and a list of Step. `bad` and `keep_blank` are those of `change`."""
        text, contents = _text_of(edits)
        return self._plan("update", sizes, image, _spared_of(bad, keep_blank), [], [text, contents])

    def _plan(self, name, sizes, image, spared, numbers, given):
        """The lines before the steps of a plan, and the steps."""
        written = memoryview(given[-1]).nbytes
        rooms = [_Room(ROOM + written // 16), _Room(2 * (_block(sizes, image) + written))]
        answer, pages = self._answer(name, sizes, [image], numbers, given, rooms, spared)
        lines = answer.decode("ascii").splitlines()
        first = next(place for place, line in enumerate(lines) if line.startswith("steps "))
        steps, at = [], 0
        for line in lines[first + 1:]:
            places = [int(place) for place in re.findall(r"=(\d+)", line)]
            if line.startswith("program"):
                places.append(pages[at:at + sizes.page])
                at += sizes.page
            steps.append(Step(*places))
        return lines[:first], steps
