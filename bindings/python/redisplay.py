"""The redisplay engine for Python: each call of redisplay.h, by ctypes over the shared library.

`bindings/python/link` makes libredisplay.so beside this file; the variable REDISPLAY_LIBRARY may name another. What a call does, its units
and its refusals stand in redisplay.h and, of an op, in docs/OPS.md. A call that is refused raises `Refused` and has changed nothing.
"""

from __future__ import annotations

import ctypes
import enum
import os
from ctypes import POINTER, Structure, byref, c_bool, c_char_p, c_int32, c_size_t, c_uint8, c_uint32, c_void_p
from types import TracebackType
from typing import Any

NONE = 0xFFFFFFFF
"""No value: a property, a colour, a string or a table is taken away; of a cursor or a position, that there is none."""


class Status(enum.IntEnum):
    """How a call ended."""

    DONE = 0
    NOT_OPEN = 1
    IS_OPEN = 2
    NO_MEMORY = 3
    STOPPED = 4
    BAD_DATA = 5
    NOT_THERE = 6
    BAD_TEXT = 7
    BAD_ARGUMENT = 8
    NOT_JSON = 16
    NOT_OBJECT = 17
    NO_SUCH_OP = 18
    MISSING = 19
    BAD_FIELD = 20
    EXTRA = 21
    TOO_LONG = 22
    NO_BUFFER = 32
    NO_WINDOW = 33
    NO_OVERLAY = 34
    NO_OBJECT = 35
    OUT_OF_RANGE = 36
    NAME_TAKEN = 37
    TEXT_TOO_LARGE = 38
    OBJECT_TOO_LONG = 39
    TOO_MANY_BUFFERS = 40
    TOO_MANY_WINDOWS = 41
    TOO_MANY_OVERLAYS = 42
    TOO_MANY_OBJECTS = 43
    TOO_SMALL = 44
    LAST_WINDOW = 45
    BAD_FORMAT = 46
    NOT_SHOWN = 47


class Side(enum.IntEnum):
    """Sides of `split`; of `go` RIGHT and LEFT."""

    BELOW = 0
    RIGHT = 1
    LEFT = 2


class Wrap(enum.IntEnum):
    """What becomes of lines longer than a row."""

    TRUNCATE = 0
    CONTINUE = 1
    WORD = 2


class Kind(enum.IntEnum):
    """Kinds of properties; BEFORE and AFTER of overlays alone."""

    FACE = 0
    DISPLAY = 1
    INVISIBLE = 2
    LINE_PREFIX = 3
    WRAP_PREFIX = 4
    BEFORE = 5
    AFTER = 6


class Setting(enum.IntEnum):
    """Settings of a buffer."""

    TAB_WIDTH = 0
    CTL_ARROW = 1
    DIRECTION = 2
    REORDER = 3
    TABLE = 4
    LINE_PREFIX = 5
    WRAP_PREFIX = 6
    MODIFIED = 7
    READ_ONLY = 8


class Part(enum.IntEnum):
    """Parts of the frame, of a `Spot`; of a `Cell`, `cell.part` is 0 of a blank, 1 of a character's first column, 2 of a later one."""

    TEXT = 0
    MARGIN = 1
    MODE_LINE = 2
    BORDER = 3
    ECHO = 4


class _Slot(Structure):
    _fields_ = [("is_open", c_bool), ("at", c_void_p)]


class BadData(Structure):
    """The first bad line of a data file."""

    file: int
    line: int
    kind: int
    _fields_ = [(name, c_uint32) for name in ("file", "line", "kind")]


class Shown(Structure):
    """How a redisplay ended, and how many rows it sent."""

    status: int
    rows: int
    _fields_ = [(name, c_uint32) for name in ("status", "rows")]


class Face(Structure):
    """The look of a cell. `face` makes one."""

    size: int
    foreground: int
    background: int
    bold: bool
    underline: bool
    inverse: bool
    _fields_ = [(name, c_uint32) for name in ("size", "foreground", "background")] + [
        (name, c_bool) for name in ("bold", "underline", "inverse", "reserved")
    ]


def face(foreground: int = NONE, background: int = NONE, bold: bool = False, underline: bool = False, inverse: bool = False) -> Face:
    """A face for `add_face`; colours are 0 to 7 or NONE."""
    return Face(ctypes.sizeof(Face), foreground, background, bold, underline, inverse, False)


class Place(Structure):
    """A row and a column from 0, or a count of each."""

    row: int
    column: int
    _fields_ = [(name, c_uint32) for name in ("row", "column")]


class Window(Structure):
    """A window: its rectangle on the frame, its start, point, and the row and the column of its text where point is shown."""

    number: int
    buffer: int
    row: int
    column: int
    height: int
    width: int
    start: int
    start_row: int
    point: int
    cursor_row: int
    cursor_column: int
    selected: bool
    _fields_ = [
        (name, c_uint32)
        for name in "number buffer row column height width start start_row point cursor_row cursor_column".split()
    ] + [("selected", c_bool)]


class Cell(Structure):
    """A cell of the screen: its character, the marks on it, its columns, its part and its face."""

    code: int
    marks: Any
    mark_count: int
    width: int
    part: int
    face: Face
    _fields_ = [
        ("code", c_uint32),
        ("marks", c_uint32 * 6),
        ("mark_count", c_uint8),
        ("width", c_uint8),
        ("part", c_uint8),
        ("reserved", c_uint8),
        ("face", Face),
    ]


class Spot(Structure):
    """What stands under a cell of the frame."""

    part: int
    window: int
    position: int
    row: int
    column: int
    _fields_ = [(name, c_uint32) for name in ("part", "window", "position", "row", "column")]


class _Text(Structure):
    _fields_ = [("bytes", c_size_t), ("next", c_uint32)]


class Refused(Exception):
    """A call was refused: its status, and the report's words for it."""

    def __init__(self, status: int, words: str) -> None:
        super().__init__(words or Status(status).name)
        self.status = Status(status)


class BadDataFile(Refused):
    """A data file is bad: which one, its line, and why."""

    def __init__(self, bad: BadData) -> None:
        super().__init__(Status.BAD_DATA, f"file {bad.file}, line {bad.line}, kind {bad.kind}")
        self.bad = bad


_SLOT, _NUMBER, _SIGNED, _BYTES, _SIZE = POINTER(_Slot), c_uint32, c_int32, c_char_p, c_size_t
_NUMBER_OUT, _SIZE_OUT = POINTER(c_uint32), POINTER(c_size_t)

# Of each call its answer and its parameters behind the session.
_CALLS: dict[str, tuple[Any, list[Any]]] = {
    "redisplay_open": (_NUMBER, [_BYTES, _SIZE, _BYTES, _SIZE, _BYTES, _SIZE, POINTER(BadData)]),
    "redisplay_open_unicode": (_NUMBER, []),
    "redisplay_close": (None, []),
    "redisplay_line": (Shown, [_BYTES, _SIZE]),
    "redisplay_frame": (_NUMBER, [_NUMBER, _NUMBER]),
    "redisplay_buffer": (_NUMBER, [_BYTES, _SIZE]),
    "redisplay_insert": (_NUMBER, [_NUMBER, _NUMBER, _BYTES, _SIZE]),
    "redisplay_type": (_NUMBER, [_BYTES, _SIZE]),
    "redisplay_delete": (_NUMBER, [_NUMBER, _NUMBER, _NUMBER]),
    "redisplay_narrow": (_NUMBER, [_NUMBER, _NUMBER, _NUMBER]),
    "redisplay_widen": (_NUMBER, [_NUMBER]),
    "redisplay_setting": (_NUMBER, [_NUMBER, _NUMBER, _NUMBER]),
    "redisplay_put": (_NUMBER, [_NUMBER, _NUMBER, _NUMBER, _NUMBER, _NUMBER]),
    "redisplay_overlay": (_NUMBER, [_NUMBER, _NUMBER, _NUMBER, _SIGNED, c_bool, c_bool]),
    "redisplay_overlay_move": (_NUMBER, [_NUMBER, _NUMBER, _NUMBER, _NUMBER]),
    "redisplay_overlay_put": (_NUMBER, [_NUMBER, _NUMBER, _NUMBER, _NUMBER]),
    "redisplay_overlay_drop": (_NUMBER, [_NUMBER, _NUMBER]),
    "redisplay_add_face": (_NUMBER, [POINTER(Face)]),
    "redisplay_add_string": (_NUMBER, [_BYTES, _SIZE]),
    "redisplay_split": (_NUMBER, [_NUMBER, _NUMBER, _NUMBER]),
    "redisplay_remove": (_NUMBER, [_NUMBER]),
    "redisplay_select": (_NUMBER, [_NUMBER]),
    "redisplay_show": (_NUMBER, [_NUMBER, _NUMBER]),
    "redisplay_point": (_NUMBER, [_NUMBER, _NUMBER]),
    "redisplay_start": (_NUMBER, [_NUMBER, _NUMBER, _NUMBER]),
    "redisplay_scroll": (_NUMBER, [_NUMBER, _SIGNED]),
    "redisplay_hscroll": (_NUMBER, [_NUMBER, _NUMBER]),
    "redisplay_wrap": (_NUMBER, [_NUMBER, _NUMBER]),
    "redisplay_mode_line": (_NUMBER, [_NUMBER, _BYTES, _SIZE]),
    "redisplay_no_mode_line": (_NUMBER, [_NUMBER]),
    "redisplay_margin": (_NUMBER, [_NUMBER, _NUMBER, _NUMBER]),
    "redisplay_scrolling": (_NUMBER, [_NUMBER, _NUMBER]),
    "redisplay_echo": (_NUMBER, [_BYTES, _SIZE]),
    "redisplay_shift": (_NUMBER, [c_bool]),
    "redisplay_go": (_NUMBER, [_NUMBER, _NUMBER]),
    "redisplay_hit": (_NUMBER, [_NUMBER, _NUMBER, _NUMBER]),
    "redisplay_update": (Shown, []),
    "redisplay_update_rows": (Shown, [_NUMBER]),
    "redisplay_pending": (_SIZE, []),
    "redisplay_fetch": (_SIZE, [c_void_p, _SIZE]),
    "redisplay_fault": (_NUMBER, []),
    "redisplay_fault_text": (_SIZE, [c_void_p, _SIZE]),
    "redisplay_get_frame": (_NUMBER, [POINTER(Place)]),
    "redisplay_get_cursor": (_NUMBER, [POINTER(Place)]),
    "redisplay_get_windows": (_NUMBER, [_NUMBER_OUT]),
    "redisplay_get_window": (_NUMBER, [_NUMBER, POINTER(Window)]),
    "redisplay_get_selected": (_NUMBER, [_NUMBER_OUT]),
    "redisplay_get_buffers": (_NUMBER, [_NUMBER_OUT]),
    "redisplay_get_buffer_name": (_NUMBER, [_NUMBER, c_void_p, _SIZE, _SIZE_OUT]),
    "redisplay_get_length": (_NUMBER, [_NUMBER, _NUMBER_OUT]),
    "redisplay_get_text": (_NUMBER, [_NUMBER, _NUMBER, _NUMBER, c_void_p, _SIZE, POINTER(_Text)]),
    "redisplay_get_row": (_NUMBER, [_NUMBER, POINTER(Cell), _SIZE, _SIZE_OUT]),
    "redisplay_get_row_text": (_NUMBER, [_NUMBER, c_void_p, _SIZE, _SIZE_OUT]),
    "redisplay_get_under": (_NUMBER, [_NUMBER, _NUMBER, POINTER(Spot)]),
}


def _load() -> ctypes.CDLL:
    beside = os.path.join(os.path.dirname(os.path.abspath(__file__)), "libredisplay.so")
    library = ctypes.CDLL(os.environ.get("REDISPLAY_LIBRARY", beside))
    for name, (answer, parameters) in _CALLS.items():
        call = getattr(library, name)
        call.restype, call.argtypes = answer, [_SLOT, *parameters]
    return library


_library = _load()


class Session:
    """A session, of one thread; `with` closes it. Text is `str`; raw bytes of a buffer are read as lone surrogates."""

    def __init__(self, classes: bytes | None = None, mirrors: bytes = b"", brackets: bytes = b"") -> None:
        """Opens a session over the bytes of Unicode's data files, or over the data that are built in where no classes are given."""
        self._slot = _Slot()
        if classes is None:
            self._do("open_unicode")
            return
        bad = BadData()
        status = self._call("open", classes, len(classes), mirrors, len(mirrors), brackets, len(brackets), byref(bad))
        if status == Status.BAD_DATA:
            raise BadDataFile(bad)
        self._check(status)

    def __enter__(self) -> Session:
        return self

    def __exit__(self, kind: type[BaseException] | None, error: BaseException | None, trace: TracebackType | None) -> None:
        self.close()

    def __del__(self) -> None:
        self.close()

    def close(self) -> None:
        """Gives back all memory; twice is fine."""
        self._call("close")

    def _call(self, name: str, *arguments: Any) -> Any:
        return getattr(_library, "redisplay_" + name)(byref(self._slot), *arguments)

    def _check(self, status: int) -> None:
        if status != Status.DONE:
            raise Refused(status, self.fault_text())

    def _do(self, name: str, *arguments: Any) -> None:
        self._check(self._call(name, *arguments))

    def _number(self, name: str, *arguments: Any) -> int:
        number = c_uint32()
        self._do(name, *arguments, byref(number))
        return number.value

    def line(self, line: str) -> Shown:
        """Does what a line of JSON says, an op or a redisplay; a stopped redisplay is no refusal."""
        shown: Shown = self._call("line", *_text(line))
        return self._shown(shown)

    def _shown(self, shown: Shown) -> Shown:
        if shown.status not in (Status.DONE, Status.STOPPED):
            raise Refused(shown.status, self.fault_text())
        return shown

    def frame(self, width: int, height: int) -> None:
        """Resizes the frame; the next redisplay paints all."""
        self._do("frame", width, height)

    def buffer(self, name: str) -> None:
        """Makes an empty buffer; its number is the count of those before it."""
        self._do("buffer", *_text(name))

    def insert(self, buffer: int, position: int, text: str) -> None:
        """Puts a text in before a position."""
        self._do("insert", buffer, position, *_text(text))

    def type(self, text: str) -> None:
        """Puts a text in at the selected window's point, which moves behind it."""
        self._do("type", *_text(text))

    def delete(self, buffer: int, start: int, end: int) -> None:
        """Takes the positions from `start` to `end - 1` away."""
        self._do("delete", buffer, start, end)

    def narrow(self, buffer: int, start: int, end: int) -> None:
        """Makes a range the accessible part."""
        self._do("narrow", buffer, start, end)

    def widen(self, buffer: int) -> None:
        """Makes the whole text accessible."""
        self._do("widen", buffer)

    def setting(self, buffer: int, setting: Setting, value: int) -> None:
        """Sets a setting of a buffer."""
        self._do("setting", buffer, setting, value)

    def put(self, buffer: int, start: int, end: int, kind: Kind, value: int = NONE) -> None:
        """Gives a range a property; without a value takes it away."""
        self._do("put", buffer, start, end, kind, value)

    def overlay(self, buffer: int, start: int, end: int, priority: int = 0, front: bool = False, rear: bool = False) -> None:
        """Makes an overlay; its number is the count of those made in the buffer before it."""
        self._do("overlay", buffer, start, end, priority, front, rear)

    def overlay_move(self, buffer: int, overlay: int, start: int, end: int) -> None:
        """Gives an overlay another range."""
        self._do("overlay_move", buffer, overlay, start, end)

    def overlay_put(self, buffer: int, overlay: int, kind: Kind, value: int = NONE) -> None:
        """Gives an overlay a property; without a value takes it away."""
        self._do("overlay_put", buffer, overlay, kind, value)

    def overlay_drop(self, buffer: int, overlay: int) -> None:
        """Takes an overlay away."""
        self._do("overlay_drop", buffer, overlay)

    def add_face(self, look: Face) -> None:
        """Makes a face; its number is the count of those before it."""
        self._do("add_face", byref(look))

    def add_string(self, text: str) -> None:
        """Makes a string; its number is the count of those before it."""
        self._do("add_string", *_text(text))

    def split(self, window: int, side: Side, size: int) -> None:
        """Splits a window, which keeps so many rows or columns; the new one's number is the count of windows made before it."""
        self._do("split", window, side, size)

    def remove(self, window: int) -> None:
        """Takes a window away."""
        self._do("remove", window)

    def select(self, window: int) -> None:
        """Selects a window."""
        self._do("select", window)

    def show(self, window: int, buffer: int) -> None:
        """Shows a buffer in a window."""
        self._do("show", window, buffer)

    def point(self, window: int, position: int) -> None:
        """Moves a window's point."""
        self._do("point", window, position)

    def start(self, window: int, position: int, row: int = 0) -> None:
        """Forces a window's start: this row of the block that starts at a position."""
        self._do("start", window, position, row)

    def scroll(self, window: int, rows: int) -> None:
        """Scrolls by so many rows at the next redisplay; up its text where the number is below 0."""
        self._do("scroll", window, rows)

    def hscroll(self, window: int, columns: int) -> None:
        """Scrolls sideways by so many columns from the edge."""
        self._do("hscroll", window, columns)

    def wrap(self, window: int, mode: Wrap) -> None:
        """Says what becomes of lines longer than a row."""
        self._do("wrap", window, mode)

    def mode_line(self, window: int, format: str) -> None:
        """Gives a window a mode line."""
        self._do("mode_line", window, *_text(format))

    def no_mode_line(self, window: int) -> None:
        """Takes a window's mode line away."""
        self._do("no_mode_line", window)

    def margin(self, window: int, numbers: int, strings: int = 0) -> None:
        """Gives a window margins of so many columns for line numbers and strings."""
        self._do("margin", window, numbers, strings)

    def scrolling(self, margin: int, conservatively: int) -> None:
        """Sets the scroll margin, and up to how many rows a view is scrolled to show point."""
        self._do("scrolling", margin, conservatively)

    def echo(self, text: str) -> None:
        """Shows a text in the echo area."""
        self._do("echo", *_text(text))

    def shift(self, on: bool) -> None:
        """Lets the terminal shift rows, or not."""
        self._do("shift", on)

    def go(self, window: int, side: Side) -> None:
        """Moves point to the item beside it, as it is seen."""
        self._do("go", window, side)

    def hit(self, window: int, row: int, column: int) -> None:
        """Moves point to what the last layout shows in this row and column of the window's text."""
        self._do("hit", window, row, column)

    def update(self) -> Shown:
        """Redisplays; the terminal's bytes are pending then."""
        shown: Shown = self._call("update")
        return self._shown(shown)

    def update_rows(self, rows: int) -> Shown:
        """Redisplays up to so many rows."""
        shown: Shown = self._call("update_rows", rows)
        return self._shown(shown)

    def pending(self) -> int:
        """How many bytes are pending."""
        count: int = self._call("pending")
        return count

    def fetch(self, room: int | None = None) -> bytes:
        """The first pending bytes, as many as there is room for, or all; they are no longer pending."""
        out = ctypes.create_string_buffer(self.pending() if room is None else room)
        count: int = self._call("fetch", out, len(out))
        return out.raw[:count]

    def fault(self) -> Status:
        """The status of the last op, line or redisplay."""
        return Status(self._call("fault"))

    def fault_text(self) -> str:
        """The same in the report's words."""
        out = ctypes.create_string_buffer(256)
        count: int = self._call("fault_text", out, len(out))
        return out.raw[:count].decode()

    def get_frame(self) -> Place:
        """The frame's rows and columns."""
        size = Place()
        self._do("get_frame", byref(size))
        return size

    def get_cursor(self) -> Place:
        """The screen's cursor."""
        place = Place()
        self._do("get_cursor", byref(place))
        return place

    def get_windows(self) -> int:
        """How many windows there are."""
        return self._number("get_windows")

    def get_window(self, index: int) -> Window:
        """A window by its place in leaf order, from 0."""
        window = Window()
        self._do("get_window", index, byref(window))
        return window

    def get_selected(self) -> int:
        """The number of the selected window."""
        return self._number("get_selected")

    def get_buffers(self) -> int:
        """How many buffers there are."""
        return self._number("get_buffers")

    def get_buffer_name(self, buffer: int) -> str:
        """The name of a buffer."""
        return self._bytes("get_buffer_name", buffer, room=256).decode()

    def get_length(self, buffer: int) -> int:
        """How many characters a buffer has."""
        return self._number("get_length", buffer)

    def get_text(self, buffer: int, start: int, end: int) -> str:
        """The characters from `start` to `end - 1`."""
        out = ctypes.create_string_buffer(max(4 * (end - start), 1))
        given = _Text()
        self._do("get_text", buffer, start, end, out, len(out), byref(given))
        return out.raw[: given.bytes].decode(errors="surrogateescape")

    def get_row(self, row: int) -> list[Cell]:
        """The cells of a row of the screen."""
        cells, count = (Cell * self.get_frame().column)(), c_size_t()
        self._do("get_row", row, cells, len(cells), byref(count))
        return cells[: count.value]

    def get_row_text(self, row: int) -> str:
        """The characters of a row of the screen, with their marks."""
        return self._bytes("get_row_text", row, room=28 * self.get_frame().column).decode(errors="surrogateescape")

    def _bytes(self, name: str, number: int, room: int) -> bytes:
        out, length = ctypes.create_string_buffer(room), c_size_t()
        self._do(name, number, out, room, byref(length))
        return out.raw[: length.value]

    def get_under(self, row: int, column: int) -> Spot:
        """What stands under a cell of the frame; point stays."""
        spot = Spot()
        self._do("get_under", row, column, byref(spot))
        return spot

def _text(text: str) -> tuple[bytes, int]:
    given = text.encode(errors="surrogateescape")
    return given, len(given)
