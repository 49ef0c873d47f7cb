"""python-bidi's functions over the proved library: `from bidi_proved.algorithm import get_display` replaces
`from bidi.algorithm import get_display`. docs/PYTHON.md says what differs."""
import re
import sys
import threading
import typing

from .base import base_levels
from .layout import Direction, Line, Room
from .tables import Tables

DIRECTIONS = {"L": Direction.LTR, "R": Direction.RTL, "AL": Direction.RTL}
# A room for at most so many characters serves the thread's next texts too.
REUSED = 65536
ALEF = "\u05d0"
HALVES = re.compile("[\ud800-\udfff]")
_local = threading.local()
AnyText = typing.TypeVar("AnyText", str, bytes)


def get_display(
    unicode_or_str: AnyText,
    encoding: str = "utf-8",
    upper_is_rtl: bool = False,
    base_dir: typing.Optional[str] = None,
    debug: bool = False,
) -> AnyText:
    """Returns a text as it is shown, from left to right: a str of a str, and bytes in `encoding` of bytes in it.

    All paragraphs have the direction `base_dir`, "L" or "R"; without one they have that of the text's first strong
    character. If `upper_is_rtl` is true, capitals are read as right-to-left letters. If `debug` is true, the level of
    the paragraphs and the levels of the characters are written to standard error.

    Fails with RoomTooBig, MemoryRefused, UnicodeError (of an encoding), or KeyError if `base_dir` is another word.
    NotImplementedError: the library has no tables built in, or is an older one.
    """
    if not isinstance(unicode_or_str, str):
        text = unicode_or_str.decode(encoding)
        return get_display(text, encoding, upper_is_rtl, base_dir, debug).encode(encoding)
    text, tables = unicode_or_str, _tables()
    read = _read(text, upper_is_rtl)
    direction = _first_level(read) if base_dir is None else DIRECTIONS[base_dir]
    layout = _room(len(read)).lay_out(read, tables, direction)
    if debug:
        print(f"base level {int(direction)}, levels {layout.levels}", file=sys.stderr)
    passed = text if read != text else None
    return "".join(_display(line, read, passed, tables) for line in layout.lines)


def get_base_level(text: str, upper_is_rtl: bool = False) -> int:
    """Returns the level of a text's paragraphs by its first strong character: 0 for left-to-right, also if there is no
    strong character, and 1 for right-to-left. Characters between an isolate initiator and its PDI don't count (P2)."""
    return _first_level(_read(text, upper_is_rtl))


def _tables() -> Tables:
    """Returns this thread's handle on the tables that are built in."""
    if not hasattr(_local, "tables"):
        _local.tables = Tables.standard()
    tables: Tables = _local.tables
    return tables


def _room(size: int) -> Room:
    """Returns this thread's room, or a new one if it is too small. A room for a long text serves that text alone."""
    room = getattr(_local, "room", None)
    if room is None or room.size < size:
        room = Room(max(size, 256))
        if size <= REUSED:
            _local.room = room
    return room


def _read(text: str, upper_is_rtl: bool) -> str:
    """Returns the text that is laid out. A letter replaces each lone half of a surrogate pair, which the library
    rejects and python-bidi reads as L, and a Hebrew letter each capital that is read as R."""
    read = HALVES.sub("a", text)
    return "".join(ALEF if it.isupper() else it for it in read) if upper_is_rtl else read


def _first_level(read: str) -> int:
    """Returns the level of the first paragraph that has a strong character, or 0 if none has one. A paragraph without a
    strong character has another level under AUTO_RTL than under AUTO."""
    levels = base_levels(read, _tables(), Direction.AUTO)
    if 0 not in levels or 1 not in levels:
        return max(levels, default=0)
    others = base_levels(read, _tables(), Direction.AUTO_RTL)
    return next(level for level, other in zip(levels, others) if level == other)


def _display(line: Line, read: str, text: typing.Optional[str], tables: Tables) -> str:
    """Returns what a line shows, with its paragraph separator at its end, and with the characters of the text as it was
    passed, or of `read` if that is None."""
    shown, last = line.shown, line.end - 1
    if text is not None:
        pairs = zip(line.order, shown)
        shown = "".join(text[at] if read[at] != text[at] else character for at, character in pairs)
    if last < line.start or not tables._separates(read[last]):
        return shown
    at = line.order.index(last)
    return shown[:at] + shown[at + 1 :] + read[last]
