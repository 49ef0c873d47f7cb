"""The shared object libbidi_c: where it is found, and its calls as ctypes sees them. c/bidi.h is its header."""
import array
import ctypes
import os
import pathlib
import typing
from ctypes import POINTER, c_bool, c_char_p, c_size_t, c_uint8, c_uint32, c_uint64, c_void_p

SONAME = "libbidi_c.so.1"
Text = typing.Union[str, bytes, bytearray, memoryview]


class Handle(ctypes.Structure):
    """A handle on tables, a room, a judge or a report: all zero before its first call."""

    _fields_ = [("at", c_void_p), ("made", c_bool)]


class Fault(ctypes.Structure):
    """What is wrong with a property file."""

    _fields_ = [("line", c_uint64), ("kind", c_uint32)]


class Limits(ctypes.Structure):
    """How deep explicit levels go, and how many brackets can be open at once."""

    _fields_ = [("depth", c_uint8), ("brackets", c_uint8)]


class Line(ctypes.Structure):
    """Where a line begins and ends, and how many of its positions are shown."""

    _fields_ = [("start", c_size_t), ("end", c_size_t), ("shown", c_size_t)]


class Run(ctypes.Structure):
    """A visual run of a line."""

    _fields_ = [("start", c_size_t), ("length", c_size_t), ("shown", c_size_t), ("level", c_uint8)]


class Verdict(ctypes.Structure):
    """The seven numbers of a verdict."""

    _fields_ = [
        ("answer", c_uint32), ("reason", c_uint32), ("direction", c_uint32), ("line", c_uint64),
        ("index", c_size_t), ("rows", c_uint64), ("cases", c_uint64),
    ]


class Item(ctypes.Structure):
    """What a row claims at a place, or what a layout has there."""

    _fields_ = [("kind", c_uint32), ("value", c_size_t)]


class WrongCase(ctypes.Structure):
    """A wrong case of a test file."""

    _fields_ = [
        ("line", c_uint64), ("direction", c_uint32), ("place", c_uint32), ("index", c_size_t), ("claimed", Item),
        ("defined", Item),
    ]


class Counts(ctypes.Structure):
    """The counts of a report."""

    _fields_ = [
        *((name, c_uint64) for name in (
            "rows", "cases", "wrong_rows", "wrong_cases", "ltr", "rtl", "auto_ltr", "auto_rtl", "para_level", "levels",
            "order", "malformed")),
        ("cause", c_uint32),
    ]


# What each call returns, and what it takes.
Calls = typing.Dict[str, typing.Tuple[typing.Any, typing.List[typing.Any]]]
HANDLE = POINTER(Handle)
TEXT = [HANDLE, HANDLE, c_void_p, c_size_t, c_uint32, c_void_p, c_size_t]
CLASSES = [HANDLE, c_char_p, c_size_t, c_uint32, c_void_p, c_size_t]
PLACE = POINTER(c_uint64)
BYTE = POINTER(c_uint8)
RUNS = [HANDLE, c_size_t, POINTER(Run), c_size_t]
CALLS: Calls = {
    "bidi_tables_new": (c_uint32, [c_char_p, c_size_t] * 3 + [HANDLE, POINTER(Fault)]),
    "bidi_tables_free": (None, [HANDLE]),
    "bidi_mirror": (c_uint32, [HANDLE, c_uint32]),
    "bidi_room_new": (c_uint32, [c_size_t, HANDLE]),
    "bidi_room_free": (None, [HANDLE]),
    "bidi_lay_out_with": (c_uint32, [*TEXT, Limits, PLACE]),
    "bidi_lay_out_classes_with": (c_uint32, [*CLASSES, Limits, PLACE]),
    "bidi_levels": (c_size_t, [HANDLE, c_void_p, c_size_t]),
    "bidi_para_levels": (c_size_t, [HANDLE, c_void_p, c_size_t]),
    "bidi_line_count": (c_size_t, [HANDLE]),
    "bidi_line": (c_uint32, [HANDLE, c_size_t, POINTER(Line)]),
    "bidi_order": (c_size_t, [HANDLE, c_size_t, c_void_p, c_size_t]),
    "bidi_places": (c_size_t, [HANDLE, c_size_t, c_void_p, c_size_t]),
    "bidi_shown": (c_size_t, [HANDLE, HANDLE, c_void_p, c_size_t, c_size_t, c_void_p, c_size_t]),
    "bidi_judge_new_classes_with": (c_uint32, [HANDLE, Limits]),
    "bidi_judge_new_characters_with": (c_uint32, [HANDLE, HANDLE, Limits]),
    "bidi_judge_free": (None, [HANDLE]),
    "bidi_judge_feed": (c_uint32, [HANDLE, c_char_p, c_size_t]),
    "bidi_judge_finish": (c_uint32, [HANDLE, POINTER(Verdict)]),
    "bidi_verdict_text": (c_uint32, [POINTER(Verdict), c_void_p, c_size_t, POINTER(c_size_t)]),
}
# Calls that not every library has.
NEWER_CALLS: Calls = {
    "bidi_tables_standard": (c_uint32, [HANDLE]),
    "bidi_tables_share": (c_uint32, [HANDLE, HANDLE]),
    "bidi_edition": (c_size_t, [c_void_p, c_size_t]),
    "bidi_version": (c_size_t, [c_void_p, c_size_t]),
    "bidi_set_lines": (c_uint32, [HANDLE, c_void_p, c_size_t, PLACE]),
    "bidi_line_of": (c_uint32, [HANDLE, c_size_t, c_size_t, *[c_void_p, c_size_t] * 2, POINTER(c_size_t)]),
    "bidi_base_level": (c_uint32, [HANDLE, c_void_p, c_size_t, c_uint32, BYTE, PLACE]),
    "bidi_base_levels": (
        c_uint32, [HANDLE, c_void_p, c_size_t, c_uint32, c_void_p, c_size_t, POINTER(c_size_t), PLACE],
    ),
    "bidi_is_left_to_right": (c_uint32, [HANDLE, c_void_p, c_size_t, BYTE, PLACE]),
    "bidi_runs": (c_size_t, RUNS),
    "bidi_encoded_runs": (c_size_t, RUNS),
    "bidi_class": (c_uint32, [HANDLE, c_uint32, BYTE]),
    "bidi_bracket": (c_uint32, [HANDLE, c_uint32, BYTE]),
}
# Those for texts in UTF-8.
UTF8_TEXT = [HANDLE, HANDLE, c_char_p, c_size_t, c_uint32, c_void_p, c_size_t, Limits, PLACE]
UTF8_CALLS: Calls = {
    "bidi_room_new_encoded": (c_uint32, [c_size_t, HANDLE]),
    "bidi_lay_out_utf8_with": (c_uint32, UTF8_TEXT),
    "bidi_lay_out_utf8_lossy_with": (c_uint32, UTF8_TEXT),
    "bidi_encoded_set_lines": (c_uint32, [HANDLE, c_void_p, c_size_t, PLACE]),
    "bidi_index_of": (c_size_t, [HANDLE, c_size_t]),
    "bidi_offset_of": (c_size_t, [HANDLE, c_size_t]),
    "bidi_level_at": (c_uint8, [HANDLE, c_size_t]),
    "bidi_encoded_levels": (c_size_t, [HANDLE, c_void_p, c_size_t]),
    "bidi_encoded_line": (c_uint32, [HANDLE, c_size_t, POINTER(Line)]),
    "bidi_encoded_order": (c_size_t, [HANDLE, c_size_t, c_void_p, c_size_t]),
}
# Those for one line alone of such a text, and for the place and the paragraph of each byte.
UTF8_LINE_CALLS: Calls = {
    "bidi_encoded_line_of": (c_uint32, [HANDLE, c_size_t, c_size_t, *[c_void_p, c_size_t] * 2, POINTER(c_size_t)]),
    "bidi_encoded_places": (c_size_t, [HANDLE, c_size_t, c_void_p, c_size_t]),
    "bidi_encoded_para_level_at": (c_uint8, [HANDLE, c_size_t]),
}
# Those for such texts without a layout.
UTF8_BASE_CALLS: Calls = {
    "bidi_base_level_utf8": (c_uint32, [HANDLE, c_char_p, c_size_t, c_uint32, BYTE, PLACE]),
    "bidi_base_levels_utf8": (
        c_uint32, [HANDLE, c_char_p, c_size_t, c_uint32, c_void_p, c_size_t, POINTER(c_size_t), PLACE],
    ),
    "bidi_is_left_to_right_utf8": (c_uint32, [HANDLE, c_char_p, c_size_t, BYTE, PLACE]),
}
# That for a line of such a text as it is shown.
UTF8_SHOWN_CALLS: Calls = {
    "bidi_encoded_shown_utf8": (c_size_t, [HANDLE, HANDLE, c_char_p, c_size_t, c_size_t, c_void_p, c_size_t]),
}
# Those for reports on test files.
REPORT_CALLS: Calls = {
    "bidi_report_new_classes_with": (c_uint32, [HANDLE, Limits]),
    "bidi_report_new_characters_with": (c_uint32, [HANDLE, HANDLE, Limits]),
    "bidi_report_free": (None, [HANDLE]),
    "bidi_report_feed": (c_uint32, [HANDLE, c_char_p, c_size_t, POINTER(c_size_t)]),
    "bidi_report_next": (c_uint32, [HANDLE, POINTER(WrongCase)]),
    "bidi_report_finish": (c_uint32, [HANDLE, POINTER(Counts)]),
}
# The greatest word.
MOST = 2**64 - 1


def candidates() -> typing.List[str]:
    """Returns the names under which the library is looked for: only that of BIDI_LIBRARY if it is set, else the one
    that was installed with this package, and then the system's."""
    named = os.environ.get("BIDI_LIBRARY")
    if named:
        return [named]
    inside = pathlib.Path(__file__).with_name(SONAME)
    return [str(inside), SONAME] if inside.exists() else [SONAME]


def load() -> ctypes.CDLL:
    """Loads the library and declares its calls. While one runs, other threads of Python do too."""
    reasons = []
    for name in candidates():
        try:
            found = ctypes.CDLL(name)
        except OSError as error:
            reasons.append(str(error))
            continue
        declare(found)
        return found
    raise ImportError("no library libbidi_c: " + "; ".join(reasons))


def declare(found: ctypes.CDLL) -> None:
    """Declares what the calls take and return."""
    utf8 = {**UTF8_CALLS, **UTF8_LINE_CALLS, **UTF8_BASE_CALLS, **UTF8_SHOWN_CALLS}
    newer = {**NEWER_CALLS, **utf8, **REPORT_CALLS}
    known = {**CALLS, **{name: types for name, types in newer.items() if hasattr(found, name)}}
    for name, (result, words) in known.items():
        call = getattr(found, name)
        call.restype, call.argtypes = result, words


CALL = load()
HAS_STANDARD_TABLES = hasattr(CALL, "bidi_tables_standard") and hasattr(CALL, "bidi_edition")
# Whether several handles can hold the same tables, so that threads use them at once.
SHARES_TABLES = hasattr(CALL, "bidi_tables_share")
# Whether a text that is laid out can be broken into other lines.
SETS_LINES = hasattr(CALL, "bidi_set_lines")
# Whether one line alone of such a text can be laid out.
HAS_LINE_OF = hasattr(CALL, "bidi_line_of")
# Whether it returns the class and the bracket of a character.
HAS_PROPERTIES = hasattr(CALL, "bidi_class") and hasattr(CALL, "bidi_bracket")
# Whether it returns all visual runs of a line at once, with removed positions.
HAS_RUNS = hasattr(CALL, "bidi_runs") and hasattr(CALL, "bidi_encoded_runs")
# Whether it says of a text what is known without a layout.
HAS_BASE_LEVEL = hasattr(CALL, "bidi_base_level") and hasattr(CALL, "bidi_is_left_to_right")
# Whether it says so of all paragraphs.
HAS_BASE_LEVELS = hasattr(CALL, "bidi_base_levels")
# Whether it lays out texts in UTF-8, strictly or with U+FFFD for ill-formed bytes, and breaks them again.
HAS_UTF8 = all(hasattr(CALL, name) for name in UTF8_CALLS)
# Whether one line alone of such a text can be laid out, and each byte has a place and the level of its paragraph.
HAS_UTF8_LINE_OF = all(hasattr(CALL, name) for name in UTF8_LINE_CALLS)
# Whether it returns the levels of paragraphs of such a text without a layout.
HAS_UTF8_BASE_LEVELS = all(hasattr(CALL, name) for name in UTF8_BASE_CALLS)
# Whether it returns a line of such a text as it is shown.
HAS_UTF8_SHOWN = all(hasattr(CALL, name) for name in UTF8_SHOWN_CALLS)
# Whether it reports on test files.
HAS_REPORTS = all(hasattr(CALL, name) for name in REPORT_CALLS)


def items(code: str, n: int) -> "array.array[int]":
    """Returns memory for n items of a type of the module array, and for one if n is 0, so that it has an address."""
    memory: "array.array[int]" = array.array(code)
    memory.frombytes(bytes(memory.itemsize * max(n, 1)))
    return memory


def address(memory: "array.array[int]") -> int:
    """Returns the address of the items of an array."""
    return memory.buffer_info()[0]


def copied(code: str, ask: typing.Callable[[int, int], int]) -> "array.array[int]":
    """Returns the items that a look-up writes: `ask(address, place)` returns how many there are."""
    memory = items(code, 0)
    n = ask(address(memory), 0)
    memory = items(code, n)
    ask(address(memory), n)
    return memory[:n]


def need_str(text: str, utf8_call: str) -> None:
    """Fails with TypeError if a text is no str. The message names the call that takes bytes of UTF-8."""
    if not isinstance(text, str):
        raise TypeError(f"a text is a str, not {type(text).__name__}: {utf8_call} takes bytes of UTF-8")


def codes_of(text: str, utf8_call: str) -> "array.array[int]":
    """Returns the code points of a str. Half of a surrogate pair is unchanged, and the library rejects it. Fails as
    need_str does."""
    need_str(text, utf8_call)
    codes = array.array("I")
    codes.frombytes(text.encode("utf-32-le", "surrogatepass"))
    return codes or items("I", 0)


def bytes_of(text: Text) -> bytes:
    """Returns the bytes of a text, those of its UTF-8 if it is a str. Half of a surrogate pair becomes bytes that are
    not UTF-8, which the library rejects or replaces. Fails with TypeError if a text is a number."""
    if isinstance(text, int):
        raise TypeError(f"a text in UTF-8 is a str or bytes, not {type(text).__name__}")
    return text.encode("utf-8", "surrogatepass") if isinstance(text, str) else bytes(text)


def version() -> typing.Optional[str]:
    """Returns the version of the library that was loaded, such as "1.1.0", or None if it has no call for that."""
    return copied("B", CALL.bidi_version).tobytes().decode("ascii") if hasattr(CALL, "bidi_version") else None
