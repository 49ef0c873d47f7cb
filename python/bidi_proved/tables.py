"""Tables: the class, the bracket and the mirrored character of each character."""
import contextlib
import ctypes
import enum
import functools
import os
import pathlib
import threading
import typing
import weakref

from . import library
from .errors import check_status
from .library import CALL, HAS_STANDARD_TABLES, SHARES_TABLES, Fault, Handle, copied

CLASSES = "L R AL EN ES ET AN CS NSM BN B S WS ON LRE LRO RLE RLO PDF LRI RLI FSI PDI".split()


class Bracket(enum.IntEnum):
    """What a character is as a bracket (BD14, BD15)."""

    NONE = 0
    OPENING = 1
    CLOSING = 2


def _file_of(folder: pathlib.Path, name: str) -> pathlib.Path:
    """Returns the file of this name in the folder, or else in its folder `extracted`, as Unicode publishes it."""
    here = folder / name
    return here if here.exists() or not (folder / "extracted" / name).exists() else folder / "extracted" / name


def edition() -> typing.Optional[str]:
    """Returns the edition of Unicode of the built-in tables, such as "17.0.0", or None if the library has none."""
    return copied("B", CALL.bidi_edition).tobytes().decode("ascii") if HAS_STANDARD_TABLES else None


class Tables:
    """The classes, brackets and mirrored characters of all characters, from three property files of one edition of
    Unicode.

    Any number of threads may use one at once. A pickled one is made again when it is loaded.
    """

    def __init__(self, classes: bytes, brackets: bytes, mirrors: bytes) -> None:
        """Reads them from the bytes of DerivedBidiClass.txt, BidiBrackets.txt and BidiMirroring.txt.

        Fails with ClassFileFault, BracketFileFault or MirrorFileFault, which name the line, if a file is faulty.
        """
        self._begin((bytes(classes), bytes(brackets), bytes(mirrors)))

    @classmethod
    def read(cls, folder: typing.Union[str, "os.PathLike[str]"]) -> "Tables":
        """Reads them from the three files in a folder; DerivedBidiClass.txt may be in its folder `extracted`."""
        folder = pathlib.Path(folder)
        names = ("DerivedBidiClass.txt", "BidiBrackets.txt", "BidiMirroring.txt")
        return cls(*(_file_of(folder, name).read_bytes() for name in names))

    @classmethod
    def standard(cls) -> "Tables":
        """Returns the tables that are built into the library. NotImplementedError: this library has none."""
        if not HAS_STANDARD_TABLES:
            raise NotImplementedError("this libbidi_c has no tables built in: use Tables.read")
        made = cls.__new__(cls)
        made._begin(None)
        return made

    def mirror(self, character: str) -> str:
        """Returns the mirrored form of a character (L4), or the character itself if it has none."""
        with self._lock:
            return chr(CALL.bidi_mirror(self._handle, ord(character)))

    def class_of(self, character: str) -> str:
        """Returns the short name of a character's class, such as "AL".

        Fails with NoCharacter if it is half of a surrogate pair. NotImplementedError: the library is an older one.
        """
        return CLASSES[self._asked("bidi_class", character)]

    def bracket_of(self, character: str) -> Bracket:
        """Returns whether a character is an opening or a closing bracket.

        Fails with NoCharacter if it is half of a surrogate pair. NotImplementedError: the library is an older one.
        """
        return Bracket(self._asked("bidi_bracket", character))

    def __repr__(self) -> str:
        return "Tables.standard()" if self._files is None else "<Tables of three property files>"

    def _asked(self, name: str, character: str) -> int:
        """Returns the number that a call of the library returns for a character."""
        if not library.HAS_PROPERTIES:
            raise NotImplementedError("this library returns no properties of single characters")
        found = ctypes.c_uint8(0)
        with self._lock:
            status = getattr(CALL, name)(self._handle, ord(character), found)
        check_status(status, place=0)
        return found.value

    def __reduce__(self) -> typing.Tuple[typing.Any, ...]:
        return (Tables, self._files) if self._files else (Tables.standard, ())

    def _begin(self, files: typing.Optional[typing.Tuple[bytes, bytes, bytes]]) -> None:
        self._files = files
        self._handle = self._made()
        self._lock = threading.Lock()
        self._separators: typing.Dict[str, bool] = {}
        weakref.finalize(self, CALL.bidi_tables_free, self._handle)

    def _made(self) -> Handle:
        """Returns a handle on new tables; the caller frees it."""
        handle, fault = Handle(), Fault()
        if self._files is None:
            check_status(CALL.bidi_tables_standard(handle))
        else:
            words = [word for file in self._files for word in (file, len(file))]
            check_status(CALL.bidi_tables_new(*words, handle, ctypes.byref(fault)), fault=fault)
        return handle

    def _another(self) -> Handle:
        """Returns another handle on these tables; the caller frees it."""
        if not SHARES_TABLES:
            return self._made()
        handle = Handle()
        with self._lock:
            check_status(CALL.bidi_tables_share(self._handle, handle))
        return handle

    def _separates(self, character: str) -> bool:
        """Returns whether a character ends a paragraph (class B)."""
        if character not in self._separators:
            self._separators[character] = self._has_class_b(character)
        return self._separators[character]

    def _has_class_b(self, character: str) -> bool:
        """Returns whether the class of a character is B. In a library without classes of characters, it is if one after
        it begins another paragraph."""
        if library.HAS_PROPERTIES:
            return self.class_of(character) == "B"
        from .layout import lay_out

        return len(lay_out(character + "a", self).paragraph_levels) == 2


@functools.lru_cache(maxsize=None)
def default_tables() -> Tables:
    """Returns the built-in tables that calls use if they are given none."""
    return Tables.standard()


def need_tables(given: typing.Any) -> Tables:
    """Returns the tables that a call was given. Fails with TypeError if they are something else, such as a direction
    without its name."""
    if not isinstance(given, Tables):
        kind = type(given).__name__
        raise TypeError(f"tables are a Tables or None, not {kind}: a direction is passed as direction=")
    return given


def tables_or_default(given: typing.Optional[Tables]) -> Tables:
    """Returns the tables that a call was given, or those that are built in. Fails as need_tables does."""
    return default_tables() if given is None else need_tables(given)


class RoomTables:
    """Tables as a room uses them: through a handle of its own, or, if the library shares none, through that of the
    tables, for one thread at a time."""

    guard: typing.ContextManager[typing.Any]

    def __init__(self, tables: Tables) -> None:
        self.tables = tables
        if SHARES_TABLES:
            self.handle, self.guard = tables._another(), contextlib.nullcontext()
            weakref.finalize(self, CALL.bidi_tables_free, self.handle)
        else:
            self.handle, self.guard = tables._handle, tables._lock
