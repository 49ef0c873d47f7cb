"""The judge of the algorithm's two conformance files, BidiTest.txt and BidiCharacterTest.txt."""
import ctypes
import enum
import threading
import typing
import weakref

from . import library
from .errors import check_status
from .layout import Direction, Limits
from .library import CALL, Handle, address, items
from .tables import Tables, need_tables, tables_or_default

Piece = typing.Union[bytes, bytearray, memoryview]
Source = typing.Union[Piece, typing.BinaryIO, typing.Iterable[bytes]]
PIECE = 65536
LINE = 72


class Answer(enum.IntEnum):
    """The three kinds of a verdict."""

    YES = 0
    MALFORMED = 1
    WRONG = 2


class Cause(enum.IntEnum):
    """Why a line is malformed."""

    LINE_TOO_LONG = 1
    DIRECTIVE = 2
    LEVEL_ITEM = 3
    ORDER_ITEM = 4
    CLASS_ITEM = 5
    BIT_SET = 6
    NO_EXPECTATION = 7
    FIELD_COUNT = 8
    CODE_POINT = 9
    DIRECTION_FIELD = 10
    PARA_FIELD = 11
    EMPTY_ROW = 12


class Wrong(enum.IntEnum):
    """Which part of a row differs from what the algorithm gives."""

    PARA_LEVEL = 1
    LEVELS = 2
    ORDER = 3


class Verdict(typing.NamedTuple):
    """What a judge says of a file; `str` of it is the line that the command `bidi judge` prints.

    `reason` is a Cause if the file is malformed, and a Wrong if a row is wrong. `line` counts from 1. `direction` and
    `index` (in the list of levels or of the order) are of a wrong row. `rows` and `cases` say how many a right file
    has. What a verdict doesn't name is None.
    """

    answer: Answer
    reason: typing.Union[Cause, Wrong, None]
    direction: typing.Optional[Direction]
    line: typing.Optional[int]
    index: typing.Optional[int]  # type: ignore[assignment]
    rows: typing.Optional[int]
    cases: typing.Optional[int]
    words: str

    def __bool__(self) -> bool:
        return self.answer == Answer.YES

    def __str__(self) -> str:
        return self.words


class Judge:
    """A judge of one file, which is given in pieces of any length."""

    def __init__(self, tables: typing.Optional[Tables] = None, limits: Limits = Limits()) -> None:
        """Makes a judge of a BidiCharacterTest.txt with tables, or of a BidiTest.txt if none are given."""
        self._handle = Handle()
        self._lock = threading.Lock()
        by = Limits(*limits)._for_call()
        if tables is None:
            check_status(CALL.bidi_judge_new_classes_with(self._handle, by))
        else:
            of_its_own = need_tables(tables)._another()
            try:
                check_status(CALL.bidi_judge_new_characters_with(of_its_own, self._handle, by))
            finally:
                CALL.bidi_tables_free(of_its_own)
        weakref.finalize(self, CALL.bidi_judge_free, self._handle)

    def feed(self, piece: Piece) -> None:
        """Takes the next bytes of the file. NoJudge: the verdict was returned."""
        piece = bytes(memoryview(piece))
        with self._lock:
            check_status(CALL.bidi_judge_feed(self._handle, piece, len(piece)))

    def finish(self) -> Verdict:
        """Returns the verdict on all bytes that were given. NoJudge: it was returned before."""
        encoded = library.Verdict()
        with self._lock:
            check_status(CALL.bidi_judge_finish(self._handle, encoded))
        return _verdict_of(encoded)


def _line_of(encoded: library.Verdict) -> str:
    """Returns the line that states a verdict, without its LF."""
    text, length = items("B", LINE), ctypes.c_size_t(0)
    check_status(CALL.bidi_verdict_text(encoded, address(text), LINE, length))
    return text[: length.value].tobytes().decode("ascii").rstrip("\n")


def _verdict_of(encoded: library.Verdict) -> Verdict:
    answer, words = Answer(encoded.answer), _line_of(encoded)
    if answer == Answer.YES:
        return Verdict(answer, None, None, None, None, encoded.rows, encoded.cases, words)
    if answer == Answer.MALFORMED:
        return Verdict(answer, Cause(encoded.reason), None, encoded.line, None, None, None, words)
    index = None if encoded.reason == Wrong.PARA_LEVEL else encoded.index
    return Verdict(answer, Wrong(encoded.reason), Direction(encoded.direction), encoded.line, index, None, None, words)


def _pieces(source: typing.Any) -> typing.Any:
    """Yields the pieces of bytes, of a file that is open for reading bytes, or of what yields bytes."""
    try:
        return [memoryview(source)]
    except TypeError:
        pass
    if hasattr(source, "read"):
        return iter(lambda: source.read(PIECE), b"")
    return source


def _judged(judge: Judge, source: Source) -> Verdict:
    for piece in _pieces(source):
        judge.feed(piece)
    return judge.finish()


def judge_classes(source: Source, limits: Limits = Limits()) -> Verdict:
    """Returns the verdict on a BidiTest.txt: bytes, a file that is open for reading bytes, or what yields bytes."""
    return _judged(Judge(None, limits), source)


def judge_characters(
    source: Source, tables: typing.Optional[Tables] = None, limits: Limits = Limits()
) -> Verdict:
    """Returns the verdict on a BidiCharacterTest.txt with tables, or with those that are built in: bytes, a file that
    is open for reading bytes, or what yields bytes."""
    return _judged(Judge(tables_or_default(tables), limits), source)
