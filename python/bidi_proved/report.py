"""Reports on the algorithm's two conformance files: all of their wrong cases, one by one, and their counts."""
import ctypes
import enum
import threading
import typing
import weakref

from . import library
from .errors import BidiError, NoReport, check_status
from .judge import Cause, Piece, Source, Wrong, _pieces
from .layout import Direction, Limits
from .library import CALL, Handle
from .tables import Tables, need_tables, tables_or_default

NO_CASE = 27
LEVEL, POSITION, REMOVED = 2, 3, 1
WORDS = {Direction.LTR: "ltr", Direction.RTL: "rtl", Direction.AUTO: "auto", Direction.AUTO_RTL: "auto-rtl"}
PLACES = {Wrong.PARA_LEVEL: "paragraph level", Wrong.LEVELS: "levels at {}", Wrong.ORDER: "order at {}"}


class Nothing(enum.Enum):
    """What is after the end of a list."""

    ENDED = "nothing"


ENDED = Nothing.ENDED
# A level or a position, None if X9 removes the position, ENDED if the list ends before the place.
Item = typing.Union[int, None, Nothing]


def _words(item: Item) -> str:
    if item is ENDED:
        return ENDED.value
    return "x" if item is None else str(item)


class WrongCase(typing.NamedTuple):
    """A row of a test file that is wrong under one of its directions; `str` of it is the line that the command
    `bidi report` prints.

    `place` and `index` name the first place at which what the row claims differs from what the algorithm gives: `index`
    counts in the list of levels or of the order, from 0, and is None for the paragraph's level. `line` counts from 1.
    """

    line: int
    direction: Direction
    place: Wrong
    index: typing.Optional[int]  # type: ignore[assignment]
    claimed: Item
    defined: Item

    def __str__(self) -> str:
        place = PLACES[self.place].format(self.index)
        differs = f"claimed {_words(self.claimed)}, defined {_words(self.defined)}"
        return f"line {self.line}: {WORDS[self.direction]}: {place}: {differs}"


class Counts(typing.NamedTuple):
    """The counts of a test file up to its first malformed line, and that line with its cause, or None and None.

    A row has a case for each direction that it names. `directions` has the number of wrong cases for each Direction,
    `places` for each Wrong, by what differs first.
    """

    rows: int
    cases: int
    wrong_rows: int
    wrong_cases: int
    directions: typing.Dict[Direction, int]
    places: typing.Dict[Wrong, int]
    malformed: typing.Optional[int]
    cause: typing.Optional[Cause]

    def __bool__(self) -> bool:
        return self.wrong_cases == 0 and self.malformed is None


class MalformedLine(BidiError, ValueError):
    """A line of a test file is malformed: `line` is the first such line, from 1, and `cause` says why. Nothing after it
    is reported on."""

    line: int
    cause: Cause

    def __init__(self, line: int, cause: int) -> None:
        super().__init__(f"line {line}: malformed: {Cause(cause).name}")
        self.line, self.cause = line, Cause(cause)

    def __reduce__(self) -> typing.Tuple[typing.Any, ...]:
        return type(self), (self.line, self.cause)


def _item_of(encoded: library.Item) -> Item:
    if encoded.kind in (LEVEL, POSITION):
        return int(encoded.value)
    return None if encoded.kind == REMOVED else ENDED


def _case_of(encoded: library.WrongCase) -> WrongCase:
    place = Wrong(encoded.place)
    index = None if place == Wrong.PARA_LEVEL else encoded.index
    return WrongCase(
        encoded.line, Direction(encoded.direction), place, index, _item_of(encoded.claimed), _item_of(encoded.defined))


def _counts_of(encoded: library.Counts) -> Counts:
    directions = {
        Direction.LTR: encoded.ltr, Direction.RTL: encoded.rtl, Direction.AUTO: encoded.auto_ltr,
        Direction.AUTO_RTL: encoded.auto_rtl,
    }
    places = {Wrong.PARA_LEVEL: encoded.para_level, Wrong.LEVELS: encoded.levels, Wrong.ORDER: encoded.order}
    malformed = (encoded.malformed, Cause(encoded.cause)) if encoded.cause else (None, None)
    return Counts(encoded.rows, encoded.cases, encoded.wrong_rows, encoded.wrong_cases, directions, places, *malformed)


class Report:
    """A report on one file, which is given in pieces of any length."""

    def __init__(self, tables: typing.Optional[Tables] = None, limits: Limits = Limits()) -> None:
        """Makes a report on a BidiCharacterTest.txt with tables, or on a BidiTest.txt if none are given."""
        if not library.HAS_REPORTS:
            raise NotImplementedError("this library has no reports")
        self._handle = Handle()
        self._lock = threading.Lock()
        self._counts: typing.Optional[Counts] = None
        by = Limits(*limits)._for_call()
        if tables is None:
            check_status(CALL.bidi_report_new_classes_with(self._handle, by))
        else:
            of_its_own = need_tables(tables)._another()
            try:
                check_status(CALL.bidi_report_new_characters_with(of_its_own, self._handle, by))
            finally:
                CALL.bidi_tables_free(of_its_own)
        weakref.finalize(self, CALL.bidi_report_free, self._handle)

    def _next(self) -> typing.Optional[WrongCase]:
        """Returns the next of the wrong cases that were found last, or None if none is left."""
        encoded = library.WrongCase()
        status = CALL.bidi_report_next(self._handle, encoded)
        if status == NO_CASE:
            return None
        check_status(status)
        return _case_of(encoded)

    def feed(self, piece: Piece) -> typing.List[WrongCase]:
        """Takes the next bytes of the file, and returns the wrong cases on the lines that end in them. NoReport: the
        file has ended."""
        piece = bytes(memoryview(piece))
        used = ctypes.c_size_t(0)
        found: typing.List[WrongCase] = []
        with self._lock:
            if self._counts is not None:
                raise NoReport(NoReport.says)
            while piece:
                check_status(CALL.bidi_report_feed(self._handle, piece, len(piece), used))
                found.extend(iter(self._next, None))
                piece = piece[used.value :]
        return found

    def finish(self) -> typing.List[WrongCase]:
        """Takes the end of the file, and returns the wrong cases on a last line without LF. NoReport: the file has
        ended before."""
        encoded = library.Counts()
        with self._lock:
            check_status(CALL.bidi_report_finish(self._handle, encoded))
            self._counts = _counts_of(encoded)
            return list(iter(self._next, None))

    @property
    def counts(self) -> typing.Optional[Counts]:
        """The counts of the file, or None if its end was not given."""
        return self._counts


def _reported(report: Report, source: Source) -> typing.Generator[WrongCase, None, typing.Any]:
    for piece in _pieces(source):
        yield from report.feed(piece)
    yield from report.finish()
    counts: typing.Any = report.counts
    if counts.malformed is not None:
        raise MalformedLine(counts.malformed, counts.cause)
    return counts


def report_classes(source: Source, limits: Limits = Limits()) -> typing.Iterator[WrongCase]:
    """Yields the wrong cases of a BidiTest.txt, in its order: bytes, a file that is open for reading bytes, or what
    yields bytes. MalformedLine is raised after those before the first malformed line, if there is one."""
    return _reported(Report(None, limits), source)


def report_characters(
    source: Source, tables: typing.Optional[Tables] = None, limits: Limits = Limits()
) -> typing.Iterator[WrongCase]:
    """Yields the wrong cases of a BidiCharacterTest.txt with tables, or with those that are built in, in its order, as
    `report_classes` does."""
    return _reported(Report(tables_or_default(tables), limits), source)
