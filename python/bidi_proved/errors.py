"""Errors of the library: one exception for each of its statuses."""
import enum
import typing


class BidiError(Exception):
    """A call of the library failed. What was laid out, read or judged before is unchanged."""

    status = 0
    says = "a call of the library failed"  # python -OO leaves out the texts above


class PlacedError(BidiError, ValueError):
    """An error that names a place: the index of the first faulty item."""

    place: int

    def __init__(self, place: int) -> None:
        super().__init__(f"{self.says} (at {place})")
        self.place = place

    def __reduce__(self) -> typing.Tuple[typing.Any, ...]:
        return type(self), (self.place,)


class MemoryRefused(BidiError, MemoryError):
    """Memory was refused."""

    says = "Memory was refused"
    status = 1


class RoomTooBig(BidiError, ValueError):
    """A room for more than 16,777,216 characters was asked for."""

    says = "A room for more than 16,777,216 characters was asked for"
    status = 2


class TextTooLong(BidiError, ValueError):
    """The text is longer than the room."""

    says = "The text is longer than the room"
    status = 3


class NoCharacter(PlacedError):
    """A code point is no scalar value: half of a surrogate pair."""

    says = "A code point is no scalar value: half of a surrogate pair"
    status = 4


class NoClass(PlacedError):
    """A number is no class."""

    says = "A number is no class"
    status = 5


class BreakOutOfRange(PlacedError):
    """A break is below 1, or not below the text's length."""

    says = "A break is below 1, or not below the text's length"
    status = 6


class BreakNotRising(PlacedError):
    """A break is not above the one before."""

    says = "A break is not above the one before"
    status = 7


class NoLine(BidiError, IndexError):
    """The layout has no such line."""

    says = "The layout has no such line"
    status = 11


class NoJudge(BidiError, ValueError):
    """The judge has returned its verdict, and takes no more bytes."""

    says = "The judge has returned its verdict, and takes no more bytes"
    status = 16


class DepthRefused(BidiError, ValueError):
    """The depth of a limit is below 1 or above 125."""

    says = "The depth of a limit is below 1 or above 125"
    status = 17


class BracketsRefused(BidiError, ValueError):
    """The number of brackets of a limit is below 0 or above 63."""

    says = "The number of brackets of a limit is below 0 or above 63"
    status = 18


class NoVerdict(BidiError, ValueError):
    """The numbers encode no verdict."""

    says = "The numbers encode no verdict"
    status = 19


class LineNotForward(BidiError, ValueError):
    """The line does not start below its end."""

    says = "The line does not start below its end"
    status = 21


class LineBeyondText(BidiError, ValueError):
    """The line starts below 0, or ends after the text."""

    says = "The line starts below 0, or ends after the text"
    status = 22


class LineCrossesParagraph(BidiError, ValueError):
    """The line goes on after the end of a paragraph."""

    says = "The line goes on after the end of a paragraph"
    status = 23


class IllFormed(PlacedError):
    """The bytes are not UTF-8: `place` is the offset of the first that is not part of a character."""

    says = "The bytes are not UTF-8"
    status = 24


class BreakInside(PlacedError):
    """A break is inside a character."""

    says = "A break is inside a character"
    status = 25


class NoReport(BidiError, ValueError):
    """The file of the report has ended, and it takes no more bytes."""

    says = "The file of the report has ended, and it takes no more bytes"
    status = 26


class StaleLayout(BidiError):
    """The room has laid out another text since, or broken this one into other lines."""

    says = "The room has laid out another text since, or broken this one into other lines"


class FaultKind(enum.IntEnum):
    """What is wrong with a line of a property file."""

    CODE_POINT = 1
    BACKWARDS = 2
    CLASS_NAME = 3
    FIELDS = 4
    OVERLAP = 5
    TWICE = 6
    BRACKET_KIND = 7
    LINE_TOO_LONG = 8
    TOO_MANY = 9


class TableFault(BidiError, ValueError):
    """A property file is faulty: `line` is its first faulty line, from 1, and `kind` says what is wrong there."""

    file = ""
    line: int
    kind: FaultKind

    def __init__(self, line: int, kind: int) -> None:
        super().__init__(f"{self.file}: line {line}: {FaultKind(kind).name}")
        self.line, self.kind = line, FaultKind(kind)

    def __reduce__(self) -> typing.Tuple[typing.Any, ...]:
        return type(self), (self.line, self.kind)


class ClassFileFault(TableFault):
    """DerivedBidiClass.txt is faulty."""

    status, file = 12, "DerivedBidiClass.txt"


class BracketFileFault(TableFault):
    """BidiBrackets.txt is faulty."""

    status, file = 13, "BidiBrackets.txt"


class MirrorFileFault(TableFault):
    """BidiMirroring.txt is faulty."""

    status, file = 14, "BidiMirroring.txt"


def _kinds(base: typing.Type[BidiError]) -> typing.List[typing.Type[BidiError]]:
    """Returns this class and all below it."""
    return [base, *(kind for below in base.__subclasses__() for kind in _kinds(below))]


BY_STATUS = {kind.status: kind for kind in _kinds(BidiError) if kind.status}


def check_status(status: int, place: int = 0, fault: typing.Any = None) -> None:
    """Raises the exception of a status; does nothing if it is 0."""
    if status == 0:
        return
    kind = BY_STATUS.get(status)
    if kind is None:
        raise BidiError(f"status {status} of the library")
    if issubclass(kind, PlacedError):
        raise kind(place)
    if issubclass(kind, TableFault):
        raise kind(fault.line, fault.kind)
    raise kind(kind.says)
