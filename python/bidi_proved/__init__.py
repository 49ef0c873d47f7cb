"""The Unicode Bidirectional Algorithm (UAX #9, P1 to L2 and L4), and a judge of its conformance files, over the proved
library libbidi_c. Positions are those of a str: characters, counted from 0; offsets count the bytes of UTF-8.
docs/PYTHON.md is the manual."""
from .base import (
    base_level, base_level_utf8, base_levels, base_levels_utf8, is_left_to_right, is_left_to_right_utf8,
)
from .errors import (
    BidiError, BracketFileFault, BracketsRefused, BreakInside, BreakNotRising, BreakOutOfRange, ClassFileFault,
    DepthRefused, FaultKind, IllFormed, LineBeyondText, LineCrossesParagraph, LineNotForward, MemoryRefused,
    MirrorFileFault, NoCharacter, NoClass, NoJudge, NoLine, NoReport, NoVerdict, PlacedError, RoomTooBig, StaleLayout,
    TableFault, TextTooLong,
)
from .judge import Answer, Cause, Judge, Verdict, Wrong, judge_characters, judge_classes
from .layout import Direction, Layout, Limits, Line, LineAlone, Room, Run, display, lay_out, lay_out_classes
from .library import HAS_REPORTS, HAS_STANDARD_TABLES, HAS_UTF8, SHARES_TABLES, version
from .report import ENDED, Counts, MalformedLine, Nothing, Report, WrongCase, report_characters, report_classes
from .tables import Bracket, Tables, edition
from .utf8 import Utf8Layout, Utf8Line, Utf8LineAlone, Utf8Room, lay_out_utf8

__version__ = "1.1.0"
# Written out, since checkers of types read it.
__all__ = [
    "Answer", "BidiError", "Bracket", "BracketFileFault", "BracketsRefused", "BreakInside", "BreakNotRising",
    "BreakOutOfRange", "Cause", "ClassFileFault", "Counts", "DepthRefused", "Direction", "ENDED", "FaultKind",
    "HAS_REPORTS", "HAS_STANDARD_TABLES", "HAS_UTF8", "IllFormed", "Judge", "Layout", "Limits", "Line", "LineAlone",
    "LineBeyondText", "LineCrossesParagraph", "LineNotForward", "MalformedLine", "MemoryRefused", "MirrorFileFault",
    "NoCharacter", "NoClass", "NoJudge", "NoLine", "NoReport", "NoVerdict", "Nothing", "PlacedError", "Report", "Room",
    "RoomTooBig", "Run", "SHARES_TABLES", "StaleLayout", "TableFault", "Tables", "TextTooLong", "Utf8Layout",
    "Utf8Line", "Utf8LineAlone", "Utf8Room", "Verdict", "Wrong", "WrongCase", "base_level", "base_level_utf8",
    "base_levels", "base_levels_utf8", "display", "edition", "is_left_to_right", "is_left_to_right_utf8",
    "judge_characters", "judge_classes", "lay_out", "lay_out_classes", "lay_out_utf8", "report_characters",
    "report_classes", "version",
]
