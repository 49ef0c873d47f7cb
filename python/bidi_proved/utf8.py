"""Texts in UTF-8, laid out, with the offsets of bytes as positions."""
import functools
import typing

from . import library
from .errors import check_status
from .layout import (
    NOWHERE, REMOVED, AnyDirection, AnyLayout, AnyLineAlone, AnyRoom, Breaks, Direction, Levels, Limits, Run,
)
from .library import CALL, Handle, Text, bytes_of
from .tables import Tables

# The call for each way to read ill-formed bytes.
_CALLS = {"strict": "bidi_lay_out_utf8_with", "replace": "bidi_lay_out_utf8_lossy_with"}


def _call_for(errors: str) -> typing.Any:
    """Returns the call for a way to read ill-formed bytes."""
    if errors not in _CALLS:
        raise ValueError(f'errors is "strict" or "replace", not {errors!r}')
    return getattr(CALL, _CALLS[errors])


class Utf8Room(AnyRoom):
    """Memory for texts of up to `size` bytes of UTF-8, 128 bytes for each, and for the layout of the last one.

    A program that lays out many texts makes one for each thread. A layout of it can be used until the room lays out the
    next text or breaks this one into other lines, and raises StaleLayout from then on. A call waits while another
    thread is in a call on the same room.
    """

    def __init__(self, size: int) -> None:
        if not library.HAS_UTF8:
            raise NotImplementedError("this library lays out no UTF-8")
        super().__init__(size, CALL.bidi_room_new_encoded, "bytes")

    def lay_out(
        self,
        text: Text,
        tables: typing.Optional[Tables] = None,
        direction: AnyDirection = Direction.AUTO,
        breaks: Breaks = (),
        limits: Limits = Limits(),
        errors: str = "strict",
    ) -> "Utf8Layout":
        """Lays out bytes of UTF-8, or a str as its UTF-8, with tables, or with those that are built in, under a
        direction. Lines begin at its start, after each paragraph separator and at each of `breaks`: rising offsets
        above 0 and below the number of its bytes, at each of which a character begins.

        With errors="replace" each maximal subpart of what is not UTF-8 is read as U+FFFD, as bytes.decode does; such a
        part is one character.

        Fails with TextTooLong, IllFormed, BreakOutOfRange, BreakNotRising, BreakInside, DepthRefused or
        BracketsRefused; the room is unchanged then. ValueError: `errors` is another word.
        """
        call, encoded = _call_for(errors), bytes_of(text)
        call = self._by_tables(call, tables, encoded, len(encoded))
        return self._hold(call, functools.partial(Utf8Layout, text=encoded), direction, breaks, limits)


class Utf8Layout(AnyLayout):
    """What such a room laid out: levels, paragraphs and lines, in offsets. `text` are the bytes."""

    text: bytes

    def __init__(self, room: AnyRoom, number: int, room_tables: typing.Any, text: bytes) -> None:
        super().__init__(room, number, room_tables)
        self.text = text

    def __repr__(self) -> str:
        return f"<Utf8Layout of {len(self.text)} bytes>"

    @property
    def levels(self) -> Levels:
        """The level of each byte after L1, that of its character: None if X9 removes it."""
        return self._levels_of(CALL.bidi_encoded_levels, slice(None))

    def level_at(self, offset: int) -> typing.Optional[int]:
        """The level of the byte at an offset: None if X9 removes its character, and if there is no such byte."""
        level = self._looked_up(CALL.bidi_level_at, offset)
        return None if level == REMOVED else level

    def para_level_at(self, offset: int) -> typing.Optional[int]:
        """Returns the level of the paragraph (P2, P3) in which the byte at an offset lies, None if there is no such
        byte. NotImplementedError: the library is an older one."""
        _need_lines()
        level = self._looked_up(CALL.bidi_encoded_para_level_at, offset)
        return None if level == REMOVED else level

    def index_of(self, offset: int) -> int:
        """The index of the character that the byte at an offset belongs to; from the text's end on how many characters
        it has."""
        return self._looked_up(CALL.bidi_index_of, offset)

    def offset_of(self, index: int) -> int:
        """The offset at which the character with an index begins, from their number on how many bytes there are."""
        return self._looked_up(CALL.bidi_offset_of, index)

    def set_lines(self, breaks: Breaks) -> "Utf8Layout":
        """Returns the layout of the same text with lines that begin at these offsets (L1, L2). It doesn't find levels
        again. This layout raises StaleLayout from then on.

        Fails with BreakOutOfRange, BreakNotRising or BreakInside; the room is unchanged then.
        """
        return self._broken(CALL.bidi_encoded_set_lines, breaks, functools.partial(Utf8Layout, text=self.text))

    def line_of(self, start: int, end: int) -> "Utf8LineAlone":
        """Returns one line alone of the text (L1, L2), from the offset `start` to before `end`, at the cost of that
        line, as Layout.line_of does. This layout and its lines are unchanged.

        Fails with LineNotForward, LineBeyondText, BreakInside or LineCrossesParagraph. The place of BreakInside is 0 if
        `start` is inside a character, and 1 if only `end` is. NotImplementedError: the library is an older one.
        """
        _need_lines()
        return Utf8LineAlone(self, start, end)

    @property
    def lines(self) -> typing.List["Utf8Line"]:
        """Its lines, in the order of the text."""
        return [Utf8Line(self, number) for number in range(self._line_count())]

    def display(self) -> typing.List[bytes]:
        """Returns its lines as they are shown, each in UTF-8 from left to right with mirrored characters (L4), without
        the paragraph separator at its end and without what X9 removes. What shows them must not reorder them again.
        NotImplementedError: the library is an older one."""
        return [line.display() for line in self.lines]

    def _lay_out_line(self, handle: Handle, start: int, *words: typing.Any) -> None:
        """Makes the call for one line alone."""
        status = CALL.bidi_encoded_line_of(handle, start, *words)
        begins = CALL.bidi_offset_of(handle, CALL.bidi_index_of(handle, start)) == start
        check_status(status, place=int(begins))

    def _character_at(self, offset: int) -> str:
        """Returns the character that begins at an offset, or U+FFFD for bytes that are not UTF-8."""
        return self.text[offset : offset + 4].decode("utf-8", "replace")[0]

    def _last_character(self, line: typing.Any) -> typing.Tuple[str, int]:
        """Returns the last character of a line and its offset. A character has at most four bytes."""
        last = self.text[max(line.end - 4, line.start) : line.end].decode("utf-8", "replace")[-1]
        return last, line.end - len(last.encode("utf-8"))

    def _looked_up(self, call: typing.Any, number: int) -> int:
        if number < 0:
            raise ValueError(f"no offset or index: {number}")
        with self._locked_handle() as handle:
            return int(call(handle, min(number, library.MOST)))


class Utf8Line:
    """A line of such a layout: the bytes at offsets [start, end)."""

    start: int
    end: int

    def __init__(self, layout: Utf8Layout, number: int) -> None:
        self._layout, self._number = layout, number
        line = library.Line()
        with layout._locked_handle() as handle:
            check_status(CALL.bidi_encoded_line(handle, number, line))
        self.start, self.end = line.start, line.end

    def __repr__(self) -> str:
        return f"<Utf8Line from {self.start} to {self.end}>"

    @property
    def levels(self) -> Levels:
        """The level of each of its bytes after L1, that of its character: None if X9 removes it."""
        return self._layout._levels_of(CALL.bidi_encoded_levels, slice(self.start, self.end))

    @property
    def order(self) -> typing.List[int]:
        """The offsets at which its shown characters begin, from left to right (L2)."""
        return self._layout._asked("Q", CALL.bidi_encoded_order, self._number).tolist()

    @property
    def places(self) -> typing.List[typing.Optional[int]]:
        """The place of each of its bytes, from `start` on, that of its character: None if X9 removes it.
        NotImplementedError: the library is an older one."""
        _need_lines()
        found = self._layout._asked("Q", CALL.bidi_encoded_places, self._number)
        return [None if place == NOWHERE else place for place in found]

    @property
    def runs(self) -> typing.List[Run]:
        """Its visual runs from left to right, with `start` and `length` in bytes; each of its bytes is in one of them.
        NotImplementedError: the library is an older one."""
        return self._layout._runs("bidi_encoded_runs", self._number)

    @property
    def shown(self) -> bytes:
        """Its characters in UTF-8 as they are shown, from left to right, with mirrored characters (L4) and with U+FFFD
        for bytes that are not UTF-8. A paragraph separator is one of them. NotImplementedError: the library is an older
        one."""
        if not library.HAS_UTF8_SHOWN:
            raise NotImplementedError("this library shows no line in UTF-8")
        layout = self._layout

        def call(handle: Handle, *words: typing.Any) -> int:
            tables, text = layout._room_tables, layout.text
            words = (len(text), self._number, *words)
            with tables.guard:
                return int(CALL.bidi_encoded_shown_utf8(handle, tables.handle, text, *words))

        return layout._asked("B", call).tobytes()

    def display(self) -> bytes:
        """Returns `shown` without a paragraph separator."""
        return self._layout._without_separator(self, self.shown.decode("utf-8")).encode("utf-8")


class Utf8LineAlone(AnyLineAlone):
    """A line of such a layout, without the text's other lines: the bytes at offsets [start, end).

    `levels` has the level of each byte after L1, that of its character, None if X9 removes it, and `order` the offsets
    at which its shown characters begin, from left to right (L2). It stays valid when the room lays out another text.
    """

    _layout: Utf8Layout

    @property
    def shown(self) -> bytes:
        """Its characters in UTF-8 as they are shown, as those of Utf8Line."""
        return self._shown(self._layout._character_at).encode("utf-8")

    def display(self) -> bytes:
        """Returns `shown` without a paragraph separator."""
        shown = self._shown(self._layout._character_at)
        return self._layout._without_separator(self, shown).encode("utf-8")


def lay_out_utf8(
    text: Text,
    tables: typing.Optional[Tables] = None,
    direction: AnyDirection = Direction.AUTO,
    breaks: Breaks = (),
    limits: Limits = Limits(),
    errors: str = "strict",
) -> Utf8Layout:
    """Lays out UTF-8 in a room of its own, as Utf8Room.lay_out does. The layout stays valid."""
    text = bytes_of(text)
    return Utf8Room(len(text)).lay_out(text, tables, direction, breaks, limits, errors)


def _need_lines() -> None:
    """Fails with NotImplementedError if the library is older than lines alone of texts in UTF-8."""
    if not library.HAS_UTF8_LINE_OF:
        raise NotImplementedError("this library has no lines alone, places or paragraphs of UTF-8")
