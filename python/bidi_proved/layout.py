"""Texts laid out: levels, lines, runs, and what is shown."""
import array
import bisect
import contextlib
import ctypes
import enum
import functools
import itertools
import threading
import typing
import warnings
import weakref

from . import library
from .errors import StaleLayout, check_status
from .library import CALL, Handle, address, codes_of, copied, items, need_str
from .tables import CLASSES, RoomTables, Tables, tables_or_default

REMOVED = 255
NOWHERE = library.MOST
NUMBERS = {name: number for number, name in enumerate(CLASSES)}


class Direction(enum.IntEnum):
    """The direction of all paragraphs. AUTO and AUTO_RTL find that of each (P2, P3); if it has no strong character,
    AUTO takes left-to-right and AUTO_RTL right-to-left. Calls also take the names, such as "rtl" or "auto"."""

    LTR = 0
    RTL = 1
    AUTO = 2
    AUTO_RTL = 3

    @classmethod
    def _missing_(cls, value: object) -> typing.Optional["Direction"]:
        """Returns the direction with this name, in letters of any case and with "-" for "_"."""
        return cls.__members__.get(value.upper().replace("-", "_")) if isinstance(value, str) else None


AnyDirection = typing.Union[Direction, int, str]
Breaks = typing.Iterable[int]
Levels = typing.List[typing.Optional[int]]
SomeLayout = typing.TypeVar("SomeLayout", bound="AnyLayout")


def direction_of(given: AnyDirection) -> Direction:
    """Returns the direction with this number or name. ValueError: there is none."""
    return Direction(given)  # type: ignore[arg-type]


class Limits(typing.NamedTuple):
    """How deep explicit levels go (BD2), 1 to 125, and how many brackets can be open at once (BD16), 0 to 63."""

    depth: int = 125
    brackets: int = 63

    def _for_call(self) -> library.Limits:
        # A number that does not fit into a byte becomes one that is rejected too.
        return library.Limits(*(n if 0 <= n <= 255 else 255 for n in self))


class Run(typing.NamedTuple):
    """A visual run: positions [start, start + length) of one level, of which `shown` are shown, next to each other. A
    removed position (X9) has the level of its line's next shown position, else that of the paragraph. At a line's end
    such positions are a run of their own if the last one before them has another level. This run is the leftmost if the
    paragraph's level is 1, else the rightmost."""

    start: int
    length: int
    shown: int
    level: int


def _placed(breaks: Breaks) -> typing.Tuple["array.array[int]", int]:
    """Returns breaks as words, and how many; one that does not fit into a word becomes one that is rejected too."""
    placed = array.array("Q", (at if 0 <= at <= NOWHERE else NOWHERE for at in breaks))
    return placed or items("Q", 0), len(placed)


def _span(start: int, end: int, most: int) -> typing.Tuple[int, int]:
    """Returns a line as the library takes it, of a text of at most so many positions; numbers that no such text has
    become a line that is rejected for the same reason."""
    if start >= end:
        return 0, 0
    return (start, end) if 0 <= start and end <= most else (most, most + 1)


def _number_of(item: typing.Union[str, int]) -> int:
    """Returns the number of a class; what names none becomes one that is rejected too."""
    number = NUMBERS.get(item, REMOVED) if isinstance(item, str) else item
    return number if 0 <= number <= REMOVED else REMOVED


def _without_removed(levels: typing.Iterable[int]) -> Levels:
    """Returns levels as lists have them: None for the number of a position that X9 removes."""
    return [None if level == REMOVED else level for level in levels]


class AnyRoom:
    """Memory for texts and for the layout of the last one."""

    size: int

    def __init__(self, size: int, make: typing.Callable[..., int], items_of: str) -> None:
        if size < 0:
            raise ValueError(f"a room for {size} {items_of}")
        self.size = size
        self._handle = Handle()
        self._lock = threading.Lock()
        self._laid_out = 0
        self._room_tables: typing.Optional[RoomTables] = None
        check_status(make(min(size, NOWHERE), self._handle))
        weakref.finalize(self, CALL.bidi_room_free, self._handle)

    def __repr__(self) -> str:
        return f"{type(self).__name__}({self.size})"

    def _by_tables(self, call: typing.Any, tables: typing.Optional[Tables], *text: typing.Any) -> typing.Any:
        """Makes a call on this room with tables, or with those that are built in, on a text."""
        used = tables_or_default(tables)

        def called(*words: typing.Any) -> int:
            if self._room_tables is None or self._room_tables.tables is not used:
                self._room_tables = RoomTables(used)
            with self._room_tables.guard:
                return int(call(self._handle, self._room_tables.handle, *text, *words))

        return called

    def _hold(
        self,
        call: typing.Any,
        laid_out: typing.Callable[..., SomeLayout],
        direction: AnyDirection,
        breaks: Breaks,
        limits: Limits,
    ) -> SomeLayout:
        """Returns what a call lays out: `laid_out(room, number, room_tables)`."""
        placed, count = _placed(breaks)
        by, place = Limits(*limits)._for_call(), ctypes.c_uint64(0)
        with self._lock:
            status = call(direction_of(direction), address(placed), count, by, place)
            check_status(status, place=place.value)
            self._laid_out += 1
            return laid_out(self, self._laid_out, self._room_tables)


class Room(AnyRoom):
    """Memory for texts of up to `size` characters, 100 bytes for each, and for the layout of the last one.

    A program that lays out many texts makes one for each thread. A layout of it can be used until the room lays out the
    next text or breaks this one into other lines, and raises StaleLayout from then on. A call waits while another
    thread is in a call on the same room.
    """

    def __init__(self, size: int) -> None:
        super().__init__(size, CALL.bidi_room_new, "characters")

    def lay_out(
        self,
        text: str,
        tables: typing.Optional[Tables] = None,
        direction: AnyDirection = Direction.AUTO,
        breaks: Breaks = (),
        limits: Limits = Limits(),
    ) -> "Layout":
        """Lays out a str with tables, or with those that are built in, under a direction. Lines begin at its start,
        after each paragraph separator and at each of `breaks`: rising positions above 0 and below its length.

        Fails with TextTooLong, BreakOutOfRange, BreakNotRising, NoCharacter, DepthRefused or BracketsRefused; the room
        is unchanged then. TypeError: the text is bytes, which Utf8Room lays out.
        """
        codes = codes_of(text, "Utf8Room.lay_out")
        call = self._by_tables(CALL.bidi_lay_out_with, tables, address(codes), len(text))
        return self._hold(call, functools.partial(Layout, text=text, codes=codes), direction, breaks, limits)

    def lay_out_classes(
        self,
        classes: typing.Sequence[typing.Union[str, int]],
        direction: AnyDirection = Direction.AUTO,
        breaks: Breaks = (),
        limits: Limits = Limits(),
    ) -> "Layout":
        """Does the same for a text of classes, by their short names (such as "AL") or numbers; it has no brackets."""
        numbers = bytes(_number_of(it) for it in classes)

        def call(*words: typing.Any) -> int:
            return int(CALL.bidi_lay_out_classes_with(self._handle, numbers, len(numbers), *words))

        return self._hold(call, functools.partial(Layout, text=None, codes=numbers), direction, breaks, limits)


class AnyLayout:
    """What a room laid out, until it lays out another text."""

    para_level_at: typing.Callable[[int], typing.Optional[int]]
    _lay_out_line: typing.Callable[..., None]
    _last_character: typing.Callable[..., typing.Tuple[str, int]]

    def __init__(self, room: AnyRoom, number: int, room_tables: typing.Any) -> None:
        self._room, self._number, self._room_tables = room, number, room_tables
        self._level_numbers: typing.Optional["array.array[int]"] = None

    @property
    def paragraph_levels(self) -> typing.List[int]:
        """The level of each paragraph (P2, P3)."""
        return self._asked("B", CALL.bidi_para_levels).tolist()

    def set_lines(self: SomeLayout, breaks: Breaks) -> SomeLayout:
        """Returns the layout of the same text with lines that begin at these breaks (L1, L2)."""
        raise NotImplementedError

    def with_lines(self: SomeLayout, breaks: Breaks) -> SomeLayout:
        """The old name of `set_lines`."""
        warnings.warn("with_lines is set_lines now", DeprecationWarning, stacklevel=2)
        return self.set_lines(breaks)

    def _broken(self, call: typing.Any, breaks: Breaks, laid_out: typing.Callable[..., SomeLayout]) -> SomeLayout:
        """Returns what a call makes of the text with these breaks: `laid_out(room, number, room_tables)`."""
        placed, count = _placed(breaks)
        place = ctypes.c_uint64(0)
        with self._locked_handle() as handle:
            check_status(call(handle, address(placed), count, place), place=place.value)
            self._room._laid_out += 1
            return laid_out(self._room, self._room._laid_out, self._room_tables)

    def _line_count(self) -> int:
        with self._locked_handle() as handle:
            return int(CALL.bidi_line_count(handle))

    def _line_alone(self, start: int, end: int) -> typing.Tuple[Levels, typing.List[int]]:
        """Returns the levels and the order of one line alone."""
        start, end = _span(start, end, self._room.size)
        n, shown = end - start, ctypes.c_size_t(0)
        levels, order = items("B", n), items("Q", n)
        with self._locked_handle() as handle:
            self._lay_out_line(handle, start, end, address(levels), n, address(order), n, shown)
        return _without_removed(levels), order[: shown.value].tolist()

    def _without_separator(self, line: typing.Any, shown: str) -> str:
        """Returns the characters that a line shows without the paragraph separator at its end."""
        last, at = self._last_character(line)
        if not self._room_tables.tables._separates(last):
            return shown
        place = line.order.index(at)
        return shown[:place] + shown[place + 1 :]

    def _asked(self, code: str, call: typing.Any, *words: typing.Any) -> "array.array[int]":
        """Returns what a look-up of the library writes."""
        with self._locked_handle() as handle:
            return copied(code, lambda at, place: int(call(handle, *words, at, place)))

    def _levels_of(self, call: typing.Any, positions: slice) -> Levels:
        """Returns the levels at a slice of positions, or of offsets. The call writes all of them, and is made once, so
        the levels of all lines take linear time."""
        with self._locked_handle() as handle:
            if self._level_numbers is None:
                self._level_numbers = copied("B", lambda at, place: int(call(handle, at, place)))
            return _without_removed(self._level_numbers[positions])

    def _runs(self, name: str, number: int) -> typing.List[Run]:
        """Returns the visual runs of a line from left to right, with the call of this name."""
        if not library.HAS_RUNS:
            raise NotImplementedError("this library does not return all runs of a line")
        call = getattr(CALL, name)
        with self._locked_handle() as handle:
            found = (library.Run * call(handle, number, None, 0))()
            call(handle, number, found, len(found))
        return [Run(run.start, run.length, run.shown, run.level) for run in found]

    @contextlib.contextmanager
    def _locked_handle(self) -> typing.Iterator[Handle]:
        """Yields the room's handle, for one thread at a time. Fails with StaleLayout if the room has another layout."""
        with self._room._lock:
            if self._room._laid_out != self._number:
                raise StaleLayout(StaleLayout.says)
            yield self._room._handle


class Layout(AnyLayout):
    """What a room laid out: levels, paragraphs and lines. Places of lines are counted from the left."""

    def __init__(
        self, room: AnyRoom, number: int, room_tables: typing.Any, text: typing.Optional[str], codes: typing.Any
    ) -> None:
        """The text is None if it is one of classes; `codes` are their numbers then."""
        super().__init__(room, number, room_tables)
        self._text, self._codes = text, codes

    @property
    def levels(self) -> Levels:
        """The level of each position after L1, None if X9 removes it."""
        return self._levels_of(CALL.bidi_levels, slice(None))

    def __repr__(self) -> str:
        return f"<Layout of {len(self._items)} positions>"

    def set_lines(self, breaks: Breaks) -> "Layout":
        """Returns the layout of the same text with lines that begin at these breaks (L1, L2): for programs that shape a
        text and know only then where its lines end. It doesn't find levels again. This layout raises StaleLayout from
        then on.

        Fails with BreakOutOfRange or BreakNotRising; the room is unchanged then. NotImplementedError: the library is an
        older one.
        """
        if not library.SETS_LINES:
            raise NotImplementedError("this library breaks no text into other lines")
        return self._broken(CALL.bidi_set_lines, breaks, functools.partial(Layout, text=self._text, codes=self._codes))

    def line_of(self, start: int, end: int) -> "LineAlone":
        """Returns one line alone of the text (L1, L2), from `start` to before `end`, at the cost of that line, wherever
        other lines end: for programs that show a part of a long text, or measure where lines may end. It doesn't find
        levels again, and this layout and its lines are unchanged.

        Fails with LineNotForward, LineBeyondText or LineCrossesParagraph. NotImplementedError: the library is an older
        one.
        """
        if not library.HAS_LINE_OF:
            raise NotImplementedError("this library lays out no line alone")
        return LineAlone(self, start, end)

    def para_level_at(self, position: int) -> typing.Optional[int]:
        """Returns the level of the paragraph (P2, P3) in which a position lies, None if there is no such position."""
        if position < 0:
            raise ValueError(f"no position: {position}")
        separators, levels = self._paragraphs
        with self._locked_handle():
            beyond = position >= len(self._items)
            return None if beyond else levels[bisect.bisect_left(separators, position)]

    @property
    def lines(self) -> typing.List["Line"]:
        """Its lines, in the order of the text."""
        return [Line(self, number) for number in range(self._line_count())]

    def display(self) -> typing.List[str]:
        """Its lines as they are shown, each a str from left to right with mirrored characters (L4), without the
        paragraph separator at its end and without what X9 removes. What shows them must not reorder them again."""
        return [line.display() for line in self.lines]

    def _characters(self) -> str:
        """The text that was laid out."""
        if self._text is None:
            raise ValueError("a text of classes has no characters")
        return self._text

    @property
    def _items(self) -> typing.Any:
        """What was laid out: a str, or the numbers of classes."""
        return self._codes if self._text is None else self._text

    @functools.cached_property
    def _paragraphs(self) -> typing.Tuple[typing.List[int], typing.List[int]]:
        """The positions of the paragraph separators, and the level of each paragraph."""
        separates = NUMBERS["B"].__eq__ if self._text is None else self._room_tables.tables._separates
        separators = {item for item in set(self._items) if separates(item)}
        return [at for at, item in enumerate(self._items) if item in separators], self.paragraph_levels

    def _lay_out_line(self, *words: typing.Any) -> None:
        """Makes the call for one line alone."""
        check_status(CALL.bidi_line_of(*words))

    def _last_character(self, line: typing.Any) -> typing.Tuple[str, int]:
        """Returns the last character of a line and its position."""
        return self._characters()[line.end - 1], line.end - 1


class Line:
    """A line of a layout: positions [start, end) of the text."""

    start: int
    end: int

    def __init__(self, layout: Layout, number: int) -> None:
        self._layout, self._number = layout, number
        line = library.Line()
        with layout._locked_handle() as handle:
            check_status(CALL.bidi_line(handle, number, line))
        self.start, self.end = line.start, line.end

    def __repr__(self) -> str:
        return f"<Line from {self.start} to {self.end}>"

    @property
    def levels(self) -> Levels:
        """The level of each of its positions after L1, None if X9 removes it."""
        return self._layout._levels_of(CALL.bidi_levels, slice(self.start, self.end))

    @property
    def order(self) -> typing.List[int]:
        """Its shown positions from left to right (L2)."""
        return self._layout._asked("Q", CALL.bidi_order, self._number).tolist()

    @property
    def places(self) -> typing.List[typing.Optional[int]]:
        """The place of each of its positions, from `start` on, None if X9 removes it."""
        found = self._layout._asked("Q", CALL.bidi_places, self._number)
        return [None if place == NOWHERE else place for place in found]

    @property
    def runs(self) -> typing.List[Run]:
        """Its visual runs from left to right; each of its positions is in one of them. NotImplementedError: the library
        is an older one."""
        return self._layout._runs("bidi_runs", self._number)

    @property
    def shown(self) -> str:
        """Its characters as they are shown, from left to right, with mirrored characters (L4); a paragraph separator is
        one of them. ValueError: a text of classes has no characters."""
        layout = self._layout
        n = len(layout._characters())

        def call(handle: Handle, *words: typing.Any) -> int:
            tables = layout._room_tables
            with tables.guard:
                return int(CALL.bidi_shown(handle, tables.handle, address(layout._codes), n, self._number, *words))

        return layout._asked("I", call).tobytes().decode("utf-32-le")

    def display(self) -> str:
        """`shown` without a paragraph separator."""
        return self._layout._without_separator(self, self.shown)


class AnyLineAlone:
    """A line of a text that was laid out, without the text's other lines: [start, end) of the text. It stays valid when
    the room lays out another text."""

    start: int
    end: int
    levels: Levels
    order: typing.List[int]
    _layout: typing.Any

    def __init__(self, layout: AnyLayout, start: int, end: int) -> None:
        self._layout, self.start, self.end = layout, start, end
        self.levels, self.order = layout._line_alone(start, end)
        # Its paragraph's level, for positions that are removed at its end.
        self._end_level = layout.para_level_at(start) if self.levels[-1] is None else None

    def __repr__(self) -> str:
        return f"<{type(self).__name__} from {self.start} to {self.end}>"

    @property
    def places(self) -> typing.List[typing.Optional[int]]:
        """The place of each of its positions, or bytes, from `start` on, None if X9 removes it."""
        begins, found, last = {at: place for place, at in enumerate(self.order)}, [], None
        for at, level in enumerate(self.levels, self.start):
            last = begins.get(at, last)
            found.append(None if level is None else last)
        return found

    @property
    def runs(self) -> typing.List[Run]:
        """Its visual runs from left to right; each of its positions, or bytes, is in one of them."""
        run_levels, places, found = self._run_levels(), self.places, []
        for level, group in itertools.groupby(range(len(run_levels)), run_levels.__getitem__):
            positions = list(group)
            taken = {place for place in map(places.__getitem__, positions) if place is not None}
            first = min(taken, default=-1 if level % 2 else len(self.order))
            found.append((first, Run(self.start + positions[0], len(positions), len(taken), level)))
        return [run for _, run in sorted(found)]

    def _shown(self, character_at: typing.Callable[[int], str]) -> str:
        """Returns its characters as they are shown; `character_at` returns the one at a position."""
        mirror = self._layout._room_tables.tables.mirror
        return "".join(mirror(character_at(at)) if self._level(at) % 2 else character_at(at) for at in self.order)

    def _run_levels(self) -> typing.List[typing.Any]:
        """The level of each of its positions: if X9 removes it, that of the next one that is shown, else the
        paragraph's."""
        after, run_levels = self._end_level, []
        for level in reversed(self.levels):
            after = after if level is None else level
            run_levels.append(after)
        return run_levels[::-1]

    def _level(self, at: int) -> typing.Any:
        return self.levels[at - self.start]


class LineAlone(AnyLineAlone):
    """A line of a text that was laid out, without the text's other lines: positions [start, end) of the text.

    `levels` has the level of each of them after L1, None if X9 removes it, and `order` those that are shown, from left
    to right (L2). It stays valid when the room lays out another text.
    """

    _layout: Layout

    @property
    def shown(self) -> str:
        """Its characters as they are shown, from left to right, with mirrored characters (L4); a paragraph separator is
        one of them. ValueError: a text of classes has no characters."""
        return self._shown(self._layout._characters().__getitem__)

    def display(self) -> str:
        """`shown` without a paragraph separator."""
        return self._layout._without_separator(self, self.shown)


def lay_out(
    text: str,
    tables: typing.Optional[Tables] = None,
    direction: AnyDirection = Direction.AUTO,
    breaks: Breaks = (),
    limits: Limits = Limits(),
) -> Layout:
    """Lays out a str in a room of its own, as Room.lay_out does. The layout stays valid. TypeError: the text is bytes,
    which lay_out_utf8 lays out."""
    need_str(text, "lay_out_utf8")
    return Room(len(text)).lay_out(text, tables, direction, breaks, limits)


def lay_out_classes(
    classes: typing.Sequence[typing.Union[str, int]],
    direction: AnyDirection = Direction.AUTO,
    breaks: Breaks = (),
    limits: Limits = Limits(),
) -> Layout:
    """Lays out a list of classes in a room of its own, as Room.lay_out_classes does. The layout stays valid."""
    return Room(len(classes)).lay_out_classes(classes, direction, breaks, limits)


def display(
    text: str,
    tables: typing.Optional[Tables] = None,
    direction: AnyDirection = Direction.AUTO,
    breaks: Breaks = (),
    limits: Limits = Limits(),
) -> typing.List[str]:
    """Returns the lines of a str as they are shown, as Layout.display does. TypeError: the text is bytes, which
    lay_out_utf8 lays out."""
    return lay_out(text, tables, direction, breaks, limits).display()
