"""What is known of a text without a layout."""
import ctypes
import typing

from . import library
from .errors import check_status
from .layout import AnyDirection, Direction, direction_of
from .library import CALL, Text, address, bytes_of, codes_of, items
from .tables import Tables, tables_or_default


def base_level(
    text: str, tables: typing.Optional[Tables] = None, direction: AnyDirection = Direction.AUTO
) -> int:
    """Returns the level of the first paragraph of a str (P1 to P3), 0 or 1, with tables, or with those that are built
    in, under a direction.

    Fails with NoCharacter. NotImplementedError: the library is an older one.
    """
    _need_base_level()
    codes = codes_of(text, "base_level_utf8")
    return _number_of(CALL.bidi_base_level, tables, address(codes), len(text), direction_of(direction))


def base_level_utf8(
    text: Text, tables: typing.Optional[Tables] = None, direction: AnyDirection = Direction.AUTO
) -> int:
    """Returns what base_level does, of bytes of UTF-8, or of a str as its UTF-8.

    Fails with IllFormed. NotImplementedError: the library is an older one.
    """
    _need_utf8()
    encoded = bytes_of(text)
    return _number_of(CALL.bidi_base_level_utf8, tables, encoded, len(encoded), direction_of(direction))


def base_levels(
    text: str, tables: typing.Optional[Tables] = None, direction: AnyDirection = Direction.AUTO
) -> typing.List[int]:
    """Returns the levels of the paragraphs of a str (P1 to P3), each 0 or 1, in their order, with tables, or with those
    that are built in, under a direction.

    Fails with NoCharacter. NotImplementedError: the library is an older one.
    """
    if not library.HAS_BASE_LEVELS:
        raise NotImplementedError("this library returns only the level of the first paragraph")
    codes = codes_of(text, "base_levels_utf8")
    return _levels(CALL.bidi_base_levels, tables, address(codes), len(text), direction)


def base_levels_utf8(
    text: Text, tables: typing.Optional[Tables] = None, direction: AnyDirection = Direction.AUTO
) -> typing.List[int]:
    """Returns what base_levels does, of bytes of UTF-8, or of a str as its UTF-8.

    Fails with IllFormed. NotImplementedError: the library is an older one.
    """
    _need_utf8()
    encoded = bytes_of(text)
    return _levels(CALL.bidi_base_levels_utf8, tables, encoded, len(encoded), direction)


def is_left_to_right(text: str, tables: typing.Optional[Tables] = None) -> bool:
    """Returns whether a str has only classes that stay at level 0: no R, AL and AN, and nothing that begins an
    embedding, an override or an isolate. If so, all levels of a layout under LTR or AUTO are 0, apart from positions
    that X9 removes.

    Fails with NoCharacter. NotImplementedError: the library is an older one.
    """
    _need_base_level()
    codes = codes_of(text, "is_left_to_right_utf8")
    return bool(_number_of(CALL.bidi_is_left_to_right, tables, address(codes), len(text)))


def is_left_to_right_utf8(text: Text, tables: typing.Optional[Tables] = None) -> bool:
    """Returns what is_left_to_right does, of bytes of UTF-8, or of a str as its UTF-8.

    Fails with IllFormed. NotImplementedError: the library is an older one.
    """
    _need_utf8()
    encoded = bytes_of(text)
    return bool(_number_of(CALL.bidi_is_left_to_right_utf8, tables, encoded, len(encoded)))


def _levels(
    call: typing.Any, tables: typing.Optional[Tables], text: typing.Any, n: int, direction: AnyDirection
) -> typing.List[int]:
    """Returns the levels that a call writes of a text of n items."""
    levels, count, place = items("B", n), ctypes.c_size_t(0), ctypes.c_uint64(0)
    direction, tables = direction_of(direction), tables_or_default(tables)
    with tables._lock:
        status = call(tables._handle, text, n, direction, address(levels), n, count, place)
    check_status(status, place=place.value)
    return levels[: count.value].tolist()


def _number_of(call: typing.Any, tables: typing.Optional[Tables], *words: typing.Any) -> int:
    """Returns the number that a call of the library says of a text."""
    number, place = ctypes.c_uint8(0), ctypes.c_uint64(0)
    tables = tables_or_default(tables)
    with tables._lock:
        status = call(tables._handle, *words, number, place)
    check_status(status, place=place.value)
    return number.value


def _need_base_level() -> None:
    """Fails with NotImplementedError if the library has no call for a text without a layout."""
    if not library.HAS_BASE_LEVEL:
        raise NotImplementedError("this library says nothing of a text without a layout")


def _need_utf8() -> None:
    """Fails with NotImplementedError if it has none for UTF-8."""
    if not library.HAS_UTF8_BASE_LEVELS:
        raise NotImplementedError("this library says nothing of UTF-8 without a layout")
