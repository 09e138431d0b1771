"""What arguments have to be: numbers of the widths of their fields, bytes, texts and mids."""

import re
from collections.abc import Iterable
from operator import index
from typing import Any

from .codes import Code, Place, Refused

U8, U16, U32, U64 = 0xFF, 0xFFFF, 0xFFFFFFFF, 0xFFFFFFFFFFFFFFFF
KEPT_MID = re.compile(rb"[A-Za-z0-9_]{0,16}")


def within(name: str, value: Any, low: int, high: int) -> int:
    """The number of an argument. `OverflowError` if it isn't in the range, `TypeError` if it is no integer."""
    try:
        number = index(value)
    except TypeError:
        raise TypeError(f"{name} has to be an integer, not {type(value).__name__}") from None
    if low <= number <= high:
        return number
    said = str(number) if number.bit_length() <= 128 else f"a number of {number.bit_length()} bits"
    raise OverflowError(f"{name} is {said}, and has to be {low} to {high}")


def u8(name: str, value: Any) -> int:
    return within(name, value, 0, U8)


def u16(name: str, value: Any) -> int:
    return within(name, value, 0, U16)


def u32(name: str, value: Any) -> int:
    return within(name, value, 0, U32)


def u64(name: str, value: Any) -> int:
    return within(name, value, 0, U64)


def each_of(name: str, values: Iterable[Any], high: int) -> list[int]:
    """The numbers of an argument that has several."""
    if isinstance(values, (str, bytes, bytearray, memoryview)) and name != "distances":
        raise TypeError(f"{name} have to be integers, not {type(values).__name__}")
    return [within(name, value, 0, high) for value in values]


def bytes_of(name: str, given: Any) -> bytes:
    """The bytes of an argument, taken by the buffer protocol. `TypeError` if it has none."""
    if type(given) is bytes:
        return given
    try:
        return bytes(memoryview(given))
    except TypeError:
        raise TypeError(f"{name} has to be bytes-like, not {type(given).__name__}") from None


def text_of(name: str, given: Any) -> bytes:
    """The bytes of a text. `TypeError` if it is neither a string nor bytes-like."""
    if isinstance(given, str):
        return given.encode()
    try:
        return bytes_of(name, given)
    except TypeError:
        raise TypeError(f"{name} has to be a text, not {type(given).__name__}") from None


def mid_of(given: Any, place: Place | None = None) -> bytes:
    """The bytes of a mid. `Refused`, MID_NOT_KEPT, if a text would have another one in its place."""
    mid = text_of("mid", given)
    if KEPT_MID.fullmatch(mid) is None:
        try:
            name = mid.decode()
        except UnicodeDecodeError:
            raise Refused(Code.NOT_TEXT, place) from None
        raise Refused(Code.MID_NOT_KEPT, place or Place(mids=(name,)))
    return mid
