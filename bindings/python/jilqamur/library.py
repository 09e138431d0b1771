"""The shared library and its calls, as jilqamur.h declares them, and handles."""

import ctypes
import os
from ctypes import POINTER, byref, c_bool, c_size_t, c_uint8, c_uint16, c_uint32, c_uint64, c_void_p
from pathlib import Path
from threading import RLock
from typing import Any, Callable, TypeVar

from .codes import Code, done
from .structs import (ArrivalStruct, ExtensionIds, FormatStruct, Handle, Header, NamesStruct, PacketInfoStruct,
                      PacketizerStruct, PlacedStruct, RemoteStruct, RowStruct, SectionStruct, SenderStruct,
                      StreamStruct, UnitStruct, ValuesStruct)

NAME = "libjilqamur.so.0"

# The version of the package, which is that of the library.
VERSION = "0.10.0"

T = TypeVar("T")


def found() -> str:
    """The library that `JILQAMUR_LIBRARY` names, the one beside this file, or the one of the system."""
    beside = Path(__file__).resolve().parent / NAME
    return os.environ.get("JILQAMUR_LIBRARY") or (str(beside) if beside.is_file() else NAME)


HANDLE = POINTER(Handle)
TEXT = [ctypes.c_char_p, c_size_t]
OUT = [c_void_p, c_size_t, POINTER(c_size_t)]
SSRCS = [POINTER(c_uint32), c_size_t]
SIZE, NUMBER = POINTER(c_size_t), POINTER(c_uint64)

# Each call with its parameters; all but one answer 32 bits.
CALLS: dict[str, list[Any]] = {
    "version": [],
    "header_read": [*TEXT, POINTER(Header)],
    "header_write": [POINTER(Header), *OUT],
    "header_values": [*TEXT, POINTER(ExtensionIds), POINTER(ValuesStruct), POINTER(NamesStruct)],
    "payload_unpad": [c_bool, *TEXT, SIZE],
    "payload_info": [*TEXT, *TEXT, c_bool, POINTER(PacketInfoStruct)],
    "faulty_line": [*TEXT, *OUT, SIZE, POINTER(c_uint32)],
    "number_widen": [c_uint64, c_uint16],
    "window_open": [HANDLE],
    "window_receive": [HANDLE, *TEXT, NUMBER],
    "window_close": [HANDLE],
    "packetizer_open": [HANDLE, POINTER(PacketizerStruct), POINTER(FormatStruct), *TEXT],
    "packetizer_close": [HANDLE],
    "packetizer_packetize": [HANDLE, c_size_t, *TEXT, SIZE],
    "packetizer_packet": [HANDLE, c_size_t, *OUT, POINTER(c_bool)],
    "depacketizer_open": [HANDLE, POINTER(FormatStruct), *TEXT, c_size_t, c_size_t],
    "depacketizer_close": [HANDLE],
    "depacketizer_push": [HANDLE, c_uint64, c_uint32, c_bool, *TEXT],
    "depacketizer_pop": [HANDLE],
    "depacketizer_drain": [HANDLE],
    "depacketizer_unit": [HANDLE, *OUT, POINTER(UnitStruct)],
    "end_open": [HANDLE],
    "end_close": [HANDLE],
    "end_row": [HANDLE, POINTER(RowStruct), *TEXT, *TEXT],
    "end_default_rows": [HANDLE],
    "end_extension": [HANDLE, c_uint8, *TEXT],
    "end_make": [HANDLE, c_uint64],
    "end_section_repair": [HANDLE, c_uint32, c_uint32],
    "end_section": [HANDLE, *TEXT, c_bool, c_bool, c_bool, *SSRCS],
    "end_offer": [HANDLE],
    "end_answer": [HANDLE, *TEXT],
    "end_accept": [HANDLE, *TEXT],
    "end_take_types": [HANDLE, *TEXT],
    "end_withdraw": [HANDLE],
    "end_text": [HANDLE, *OUT],
    "end_request": [HANDLE, c_bool, c_bool, c_bool, *SSRCS],
    "end_answer_browser": [HANDLE, *TEXT],
    "end_accept_browser": [HANDLE, *TEXT],
    "end_for_browser": [HANDLE, *TEXT, c_uint8, c_bool, *TEXT, *TEXT, *TEXT, *TEXT],
    "end_remote": [HANDLE, POINTER(RemoteStruct)],
    "end_remote_text": [HANDLE, c_uint8, *OUT],
    "end_remote_candidate": [HANDLE, c_size_t, *OUT],
    "end_agreed_section": [HANDLE, c_size_t, *OUT, POINTER(SectionStruct)],
    "end_agreed_row": [HANDLE, c_size_t, c_size_t, *OUT, POINTER(RowStruct)],
    "end_agreed_ssrc": [HANDLE, c_size_t, c_size_t, POINTER(c_uint32)],
    "end_open_sender": [HANDLE, *TEXT, c_uint32, c_uint8, POINTER(StreamStruct), *TEXT, SIZE],
    "end_open_receiver": [HANDLE, *TEXT, c_uint32, c_uint8, c_size_t, c_size_t, SIZE],
    "end_open_unsignalled": [HANDLE, *TEXT, c_uint32, c_uint8, c_size_t, c_size_t, SIZE],
    "end_push_sample": [HANDLE, c_size_t, c_uint64, POINTER(ValuesStruct), *TEXT, *TEXT, SIZE],
    "end_repair": [HANDLE, c_size_t, *TEXT],
    "end_datagram": [HANDLE, c_size_t, *OUT],
    "end_receive": [HANDLE, *TEXT, SIZE, NUMBER],
    "end_poll": [HANDLE, c_size_t],
    "end_drain": [HANDLE, c_size_t],
    "end_unit": [HANDLE, *OUT, POINTER(UnitStruct)],
    "end_values": [HANDLE, POINTER(ValuesStruct)],
    "end_arrival": [HANDLE, *TEXT, SIZE, POINTER(ArrivalStruct), POINTER(ValuesStruct)],
    "end_take_number": [HANDLE, c_size_t, c_uint16, NUMBER],
    "end_send_packet": [HANDLE, c_size_t, c_uint64, c_uint32, c_bool, POINTER(ValuesStruct), *TEXT, *TEXT],
    "end_missing": [HANDLE, c_size_t, NUMBER, c_size_t, SIZE],
    "end_is_passed": [HANDLE, c_size_t, c_uint64],
    "end_pass_to": [HANDLE, c_size_t, c_uint64],
    "end_pass_empty": [HANDLE, c_size_t, c_uint64],
    "end_keep_within": [HANDLE, c_size_t, c_size_t],
    "end_next_number": [HANDLE, c_size_t, NUMBER],
    "end_skip_to": [HANDLE, c_size_t, c_uint64],
    "end_close_sender": [HANDLE, c_size_t],
    "end_close_receiver": [HANDLE, c_size_t],
    "sender_open": [HANDLE, POINTER(SenderStruct), POINTER(FormatStruct), *TEXT],
    "sender_close": [HANDLE],
    "sender_push_sample": [HANDLE, c_uint64, *TEXT, SIZE],
    "sender_datagram": [HANDLE, c_size_t, *OUT],
    "receiver_open": [HANDLE, POINTER(FormatStruct), *TEXT, c_size_t, c_size_t],
    "receiver_close": [HANDLE],
    "receiver_push": [HANDLE, c_uint16, c_uint32, c_bool, *TEXT, NUMBER],
    "receiver_poll": [HANDLE],
    "receiver_drain": [HANDLE],
    "receiver_missing": [HANDLE, POINTER(c_uint64), c_size_t, SIZE],
    "receiver_pass_to": [HANDLE, c_uint64],
    "receiver_keep_within": [HANDLE, c_size_t],
    "receiver_unit": [HANDLE, *OUT, POINTER(UnitStruct)],
    "forwarder_open": [HANDLE, c_uint64],
    "forwarder_close": [HANDLE],
    "forwarder_switch": [HANDLE, c_uint64, c_uint64, c_uint32, c_uint32],
    "forwarder_skip_to": [HANDLE, c_uint64],
    "forwarder_end_at": [HANDLE, c_uint64],
    "forwarder_place": [HANDLE, c_uint64, c_uint64, c_uint32, POINTER(PlacedStruct)],
    "forwarder_forward": [HANDLE, c_uint64, c_uint64, c_uint32, c_bool, POINTER(PlacedStruct)],
    "forwarder_pass_empty": [HANDLE, c_uint64, c_uint64],
    "forwarder_next": [HANDLE, NUMBER],
    "history_open": [HANDLE, c_uint32, c_uint32],
    "history_close": [HANDLE],
    "history_keep": [HANDLE, c_uint64, *TEXT],
    "history_asked": [HANDLE, c_uint16, *OUT],
    "requester_open": [HANDLE, c_uint32, c_uint64],
    "requester_close": [HANDLE],
    "requester_ask": [HANDLE, POINTER(c_uint64), c_size_t, c_uint64, c_uint64, POINTER(c_uint64), c_size_t, SIZE],
}

# The calls for each datagram and each unit, which are also had without declared parameters: that takes a fifth of the
# time, and each argument has to be of its type then.
BARE = ("packetizer_packet", "depacketizer_unit", "end_push_sample", "end_datagram", "end_receive", "end_poll",
        "end_drain", "end_unit", "sender_push_sample", "sender_datagram", "receiver_poll",
        "receiver_unit")


class Library:
    """The calls of the shared library, by their names without `jilqamur_`. They keep the interpreter's lock, since they
    take microseconds: so no two of them overlap, even on one handle."""

    def __init__(self) -> None:
        library = ctypes.PyDLL(found())
        for name, parameters in CALLS.items():
            call = library[f"jilqamur_{name}"]
            call.argtypes = parameters
            call.restype = c_uint64 if name == "number_widen" else c_uint32
            setattr(self, name, call)
        for name in BARE:
            call = library[f"jilqamur_{name}"]
            call.restype = c_uint32
            setattr(self, f"bare_{name}", call)

    def __getattr__(self, name: str) -> Callable[..., int]:
        raise AttributeError(f"the library has no call jilqamur_{name}")


lib = Library()


def fit() -> None:
    """Raises ImportError if the library is of another version than the package."""
    number = lib.version()
    version = f"{number // 10000}.{number // 100 % 100}.{number % 100}"
    if version != VERSION:
        raise ImportError(f"the package is of version {VERSION}, and the library of {version}")


fit()

SIZES = [c_size_t(number) for number in range(2048)]
MOST_ROOM = 1 << 20


def size_at(number: int) -> c_size_t:
    """A size, for a call without declared parameters."""
    return SIZES[number] if number < 2048 else c_size_t(number)


def buffer(size: int) -> Any:
    """Room for bytes that a call copies."""
    return ctypes.create_string_buffer(size)


def fetched(call: Callable[..., int], *before: Any, after: tuple[Any, ...] = ()) -> bytes:
    """What a call copies: it is asked with some room first, and again if that is too small."""
    needed, room = c_size_t(), buffer(256)
    code = call(*before, room, 256, byref(needed), *after)
    if code == Code.TOO_SMALL:
        room = buffer(needed.value)
        code = call(*before, room, needed.value, byref(needed), *after)
    done(code)
    return room[:needed.value]


def fetched_if(call: Callable[..., int], *before: Any, after: tuple[Any, ...] = ()) -> bytes | None:
    """The same; None if there is nothing to copy."""
    needed = c_size_t()
    if call(*before, buffer(1), 0, byref(needed), *after) == Code.NOTHING:
        return None
    return fetched(call, *before, after=after)


class Owner:
    """What holds a handle, and closes it when it is dropped or at the end of a `with`. One call at a time: another one
    on the same object waits."""

    _close = ""
    _handle: Handle
    _at: Any  # where the handle is, for a call
    _room: Any  # where calls copy to, kept between calls
    _size: c_size_t  # of the room
    _needed: c_size_t  # what a call says that it needs
    _needed_at: Any

    def __new__(cls, *_: object, **__: object) -> Any:
        owner = super().__new__(cls)
        owner._handle, owner._lock = Handle(), RLock()
        owner._at = byref(owner._handle)
        owner._room, owner._size, owner._needed = buffer(2048), c_size_t(2048), c_size_t()
        owner._needed_at = byref(owner._needed)
        return owner

    def _copied(self, call: Callable[..., int], before: tuple[Any, ...] = (), after: tuple[Any, ...] = ()) -> bytes:
        """What a call without declared parameters copies into the room of this object. The lock is held."""
        code = call(self._at, *before, self._room, self._size, self._needed_at, *after)
        if code == Code.TOO_SMALL:
            size = self._needed.value
            room = buffer(1 << size.bit_length() if size < MOST_ROOM else size)
            code = call(self._at, *before, room, c_size_t(len(room)), self._needed_at, *after)
            if size >= MOST_ROOM:
                done(code)
                return room[:size]
            self._room, self._size = room, c_size_t(len(room))
        done(code)
        return self._room[:self._needed.value]

    def close(self) -> None:
        """Frees what is held, once a call of another thread has ended. Every call but this one is refused afterwards,
        CLOSED."""
        with self._lock:
            getattr(lib, self._close)(self._at)

    def __enter__(self: T) -> T:
        return self

    def __exit__(self, *_: object) -> None:
        self.close()

    def __reduce_ex__(self, _: object) -> Any:
        raise TypeError(f"{type(self).__name__} can't be copied")

    def __del__(self) -> None:
        if self._handle.full:
            self.close()
