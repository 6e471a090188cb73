"""The terminal's side of DUKPT (ANSI X9.24-1:2009)."""

from __future__ import annotations

import ctypes
import threading
from typing import Any, Tuple, Type, TypeVar

from ._data import Keyed, buffer_of, bytes_from, context_type, key_of, secret_of
from ._faults import NoSerialError, StateLengthError, check
from ._keys import serial_of
from ._library import function
from ._statuses import NO_SERIAL
from ._types import ReadableBuffer

_SERIAL_SIZE = 10
_STATE_SIZE = 346

_State = context_type(_STATE_SIZE, ctypes.c_uint8)

_init = function("dukpt_terminal_init")
_next_key = function("dukpt_terminal_next_key")

_Self = TypeVar("_Self", bound="DukptTerminal")


class DukptTerminal(Keyed):
    """The keys of a terminal's transactions to come, made of the initial key, 16 bytes, and any of the terminal's key serial
    numbers, whose counter plays no part. Threads may share one: its calls take turns. KeyLengthError, SerialLengthError."""

    # Another name than a MAC's: so Python refuses to make the one an object of the other's class, whose context is longer.
    __slots__ = ("_turns",)

    def __init__(self, initial: ReadableBuffer, serial: ReadableBuffer) -> None:
        state = _State()
        with key_of(initial, 16) as secret:
            _init(state, secret, serial_of(serial))
        self._begin(state)

    def _begin(self, state: Any) -> None:
        self._context, self._turns = state, threading.Lock()

    def next_key(self) -> Tuple[bytes, bytes]:
        """The key serial number and the key of the next transaction, that of dukpt_transaction_key, which the terminal then
        forgets. Store `state()` before you use the key, or a key is used twice. NoSerialError after the last transaction, the
        1,048,575th, and of a state without future keys, as one of zeros."""
        serial, key = buffer_of(_SERIAL_SIZE), buffer_of(16)
        with self._turns:
            status = _next_key(self._open(), serial, key)
        if status == NO_SERIAL:
            raise NoSerialError("the terminal has no key for a next transaction")
        check(status)
        return bytes(serial), bytes_from(key)

    def state(self) -> bytes:
        """The state, 346 bytes, from which `from_state` goes on. It is secret: it has the keys of all transactions to come."""
        with self._turns:
            return bytes(self._open())

    @classmethod
    def from_state(cls: Type[_Self], state: ReadableBuffer) -> _Self:
        """The terminal of a state. StateLengthError."""
        made = cls.__new__(cls)
        with secret_of(state) as (secret, length):
            if length != _STATE_SIZE:
                raise StateLengthError(f"the state of a terminal has {_STATE_SIZE} bytes, not {length}")
            made._begin(_State.from_buffer_copy(secret))
        return made

    def close(self) -> None:
        """Forgets the keys: the state is wiped. Every later call raises ClosedError."""
        with self._turns:
            super().close()
