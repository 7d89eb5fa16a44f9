"""The shared library behind `ecat`: its structs and calls, as ecat.h has them, and what owns a handle."""
from __future__ import annotations

import ctypes
import os
import pathlib
from typing import Any, Dict, List, Tuple, Union

ABI, FRAME = 2, 1472


class Refused(Exception):
    """A table is refused: the number, the name and the values of the refusal, as `ecat plan` prints them."""

    def __init__(self, number: int, name: str, values: List[int]) -> None:
        super().__init__(" ".join(map(str, [number, name, *values])))
        self.number, self.name, self.values = number, name, values


class Handle(ctypes.Structure):
    _fields_ = [("at", ctypes.c_void_p)]


class Refusal(ctypes.Structure):
    _fields_ = [("number", ctypes.c_uint8), ("name", ctypes.c_char * 24), ("count", ctypes.c_size_t), ("values", ctypes.c_uint64 * 4)]


class Info(ctypes.Structure):
    _fields_ = [("name", ctypes.c_char * 33), ("bits", ctypes.c_uint8), ("is_output", ctypes.c_bool), ("is_signed", ctypes.c_bool), ("bit", ctypes.c_size_t)]


_H, _BYTES, _AT = ctypes.POINTER(Handle), ctypes.c_char_p, ctypes.c_void_p
_SIZE, _BOOL, _INT, _U64, _I64, _U8 = ctypes.c_size_t, ctypes.c_bool, ctypes.c_int, ctypes.c_uint64, ctypes.c_int64, ctypes.c_uint8
# the result and the parameters of each call
_CALLS: Dict[str, Tuple[Any, List[Any]]] = {
    "version": (_BYTES, []), "open": (_U8, [_H, _BYTES, _SIZE, _AT]), "drop": (None, [_H]), "next": (_SIZE, [_H, _AT, _SIZE]),
    "take": (_BOOL, [_H, _BYTES, _SIZE, _AT]), "phase": (_INT, [_H]), "give_up": (None, [_H]), "begin": (_INT, [_H]),
    "waits": (_BOOL, [_H]), "failure": (_BOOL, [_H, _AT]), "explain": (_SIZE, [_H, _AT, _SIZE]), "slaves": (_SIZE, [_H]),
    "state_next": (_SIZE, [_H, _SIZE, _AT, _SIZE]), "state": (_INT, [_H, _SIZE, _AT]), "counters": (ctypes.c_uint, [_H, _SIZE, _AT, _AT]),
    "get_signed": (_I64, [_H, _SIZE]), "variables": (_SIZE, [_H]), "variable_info": (_BOOL, [_H, _SIZE, _AT]),
    "part": (_SIZE, [_H, _SIZE, _AT, _SIZE]), "close": (_BOOL, [_H, _AT, _AT]), "unit": (_INT, [_H, _SIZE]),
    "set": (_BOOL, [_H, _SIZE, _U64]), "get": (_U64, [_H, _SIZE]), "outputs": (_SIZE, [_H, _BYTES, _SIZE]),
    "inputs": (_SIZE, [_H, _AT, _SIZE]), "variable": (ctypes.c_long, [_H, _BYTES]),
    "segment_open": (_U8, [_H, _BYTES, _SIZE, _BOOL, _AT]), "segment_drop": (None, [_H]), "segment_pass": (_BOOL, [_H, _AT, _SIZE]),
    "segment_serve": (_BOOL, [_H, _SIZE]), "segment_get": (_BOOL, [_H, _SIZE, _SIZE, _AT]),
    "segment_put": (_BOOL, [_H, _SIZE, _SIZE, _U8]), "segment_fault": (_BOOL, [_H, _SIZE]), "segment_reset": (_BOOL, [_H, _SIZE]),
    "segment_outputs": (_SIZE, [_H, _SIZE, _AT, _SIZE]), "segment_inputs": (_SIZE, [_H, _SIZE, _BYTES, _SIZE]),
    "segment_exchange": (_SIZE, [_H, _SIZE, _BYTES, _SIZE, _AT, _SIZE]),
}


def _load() -> Any:
    name = f"libecat.so.{ABI}"
    found = [str(folder / name) for folder in pathlib.Path(__file__).resolve().parents if (folder / name).exists()]
    lib = ctypes.PyDLL(os.environ.get("ECAT_LIBRARY") or [*found, name][0])
    for call, (result, given) in _CALLS.items():
        function = getattr(lib, "ecat_" + call)
        function.restype, function.argtypes = result, given
    return lib


lib = _load()
VERSION: str = lib.ecat_version().decode()


def written(call: Any, *given: object) -> bytes:
    """What a call writes into a room that is long enough."""
    room = ctypes.create_string_buffer(call(*given, None, 0))
    return ctypes.string_at(room, call(*given, room, len(room)))


class Owner:
    """What owns a handle."""

    def __init__(self, opens: Any, drops: Any, table: Union[str, bytes], *more: object) -> None:
        self._handle, self._drops, refusal = Handle(), drops, Refusal()
        text = table.encode() if isinstance(table, str) else table
        if opens(self._handle, text, len(text), *more, ctypes.byref(refusal)):
            raise Refused(refusal.number, refusal.name.decode(), refusal.values[:refusal.count])

    def drop(self) -> None:
        self._drops(self._handle)

    def __enter__(self) -> Any:
        return self

    def __exit__(self, *_: object) -> None:
        self.drop()

    def __del__(self) -> None:
        self.drop()
