"""What rds.h declares, for ctypes. tests/test_header.py compares each line with it."""

from __future__ import annotations

import ctypes
import os
from ctypes import POINTER, c_char_p, c_int8, c_size_t, c_uint8, c_uint16, c_uint32, c_uint64
from typing import Any


class RdsTotals(ctypes.Structure):
    _fields_ = [
        ("valid", c_uint64),
        ("bursts", c_uint64 * 5),
        ("lost", c_uint64),
        ("bits", c_uint64),
        ("groups", c_uint64),
        ("complete", c_uint64),
        ("acquired", c_uint64),
        ("losses", c_uint64),
        ("reserved", c_uint64 * 4),
    ]


class RdsBlock(ctypes.Structure):
    _fields_ = [
        ("burst", c_uint32),
        ("info", c_uint16),
        ("kind", c_uint8),
        ("offset", c_uint8),
    ]


class RdsItem(ctypes.Structure):
    _fields_ = [
        ("place", c_uint64),
        ("blocks", RdsBlock * 4),
        ("what", c_uint8),
        ("number", c_uint8),
        ("version", c_uint8),
        ("conflict", c_uint8),
        ("unused", c_uint32),
    ]


class RdsGap(ctypes.Structure):
    _fields_ = [("begin", c_uint64), ("end", c_uint64)]


class RdsRules(ctypes.Structure):
    _fields_ = [
        ("burst", c_uint32),
        ("reach", c_uint32),
        ("loss", c_uint32),
        ("of", c_uint32),
        ("reserved", c_uint32 * 4),
    ]


class RdsState(ctypes.Structure):
    _fields_ = [
        ("due", c_uint64),
        ("bad", c_uint64),
        ("number", c_uint32),
        ("first", c_uint32),
        ("loss", c_uint32),
        ("of", c_uint32),
        ("reserved", c_uint64),
    ]


class RdsStream(ctypes.Structure):
    _fields_ = [
        ("magic", c_uint32),
        ("version", c_uint32),
        ("rules", RdsRules),
        ("place", c_uint64),
        ("state", RdsState),
        ("totals", RdsTotals),
        ("tail", c_uint8 * 32),
        ("reserved", c_uint64),
    ]


class RdsSoft(ctypes.Structure):
    _fields_ = [("stream", RdsStream), ("symbols", c_int8 * 240)]


class RdsWords(ctypes.Structure):
    _fields_ = [("words", c_uint16 * 4)]


class RdsPacked(ctypes.Structure):
    _fields_ = [("bytes", c_uint8 * 13)]


STRUCTS = [
    RdsTotals,
    RdsBlock,
    RdsItem,
    RdsGap,
    RdsRules,
    RdsState,
    RdsStream,
    RdsSoft,
    RdsWords,
    RdsPacked,
]

# Arguments that several functions share. Bytes that are only read are c_char_p, which takes a `bytes` as it is.
BYTES = [c_char_p, c_size_t]
TERMS = [POINTER(RdsGap), c_size_t, POINTER(RdsRules)]
ROOM = [POINTER(RdsItem), c_size_t]
COUNT, TOTALS = POINTER(c_uint64), POINTER(RdsTotals)
STATE, STREAM = POINTER(RdsState), POINTER(RdsStream)

# name: (result, arguments)
FUNCTIONS: dict[str, tuple[Any, list[Any]]] = {
    "rds_totals": (c_uint8, [*BYTES, c_uint64, *TERMS, TOTALS]),
    "rds_items": (c_uint8, [*BYTES, c_uint64, *TERMS, *ROOM, COUNT]),
    "rds_run": (c_uint8, [*BYTES, c_uint64, *TERMS, c_uint64, c_uint64, STATE, *ROOM, COUNT]),
    "rds_finish_run": (c_uint8, [*BYTES, c_uint64, *TERMS, STATE, *ROOM, COUNT]),
    "rds_push": (c_uint8, [*BYTES, *TERMS, STREAM, *ROOM, COUNT, COUNT]),
    "rds_push_soft": (
        c_uint8,
        [POINTER(c_int8), c_size_t, *TERMS, c_uint8, POINTER(RdsSoft), *ROOM, COUNT, COUNT],
    ),
    "rds_finish": (c_uint8, [*TERMS, STREAM, *ROOM, COUNT, TOTALS]),
    "rds_finish_with": (c_uint8, [*BYTES, c_uint64, *TERMS, STREAM, *ROOM, COUNT, TOTALS]),
    "rds_check": (c_uint8, [*TERMS, STREAM]),
    "rds_remainder": (c_uint8, [c_uint32, POINTER(c_uint16)]),
    "rds_correct": (c_uint8, [c_uint32, c_uint8, c_uint8, POINTER(RdsBlock)]),
    "rds_encode": (c_uint8, [POINTER(RdsWords), c_size_t, POINTER(RdsPacked), c_size_t]),
    "rds_refusal_name": (c_uint8, [c_uint8, POINTER(c_uint8), c_size_t]),
    "rds_version": (c_uint32, []),
}

# What gives text, which is static.
TEXTS: dict[str, Any] = {name: (c_char_p, [c_uint8]) for name in ("rds_refusal_text", "rds_refusal_reason")}

# The oldest version of the library that has all of this: a later one with the same first number does as well.
VERSION = (0, 2, 0)


def version_of(library: ctypes.CDLL) -> tuple[int, int, int]:
    number = int(library.rds_version())
    return number >> 16, number >> 8 & 255, number & 255


def open_library() -> ctypes.CDLL:
    """The library that RDS_LIBRARY names, or else the one in this package, as a wheel has it, or else the system's
    librds.so.0. Only if there is none, the one that a linker would take."""
    named = os.environ.get("RDS_LIBRARY")
    own = os.path.join(os.path.dirname(os.path.abspath(__file__)), "librds.so.0")
    try:
        return ctypes.CDLL(named or (own if os.path.exists(own) else "librds.so.0"))
    except OSError as error:
        # Its module takes longer to import than all else here.
        from ctypes.util import find_library

        other = None if named else find_library("rds")
        if other:
            return ctypes.CDLL(other)
        raise OSError(
            f"{error}: install librds (make install-lib), or name its librds.so.0 in RDS_LIBRARY"
        ) from None


def load() -> ctypes.CDLL:
    """The library, its functions declared and its version checked."""
    library = open_library()
    for name, (result, arguments) in {**FUNCTIONS, **TEXTS}.items():
        try:
            function = getattr(library, name)
        except AttributeError:
            raise OSError(f"{library._name}: this is not librds, or an older one: it has no {name}") from None
        function.restype, function.argtypes = result, arguments
    found = version_of(library)
    if found[0] != VERSION[0] or found < VERSION:
        wanted, here = (".".join(map(str, value)) for value in (VERSION, found))
        raise OSError(f"{library._name} is librds {here}, but this module needs {wanted} or later")
    return library
