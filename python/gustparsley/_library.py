"""The shared library, and how Python's numbers are lent to it.

A slice is lent as an array of ctypes that is made for the call, or that its owner keeps at one size: Python neither moves nor frees it while the library has it. An array is never
empty, since the library asks for a pointer that is good even for no elements.
"""
from __future__ import annotations

import ctypes
import os
import pathlib
from collections.abc import Iterable

UNUSED = 2**64 - 1
_u64 = ctypes.c_uint64
_size = ctypes.c_size_t


class _Answer(ctypes.Structure):
    _fields_ = [(name, _u64) for name in ("number", "path", "place", "value")]


class _Facts(ctypes.Structure):
    _fields_ = [(name, _u64) for name in ("number", "path", "place", "relays", "links", "longest", "places")]


class _Verdict(ctypes.Structure):
    _fields_ = [(name, _u64) for name in ("number", "path", "place")]


class _Reading(ctypes.Structure):
    _fields_ = [(name, _u64) for name in ("number", "path", "place", "kind", "size", "source", "paths")]


class _Zoned(ctypes.Structure):
    _fields_ = [(name, _u64) for name in ("number", "path", "place", "kind", "size", "source", "paths", "version")]


class _Book(ctypes.Structure):
    _fields_ = [("used", _size), ("entries", _size)]


class _Booked(ctypes.Structure):
    _fields_ = [("number", _u64), ("path", _u64), ("place", _u64), ("book", _Book)]


class _Found(ctypes.Structure):
    _fields_ = [(name, _u64) for name in ("number", "start", "length")]


class _Record(ctypes.Structure):
    _fields_ = [("newest", ctypes.c_uint16), ("marks", _u64)]


class _Arrival(ctypes.Structure):
    _fields_ = [("number", ctypes.c_uint16), ("newest", ctypes.c_uint16), ("marks", _u64)]


def _found() -> str:
    """Where the library is: what GUSTPARSLEY_LIBRARY names; beside the package, as ./install puts it, and in a tree that ./build has built; or where the system looks."""
    named = os.environ.get("GUSTPARSLEY_LIBRARY")
    if named:
        return named
    here = pathlib.Path(__file__).resolve()
    for folder in here.parents:
        for place in (folder / "libgustparsley.so", folder / "lib" / "libgustparsley.so", folder / "target" / "shared" / "libgustparsley.so"):
            if place.exists():
                return str(place)
    return "libgustparsley.so"


_ARGUMENT = {"h": [_Book], "n": [_u64], "w": [ctypes.POINTER(_u64), _size], "b": [ctypes.POINTER(ctypes.c_uint8), _size], "d": [ctypes.POINTER(ctypes.c_uint32), _size]}

# What each call is lent, by a letter for each argument (h a book's head, n a number, w words, b bytes, d words of 32 bits), and what it gives back.
_CALLS = {
    "gust_facts": ("nn", _Facts),
    "gust_linked": ("nnnn", _Answer),
    "gust_distance": ("nnnn", _Answer),
    "gust_next_hop": ("nnnnb", _u64),
    "gust_route": ("nnnnw", _Answer),
    "gust_fan": ("nnnwww", _Answer),
    "gust_bundle": ("nnnnww", _Answer),
    "gust_judge": ("nnnwww", _Verdict),
    "gust_judge_bundle": ("nnnnww", _Verdict),
    "gust_survivors": ("nnnwwwdwwwwwd", _Answer),
    "gust_bundle_survivors": ("nnnnwwdwwwwwd", _Answer),
    "gust_way_round": ("nnnnwww", _Answer),
    "gust_write_sheet": ("nnnwwwb", _Answer),
    "gust_read_sheet": ("bwww", _Reading),
    "gust_write_zoned_sheet": ("nnnnwwwdb", _Answer),
    "gust_read_zoned_sheet": ("bwwwd", _Zoned),
    "gust_sheet_to_2": ("bb", _Answer),
    "gust_sheet_to_1": ("bb", _Answer),
    "gust_write_graph": ("nnb", _Answer),
    "gust_book_add": ("hbwb", _Booked),
    "gust_book_find": ("hbwnnn", _Found),
    "gust_book_remove": ("hbwnnn", _Booked),
    "gust_book_close": ("hbw", _Book),
    "gust_book_open": ("bw", _Booked),
}


def _load() -> ctypes.CDLL:
    library = ctypes.CDLL(_found())
    for name, (letters, result) in _CALLS.items():
        call = getattr(library, name)
        call.argtypes = [kind for letter in letters for kind in _ARGUMENT[letter]]
        call.restype = result
    library.gust_arrive.argtypes = [_Record, ctypes.c_uint16]
    library.gust_arrive.restype = _Arrival
    return library


library = _load()


def number(value: int, what: str = "a number") -> int:
    """The number itself, where it is one from 0 to 2^64 - 1: ctypes would cut a larger one short without a word."""
    if isinstance(value, bool) or not isinstance(value, int):
        raise TypeError(f"{what} must be an int, not {value!r}")
    if not 0 <= value <= UNUSED:
        raise ValueError(f"{what} must be from 0 to 2^64 - 1, not {value}")
    return value


def words(values: Iterable[int], what: str = "each number") -> tuple[ctypes.Array, int]:
    """A slice of words with these numbers: the array, and how many they are."""
    listed = [number(value, what) for value in values]
    return (_u64 * max(1, len(listed)))(*listed), len(listed)


def room(count: int, fill: int = UNUSED) -> tuple[ctypes.Array, int]:
    """A slice of so many words to be written."""
    return (_u64 * max(1, count))(*([fill] * count)), count


def small(values: Iterable[int], what: str = "each number") -> tuple[ctypes.Array, int]:
    """A slice of numbers of 32 bits."""
    listed = list(values)
    for value in listed:
        if number(value, what) >= 2**32:
            raise ValueError(f"{what} must be from 0 to 2^32 - 1, not {value}")
    return (ctypes.c_uint32 * max(1, len(listed)))(*listed), len(listed)


def octets(data: bytes | bytearray | memoryview | int) -> tuple[ctypes.Array, int]:
    """A slice of bytes: a copy of these, or so many to be written."""
    if isinstance(data, int):
        return (ctypes.c_uint8 * max(1, data))(), data
    copy = bytes(data)
    return (ctypes.c_uint8 * max(1, len(copy)))(*copy), len(copy)


def ask(name: str, *arguments):
    """Calls a function of the library; a slice is passed as its array and its length."""
    flat = []
    for argument in arguments:
        flat.extend(argument if isinstance(argument, tuple) else (argument,))
    return getattr(library, name)(*flat)
