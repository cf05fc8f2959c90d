"""Maglev's lookup tables by libmaglev, whose functions are proved.

    >>> table(7, "sum", ["A", "B", "C"])
    ['B', 'A', 'B', 'C', 'C', 'A', 'A']

The library is that of the variable LIBMAGLEV; or else, in a clone on x86-64, that of dist/lib; or else, where bin/install put this
file, that of PREFIX/lib; or else the one that the system finds. Nothing is kept between calls, so each function may be called from
several threads.
"""
import ctypes
import os
import pathlib
import platform
from typing import NamedTuple, Sequence

HASHES = {"fnv": 0, "sha256": 1, "sum": 2}
# What no hash has for its number.
NO_HASH = 2**32 - 1


class MaglevError(ValueError):
    """Why the library refused. The first reason that holds is the one that is raised, in the order below."""


class BadSize(MaglevError):
    """The size is not 7, 13, 251, 1021, 8191 or 65537."""


class BadHash(MaglevError):
    """The hash is none of `fnv`, `sha256` and `sum`."""


class BadRoom(MaglevError):
    """There isn't one place for each slot. This module makes the room itself, and so never raises it."""


class BadName(MaglevError):
    """A name isn't 1 to 32 letters, digits, `-` and `.`, the first a letter or a digit; or there is no name."""


class TooMany(MaglevError):
    """There are more names than slots."""


class BadWeight(MaglevError):
    """There are neither no weights nor one from 1 to 16 for each name."""


class DoubleName(MaglevError):
    """A name is there twice."""


class Memory(MaglevError, MemoryError):
    """Memory was refused. It may come in place of any from BadName on."""


FAULTS = [None, BadSize, BadHash, BadRoom, BadName, TooMany, BadWeight, DoubleName, Memory]


class Flow(NamedTuple):
    """One direction of a TCP or UDP conversation: addresses and ports as numbers, the protocol 6 for TCP and 17 for UDP."""

    src: int
    dst: int
    sport: int
    dport: int
    proto: int


class _Flow(ctypes.Structure):
    """`struct maglev_flow`."""

    _fields_ = [("src", ctypes.c_uint32), ("dst", ctypes.c_uint32), ("sport", ctypes.c_uint16), ("dport", ctypes.c_uint16), ("proto", ctypes.c_uint8)]


def _named() -> str:
    """Where the library is, or its name for the system."""
    name, here = "libmaglev.so.0", pathlib.Path(__file__).resolve().parent
    cloned = here / ".." / ".." / "dist" / "lib" / f"{platform.machine()}-linux-gnu" / name
    # This file is in PREFIX/share/doc/maglev/examples/embed then.
    installed = here / ".." / ".." / ".." / ".." / ".." / "lib" / name
    found = [str(path.resolve()) for path in (cloned, installed) if path.exists()]
    return os.environ.get("LIBMAGLEV") or (found + [name])[0]


def _loaded() -> ctypes.CDLL:
    """The library, with the types of its functions."""
    library = ctypes.CDLL(_named())
    word, count, bytes_, slots = ctypes.c_uint32, ctypes.c_size_t, ctypes.c_char_p, ctypes.POINTER(ctypes.c_uint32)
    library.maglev_table.argtypes = [word, word, bytes_, count, bytes_, count, slots, count]
    library.maglev_table.restype = word
    library.maglev_slots.argtypes = [word, word, ctypes.POINTER(_Flow), count, slots, count]
    library.maglev_slots.restype = word
    library.maglev_differing.argtypes = [slots, count, slots, count]
    library.maglev_differing.restype = count
    return library


_library = _loaded()


def _judged(answer: int) -> None:
    """Raises the fault of an answer, if it is one."""
    if answer:
        raise FAULTS[answer](FAULTS[answer].__doc__)


def places(size: int, hash_word: str, names: Sequence[str], weights: Sequence[int] = ()) -> list[int]:
    """For each slot the place of its name among the names as they are given.

    `weights` has one from 1 to 16 for each name, or is empty, and all weigh alike. Which name a slot falls to doesn't depend on
    the order of the names.
    """
    # A newline in a name would make two of it; what stands in its place is in no name either.
    text = "\n".join(name.replace("\n", " ") for name in names).encode()
    turns = bytes(weight if 0 < weight < 17 else 0 for weight in weights)
    listed = size if 0 <= size < 2**32 else 0
    # Room for any listed size, which a size that isn't one needn't have.
    slots = (ctypes.c_uint32 * min(listed, 65537))()
    _judged(_library.maglev_table(listed, HASHES.get(hash_word, NO_HASH), text, len(text), turns, len(turns), slots, len(slots)))
    return list(slots)


def table(size: int, hash_word: str, names: Sequence[str], weights: Sequence[int] = ()) -> list[str]:
    """The name of each slot. See `places`."""
    return [names[place] for place in places(size, hash_word, names, weights)]


def slots_of(size: int, hash_word: str, flows: Sequence[Flow]) -> list[int]:
    """The slot of each flow in a table of the size."""
    found = (ctypes.c_uint32 * len(flows))()
    listed = size if 0 <= size < 2**32 else 0
    passed = (_Flow * len(flows))(*(_Flow(*flow) for flow in flows))
    _judged(_library.maglev_slots(listed, HASHES.get(hash_word, NO_HASH), passed, len(flows), found, len(found)))
    return list(found)


def slot_of(size: int, hash_word: str, flow: Flow) -> int:
    """The slot of a flow in a table of the size."""
    return slots_of(size, hash_word, [flow])[0]


def differing(old: Sequence[int], new: Sequence[int]) -> int:
    """At how many slots two tables differ, each for each slot a place among the same names. They have one size."""
    if len(old) != len(new):
        raise BadRoom("the tables have two sizes")
    return _library.maglev_differing((ctypes.c_uint32 * len(old))(*old), len(old), (ctypes.c_uint32 * len(new))(*new), len(new))
