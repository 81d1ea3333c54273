"""The shared library, and its calls with memory lent from here."""

from __future__ import annotations

import os
from ctypes import CDLL, CFUNCTYPE, POINTER, byref, c_char, c_double, c_size_t, c_uint8, c_uint32, c_ulong, c_void_p
from pathlib import Path
from typing import Any, Callable, Optional

NAME = "libsif_c.so.0"

# A reading recurses as its script nests and takes up to 2.4 MB of stack. With n of these bytes in the script at
# most 3 * n + 3 of the parser's calls are active at once, which is proved (docs/PROOFS.md, none-deeper-signs);
# with at most FEW of them a reading takes less than half a megabyte.
OPENING = b"{([.=-!@"
FEW = 64
STACK = 8 << 20

# Enough for pthread_attr_t on 64-bit Linux.
_ATTRIBUTES = c_char * 256
_START = CFUNCTYPE(c_void_p, c_void_p)

_system = CDLL(None)
_system.pthread_attr_setstacksize.argtypes = [c_void_p, c_size_t]
_system.pthread_create.argtypes = [POINTER(c_ulong), c_void_p, _START, c_void_p]
_system.pthread_join.argtypes = [c_ulong, c_void_p]


def _load() -> CDLL:
    """SIF_LIBRARY if it is set; else what lies in the package, in the repository, or where the system looks."""
    here = Path(__file__).resolve()
    named = os.environ.get("SIF_LIBRARY")
    if named:
        return CDLL(named)
    for folder in (here.parent, here.parents[3] / "target" / "lib"):
        if (folder / NAME).exists():
            return CDLL(str(folder / NAME))
    try:
        return CDLL(NAME)
    except OSError as error:
        raise ImportError(f"{NAME} is not there: run `make lib`, or set SIF_LIBRARY to its path") from error


def _declare(library: CDLL) -> CDLL:
    words, size, number = [c_void_p, c_size_t], POINTER(c_size_t), POINTER(c_uint32)
    library.sif_tokens.argtypes = words * 3 + [number] * 3
    library.sif_reading.argtypes = (
        words * 8 + [size] * 3 + [number] + [size] * 2 + [number] + [size] * 2 + [number, size]
    )
    library.sif_text.argtypes = words * 9 + [size, number, size]
    library.sif_deepest.argtypes = [c_size_t, *words, size]
    library.sif_value.argtypes = words + [POINTER(c_double)]
    for call in (library.sif_tokens, library.sif_reading, library.sif_text, library.sif_deepest, library.sif_value):
        call.restype = c_uint32
    return library


_library = _declare(_load())


def with_room(script: bytes, call: Callable[[], Any]) -> Any:
    """Runs a call with enough stack: on a thread of its own where the script may nest deeply."""
    if len(script) <= FEW or sum(map(script.count, (OPENING[i : i + 1] for i in range(len(OPENING))))) <= FEW:
        return call()
    answer: list[Any] = []
    _on_thread(_START(lambda _: answer.append(call())))
    return answer[0]


def _on_thread(start: Any) -> None:
    """Runs a function on a thread with a large stack. The size is the thread's own, while threading.stack_size
    would set that of the threads of the whole program."""
    attributes, thread = _ATTRIBUTES(), c_ulong()
    _system.pthread_attr_init(attributes)
    _system.pthread_attr_setstacksize(attributes, STACK)
    status = _system.pthread_create(byref(thread), attributes, start, None)
    _system.pthread_attr_destroy(attributes)
    if status != 0:
        raise OSError(status, os.strerror(status))
    _system.pthread_join(thread, None)


class Rooms:
    """Seven arrays of 32-bit words; by default as many as any script of so many bytes needs."""

    def __init__(self, length: int, nodes: int = -1, symbols: int = -1, errors: int = -1, tokens: int = -1) -> None:
        def room(asked: int, ample: int) -> int:
            return ample if asked < 0 else asked

        tokens, nodes = room(tokens, length + 1), room(nodes, length + 1)
        symbols, errors = room(symbols, 2 * length), room(errors, length)
        sizes = [tokens, tokens, nodes, nodes, symbols, errors, errors]
        self.arrays = [(c_uint32 * size)() for size in sizes]
        self.lent = [part for array in self.arrays for part in (array, len(array))]

    def words(self, index: int, count: int) -> list[int]:
        return self.arrays[index][:count]


def tokens(script: bytes, rooms: Rooms) -> tuple[int, int, int, int]:
    """Refusal, kind, offset; number of tokens."""
    count, kind, offset = c_uint32(), c_uint32(), c_uint32()
    number = _library.sif_tokens(
        script, len(script), *rooms.lent[:4], byref(count), byref(kind), byref(offset)
    )
    return number, kind.value, offset.value, count.value


def reading(script: bytes, rooms: Rooms) -> tuple[tuple[int, int, int], dict[str, int]]:
    """Refusal, kind, offset; and the other numbers by their names in include/sif.h."""
    told = {
        "tokens": c_size_t(),
        "nodes": c_size_t(),
        "errors": c_size_t(),
        "flag": c_uint32(),
        "early_line": c_size_t(),
        "early_pos": c_size_t(),
        "early_number": c_uint32(),
        "early_offset": c_size_t(),
        "early_value": c_size_t(),
    }
    kind, offset = c_uint32(), c_size_t()
    numbers = [byref(number) for number in (*told.values(), kind, offset)]
    number = with_room(script, lambda: _library.sif_reading(script, len(script), *rooms.lent, *numbers))
    return (number, kind.value, offset.value), {name: told[name].value for name in told}


def text(script: bytes, rooms: Rooms, room: int) -> tuple[tuple[int, int, int], bytes]:
    """Refusal, kind, offset; and the text."""
    buffer, count, kind, offset = (c_uint8 * room)(), c_size_t(), c_uint32(), c_size_t()
    numbers = [byref(count), byref(kind), byref(offset)]
    number = with_room(
        script, lambda: _library.sif_text(script, len(script), *rooms.lent, buffer, room, *numbers)
    )
    return (number, kind.value, offset.value), bytes(memoryview(buffer)[: count.value])


def deepest(length: int, room: int) -> tuple[int, int, bytes]:
    """Refusal; the number of calls; and the buffer."""
    buffer, depth = (c_uint8 * room)(), c_size_t()
    number = _library.sif_deepest(length, buffer, room, byref(depth))
    return number, depth.value, bytes(buffer)


def value(literal: bytes) -> Optional[float]:
    """The value of a literal, if it is one of at most 19 digits."""
    number = c_double()
    return number.value if _library.sif_value(literal, len(literal), byref(number)) == 0 else None
