"""The calls: tokens, read, text, deepest, value."""

from __future__ import annotations

from typing import Optional, Union

from . import _library
from ._library import Rooms
from ._model import (
    _CARRY_TOKEN,
    Message,
    Node,
    NodeKind,
    ParseError,
    Reading,
    ReasonKind,
    Refused,
    Span,
    Token,
    TokenKind,
)

MAX_SCRIPT = 65_535

Script = Union[bytes, bytearray, memoryview]

# The longest script that deepest gives.
_LONGEST_DEEPEST = 255

# The kind of a last word that stands for a fault which a reading did not come to.
_HIDDEN_FAULT = 48

_TOKEN_KINDS = [None, *TokenKind]
_NODE_KINDS = [None, *NodeKind]


def tokens(data: Script) -> list[Token]:
    """Lexes a script. Raises Refused: LongScript, NotAscii, or SourceFault of kind 1 or 2."""
    script = _bytes(data)
    rooms = Rooms(_lent(script), nodes=0, symbols=0, errors=0)
    *said, count = _library.tokens(script, rooms)
    _answered(*said)
    return _tokens(script, rooms, count)[0]


def read(data: Script) -> Reading:
    """Reads a script. Raises Refused: LongScript, NotAscii, SourceFault or TooDeep. A script with errors of its
    own is read: errors and ended have them."""
    script = _bytes(data)
    return _read(script, Rooms(_lent(script)))


def text(data: Script) -> bytes:
    """The canonical text of a script: one spelling for one tree. Raises Refused as read does, and Flagged for a
    script that did not read without failure."""
    script = _bytes(data)
    length = _lent(script)
    said, written = _library.text(script, Rooms(length), 4 * length)
    _answered(*said)
    return written


def deepest(length: int) -> tuple[bytes, int]:
    """A script of this length, 1 to 255, in whose reading as many of the parser's calls are active at once as in
    any of that length; and their number, 3 * length + 3. Raises Refused: NoLength."""
    number, depth, script = _library.deepest(max(length, 0), min(max(length, 0), _LONGEST_DEEPEST))
    _answered(number, 0, 0)
    return script, depth


def value(literal: Script) -> Optional[float]:
    """The value of a number literal: digits over a power of ten, rounded to the nearest float, ties to even. None
    where the bytes are no literal of at most 19 digits, leading zeros counted."""
    return _library.value(_bytes(literal))


def _bytes(data: Script) -> bytes:
    if not isinstance(data, (bytes, bytearray, memoryview)):
        raise TypeError(f"a script is bytes, not {type(data).__name__}")
    return bytes(data)


def _lent(script: bytes) -> int:
    """The length that memory is lent for: none for a script that is refused at entry."""
    return 0 if len(script) > MAX_SCRIPT else len(script)


def _answered(number: int, kind: int, offset: int) -> None:
    if number:
        raise Refused(number, kind, offset)


def _read(script: bytes, rooms: Rooms) -> Reading:
    said, told = _library.reading(script, rooms)
    _answered(*said)
    found, hidden = _tokens(script, rooms, told["tokens"])
    nodes = _nodes(rooms.words(2, told["nodes"]), rooms.words(3, told["nodes"]), found)
    words = zip(rooms.words(5, told["errors"]), rooms.words(6, told["errors"]))
    errors = tuple(_error(place, reason, found) for place, reason in words)
    return Reading(script, tuple(found), hidden, nodes, errors, _ended(told, found), told["flag"] == 1)


def _tokens(script: bytes, rooms: Rooms, count: int) -> tuple[list[Token], Optional[int]]:
    """The tokens, and the offset of a fault in the place of the last."""
    plain, found = script.decode("ascii"), []
    for index, (start, word) in enumerate(zip(rooms.words(0, count), rooms.words(1, count))):
        kind, end = word % 64, start + word // 64
        if kind == _HIDDEN_FAULT:
            return found, start
        found.append(Token(_TOKEN_KINDS[kind], Span(start, end), plain[start:end], index))
    return found, None


def _nodes(heads: list[int], loads: list[int], found: list[Token]) -> tuple[Node, ...]:
    """The nodes: each takes as its children the last that are not taken yet."""
    nodes: list[Node] = []
    untaken: list[Node] = []
    for head, load in zip(heads, loads):
        kind, since = _NODE_KINDS[head % 32], len(untaken) - head // 64
        token = found[load] if kind in _CARRY_TOKEN else None
        scope = load if kind is NodeKind.Block else None
        node = Node(kind, head // 32 % 2 == 1, token, scope, tuple(untaken[since:]))
        del untaken[since:]
        untaken.append(node)
        nodes.append(node)
    return tuple(nodes)


def _error(place: int, reason: int, found: list[Token]) -> ParseError:
    line, column = place // 65_536 + 1, place % 65_536
    kind, first, second = ReasonKind(reason % 16), reason // 16 % 65_536, reason // 1_048_576
    if kind in (ReasonKind.InvalidForStmt, ReasonKind.InvalidIfStmt):
        return ParseError(line, column, kind)
    if kind is ReasonKind.InvalidTkn and second:
        return ParseError(line, column, kind, message=Message(second))
    if kind is ReasonKind.FnParmCntExceeded:
        return ParseError(line, column, kind, expected=first)
    if kind is ReasonKind.WrongFnParmCnt:
        return ParseError(line, column, kind, expected=first, found=second)
    expected = TokenKind(second) if kind is ReasonKind.TknMismatch else None
    return ParseError(line, column, kind, token=found[first], expected=expected)


def _ended(told: dict[str, int], found: list[Token]) -> Optional[ParseError]:
    number, value = told["early_number"], told["early_value"]
    if number == 0:
        return None
    line, column, kind = told["early_line"], told["early_pos"], ReasonKind(number)
    if kind is ReasonKind.FnParmCntExceeded:
        return ParseError(line, column, kind, expected=value)
    carried = next(token for token in found if token.span.start == told["early_offset"])
    return ParseError(line, column, kind, token=carried, expected=TokenKind(value))
