"""What the calls answer, with types. include/sif.h explains the numbers."""

from __future__ import annotations

import re
from dataclasses import dataclass, field
from enum import IntEnum
from typing import Iterator, Optional, Union

from . import _library

TokenKind = IntEnum(
    "TokenKind",
    "LeftParen RightParen LeftBrace RightBrace LeftBracket RightBracket Semicolon Eq Lt Gt Period Comma Bang"
    " Plus Minus Star Slash Percent Amp Pipe At EqEq LtEq GtEq EqArrow BangEq AmpAmp PipePipe"
    " DoubleLeftBracket DoubleRightBracket Ident Str Val Var Fn Return Table Array If Elif Else For In True_"
    " False_ Std Eof",
    module=__name__,
)
TokenKind.__doc__ = "The kinds of tokens, 1 to 47. True_ and False_ have a line below, since the words are Python's."

NodeKind = IntEnum(
    "NodeKind",
    "Program Block IfStmt ElifStmt ForStmt ReturnStmt ExprStmt VarDecl FnDecl FnParams IdentPair ItemList"
    " TableItem Table TableAccess Array ArrayItems ArrayAccess ArrayMutExpr FnCallExpr VarAssignExpr BinaryExpr"
    " UnaryExpr PrimaryExpr",
    module=__name__,
)
NodeKind.__doc__ = "The kinds of nodes, 1 to 24."

_SPELLINGS = (
    "( ) { } [ ] ; = < > . , ! + - * / % & | @ == <= >= => != && || [[ ]]".split()
    + ["a name", "a string", "a number"]
    + "var fn return table array if elif else for in true false std".split()
    + ["the end of the script"]
)

# White space and comments.
_GAP = re.compile(rb"(?:[\t-\r ]|#[^\n]*|//[^\n]*)*")

_CARRY_TOKEN = frozenset(
    [
        NodeKind.VarDecl,
        NodeKind.FnDecl,
        NodeKind.TableItem,
        NodeKind.Table,
        NodeKind.Array,
        NodeKind.VarAssignExpr,
        NodeKind.BinaryExpr,
        NodeKind.UnaryExpr,
        NodeKind.PrimaryExpr,
    ]
)


class Refusal(IntEnum):
    """Why a call says no. Uneven and those that end in Full do not occur: enough memory is lent."""

    LongScript = 1
    NotAscii = 2
    Uneven = 3
    TokensFull = 4
    SourceFault = 5
    TooDeep = 6
    NodesFull = 7
    SymbolsFull = 8
    ErrorsFull = 9
    Flagged = 10
    TextFull = 11
    NoLength = 20


class Fault(IntEnum):
    """The kinds of a SourceFault."""

    Comment = 1
    Number = 2
    Call = 3
    Period = 4
    Bracket = 5


class ReasonKind(IntEnum):
    """What is wrong in a script that is read."""

    InvalidIdent = 1
    InvalidTkn = 2
    InvalidAssign = 3
    InvalidForStmt = 4
    InvalidIfStmt = 5
    TknMismatch = 6
    FnParmCntExceeded = 7
    WrongFnParmCnt = 8
    UndeclSym = 9
    UnassignedVar = 10
    ExpectedIdent = 11


class Message(IntEnum):
    """What an InvalidTkn carries that carries no token."""

    EqOrSemicolon = 1
    EndOfFile = 2
    Name = 3


_REFUSAL_TEXTS = {
    Refusal.LongScript: "the script has more than 65,535 bytes",
    Refusal.NotAscii: "the script has a byte of 128 or more: a script is ASCII",
    Refusal.Uneven: "two parallel arrays differ in length",
    Refusal.TokensFull: "there are more tokens than the arrays hold",
    Refusal.TooDeep: "the script nests too deeply",
    Refusal.NodesFull: "there are more nodes than the arrays hold",
    Refusal.SymbolsFull: "there are more names than the symbol words hold",
    Refusal.ErrorsFull: "there are more errors than the arrays hold",
    Refusal.Flagged: "the script has errors, and so no canonical text",
    Refusal.TextFull: "the canonical text is longer than its buffer",
    Refusal.NoLength: "a deepest script has from 1 to 255 bytes",
}

_FAULT_TEXTS = {
    Fault.Comment: "a comment that begins with `//` must end in a newline",
    Fault.Number: "a number with a point cannot be the last of a script",
    Fault.Call: "only a name or a string can be called",
    Fault.Period: "`.` can follow only a single name or literal",
    Fault.Bracket: "`[` can follow only a single name or literal",
}

_MESSAGE_TEXTS = {
    Message.EqOrSemicolon: "expected `=` or `;`",
    Message.EndOfFile: "unexpected end of the script",
    Message.Name: "expected a name",
}


class Refused(Exception):
    """A call said no. The number is a Refusal, the kind a Fault or 0, the offset one in the script or 0."""

    def __init__(self, number: int, kind: int, offset: int) -> None:
        self.number = Refusal(number)
        self.kind: Union[Fault, int] = Fault(kind) if kind else 0
        self.offset = offset
        text = _FAULT_TEXTS[Fault(kind)] if kind else _REFUSAL_TEXTS[self.number]
        super().__init__(text)

    def __reduce__(self) -> tuple:
        return (Refused, (int(self.number), int(self.kind), self.offset))


Refused.__module__ = "sif"


@dataclass(frozen=True)
class Span:
    """A part of a script, in bytes from its front."""

    start: int
    end: int


@dataclass(frozen=True)
class Token:
    """A token, with its part of the script. The text of a string has its quotes, that of Eof is empty."""

    kind: TokenKind
    span: Span
    text: str
    index: int

    @property
    def spelling(self) -> str:
        """The text; of a string without its quotes."""
        return self.text[1:-1] if self.kind == TokenKind.Str else self.text

    @property
    def value(self) -> Optional[float]:
        """The value of a number: the nearest float, ties to even. None of a number of 20 digits or more, leading
        zeros counted, and of every other kind of token."""
        return _library.value(self.text.encode("ascii")) if self.kind == TokenKind.Val else None

    def __str__(self) -> str:
        """In quotes, or words for the end of the script. It is on one line, and a long text is cut."""
        if self.kind == TokenKind.Eof:
            return _SPELLINGS[-1]
        shown = self.text[:40].encode("unicode_escape").decode()
        return f"`{shown}..`" if len(self.text) > 40 else f"`{shown}`"


@dataclass(frozen=True, eq=False)
class Node:
    """A node of the tree. Nodes are compared by identity; Reading.same_tree compares trees."""

    kind: NodeKind
    mark: bool
    """is_global of a VarDecl or VarAssignExpr, is_std of a FnCallExpr."""
    token: Optional[Token]
    """A declared name or key, an operator, a literal or name; for a VarAssignExpr that of the declaration."""
    scope: Optional[int]
    """The scope of a Block."""
    children: tuple[Node, ...] = field(repr=False)

    def walk(self) -> Iterator[Node]:
        """This node and all below it, parents before children, in source order."""
        waiting = [self]
        while waiting:
            node = waiting.pop()
            yield node
            waiting.extend(reversed(node.children))


@dataclass(frozen=True)
class ParseError:
    """An error of a script that is read: line from 1, column from 0. It is shown with the column from 1."""

    line: int
    column: int
    kind: ReasonKind
    token: Optional[Token] = None
    """The token that the reason carries, if it carries one."""
    expected: Optional[Union[TokenKind, int]] = None
    """The kind (TknMismatch) or the number (WrongFnParmCnt) that was expected, or the most (FnParmCntExceeded)."""
    found: Optional[int] = None
    """How many arguments were found (WrongFnParmCnt)."""
    message: Optional[Message] = None
    """The message of an InvalidTkn that carries no token."""

    @property
    def reason(self) -> str:
        """What is wrong, in words."""
        if self.message is not None:
            return _MESSAGE_TEXTS[self.message]
        return _REASON_TEXTS[self.kind](self)

    def __str__(self) -> str:
        return f"{self.line}:{self.column + 1}: {self.reason}"


def _kind_text(kind: int) -> str:
    spelling = _SPELLINGS[kind - 1]
    return spelling if " " in spelling else f"`{spelling}`"


_REASON_TEXTS = {
    ReasonKind.InvalidIdent: lambda e: f"{e.token} is not a name",
    ReasonKind.InvalidTkn: lambda e: f"{e.token} cannot stand here",
    ReasonKind.InvalidAssign: lambda e: f"{e.token} cannot be assigned to",
    ReasonKind.InvalidForStmt: lambda e: "a loop must begin with a name",
    ReasonKind.InvalidIfStmt: lambda e: "an if statement with more than one else",
    ReasonKind.TknMismatch: lambda e: f"expected {_kind_text(e.expected)}, found {e.token}",
    ReasonKind.FnParmCntExceeded: lambda e: f"more than {e.expected} parameters or arguments",
    ReasonKind.WrongFnParmCnt: lambda e: (
        f"expected {e.expected} argument{'' if e.expected == 1 else 's'}, found {e.found}"
    ),
    ReasonKind.UndeclSym: lambda e: f"{e.token} is not declared",
    ReasonKind.UnassignedVar: lambda e: f"{e.token} has no value",
    ReasonKind.ExpectedIdent: lambda e: f"expected a name, found {e.token}",
}


@dataclass(frozen=True, eq=False)
class Reading:
    """A script that is read."""

    script: bytes = field(repr=False)
    tokens: tuple[Token, ...] = field(repr=False)
    """The last is Eof, but where a fault of kind 1 or 2 ends them that the reading did not come to."""
    hidden_fault: Optional[int]
    """The offset of that fault, if there is one."""
    nodes: tuple[Node, ...] = field(repr=False)
    """All nodes, children before their parents."""
    errors: tuple[ParseError, ...]
    """The listed errors."""
    ended: Optional[ParseError]
    """The error that ended the reading before the script's end, if one did."""
    failed: bool
    """Whether the script did not read without failure (has_err). A script that failed has no canonical text."""

    @property
    def root(self) -> Node:
        """The Program, which has all other nodes below it."""
        return self.nodes[-1]

    @property
    def problems(self) -> tuple[ParseError, ...]:
        """The listed errors, and behind them the one that ended the reading where it is not listed itself."""
        if self.ended is None or self.ended.kind != ReasonKind.TknMismatch:
            return self.errors
        return (*self.errors, self.ended)

    @property
    def unread(self) -> Optional[int]:
        """Where a part begins that is not read, if there is one: an unknown character or a string with no end,
        which are no errors of sif, or a fault that the reading did not come to."""
        if self.hidden_fault is not None:
            return self.hidden_fault
        end, eof = len(self.script), self.tokens[-1].span.start
        last = self.tokens[-2].span.end if len(self.tokens) > 1 else 0
        offset = eof if eof < end else _GAP.match(self.script, last).end()
        return offset if offset < end else None

    def same_tree(self, other: Reading) -> bool:
        """Whether the trees are the same: kinds, marks, numbers of children, scopes, texts of carried tokens."""
        return list(map(_told, self.nodes)) == list(map(_told, other.nodes))


def _told(node: Node) -> tuple:
    text = None if node.token is None else node.token.text
    return (node.kind, node.mark, len(node.children), node.scope, text)


def place(script: bytes, offset: int) -> tuple[int, int]:
    """Line, from 1, and column, from 0, of an offset. The end of a script that does not end in a newline is one
    line further, in column 0."""
    line = 1 + script.count(b"\n", 0, offset)
    column = offset - (script.rfind(b"\n", 0, offset) + 1)
    return (line + 1, 0) if offset >= len(script) and column > 0 else (line, column)
