"""Reads sif scripts: from bytes to tokens, tree, errors and canonical text.

The work is done by a library that is proved to give what its definition says for every input; this package
lends it memory and gives its answers types. Scripts are ASCII, of at most 65,535 bytes.

    >>> import sif
    >>> reading = sif.read(b"var rate = 4.25;")
    >>> [node.kind.name for node in reading.root.children]
    ['VarDecl']
    >>> sif.text(b"var a=(1+2)*3; # three")
    b'var a = ( 1 + 2 ) * 3 ;\\n'
    >>> [token.value for token in sif.tokens(b"007.50;")]
    [7.5, None, None]
    >>> str(sif.read(b"var a = b;").errors[0])
    '1:9: `b` is not declared'
    >>> sif.read(b"1(2);")
    Traceback (most recent call last):
    ...
    sif.Refused: only a name or a string can be called

Any thread may call: a script that may nest deeply is read on a thread of its own with a large stack. The
calls release the interpreter's lock.
"""

from ._model import (
    Fault,
    Message,
    Node,
    NodeKind,
    ParseError,
    Reading,
    ReasonKind,
    Refusal,
    Refused,
    Span,
    Token,
    TokenKind,
    place,
)
from ._reader import MAX_SCRIPT, deepest, read, text, tokens, value

__all__ = [
    "MAX_SCRIPT",
    "Fault",
    "Message",
    "Node",
    "NodeKind",
    "ParseError",
    "Reading",
    "ReasonKind",
    "Refusal",
    "Refused",
    "Span",
    "Token",
    "TokenKind",
    "deepest",
    "place",
    "read",
    "text",
    "tokens",
    "value",
]
__version__ = "0.1.0"
